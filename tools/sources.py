"""Finds the declarations in the sources of a crate: functions with the promises of their contracts, constants, and definitions."""
import os
import re

from crates import ROOT

FUNCTION = re.compile(r"(?m)^( *)(pub )?(?:pub\([a-z]+\) )?(?:const )?fn (\w+)")
PROMISE = re.compile(r"\s+ensures(?: (\w+))? \{")
BLOCK = re.compile(r"(?m)^(?:impl(?:<.*?>)? (\S+ for \w+)|impl|(?:pub )?trait)")
CONSTANT = re.compile(r"(?m)^(?:pub(?:\([a-z]+\))? )?const (\w+):")
KINDS = "pub|abbrev|unfoldable|record|data"
DEFINITION = re.compile(rf"(?m)^(?:(?:{KINDS}) )+(?!(?:{KINDS}|mod|use) )(\S+)")


class Function:
    """A function: its name, the names of its promises, and whether it is a law. A law has promises and an empty body."""

    def __init__(self, text, found):
        indent, self.is_public, self.name = found[1], bool(found[2]), found[3]
        self.promises, self.is_law = [], False
        for number, line in enumerate(text[found.start() :].splitlines()):
            if promise := PROMISE.match(line):
                self.promises.append(promise[1])
            elif line.startswith(indent + "{") or line.endswith(("{", ";")) or (number and FUNCTION.match(line)):
                self.is_law = line == "{}" and bool(self.promises)
                break
        blocks = list(BLOCK.finditer(text, 0, found.start())) if indent else []
        self.trait = blocks[-1][1] if blocks else None

    def __str__(self):
        names = ", ".join(name for name in self.promises if name)
        said = f"law {self.name}" if self.is_law else self.name
        if not self.promises and self.trait:
            return f"{said} of {self.trait}"
        return f"{said} ({names})" if names else said


def functions_of(text):
    """Returns the functions of a source, in order."""
    return [Function(text, found) for found in FUNCTION.finditer(text)]


def definitions_of(text):
    """Returns the names of the definitions of a file of definitions, in order."""
    return [found[1] for found in DEFINITION.finditer(text)]


def declared_before(text, end, is_source):
    """Returns the function, constant or definition to which this position of a text belongs, in words, or None among the imports."""
    if not is_source:
        found = definitions_of(text[:end])
        return f"definition {found[-1]}" if found else None
    function = max(FUNCTION.finditer(text, 0, end), key=lambda found: found.start(), default=None)
    constant = max(CONSTANT.finditer(text, 0, end), key=lambda found: found.start(), default=None)
    if function and (not constant or constant.start() < function.start()):
        return str(Function(text, function))
    return f"const {constant[1]}" if constant else None


STRING = re.compile(r'r(#*)".*?"\1|"(?:[^"\\]|\\.)*"', re.S)
CHARACTER = re.compile(r"'(?:\\(?:u\{[0-9a-fA-F]+\}|x..|.)|[^\\'])'", re.S)
BODY = re.compile(r"(?m)^( *)((?:pub(?:\([a-z]+\))? )?)(?:const )?fn \w+")
IMPORT = re.compile(r"(?:ghost |pub(?:\([a-z]+\))? )?(?:use|mod) ")
# A declaration at the start of a line that is no function, with its name; that of an impl is the name of the type.
ITEM = re.compile(r"(?:pub(?:\([a-z]+\))? )?(struct|enum|const|static|type|trait|impl)\b(?:<[^>]*>)? ?(?:.*? for )?(\w+)")


def code_of(text, path):
    """Returns the text of a source or of a definition file without comments and layout."""
    return rust_code(text) if path.endswith(".rt") else definition_code(text)


def rust_code(text):
    """Returns the text of a source without comments, with one space in place of each run of white space."""
    parts, at = [], 0
    while at < len(text):
        if text.startswith("//", at):
            end = text.find("\n", at)
            at = len(text) if end < 0 else end
            continue
        if text[at] == '"' or (text[at] == "r" and (at == 0 or not (text[at - 1].isalnum() or text[at - 1] == "_"))):
            found = STRING.match(text, at)
        else:
            found = CHARACTER.match(text, at) if text[at] == "'" else None
        parts.append(found[0] if found else text[at])
        at += len(parts[-1])
    return re.sub(r"\s+", " ", "".join(parts)).strip()


def definition_code(text):
    """Returns the text of a definition file without comments and empty lines."""
    lines = (re.sub(r"(?:^|(?<=[\s({,]))--(?=\s|$).*", "", line).rstrip() for line in text.splitlines())
    return "\n".join(line for line in lines if line)


def interface_of(text, path):
    """Returns what other crates can use of a source or of a definition file: for each item, its name and its text without comments. An
    import is an item only if it gives a new name. Its own name is None."""
    items = {}
    for name, line in source_lines(text) if path.endswith(".rt") else definition_lines(text):
        items.setdefault(name, []).append(line)
    return [(name, code_of("\n".join(lines), path)) for name, lines in items.items()]


def definition_lines(text):
    """Yields the lines of a definition file, each with the name of its item."""
    name = None
    for line in definition_code(text).splitlines():
        if found := DEFINITION.match(line):
            name = found[1]
        if not line.startswith("use "):
            yield name, line
        elif " as " in line:
            yield None, line


def source_lines(text):
    """Yields the lines of a source that other crates see, each with the name of its item. Leaves out private functions, and the bodies
    of functions. A function without `pub` is seen in a trait and in an impl of a trait."""
    lines, at, block, in_trait, attributes = text.splitlines(), 0, None, False, []
    while at < len(lines):
        line, first = lines[at], at
        at += 1
        if IMPORT.match(line):
            while not lines[at - 1].endswith((";", "}")):
                at += 1
            if " as " in (imported := " ".join(lines[first:at])):
                yield None, imported
        elif found := BODY.match(line):
            header, at = function_header(lines, first, found[1])
            if found[2] == "pub " or (in_trait and found[1]):
                yield FUNCTION.match(line)[3], "\n".join(attributes + header)
            attributes = []
        elif line.lstrip().startswith("#["):
            attributes.append(line)
        elif not line.lstrip().startswith("//"):
            if found := ITEM.match(line):
                block, in_trait = found[2], bool(re.match(r"(?:pub )?trait |impl\b.* for ", line))
            yield block, "\n".join([*attributes, line])
            attributes = []


def function_header(lines, at, indent):
    """Returns the lines of the header of the function that begins at a line, and the number of the first line after the function."""
    header, ending = [], ""
    while not ending:
        header.append(lines[at])
        ending = header_end(header, indent)
        at += 1
    while ending == "body" and lines[at - 1] != f"{indent}}}":
        at += 1
    return header, at


def header_end(header, indent):
    """Returns "body" if the last of these lines ends a function's header and a body follows, "nothing" if no body follows, and "" if
    the header continues."""
    line = header[-1]
    if line in (f"{indent}{{}}", f"{indent}}}") or line.endswith(";"):
        return "nothing"
    has_clauses = any(it.lstrip().startswith(("ensures", "requires")) for it in header)
    if line == f"{indent}{{" or (not has_clauses and line.endswith(" {")):
        return "body"
    return "nothing" if not has_clauses and line.endswith("{}") else ""


def texts_below(crate, folders):
    """Yields the path in the crate and the text of each source and definition file in these folders of a crate."""
    for folder in folders:
        for inner, inner_folders, files in os.walk(f"{ROOT}/crates/{crate}/{folder}"):
            inner_folders.sort()
            for file in sorted(files):
                path = os.path.relpath(f"{inner}/{file}", f"{ROOT}/crates/{crate}")
                if file.endswith((".rt", ".antt")):
                    with open(f"{inner}/{file}", encoding="utf-8") as source:
                        yield path, source.read()


def texts_of(crate, folder, ending):
    """Yields the name and the text of each file below a folder of this crate whose name has this suffix, in the order of the names."""
    for inner, folders, files in os.walk(f"{ROOT}/crates/{crate}/{folder}"):
        folders.sort()
        for file in sorted(files):
            if file.endswith(ending):
                with open(f"{inner}/{file}", encoding="utf-8") as source:
                    yield file, source.read()
