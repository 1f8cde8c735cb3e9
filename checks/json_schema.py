"""A validator for the part of JSON Schema draft-07 that share/plan.schema.json uses.

An unknown keyword is an error, so that a schema never has a condition that the validator ignores.
"""

import re

# The keywords that describe a value and do not restrict it.
ANNOTATIONS = {"$schema", "title", "description", "default", "examples", "definitions"}
KEYWORDS = {
    "$ref", "type", "const", "properties", "additionalProperties", "required", "items", "maxItems", "minimum", "maximum", "pattern",
    "if", "then",
}


def errors(schema, value, root=None, path=()):
    """Yields each error of `value` as its path and a message."""
    root = schema if root is None else root
    if unknown := set(schema) - ANNOTATIONS - KEYWORDS:
        raise ValueError(f"the schema uses {', '.join(sorted(unknown))}, which this validator does not check")
    if "$ref" in schema:
        yield from errors(resolved(root, schema["$ref"]), value, root, path)
        return
    if not is_of_type(value, schema.get("type")):
        yield path, f"{value!r} is not of type {schema['type']}"
        return
    if "const" in schema and not is_same(value, schema["const"]):
        yield path, f"{value!r} is not {schema['const']!r}"
    if "if" in schema and not any(errors(schema["if"], value, root, path)):
        yield from errors(schema["then"], value, root, path)
    if isinstance(value, dict):
        yield from object_errors(schema, value, root, path)
    elif isinstance(value, list):
        yield from array_errors(schema, value, root, path)
    else:
        yield from scalar_errors(schema, value, path)


def resolved(root, reference):
    """Returns the part of the schema that a reference such as #/definitions/pool names."""
    part = root
    for name in reference.removeprefix("#/").split("/"):
        part = part[name]
    return part


def is_of_type(value, name):
    """Returns whether a value has the type with this name, or one of the types if this is a list of names. As in draft-07, 1.0 is an
    integer, and a boolean is not a number."""
    if name is None:
        return True
    if isinstance(name, list):
        return any(is_of_type(value, each) for each in name)
    if name == "integer":
        return not isinstance(value, bool) and (isinstance(value, int) or isinstance(value, float) and value.is_integer())
    return isinstance(value, {"object": dict, "array": list, "string": str, "boolean": bool}[name])


def is_same(value, wanted):
    """Returns whether two values are equal. As in draft-07, a boolean is not a number."""
    return value == wanted and isinstance(value, bool) == isinstance(wanted, bool)


def object_errors(schema, value, root, path):
    """Yields the errors of an object and of its values."""
    properties = schema.get("properties", {})
    for name in schema.get("required", []):
        if name not in value:
            yield path, f"{name} is missing"
    for name, each in value.items():
        if name in properties:
            yield from errors(properties[name], each, root, (*path, name))
        elif schema.get("additionalProperties") is False:
            yield path, f"{name} is no key here"


def array_errors(schema, value, root, path):
    """Yields the errors of a list and of its items."""
    if len(value) > schema.get("maxItems", len(value)):
        yield path, f"{len(value)} items are more than {schema['maxItems']}"
    for index, each in enumerate(value):
        yield from errors(schema.get("items", {}), each, root, (*path, index))


def scalar_errors(schema, value, path):
    """Yields the errors of a number or a text. As in draft-07, a limit restricts only numbers, and a pattern only texts."""
    is_number = isinstance(value, (int, float)) and not isinstance(value, bool)
    if is_number and value < schema.get("minimum", value):
        yield path, f"{value} is below {schema['minimum']}"
    if is_number and value > schema.get("maximum", value):
        yield path, f"{value} is above {schema['maximum']}"
    if "pattern" in schema and isinstance(value, str) and not re.fullmatch(whole(schema["pattern"]), value, re.ASCII):
        yield path, f"{value!r} does not match {schema['pattern']}"


def whole(pattern):
    """Returns a pattern without its anchors, to be matched with a whole text. Python's `$` would allow a newline after the text."""
    if not (pattern.startswith("^") and pattern.endswith("$")):
        raise ValueError(f"the pattern {pattern} does not match whole texts")
    return pattern[1:-1]
