package sizing;

import static org.junit.jupiter.api.Assertions.assertEquals;
import static org.junit.jupiter.api.Assertions.assertFalse;
import static org.junit.jupiter.api.Assertions.assertTrue;
import static sizing.RecordingAssertions.thrownBy;

import java.io.IOException;
import java.nio.file.Files;
import java.nio.file.Path;
import java.util.List;
import java.util.Map;
import java.util.stream.Stream;
import org.junit.jupiter.api.Test;

/** Tests of the part of TOML that plans use. */
class PlanTomlTest {
    @Test
    void tablesListsAndValuesAreRead() throws Exception {
        assertEquals(Map.of(), PlanToml.read(""));
        assertEquals(Map.of("a", 1L), PlanToml.read("a = 1"));
        assertEquals(Map.of(), PlanToml.read("\ufeff# only a comment"));
        assertEquals(Map.of("a", 1000L, "b", true, "c d", -7L, "e", 31L), PlanToml.read("a=1_000\r\nb\t=\ttrue # yes\r\n'c d' = -7\n\"e\" = 0x1F"));
        assertEquals(Map.of("t", Map.of("a", 1L), "u", Map.of()), PlanToml.read("[t]\na = +1\n[ u ]"));
        assertEquals(Map.of("p", List.of(Map.of("a", 1L), Map.of()), "q", List.of(Map.of())), PlanToml.read("[[p]]\na = 1\n[[p]]\n[[q]]\n"));
        assertEquals(Map.of("p", List.of(), "q", List.of()), PlanToml.read("p = []\nq = [ ]"));
        assertEquals(Map.of("p", List.of(Map.of("a", 1L, "b", "x"), Map.of())), PlanToml.read("p = [\n  {a = 1, b = 'x'}, # one\n\n  {},\n]\n"));
        assertEquals(Map.of("p", Map.of("a", List.of(1L, List.of(2L)))), PlanToml.read("p = {\n a = [1, [2,]],\n}"));
    }

    @Test
    void stringsAreRead() throws Exception {
        assertEquals(Map.of("a", "x # \" \\ \n é \ud83d\ude00 A"), PlanToml.read("a = \"x # \\\" \\\\ \\n \\u00e9 \\U0001F600 \\x41\""));
        assertEquals(Map.of("a", "x \\n \""), PlanToml.read("a = 'x \\n \"'"));
        assertEquals(Map.of("a", "", "b", ""), PlanToml.read("a = ''\nb = \"\""));
    }

    @Test
    void unsupportedAndInvalidTomlIsRefusedWithItsLine() throws Exception {
        wrong("a = '''x'''", "line 1: multi-line strings are not supported");
        wrong("\na.b = 1", "line 2: dotted keys are not supported");
        wrong("[a.b]", "line 1: expected ]");
        wrong("a = 1.5", "line 1: unsupported value: 1.5");
        wrong("a = 2024-01-01", "line 1: unsupported value: 2024-01-01");
        wrong("a = 08", "line 1: unsupported value: 08");
        wrong("a = yes", "line 1: unsupported value: yes");
        wrong("a = ", "line 1: missing value");
        wrong("a = 9223372036854775808", "line 1: number out of range: 9223372036854775808");
        wrong("a = 1\n\n\na = 2", "line 4: duplicate key a");
        wrong("[a]\n[a]", "line 2: duplicate key a");
        wrong("p = []\n[[p]]", "line 2: [[p]] conflicts with another p");
        wrong("a = \"x\nb = 1", "line 1: expected \"");
        wrong("a = 'x", "line 1: expected '");
        wrong("a = \"\\q\"", "line 1: invalid escape");
        wrong("a = \"\\u12\"", "line 1: invalid escape");
        wrong("a = 1 b = 2", "line 1: expected the end of the line");
        wrong("a = [1 2]", "line 1: expected a comma or ]");
        wrong("a = [1,", "line 1: missing value");
        wrong("a = [", "line 1: missing value");
        wrong("a", "line 1: expected =");
        wrong("= 1", "line 1: expected a key");
        wrong("%%", "line 1: expected a key");
    }

    @Test
    void everyExamplePlanIsRead() throws Exception {
        for (Path plan : plans()) {
            Map<String, Object> tables = PlanToml.read(Files.readString(plan));
            assertFalse(PlanPool.allOf(tables).isEmpty());
            new PlanBodies(tables);
        }
        assertTrue(plans().size() > 30);
    }

    private static List<Path> plans() throws IOException {
        try (Stream<Path> files = Files.list(Path.of(System.getProperty("sizing.examples")))) {
            return files.filter(file -> file.toString().endsWith(".toml")).toList();
        }
    }

    private static void wrong(String text, String why) {
        assertEquals("IllegalArgumentException: " + why, thrownBy(() -> PlanToml.read(text)));
    }
}
