package sizing;

import static org.junit.jupiter.api.Assertions.assertEquals;
import static org.junit.jupiter.api.Assertions.assertThrows;

import java.util.List;
import org.junit.jupiter.api.function.Executable;

/** Assertions on lines and exceptions. */
final class RecordingAssertions {
    private RecordingAssertions() {}

    /** Asserts that the lines are equal. Compares them as one text, so that a failure shows all of them. */
    static void assertLines(List<String> found, String... wanted) {
        assertEquals(String.join("\n", wanted), String.join("\n", found));
    }

    /** Returns the simple name and the message of the exception that the body throws. */
    static String thrownBy(Executable body) {
        Exception thrown = assertThrows(Exception.class, body);
        return thrown.getClass().getSimpleName() + ": " + thrown.getMessage();
    }
}
