package sizing.junit5;

import java.io.IOException;
import java.nio.file.Path;
import java.util.Map;
import java.util.concurrent.ExecutorService;
import java.util.stream.Collectors;
import java.util.stream.Stream;
import org.opentest4j.AssertionFailedError;
import sizing.PlanCheck;
import sizing.PlanMismatchException;

/**
 * Assertions on plans, recordings and executors. The message of a failure contains the output of the program.
 *
 * <p>The program {@code sizing} is the file that the property {@code sizing.program} or the environment variable {@code SIZING}
 * names, or it is on the path. If it is not found, the assertion fails, or with {@code -Dsizing.optional=true} the test is
 * skipped.
 */
public final class SizingAssertions {
    private SizingAssertions() {}

    /** Asserts that the plan is safe and has no warning: {@code sizing ask --strict PLAN}. */
    public static void assertSafe(Path plan) {
        assertAnswersSafe("ask", "--strict", plan);
    }

    /**
     * Asserts that a certificate accepts the plan, without a search, and that the plan has no warning:
     * {@code sizing ask --strict PLAN CERTIFICATE}.
     */
    public static void assertSafe(Path plan, Path certificate) {
        assertAnswersSafe("ask", "--strict", plan, certificate);
    }

    /** Asserts that the recorded run conforms to the plan: {@code sizing conform PLAN RECORDING}. */
    public static void assertConforms(Path plan, Path recording) {
        assertSuccess(recording + " does not conform to " + plan, SizingProgram.run("conform", plan, recording));
    }

    /** Asserts that the executors have the sizes of the plan's pools ({@link PlanCheck#check}). */
    public static void assertExecutors(Path plan, Map<String, ? extends ExecutorService> executors) throws IOException {
        try {
            PlanCheck.check(plan, executors);
        } catch (PlanMismatchException differs) {
            throw new AssertionFailedError("the executors differ from the pools of " + plan + ":\n  "
                    + String.join("\n  ", differs.lines()), differs);
        }
    }

    private static void assertAnswersSafe(Object... arguments) {
        String command = Stream.of(arguments).map(Object::toString).collect(Collectors.joining(" "));
        assertSuccess("`sizing " + command + "` did not answer SAFE without warnings", SizingProgram.run(arguments));
    }

    private static void assertSuccess(String message, SizingProgram.Answer answer) {
        if (answer.status() != 0) {
            throw new AssertionFailedError(message + " (exit status " + answer.status() + "):\n  " + String.join("\n  ", answer.lines()));
        }
    }
}
