package sizing.junit5;

import java.io.File;
import java.io.IOException;
import java.nio.charset.StandardCharsets;
import java.nio.file.Files;
import java.nio.file.Path;
import java.util.ArrayList;
import java.util.List;
import java.util.Optional;
import java.util.concurrent.TimeUnit;
import java.util.stream.Stream;
import org.opentest4j.AssertionFailedError;
import org.opentest4j.TestAbortedException;

/**
 * The program {@code sizing}: the file that the property {@code sizing.program} or the variable {@code SIZING} names, or the one
 * on the path.
 */
final class SizingProgram {
    private static final long MAX_SECONDS = 300;
    private static final String HOW = " Install the program sizing from its release, and put it on the PATH or name it by "
            + "-Dsizing.program=FILE or by the environment variable SIZING. -Dsizing.optional=true skips the tests that need it.";

    /** The output and the exit status of a run. */
    record Answer(int status, List<String> output, List<String> errors) {
        List<String> lines() {
            return Stream.concat(output.stream(), errors.stream()).toList();
        }
    }

    private SizingProgram() {}

    /** Returns the path of the program, or empty if none is named or on the path. */
    static Optional<Path> find() {
        return Stream.of(System.getProperty("sizing.program"), System.getenv("SIZING"))
                .filter(name -> name != null && !name.isBlank()).map(Path::of).findFirst().or(SizingProgram::onPath);
    }

    private static Optional<Path> onPath() {
        return Stream.of(Optional.ofNullable(System.getenv("PATH")).orElse("").split(File.pathSeparator))
                .map(folder -> Path.of(folder, "sizing")).filter(Files::isExecutable).findFirst();
    }

    /**
     * Runs the program with these arguments.
     *
     * @throws AssertionFailedError if there is no program, it does not start, or it does not end in five minutes
     * @throws TestAbortedException if there is no program and {@code sizing.optional} is true
     */
    static Answer run(Object... arguments) {
        Path program = find().filter(Files::isExecutable).orElseThrow(SizingProgram::notFound);
        List<String> command = new ArrayList<>(List.of(program.toString()));
        Stream.of(arguments).map(Object::toString).forEach(command::add);
        try {
            return run(command);
        } catch (IOException failed) {
            throw new AssertionFailedError(String.join(" ", command) + ": " + failed.getMessage(), failed);
        } catch (InterruptedException interrupted) {
            Thread.currentThread().interrupt();
            throw new AssertionFailedError(String.join(" ", command) + " was interrupted", interrupted);
        }
    }

    private static RuntimeException notFound() {
        String message = find().map(named -> named + ", which sizing.program or SIZING names, is not an executable file.")
                .orElse("The program sizing is not on the PATH.") + HOW;
        if (Boolean.getBoolean("sizing.optional")) {
            return new TestAbortedException(message);
        }
        throw new AssertionFailedError(message);
    }

    private static Answer run(List<String> command) throws IOException, InterruptedException {
        Path output = Files.createTempFile("sizing", ".out");
        Path errors = Files.createTempFile("sizing", ".err");
        try {
            Process process = new ProcessBuilder(command).redirectOutput(output.toFile()).redirectError(errors.toFile()).start();
            process.getOutputStream().close();
            if (!process.waitFor(MAX_SECONDS, TimeUnit.SECONDS)) {
                process.destroyForcibly();
                throw new IOException("the program did not end within " + MAX_SECONDS + " seconds");
            }
            return new Answer(process.exitValue(), read(output), read(errors));
        } finally {
            Files.delete(output);
            Files.delete(errors);
        }
    }

    private static List<String> read(Path file) throws IOException {
        return new String(Files.readAllBytes(file), StandardCharsets.UTF_8).lines().toList();
    }
}
