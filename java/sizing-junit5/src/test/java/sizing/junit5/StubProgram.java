package sizing.junit5;

import java.io.IOException;
import java.nio.file.Files;
import java.nio.file.Path;
import java.util.List;

/** A shell script in place of the program, which prints fixed lines and records its arguments. */
final class StubProgram implements AutoCloseable {
    private final String before = System.getProperty("sizing.program");
    private final Path folder = Files.createTempDirectory("sizing");
    private final Path log = folder.resolve("arguments");

    StubProgram(int askStatus, String askOutput, int conformStatus, String conformOutput) throws IOException {
        Path script = folder.resolve("sizing");
        Files.writeString(script, """
                #!/bin/sh
                echo "$@" >> '%s'
                case "$1" in
                ask) echo '%s'; exit %d ;;
                conform) echo '%s'; exit %d ;;
                esac
                """.formatted(log, askOutput, askStatus, conformOutput, conformStatus));
        if (!script.toFile().setExecutable(true)) {
            throw new IOException("not executable: " + script);
        }
        System.setProperty("sizing.program", script.toString());
    }

    /** Returns the arguments of each run. */
    List<String> runs() throws IOException {
        return Files.exists(log) ? Files.readAllLines(log) : List.of();
    }

    @Override
    public void close() throws IOException {
        restore(before);
        for (Path file : List.of(log, folder.resolve("sizing"), folder)) {
            Files.deleteIfExists(file);
        }
    }

    static void restore(String program) {
        if (program == null) {
            System.clearProperty("sizing.program");
        } else {
            System.setProperty("sizing.program", program);
        }
    }
}
