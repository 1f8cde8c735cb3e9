package sizing;

import static org.junit.jupiter.api.Assertions.assertEquals;
import static org.junit.jupiter.api.Assertions.assertTrue;
import static sizing.RecordingAssertions.assertLines;

import java.io.StringWriter;
import java.nio.charset.StandardCharsets;
import java.nio.file.Files;
import java.nio.file.Path;
import java.util.List;
import java.util.Map;
import java.util.concurrent.CompletableFuture;
import java.util.concurrent.ExecutorService;
import java.util.concurrent.Executors;
import java.util.concurrent.ThreadPoolExecutor;
import java.util.concurrent.TimeUnit;
import org.junit.jupiter.api.Test;

/** A test in a JVM in which {@code java.util.concurrent} is not open to the recorder. */
class ClosedPackageTest {
    /**
     * Records two chains and prints the lines of the rounds. Then prints the differences between a wrapped executor and a plan.
     */
    public static void main(String[] none) throws Exception {
        StringWriter text = new StringWriter();
        Recorder recorder = Recorder.to(text);
        ThreadPoolExecutor executor = Recording.executor(1, 1, 9);
        ExecutorService pool = recorder.pool("p", executor);
        for (int turn = 0; turn < 2; turn++) {
            CompletableFuture.supplyAsync(() -> 1, pool).join();
        }
        executor.shutdown();
        executor.awaitTermination(60, TimeUnit.SECONDS);
        recorder.close();
        text.toString().lines().filter(line -> line.startsWith("round ")).forEach(System.out::println);
        Path plan = Files.writeString(Files.createTempFile("sizing", ".toml"), "pool = [{name = 'p', core = 1, max = 1, queue = 7}, "
                + "{name = 'q', core = 1, max = 'unbounded', queue = 'unbounded'}, "
                + "{name = 'r', core = 1, max = 4, queue = 'unbounded', core_timeout = true}, "
                + "{name = 's', core = 1, max = 'unbounded', queue = 'unbounded', core_timeout = true}]");
        ExecutorService single = Executors.newSingleThreadExecutor();
        PlanCheck.differences(plan, Map.of("p", single, "q", single, "r", single, "s", single)).forEach(System.out::println);
        single.shutdown();
        Files.delete(plan);
    }

    @Test
    void stagesAreSubmitsWithoutGetsAndOneWarningIsLogged() throws Exception {
        String classes = System.getProperty("sizing.classes", System.getProperty("java.class.path"));
        Process java = new ProcessBuilder(Path.of(System.getProperty("java.home"), "bin", "java").toString(), "-XX:TieredStopAtLevel=1",
                "-cp", classes, ClosedPackageTest.class.getName()).start();
        String lines = new String(java.getInputStream().readAllBytes(), StandardCharsets.UTF_8);
        String log = new String(java.getErrorStream().readAllBytes(), StandardCharsets.UTF_8);
        assertEquals(0, java.waitFor(), log);
        assertLines(lines.lines().toList(), "round 0 begin main", "round 0 submit 0 async_supply p", "round 0 end",
                "round 1 begin main", "round 1 submit 1 async_supply p", "round 1 end",
                "pool p: FinalizableDelegatedExecutorService hides its executor: pass new ThreadPoolExecutor(1, 1, 0, SECONDS, "
                + "new LinkedBlockingQueue<>(7)), or run the JVM with --add-opens java.base/java.util.concurrent=ALL-UNNAMED",
                "pool q: FinalizableDelegatedExecutorService hides its executor: pass new ThreadPoolExecutor(1, 1, 0, SECONDS, "
                + "new LinkedBlockingQueue<>()), or run the JVM with --add-opens java.base/java.util.concurrent=ALL-UNNAMED",
                "pool r: FinalizableDelegatedExecutorService hides its executor: pass new ThreadPoolExecutor(1, 4, 60, SECONDS, "
                + "new LinkedBlockingQueue<>()) with allowCoreThreadTimeOut(true), or run the JVM with --add-opens java.base/java.util.concurrent=ALL-UNNAMED",
                "pool s: FinalizableDelegatedExecutorService hides its executor: pass new ThreadPoolExecutor(1, Integer.MAX_VALUE, 60, SECONDS, "
                + "new LinkedBlockingQueue<>()) with allowCoreThreadTimeOut(true), or run the JVM with --add-opens java.base/java.util.concurrent=ALL-UNNAMED");
        List<String> warnings = log.lines().filter(line -> line.startsWith("WARNING: ")).toList();
        assertEquals(List.of("WARNING: stages of CompletableFutures are recorded as submits without gets: run the JVM with "
                + "--add-opens java.base/java.util.concurrent=ALL-UNNAMED (tried on OpenJDK 17)"), warnings);
        assertTrue(log.lines().count() == 2, log);
    }
}
