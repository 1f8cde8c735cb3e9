package sizing;

import static org.junit.jupiter.api.Assertions.assertEquals;
import static org.junit.jupiter.api.Assertions.assertTrue;
import static sizing.RecordingAssertions.assertLines;

import java.util.ArrayList;
import java.util.List;
import java.util.concurrent.CountDownLatch;
import java.util.concurrent.ExecutorCompletionService;
import java.util.concurrent.ExecutorService;
import java.util.concurrent.Future;
import java.util.concurrent.TimeUnit;
import org.junit.jupiter.api.Test;

/** Tests of jobs of an {@code ExecutorCompletionService} over a recorded pool. */
class CompletionServiceTest {
    private final Recording recording = new Recording();
    private final ExecutorService pool = recording.pool("p", Recording.executor(1, 1, 9));
    private final ExecutorCompletionService<Integer> service = new ExecutorCompletionService<>(pool);

    private final List<CountDownLatch> latches = new ArrayList<>();

    private List<String> round() throws Exception {
        return recording.acts().stream().filter(line -> line.startsWith("round 0 ")).toList();
    }

    /** Submits three rows, each of which ends when its latch opens. */
    private void submitHeldRows(ExecutorCompletionService<Integer> rows) {
        for (int row = 0; row < 3; row++) {
            CountDownLatch latch = new CountDownLatch(1);
            latches.add(latch);
            int value = row;
            rows.submit(Recorder.label("row", () -> {
                Recording.await(latch);
                return value;
            }));
        }
    }

    /** Lets a row end, and takes it from the service. */
    private Future<Integer> takeHeld(ExecutorCompletionService<Integer> rows, int row) throws Exception {
        latches.get(row).countDown();
        Future<Integer> taken = rows.take();
        assertTrue(taken.isDone());
        return taken;
    }

    @Test
    void theGetOfWhatTakeReturnsIsTheGet() throws Exception {
        try (Recorder.Round round = recording.recorder.round("importer")) {
            service.submit(Recorder.label("row", () -> 1));
            service.submit(Recorder.label("row", () -> 2));
            assertEquals(1, service.take().get());
            service.submit(Recorder.label("last", () -> { }), 3);
            assertEquals(2, service.poll(60, TimeUnit.SECONDS).get());
            assertEquals(3, service.take().get());
        }
        assertLines(round(), "round 0 begin importer", "round 0 submit 0 row p", "round 0 submit 1 row p", "round 0 got 0",
                "round 0 submit 2 last p", "round 0 got 1", "round 0 got 2", "round 0 end");
    }

    @Test
    void theGetsAreInTheOrderInWhichTheJobsAreDone() throws Exception {
        ExecutorCompletionService<Integer> rows = new ExecutorCompletionService<>(recording.pool("rows", Recording.executor(3, 3, 9)));
        try (Recorder.Round round = recording.recorder.round("importer")) {
            submitHeldRows(rows);
            for (int row : List.of(2, 0, 1)) {
                assertEquals(row, takeHeld(rows, row).get());
            }
        }
        assertLines(round(), "round 0 begin importer", "round 0 submit 0 row rows", "round 0 submit 1 row rows", "round 0 submit 2 row rows",
                "round 0 got 2", "round 0 got 0", "round 0 got 1", "round 0 end");
    }

    @Test
    void theGetsOfAJobAreItsOwn() throws Exception {
        ExecutorCompletionService<Integer> rows = new ExecutorCompletionService<>(recording.pool("rows", Recording.executor(3, 3, 9)));
        try (Recorder.Round round = recording.recorder.round("importer")) {
            assertEquals(3, pool.submit(Recorder.label("import", () -> {
                submitHeldRows(rows);
                return takeHeld(rows, 1).get() + takeHeld(rows, 2).get() + takeHeld(rows, 0).get();
            })).get());
        }
        List<String> acts = recording.acts();
        assertLines(acts.stream().filter(line -> line.startsWith("round 0 ")).toList(), "round 0 begin importer", "round 0 submit 0 import p",
                "round 0 got 0", "round 0 end");
        assertLines(acts.stream().filter(line -> line.startsWith("job 0 ")).toList(), "job 0 start", "job 0 submit 1 row rows",
                "job 0 submit 2 row rows", "job 0 submit 3 row rows", "job 0 got 2", "job 0 got 3", "job 0 got 1", "job 0 end");
    }

    @Test
    void aTakenJobIsGotWhenItIsRead() throws Exception {
        ExecutorCompletionService<Integer> rows = new ExecutorCompletionService<>(recording.pool("rows", Recording.executor(3, 3, 9)));
        try (Recorder.Round round = recording.recorder.round("importer")) {
            submitHeldRows(rows);
            Future<Integer> second = takeHeld(rows, 1);
            assertEquals(0, takeHeld(rows, 0).get());
            rows.submit(Recorder.label("row", () -> 3));
            assertEquals(3, rows.take().get());
            assertEquals(1, second.get());
            takeHeld(rows, 2);
        }
        assertLines(round(), "round 0 begin importer", "round 0 submit 0 row rows", "round 0 submit 1 row rows", "round 0 submit 2 row rows",
                "round 0 got 0", "round 0 submit 3 row rows", "round 0 got 3", "round 0 got 1", "round 0 got 2", "round 0 end");
    }

    @Test
    void aJobThatIsTakenButNotReadIsGotAtTheEndOfTheRound() throws Exception {
        try (Recorder.Round round = recording.recorder.round("importer")) {
            service.submit(Recorder.label("row", () -> 1));
            service.take();
        }
        assertLines(round(), "round 0 begin importer", "round 0 submit 0 row p", "round 0 got 0", "round 0 end");
    }

    @Test
    void aJobThatIsLeftIsNotGot() throws Exception {
        CountDownLatch ended = new CountDownLatch(1);
        try (Recorder.Round round = recording.recorder.round("importer")) {
            service.submit(Recorder.label("row", () -> {
                Recording.await(ended);
                return 1;
            }));
        }
        ended.countDown();
        service.take();
        assertLines(round(), "round 0 begin importer", "round 0 submit 0 row p", "round 0 end");
    }

    @Test
    void aCancelledJobIsNotCountedAsUnseen() throws Exception {
        CountDownLatch ended = new CountDownLatch(1);
        try (Recorder.Round round = recording.recorder.round("importer")) {
            pool.submit(Recorder.label("first", () -> Recording.await(ended)));
            Future<Integer> second = service.submit(Recorder.label("second", () -> 1));
            assertTrue(second.cancel(false));
            ended.countDown();
            assertTrue(service.take().isCancelled());
        }
        pool.shutdown();
        assertTrue(pool.awaitTermination(60, TimeUnit.SECONDS));
        List<String> lines = recording.lines();
        assertTrue(lines.contains("round 0 cancel 1"), lines.toString());
        assertTrue(lines.stream().noneMatch(line -> line.startsWith("unseen")), lines.toString());
    }

    @Test
    void anUnlabelledRoundLastsUntilItsJobsAreDone() throws Exception {
        Recording.on("importer", () -> {
            service.submit(Recorder.label("row", () -> 1));
            service.take().get();
            service.submit(Recorder.label("row", () -> 1));
            service.take().get();
        });
        assertLines(recording.acts().stream().filter(line -> line.startsWith("round ")).toList(),
                "round 0 begin importer", "round 0 submit 0 row p", "round 0 got 0", "round 0 end",
                "round 1 begin importer", "round 1 submit 1 row p", "round 1 got 1", "round 1 end");
    }

    @Test
    void invokeAnyNamesItsJobsAfterTheirTasks() throws Exception {
        try (Recorder.Round round = recording.recorder.round("c")) {
            assertEquals(1, pool.invokeAny(List.of(Recorder.label("search", () -> 1))));
        }
        assertLines(round(), "round 0 begin c", "round 0 any p", "round 0 submit 0 search p", "round 0 end");
    }
}
