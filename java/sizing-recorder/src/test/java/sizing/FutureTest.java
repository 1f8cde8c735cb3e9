package sizing;

import static org.junit.jupiter.api.Assertions.assertEquals;
import static org.junit.jupiter.api.Assertions.assertFalse;
import static org.junit.jupiter.api.Assertions.assertTrue;
import static sizing.RecordingAssertions.assertLines;
import static sizing.RecordingAssertions.thrownBy;

import java.util.ArrayList;
import java.util.List;
import java.util.concurrent.Callable;
import java.util.concurrent.CountDownLatch;
import java.util.concurrent.ExecutorService;
import java.util.concurrent.Future;
import java.util.concurrent.ThreadPoolExecutor;
import java.util.concurrent.TimeUnit;
import org.junit.jupiter.api.Test;

/** Tests of gets, cancels, `invokeAll` and `invokeAny`. */
class FutureTest {
    @Test
    void aJobThatThrowsIsRecordedAsEndedAndGot() throws Exception {
        Recording recording = new Recording();
        ExecutorService pool = recording.pool("p");
        try (Recorder.Round round = recording.recorder.round("c")) {
            assertEquals("ExecutionException: java.lang.IllegalStateException: bad", thrownBy(() -> pool.submit(bad()).get()));
        }
        assertLines(recording.acts(), "round 0 begin c", "round 0 submit 0 bad p", "job 0 start", "job 0 end", "round 0 got 0", "round 0 end");
    }

    @Test
    void aTimedOutGetIsRecordedAndMayBeRepeated() throws Exception {
        Recording recording = new Recording();
        ExecutorService pool = recording.pool("p");
        CountDownLatch go = new CountDownLatch(1);
        CountDownLatch started = new CountDownLatch(1);
        try (Recorder.Round round = recording.recorder.round("c")) {
            Future<Void> future = pool.submit(held(started, go));
            Recording.await(started);
            assertEquals("TimeoutException: null", thrownBy(() -> future.get(1, TimeUnit.MILLISECONDS)));
            go.countDown();
            future.get(60, TimeUnit.SECONDS);
        }
        assertLines(recording.acts(), "round 0 begin c", "round 0 submit 0 held p", "job 0 start", "round 0 timeout 0", "job 0 end",
                "round 0 got 0", "round 0 end");
    }

    @Test
    void anInterruptedGetIsRecorded() throws Exception {
        Recording recording = new Recording();
        ExecutorService pool = recording.pool("p");
        CountDownLatch go = new CountDownLatch(1);
        CountDownLatch started = new CountDownLatch(1);
        Recording.on("clients-1", () -> {
            Future<Void> future = pool.submit(held(started, go));
            Recording.await(started);
            Thread.currentThread().interrupt();
            assertEquals("InterruptedException: null", thrownBy(future::get));
            Thread.currentThread().interrupt();
            assertEquals("InterruptedException: null", thrownBy(() -> future.get(1, TimeUnit.SECONDS)));
        });
        assertLines(recording.acts(), "round 0 begin clients", "round 0 submit 0 held p", "job 0 start", "round 0 interrupted 0",
                "round 0 interrupted 0");
        go.countDown();
    }

    private static Callable<Integer> bad() {
        return Recorder.label("bad", (Callable<Integer>) () -> {
            throw new IllegalStateException("bad");
        });
    }

    private static Callable<Void> held(CountDownLatch started, CountDownLatch go) {
        return Recorder.label("held", () -> {
            started.countDown();
            return Recording.await(go);
        });
    }

    @Test
    void cancelIsRecordedForRunningAndQueuedJobsButNotForFinishedOnes() throws Exception {
        Recording recording = new Recording();
        ThreadPoolExecutor executor = Recording.executor(1, 1, 1);
        ExecutorService pool = recording.pool("p", executor);
        CountDownLatch go = new CountDownLatch(1);
        CountDownLatch started = new CountDownLatch(1);
        try (Recorder.Round round = recording.recorder.round("c")) {
            Future<Void> atWork = pool.submit(held(started, go));
            Recording.await(started);
            Future<Integer> queued = pool.submit(Recorder.label("queued", () -> 1));
            assertTrue(queued.cancel(false));
            assertEquals("CancellationException: null", thrownBy(queued::get));
            assertTrue(atWork.cancel(false));
            assertFalse(atWork.cancel(false));
            go.countDown();
            RecorderTest.waitUntilDone(executor, 2);
            Future<Integer> done = pool.submit(Recorder.label("done", () -> 1));
            done.get();
            assertFalse(done.cancel(true));
        }
        assertLines(recording.acts(), "round 0 begin c", "round 0 submit 0 held p", "job 0 start", "round 0 submit 1 queued p",
                "round 0 cancel 1", "round 0 got 1", "round 0 cancel 0", "job 0 end",
                "round 0 submit 2 done p", "job 2 start", "job 2 end", "round 0 got 2", "round 0 end");
    }

    @Test
    void aCancelledQueuedJobIsNotCountedAsUnseen() throws Exception {
        Recording recording = new Recording();
        ThreadPoolExecutor executor = Recording.executor(1, 1, 1);
        ExecutorService pool = recording.pool("p", executor);
        CountDownLatch go = new CountDownLatch(1);
        Future<Void> atWork = pool.submit(held(new CountDownLatch(1), go));
        pool.submit(() -> 1).cancel(false);
        go.countDown();
        atWork.get();
        RecorderTest.waitUntilDone(executor, 2);
        assertEquals(List.of(), recording.lines().stream().filter(line -> line.startsWith("unseen")).toList());
    }

    @Test
    void aRoundWithoutALabelEndsWhenItsOnlyFutureIsCancelled() throws Exception {
        Recording recording = new Recording();
        ExecutorService pool = recording.pool("p");
        CountDownLatch go = new CountDownLatch(1);
        CountDownLatch started = new CountDownLatch(1);
        Recording.on("t", () -> {
            Future<Void> future = pool.submit(held(started, go));
            Recording.await(started);
            future.cancel(false);
        });
        assertLines(recording.acts(), "round 0 begin t", "round 0 submit 0 held p", "job 0 start", "round 0 cancel 0", "round 0 end");
        go.countDown();
    }

    @Test
    void invokeAllRecordsAllSubmitsThenAllGets() throws Exception {
        Recording recording = new Recording();
        ExecutorService pool = recording.pool("p", Recording.executor(2, 2, 4));
        List<Callable<Integer>> tasks = List.of(Recorder.label("a", () -> 1), bad(), Recorder.label("c", () -> 3));
        try (Recorder.Round round = recording.recorder.round("c")) {
            List<Future<Integer>> futures = pool.invokeAll(tasks);
            assertTrue(futures.get(2).isDone());
        }
        ownLines(recording, "round 0 begin c", "round 0 submit 0 a p", "round 0 submit 1 bad p", "round 0 submit 2 c p",
                "round 0 got 0", "round 0 got 1", "round 0 got 2", "round 0 end");
    }

    @Test
    void invokeAllWithATimeoutThatDoesNotExpireRecordsAllGets() throws Exception {
        Recording recording = new Recording();
        ExecutorService pool = recording.pool("p", Recording.executor(1, 1, 4));
        List<Callable<Integer>> tasks = List.of(Recorder.label("a", () -> 1), bad());
        Recording.on("t", () -> assertTrue(pool.invokeAll(tasks, 60, TimeUnit.SECONDS).get(0).isDone()));
        ownLines(recording, "round 0 begin t", "round 0 submit 0 a p", "round 0 submit 1 bad p", "round 0 got 0", "round 0 got 1", "round 0 end");
    }

    @Test
    void invokeAllThatTimesOutRecordsTheTimeoutAndTheCancels() throws Exception {
        Recording recording = new Recording();
        ExecutorService pool = recording.pool("p", Recording.executor(1, 1, 4));
        CountDownLatch go = new CountDownLatch(1);
        List<Callable<Void>> tasks = new ArrayList<>();
        for (int number = 0; number < 2; number++) {
            tasks.add(held(new CountDownLatch(1), go));
        }
        Recording.on("t", () -> {
            for (Future<Void> future : pool.invokeAll(tasks, 3, TimeUnit.SECONDS)) {
                assertTrue(future.isCancelled());
            }
        });
        ownLines(recording, "round 0 begin t", "round 0 submit 0 held p", "round 0 submit 1 held p", "round 0 timeout 0",
                "round 0 cancel 0", "round 0 cancel 1", "round 0 end");
        go.countDown();
    }

    @Test
    void invokeAllWithoutTimeRecordsNothingForTasksThatItDidNotSubmit() throws Exception {
        Recording recording = new Recording();
        ExecutorService pool = recording.pool("p", Recording.executor(1, 1, 4));
        CountDownLatch go = new CountDownLatch(1);
        List<Callable<Void>> tasks = List.of(held(new CountDownLatch(1), go), held(new CountDownLatch(1), go));
        Recording.on("t", () -> assertTrue(pool.invokeAll(tasks, 0, TimeUnit.SECONDS).get(1).isCancelled()));
        ownLines(recording, "round 0 begin t", "round 0 submit 0 held p", "round 0 cancel 0", "round 0 end");
        go.countDown();
    }

    @Test
    void aRefusedInvokeAllRecordsTheCancelsOfItsSubmittedJobs() throws Exception {
        Recording recording = new Recording();
        ExecutorService pool = recording.pool("p");
        CountDownLatch go = new CountDownLatch(1);
        List<Callable<Void>> tasks = new ArrayList<>();
        for (int number = 0; number < 4; number++) {
            tasks.add(held(new CountDownLatch(1), go));
        }
        Recording.on("t", () -> assertTrue(thrownBy(() -> pool.invokeAll(tasks)).startsWith("RejectedExecutionException")));
        ownLines(recording, "round 0 begin t", "round 0 submit 0 held p", "round 0 submit 1 held p", "round 0 submit 2 held p",
                "round 0 refused 2", "round 0 cancel 0", "round 0 cancel 1", "round 0 end");
        go.countDown();
    }

    @Test
    void invokeAnyIsRecorded() throws Exception {
        Recording recording = new Recording();
        ExecutorService pool = recording.pool("p", Recording.executor(1, 1, 4));
        try (Recorder.Round round = recording.recorder.round("c")) {
            int first = pool.invokeAny(List.of(() -> 1, () -> 1));
            int second = pool.invokeAny(List.of(() -> 1), 60, TimeUnit.SECONDS);
            assertEquals(2, first + second);
        }
        List<String> acts = recording.acts();
        assertEquals(List.of("round 0 begin c", "round 0 any p"), acts.subList(0, 2));
        assertEquals(2L, acts.stream().filter("round 0 any p"::equals).count());
    }

    private static void ownLines(Recording recording, String... wanted) throws Exception {
        assertEquals(List.of(wanted), recording.acts().stream().filter(line -> line.startsWith("round 0 ")).toList());
    }
}
