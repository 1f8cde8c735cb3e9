package sizing;

import static org.junit.jupiter.api.Assertions.assertEquals;
import static org.junit.jupiter.api.Assertions.assertTrue;
import static sizing.RecordingAssertions.assertLines;
import static sizing.RecordingAssertions.thrownBy;

import java.util.List;
import java.util.concurrent.CountDownLatch;
import java.util.concurrent.ExecutorService;
import java.util.concurrent.Future;
import java.util.concurrent.RejectedExecutionException;
import java.util.concurrent.RejectedExecutionHandler;
import java.util.concurrent.ThreadPoolExecutor;
import java.util.concurrent.atomic.AtomicInteger;
import org.junit.jupiter.api.Test;

/** Tests of refusals by each handler, and of shutdowns. */
class RefusalTest {
    @Test
    void abortPolicyRecordsARefusal() throws Exception {
        assertLines(third(new ThreadPoolExecutor.AbortPolicy(), true),
                "round 0 submit 2 third p", "round 0 refused 2", "round 0 end", "job 0 end", "job 1 start", "job 1 end");
    }

    @Test
    void callerRunsPolicyRunsTheJobBetweenTwoLinesOfItsSubmitter() throws Exception {
        assertLines(
                third(new ThreadPoolExecutor.CallerRunsPolicy(), false),
                "round 0 submit 2 third p", "round 0 refused 2", "job 2 start", "job 2 submit 3 inner p", "job 2 refused 3",
                "job 3 start", "job 3 end", "job 2 end", "round 0 end", "job 0 end", "job 1 start", "job 1 end");
    }

    @Test
    void discardPolicyRecordsARefusal() throws Exception {
        assertLines(third(new ThreadPoolExecutor.DiscardPolicy(), false),
                "round 0 submit 2 third p", "round 0 refused 2", "round 0 end", "job 0 end", "job 1 start", "job 1 end");
    }

    @Test
    void discardOldestPolicyQueuesTheRefusedJob() throws Exception {
        assertLines(
                third(new ThreadPoolExecutor.DiscardOldestPolicy(), false).subList(0, 5),
                "round 0 submit 2 third p", "round 0 refused 2", "round 0 end", "job 0 end", "job 2 start");
    }

    @Test
    void aHandlerMayQueueTheJobFromAnotherThread() throws Exception {
        elsewhere();
    }

    @Test
    void aHandlerThatRunsTheJobTwiceRecordsOneRun() throws Exception {
        Recording recording = new Recording();
        ThreadPoolExecutor executor = Recording.executor(1, 1, 1);
        executor.setRejectedExecutionHandler((task, by) -> {
            task.run();
            task.run();
        });
        ExecutorService pool = recording.pool("p", executor);
        executor.shutdown();
        AtomicInteger runs = new AtomicInteger();
        try (Recorder.Round round = recording.recorder.round("c")) {
            pool.execute(Recorder.label("a", () -> {
                runs.incrementAndGet();
            }));
        }
        assertEquals(2, runs.get());
        assertLines(recording.acts(), "round 0 begin c", "round 0 submit 0 a p", "round 0 refused 0", "job 0 start", "job 0 end", "round 0 end");
    }

    @Test
    void aRefusedSubmitEndsARoundWithoutALabel() throws Exception {
        Recording recording = new Recording();
        ThreadPoolExecutor executor = Recording.executor(1, 1, 1);
        ExecutorService pool = recording.pool("p", executor);
        executor.shutdown();
        Recording.on("t-1", () -> thrownBy(() -> pool.submit(Recorder.label("a", () -> 1))));
        Recording.on("t-2", () -> thrownBy(() -> pool.execute(Recorder.label("b", () -> {}))));
        assertLines(recording.acts(), "round 0 begin t", "round 0 submit 0 a p", "round 0 refused 0", "round 0 end",
                "round 1 begin t", "round 1 submit 1 b p", "round 1 refused 1", "round 1 end");
    }

    @Test
    void aFailingThreadFactoryRecordsARefusal() throws Exception {
        Recording recording = new Recording();
        ThreadPoolExecutor executor = Recording.executor(1, 1, 1);
        executor.setThreadFactory(task -> {
            throw new IllegalStateException("no thread");
        });
        ExecutorService pool = recording.pool("p", executor);
        try (Recorder.Round round = recording.recorder.round("c")) {
            assertEquals("IllegalStateException: no thread", thrownBy(() -> pool.submit(Recorder.label("a", () -> 1))));
        }
        assertLines(recording.acts(), "round 0 begin c", "round 0 submit 0 a p", "round 0 refused 0", "round 0 end");
    }

    /** Returns the lines since the third submit, which is made while one job runs and one is queued. */
    private static List<String> third(RejectedExecutionHandler handler, boolean throwing) throws Exception {
        Recording recording = new Recording();
        ThreadPoolExecutor executor = Recording.executor(1, 1, 1);
        executor.setRejectedExecutionHandler(handler);
        ExecutorService pool = recording.pool("p", executor);
        CountDownLatch go = new CountDownLatch(1);
        CountDownLatch started = new CountDownLatch(1);
        try (Recorder.Round round = recording.recorder.round("c")) {
            hold(pool, started, go);
            boolean thrown = false;
            try {
                pool.execute(Recorder.label("third", () -> pool.execute(Recorder.label("inner", () -> {}))));
            } catch (RejectedExecutionException refused) {
                thrown = true;
            }
            assertEquals(throwing, thrown);
        }
        go.countDown();
        RecorderTest.waitUntilDone(executor, 2);
        List<String> acts = recording.acts();
        return acts.subList(acts.indexOf("round 0 submit 2 third p"), acts.size());
    }

    /** Submits two jobs, and waits until the first one runs. The second one is queued. */
    private static void hold(ExecutorService pool, CountDownLatch started, CountDownLatch go) throws InterruptedException {
        pool.submit(Recorder.label("first", () -> {
            started.countDown();
            return Recording.await(go);
        }));
        Recording.await(started);
        pool.submit(Recorder.label("second", () -> 2));
    }

    private static void elsewhere() throws Exception {
        Recording recording = new Recording();
        ThreadPoolExecutor executor = Recording.executor(1, 1, 1);
        Thread[] other = new Thread[1];
        executor.setRejectedExecutionHandler((task, by) -> {
            other[0] = new Thread(() -> {
                try {
                    by.getQueue().put(task);
                } catch (InterruptedException over) {
                    return;
                }
            });
            other[0].start();
        });
        ExecutorService pool = recording.pool("p", executor);
        CountDownLatch go = new CountDownLatch(1);
        CountDownLatch started = new CountDownLatch(1);
        try (Recorder.Round round = recording.recorder.round("c")) {
            hold(pool, started, go);
            Future<Integer> third = pool.submit(Recorder.label("third", () -> 3));
            go.countDown();
            assertEquals(3, third.get());
        }
        List<String> acts = recording.acts();
        assertTrue(acts.indexOf("round 0 refused 2") + 1 > acts.indexOf("round 0 submit 2 third p"));
        assertTrue(acts.contains("job 2 start") && acts.contains("round 0 got 2"));
    }

    @Test
    void aSubmitAfterShutdownIsRefused() throws Exception {
        Recording recording = new Recording();
        ExecutorService pool = recording.pool("p");
        try (Recorder.Round round = recording.recorder.round("c")) {
            pool.submit(Recorder.label("a", () -> 1)).get();
            pool.shutdown();
            thrownBy(() -> pool.submit(Recorder.label("a", () -> 2)));
        }
        List<String> lines = recording.lines();
        assertLines(lines.subList(6, lines.size()), "round 0 got 0", "shutdown p", "round 0 submit 1 a p", "round 0 refused 1", "round 0 end", "end");
        assertTrue(pool.isShutdown() && pool.awaitTermination(60, java.util.concurrent.TimeUnit.SECONDS) && pool.isTerminated());
    }

    @Test
    void shutdownNowRecordsRemovedJobs() throws Exception {
        Recording recording = new Recording();
        ExecutorService pool = recording.pool("p");
        CountDownLatch started = new CountDownLatch(1);
        try (Recorder.Round round = recording.recorder.round("c")) {
            hold(pool, started, new CountDownLatch(1));
            List<Runnable> taken = pool.shutdownNow();
            assertEquals(1, taken.size());
            taken.get(0).run();
        }
        List<String> lines = recording.lines().stream().filter(line -> !line.startsWith("job 0 ")).toList();
        assertLines(lines.subList(lines.indexOf("shutdown p"), lines.size()),
                "shutdown p", "removed 1", "job 1 start", "job 1 end", "round 0 end", "end");
    }
}
