package sizing;

import static org.junit.jupiter.api.Assertions.assertEquals;
import static org.junit.jupiter.api.Assertions.assertTrue;

import java.util.List;
import java.util.concurrent.ArrayBlockingQueue;
import java.util.concurrent.BlockingQueue;
import java.util.concurrent.CountDownLatch;
import java.util.concurrent.ExecutorService;
import java.util.concurrent.FutureTask;
import java.util.concurrent.ThreadPoolExecutor;
import java.util.concurrent.TimeUnit;
import org.junit.jupiter.api.Test;

/**
 * Tests of the recordings of uses that docs/COVERAGE.md lists. {@code checks/java} shows the behaviour of the executors there.
 */
class CoverageTest {
    private final Recording recording = new Recording();

    /** Shuts down the pool, waits until it has terminated, and returns the lines that contain the word. */
    private List<String> linesWith(String word, ThreadPoolExecutor executor) throws Exception {
        executor.shutdown();
        assertTrue(executor.awaitTermination(60, TimeUnit.SECONDS));
        return recording.lines().stream().filter(line -> line.contains(word)).toList();
    }

    /** Returns an executor whose threads end without a message if a task throws an exception. */
    private static ThreadPoolExecutor silent(BlockingQueue<Runnable> queue) {
        ThreadPoolExecutor executor = Recording.executor(1, 1, queue);
        executor.setThreadFactory(task -> {
            Thread thread = new Thread(task);
            thread.setUncaughtExceptionHandler((one, thrown) -> { });
            return thread;
        });
        return executor;
    }

    @Test
    void aFutureWhoseDoneThrowsEndsItsThread() throws Exception {
        ThreadPoolExecutor executor = silent(new ArrayBlockingQueue<>(1));
        ExecutorService pool = recording.pool("p", executor);
        FutureTask<Integer> task = new FutureTask<>(() -> 1) {
            @Override
            protected void done() {
                throw new IllegalStateException("planned");
            }
        };
        pool.execute(Recorder.label("a", task));
        assertEquals(1, task.get());
        assertEquals(List.of("job 0 threw"), linesWith("threw", executor));
    }

    @Test
    void aFutureWhoseDoneSubmitsHasASubmitInItsJob() throws Exception {
        ThreadPoolExecutor executor = Recording.executor(1, 1, 2);
        ExecutorService pool = recording.pool("p", executor);
        CountDownLatch done = new CountDownLatch(1);
        pool.execute(Recorder.label("a", new FutureTask<>(() -> 1) {
            @Override
            protected void done() {
                pool.execute(Recorder.label("b", done::countDown));
            }
        }));
        Recording.await(done);
        assertEquals(List.of("job 0 submit 1 b p"), linesWith("submit 1", executor));
    }

    @Test
    void aJobPutIntoTheQueueIsUnseen() throws Exception {
        ThreadPoolExecutor executor = Recording.executor(1, 1, 2);
        ExecutorService pool = recording.pool("p", executor);
        executor.getQueue().add(() -> { });
        pool.submit(Recorder.label("a", () -> 1)).get();
        assertEquals(List.of("unseen p 1"), linesWith("unseen", executor));
    }

    @Test
    void aJobThatAPoolTakesFromASharedQueueIsUnseenThere() throws Exception {
        BlockingQueue<Runnable> queue = new ArrayBlockingQueue<>(2);
        ThreadPoolExecutor other = Recording.executor(1, 1, queue);
        recording.pool("other", other);
        ThreadPoolExecutor executor = Recording.executor(1, 1, queue);
        ExecutorService pool = recording.pool("p", executor);
        other.prestartAllCoreThreads();
        CountDownLatch both = new CountDownLatch(2);
        for (int job = 0; job < 2; job++) {
            pool.submit(Recorder.label("a", () -> {
                both.countDown();
                Recording.await(both);
                return 1;
            }));
        }
        Recording.await(both);
        other.shutdown();
        assertTrue(other.awaitTermination(60, TimeUnit.SECONDS));
        assertEquals(List.of("unseen other 1"), linesWith("unseen", executor));
    }
}
