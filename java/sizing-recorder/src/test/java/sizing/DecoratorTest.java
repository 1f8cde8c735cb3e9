package sizing;

import static sizing.RecordingAssertions.assertLines;

import java.util.concurrent.CompletableFuture;
import java.util.concurrent.CountDownLatch;
import java.util.concurrent.ExecutorService;
import java.util.concurrent.Semaphore;
import java.util.concurrent.ThreadPoolExecutor;
import java.util.function.UnaryOperator;
import org.junit.jupiter.api.Test;

/** Tests of pools with a decorator of tasks. */
class DecoratorTest {
    private final Recording recording = new Recording();

    @Test
    void aDecoratorMayTakeAPermitForTheSubmit() throws Exception {
        Semaphore permits = recording.recorder.permits("permit", 1);
        UnaryOperator<Runnable> decorator = task -> {
            permits.acquireUninterruptibly();
            return () -> {
                try {
                    task.run();
                } finally {
                    permits.release();
                }
            };
        };
        ExecutorService pool = recording.recorder.pool("mail", Recording.executor(1, 1, 1), decorator);
        pool.execute(Recorder.label("send", () -> { }));
        pool.submit(Recorder.label("send", () -> 1));
        CompletableFuture.supplyAsync(() -> 1, Recorder.label("send", pool));
        permits.acquire();
        permits.release();
        assertLines(recording.acts().subList(0, 18),
                "round 0 begin permit", "round 0 submit 0 send mail", "job 0 start", "job 0 end", "round 0 got 0", "round 0 end",
                "round 1 begin permit", "round 1 submit 1 send mail", "job 1 start", "job 1 end", "round 1 got 1", "round 1 end",
                "round 2 begin permit", "round 2 submit 2 send mail", "job 2 start", "job 2 end", "round 2 got 2", "round 2 end");
    }

    @Test
    void refusalsOfDecoratedTasksAreRecorded() throws Exception {
        ThreadPoolExecutor executor = Recording.executor(1, 1, 1);
        executor.setRejectedExecutionHandler(new ThreadPoolExecutor.DiscardPolicy());
        ExecutorService pool = recording.recorder.pool("p", executor, task -> () -> task.run());
        CountDownLatch ended = new CountDownLatch(1);
        try (Recorder.Round round = recording.recorder.round("c")) {
            CountDownLatch started = new CountDownLatch(1);
            pool.submit(Recorder.label("a", () -> {
                started.countDown();
                return Recording.await(ended);
            }));
            Recording.await(started);
            pool.submit(Recorder.label("a", () -> 1));
            pool.submit(Recorder.label("a", () -> 1));
        }
        assertLines(recording.acts(), "round 0 begin c", "round 0 submit 0 a p", "job 0 start", "round 0 submit 1 a p", "round 0 submit 2 a p",
                "round 0 refused 2", "round 0 end");
        ended.countDown();
        executor.shutdown();
    }
}
