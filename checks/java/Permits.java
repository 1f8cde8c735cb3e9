import java.util.concurrent.BlockingQueue;
import java.util.concurrent.CompletableFuture;
import java.util.concurrent.CountDownLatch;
import java.util.concurrent.ExecutionException;
import java.util.concurrent.ExecutorCompletionService;
import java.util.concurrent.Future;
import java.util.concurrent.FutureTask;
import java.util.concurrent.Semaphore;
import java.util.concurrent.ThreadPoolExecutor;
import java.util.concurrent.TimeUnit;
import java.util.concurrent.TimeoutException;

/** A pool, its permits, and a way in which a job returns its permit. */
final class Permits {
    /** The code that returns a job's permit. */
    enum Way {
        /** The task in the queue, after the body of the job. */
        JOB,
        /** The hook of the pool after each job. */
        HOOK,
        /** The thread that takes the job from an `ExecutorCompletionService`. */
        COMPLETION_SERVICE,
        /** A stage after the job. The submitter gets a copy of that stage, and cancels the copy. */
        COPIED_STAGE,
        /** The body of the job. */
        BODY,
        /** The body of a `CompletableFuture`. */
        SUPPLIER,
        /** A stage after the job. The submitter gets that stage, and cancels it. */
        LAST_STAGE,
        /** The hook of the future. */
        DONE,
        /** A stage after the job. The submitter gets the job's own future, and cancels it. */
        STAGE,
        /** The submitter, after a `get` that timed out. */
        TIMED_GET
    }

    /** A submitter that stops waiting for its job. */
    interface LetsGo {
        void letsGo() throws InterruptedException;
    }

    final Semaphore permits;
    final ThreadPoolExecutor pool;
    private final Way way;
    private final ExecutorCompletionService<Void> completed;

    Permits(Way way, int number, int threads, BlockingQueue<Runnable> queue) {
        this.way = way;
        permits = new Semaphore(number);
        pool = new ThreadPoolExecutor(threads, threads, 1, TimeUnit.HOURS, queue) {
            @Override
            protected void afterExecute(Runnable job, Throwable failed) {
                if (way == Way.HOOK) {
                    permits.release();
                }
            }
        };
        completed = new ExecutorCompletionService<>(pool);
    }

    /** Takes a permit and returns true, or returns false if there is none. */
    boolean tryAcquire() {
        while (completed.poll() != null) {
            permits.release();
        }
        return permits.tryAcquire();
    }

    void acquire() throws InterruptedException {
        while (!tryAcquire() && !permits.tryAcquire(1, TimeUnit.MILLISECONDS)) {
            Thread.onSpinWait();
        }
    }

    /** Submits a job with a permit that the caller holds. */
    LetsGo submit(Runnable body) {
        return switch (way) {
            case JOB -> {
                FutureTask<Void> task = new FutureTask<>(body, null);
                pool.execute(givingBack(task));
                yield () -> task.cancel(true);
            }
            case HOOK -> cancels(pool.submit(body));
            case COMPLETION_SERVICE -> cancels(completed.submit(body, null));
            case COPIED_STAGE -> cancels(givesBack(CompletableFuture.runAsync(body, pool)).copy());
            case BODY -> cancels(pool.submit(givingBack(body)));
            case SUPPLIER -> cancels(CompletableFuture.runAsync(givingBack(body), pool));
            case LAST_STAGE -> cancels(givesBack(CompletableFuture.runAsync(body, pool)));
            case DONE -> {
                FutureTask<Void> task = new FutureTask<>(body, null) {
                    @Override
                    protected void done() {
                        permits.release();
                    }
                };
                pool.execute(task);
                yield cancels(task);
            }
            case STAGE -> {
                CompletableFuture<Void> task = CompletableFuture.runAsync(body, pool);
                givesBack(task);
                yield cancels(task);
            }
            case TIMED_GET -> waitsALittle(pool.submit(body));
        };
    }

    private Runnable givingBack(Runnable body) {
        return () -> {
            try {
                body.run();
            } finally {
                permits.release();
            }
        };
    }

    private CompletableFuture<Void> givesBack(CompletableFuture<Void> job) {
        return job.whenComplete((none, failed) -> permits.release());
    }

    private static LetsGo cancels(Future<?> future) {
        return () -> future.cancel(true);
    }

    private LetsGo waitsALittle(Future<?> future) {
        return () -> {
            try {
                future.get(1, TimeUnit.MILLISECONDS);
            } catch (TimeoutException | ExecutionException over) {
                return;
            } finally {
                permits.release();
            }
        };
    }

    static void await(CountDownLatch latch) {
        boolean interrupted = true;
        while (interrupted) {
            try {
                latch.await();
                interrupted = false;
            } catch (InterruptedException again) {
                interrupted = true;
            }
        }
    }
}
