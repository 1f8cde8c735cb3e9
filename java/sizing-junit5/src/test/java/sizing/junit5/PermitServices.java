package sizing.junit5;

import static sizing.Recorder.label;
import static sizing.junit5.ServiceRun.work;

import java.util.Collections;
import java.util.List;
import java.util.concurrent.AbstractExecutorService;
import java.util.concurrent.ArrayBlockingQueue;
import java.util.concurrent.Callable;
import java.util.concurrent.CompletableFuture;
import java.util.concurrent.CyclicBarrier;
import java.util.concurrent.ExecutorCompletionService;
import java.util.concurrent.ExecutorService;
import java.util.concurrent.Executors;
import java.util.concurrent.FutureTask;
import java.util.concurrent.ScheduledExecutorService;
import java.util.concurrent.Semaphore;
import java.util.concurrent.ThreadLocalRandom;
import java.util.concurrent.ThreadPoolExecutor;
import java.util.concurrent.TimeUnit;
import java.util.concurrent.TimeoutException;
import java.util.concurrent.atomic.AtomicInteger;
import java.util.function.UnaryOperator;

/** Services for the patterns of docs/PERMITS.md. */
final class PermitServices {
    private static final int THREADS = 40;
    private static final int TURNS = 5;

    private PermitServices() {}

    private static boolean rarely() {
        return ThreadLocalRandom.current().nextInt(3) == 0;
    }

    /** The pool `mail` and its permits, as docs/PERMITS.md has them. */
    record Mails(ExecutorService pool, Semaphore permits) {
        static Mails of(ServiceRun run) throws Exception {
            return new Mails(run.pool("mail"), run.permits("permit", 20));
        }

        FutureTask<Integer> submit() throws InterruptedException {
            FutureTask<Integer> task = new FutureTask<>(() -> work(1));
            permits.acquire();
            try {
                pool.execute(label("send", () -> {
                    try {
                        task.run();
                    } finally {
                        permits.release();
                    }
                }));
            } catch (RuntimeException | Error refused) {
                permits.release();
                throw refused;
            }
            return task;
        }
    }

    static void fireAndForget(ServiceRun run) throws Exception {
        Mails mails = Mails.of(run);
        run.threads("client", THREADS, TURNS, () -> {
            if (!mails.permits.tryAcquire(rarely() ? 0 : 1, TimeUnit.MILLISECONDS)) {
                work(1);
                return;
            }
            mails.pool.submit(label("send", () -> {
                try {
                    return work(1);
                } finally {
                    mails.permits.release();
                }
            }));
        });
    }

    static void timedGetsAndCancels(ServiceRun run) throws Exception {
        Mails mails = Mails.of(run);
        run.threads("client", THREADS, TURNS, () -> {
            FutureTask<Integer> mail = mails.submit();
            if (rarely()) {
                mail.cancel(true);
                return;
            }
            try {
                mail.get(1, TimeUnit.MILLISECONDS);
            } catch (TimeoutException planned) {
                work(1);
            }
        });
    }

    static void permitsInDecorator(ServiceRun run) throws Exception {
        Semaphore permits = run.permits("permit", 20);
        UnaryOperator<Runnable> decorator = task -> {
            permits.acquireUninterruptibly();
            return () -> {
                try {
                    task.run();
                } finally {
                    permits.release();
                }
            };
        };
        ThreadPoolExecutor executor = new ThreadPoolExecutor(2, 2, 0, TimeUnit.SECONDS, new ArrayBlockingQueue<>(20));
        ExecutorService mail = run.pool("mail", executor, decorator);
        run.threads("client", THREADS, TURNS, () -> {
            if (rarely()) {
                CompletableFuture.runAsync(() -> work(1), label("send", mail));
            } else {
                mail.submit(label("send", () -> work(1)));
            }
        });
    }

    static void permitsInAfterExecute(ServiceRun run) throws Exception {
        Semaphore permits = run.permits("permit", 20);
        ThreadPoolExecutor executor = new ThreadPoolExecutor(2, 2, 0, TimeUnit.SECONDS, new ArrayBlockingQueue<>(20)) {
            @Override
            protected void afterExecute(Runnable task, Throwable thrown) {
                permits.release();
            }
        };
        ExecutorService mail = run.pool("mail", executor);
        run.threads("client", THREADS, TURNS, () -> {
            permits.acquire();
            mail.execute(label("send", () -> {
                work(1);
            }));
        });
    }

    static void permitsOfWhoTakes(ServiceRun run) throws Exception {
        Mails mails = Mails.of(run);
        ExecutorCompletionService<Integer> service = new ExecutorCompletionService<>(mails.pool);
        Thread taker = new Thread(() -> {
            try {
                for (int taken = 0; taken < THREADS * TURNS; taken++) {
                    service.take();
                    mails.permits.release();
                }
            } catch (InterruptedException interrupted) {
                Thread.currentThread().interrupt();
            }
        });
        taker.start();
        run.threads("client", THREADS, TURNS, () -> {
            mails.permits.acquire();
            service.submit(label("send", () -> work(1)));
        });
        taker.join();
    }

    static void bulkhead(ServiceRun run) throws Exception {
        Mails mails = Mails.of(run);
        run.threads("client", THREADS, TURNS, () -> {
            mails.permits.acquire();
            try {
                mails.pool.submit(label("send", () -> work(1))).get();
            } finally {
                mails.permits.release();
            }
        });
    }

    static void bulkheadAroundJoin(ServiceRun run) throws Exception {
        Mails mails = Mails.of(run);
        ExecutorService send = label("send", mails.pool);
        run.threads("client", THREADS, TURNS, () -> {
            mails.permits.acquire();
            try {
                CompletableFuture.supplyAsync(() -> work(1), send).join();
            } finally {
                mails.permits.release();
            }
        });
    }

    static void permitsBesideRequests(ServiceRun run) throws Exception {
        ExecutorService tasks = run.pool("tasks");
        Semaphore permits = run.permits("permit", 20);
        run.rounds("request", 50, TURNS, () -> {
            permits.acquire();
            tasks.execute(label("mail", () -> {
                try {
                    work(1);
                } finally {
                    permits.release();
                }
            }));
            tasks.submit(label("query", () -> work(1))).get();
        });
    }

    static void permitsTakenByJobs(ServiceRun run) throws Exception {
        ExecutorService web = run.pool("web");
        ExecutorService audit = run.pool("audit");
        Semaphore permits = run.permits("permit", 10);
        run.rounds("request", 50, TURNS, () -> web.submit(label("page", () -> {
            if (permits.tryAcquire()) {
                audit.submit(label("entry", () -> {
                    try {
                        return work(1);
                    } finally {
                        permits.release();
                    }
                }));
            }
            return work(1);
        })).get());
    }

    static void chainWithAPermit(ServiceRun run) throws Exception {
        ExecutorService load = label("load", run.pool("io"));
        ExecutorService render = label("render", run.pool("cpu"));
        Semaphore permits = run.permits("chain", 40);
        run.threads("client", 60, TURNS, () -> {
            permits.acquire();
            CompletableFuture.supplyAsync(() -> work(1), load).thenApplyAsync(x -> work(x + 1), render)
                    .whenComplete((page, failed) -> permits.release()).copy().orTimeout(1, TimeUnit.MILLISECONDS);
        });
        permits.acquire(40);
        permits.release(40);
    }

    static void oneBurst(ServiceRun run) throws Exception {
        ExecutorService mail = run.pool("mail");
        // all orders begin at once: otherwise they would look like one client that repeats, and `learn` would write `repeat`
        CyclicBarrier burst = new CyclicBarrier(3);
        run.rounds("order", 3, 1, () -> {
            burst.await();
            mail.execute(label("send", () -> {
                work(1);
            }));
        });
    }

    /** Submits mails from event loops, which do not wait: without a permit a loop submits nothing. */
    static void eventLoop(ServiceRun run) throws Exception {
        Mails mails = Mails.of(run);
        run.threads("loop", 4, 100, () -> {
            if (!mails.permits.tryAcquire()) {
                work(1);
                return;
            }
            mails.pool.submit(label("send", () -> {
                try {
                    return work(1);
                } finally {
                    mails.permits.release();
                }
            }));
        });
    }

    /** Submits rows as a `flatMap` does: each place submits its next row when the previous one is done. */
    static void flatMap(ServiceRun run) throws Exception {
        FlatMap flatMap = new FlatMap(label("row", run.pool("load")), run.permits("place", 32), new AtomicInteger(300));
        for (int place = 0; place < 32; place++) {
            flatMap.places.acquire();
            flatMap.next();
        }
        flatMap.places.acquire(32);
        flatMap.places.release(32);
    }

    private record FlatMap(ExecutorService load, Semaphore places, AtomicInteger rows) {
        /** Submits a row with the permit that this thread acquired, or releases the permit after the last row. */
        void next() {
            if (rows.getAndDecrement() <= 0) {
                places.release();
                return;
            }
            CompletableFuture.runAsync(() -> work(1), load).whenComplete((none, failed) -> {
                places.release();
                places.acquireUninterruptibly();
                next();
            });
        }
    }

    static void retriesByAScheduler(ServiceRun run) throws Exception {
        Mails mails = Mails.of(run);
        ScheduledExecutorService scheduler = Executors.newScheduledThreadPool(2);
        Retries retries = new Retries(run, label("send", mails.pool), mails.permits, scheduler);
        run.threads("client", THREADS, TURNS, () -> {
            mails.permits.acquire();
            retries.attempt(1);
        });
        mails.permits.acquire(20);
        mails.permits.release(20);
        scheduler.shutdown();
    }

    private record Retries(ServiceRun run, ExecutorService mails, Semaphore permits, ScheduledExecutorService scheduler) {
        /** Submits a mail, and schedules the next attempt if it fails. This is the `attempt` of docs/PERMITS.md. */
        void attempt(int number) {
            CompletableFuture.supplyAsync(() -> work(!rarely()), mails).whenComplete((sent, failed) -> {
                if (sent || number == 3) {
                    permits.release();
                } else {
                    scheduler.schedule(run.recorder.withPermit(() -> attempt(number + 1)), 1, TimeUnit.MILLISECONDS);
                }
            });
        }
    }

    /** The pool of docs/PERMITS.md in which each task takes a permit. */
    private static final class PermittedExecutor extends AbstractExecutorService {
        private final Mails mails;

        PermittedExecutor(Mails mails) {
            this.mails = mails;
        }

        @Override
        public void execute(Runnable task) {
            mails.permits.acquireUninterruptibly();
            try {
                mails.pool.execute(label("send", () -> {
                    try {
                        task.run();
                    } finally {
                        mails.permits.release();
                    }
                }));
            } catch (RuntimeException | Error refused) {
                mails.permits.release();
                throw refused;
            }
        }

        @Override
        public void shutdown() {
            mails.pool.shutdown();
        }

        @Override
        public List<Runnable> shutdownNow() {
            return mails.pool.shutdownNow();
        }

        @Override
        public boolean isShutdown() {
            return mails.pool.isShutdown();
        }

        @Override
        public boolean isTerminated() {
            return mails.pool.isTerminated();
        }

        @Override
        public boolean awaitTermination(long time, TimeUnit unit) throws InterruptedException {
            return mails.pool.awaitTermination(time, unit);
        }
    }

    static void permittedExecutor(ServiceRun run) throws Exception {
        ExecutorService permitted = new PermittedExecutor(Mails.of(run));
        List<Callable<Integer>> calls = Collections.nCopies(8, () -> work(1));
        run.threads("client", 8, TURNS, () -> {
            permitted.invokeAll(calls, 1, TimeUnit.MILLISECONDS);
            permitted.invokeAny(calls);
            CompletableFuture.supplyAsync(() -> work(1), permitted).orTimeout(100, TimeUnit.MICROSECONDS);
        });
    }
}
