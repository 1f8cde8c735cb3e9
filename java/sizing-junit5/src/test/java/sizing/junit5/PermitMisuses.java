package sizing.junit5;

import static sizing.Recorder.label;
import static sizing.junit5.ServiceRun.work;

import java.util.concurrent.CancellationException;
import java.util.concurrent.CompletableFuture;
import java.util.concurrent.CompletionException;
import java.util.concurrent.CountDownLatch;
import java.util.concurrent.ExecutorService;
import java.util.concurrent.Executors;
import java.util.concurrent.Future;
import java.util.concurrent.FutureTask;
import java.util.concurrent.ScheduledExecutorService;
import java.util.concurrent.Semaphore;
import java.util.concurrent.TimeUnit;
import java.util.concurrent.TimeoutException;
import java.util.concurrent.atomic.AtomicInteger;
import sizing.junit5.PermitServices.Mails;

/** Services with permits that docs/PERMITS.md does not cover and that `conform` reports. */
final class PermitMisuses {
    private PermitMisuses() {}

    static void timedBulkhead(ServiceRun run) throws Exception {
        Mails mails = Mails.of(run);
        run.threads("client", 1, 1, () -> {
            mails.permits().acquire();
            try {
                mails.pool().submit(label("send", () -> {
                    run.awaitEnd();
                })).get(1, TimeUnit.MILLISECONDS);
            } catch (TimeoutException planned) {
                return;
            } finally {
                mails.permits().release();
            }
        });
    }

    static void releaseInDone(ServiceRun run) throws Exception {
        Mails mails = Mails.of(run);
        run.threads("client", 1, 1, () -> {
            mails.permits().acquire();
            FutureTask<Integer> task = new FutureTask<>(() -> work(1)) {
                @Override
                protected void done() {
                    mails.permits().release();
                }
            };
            mails.pool().execute(label("send", () -> {
                run.awaitEnd();
                task.run();
            }));
            task.cancel(true);
        });
    }

    static void releaseAfterATimeoutOfTheStage(ServiceRun run) throws Exception {
        Mails mails = Mails.of(run);
        CountDownLatch started = new CountDownLatch(1);
        run.threads("client", 1, 1, () -> {
            mails.permits().acquire();
            CompletableFuture<Void> sent = CompletableFuture.runAsync(run.untilEnd(started), label("send", mails.pool()));
            run.await(started);
            try {
                sent.orTimeout(1, TimeUnit.MILLISECONDS).whenComplete((none, failed) -> mails.permits().release()).join();
            } catch (CompletionException planned) {
                work(1);
            }
        });
    }

    static void releaseBeforeTheLastGet(ServiceRun run) throws Exception {
        ExecutorService web = run.pool("web");
        ExecutorService audit = run.pool("audit");
        Semaphore permits = run.permits("permit", 10);
        run.threads("client", 1, 1, () -> {
            permits.acquire();
            audit.submit(label("entry", () -> {
                permits.release();
                return web.submit(label("page", () -> work(1))).get();
            })).get();
        });
    }

    static void releaseWithoutAcquire(ServiceRun run) throws Exception {
        Mails mails = Mails.of(run);
        mails.permits().release();
        sendUntilEnd(run, mails, 21);
    }

    /** Releases the permit in the job, and then a second time in the submitter. */
    static void releaseInTheJobAndInTheSubmitter(ServiceRun run) throws Exception {
        Mails mails = Mails.of(run);
        run.threads("client", 1, 1, () -> {
            mails.permits().acquire();
            try {
                mails.pool().submit(label("send", () -> {
                    try {
                        return work(1);
                    } finally {
                        mails.permits().release();
                    }
                })).get();
            } finally {
                mails.permits().release();
            }
        });
        sendUntilEnd(run, mails, 21);
    }

    /** Submits this number of mails, each with a permit. They are in flight until the run ends. */
    private static void sendUntilEnd(ServiceRun run, Mails mails, int count) throws InterruptedException {
        run.threads("client", count, 1, () -> {
            mails.permits().acquire();
            mails.pool().execute(label("send", () -> {
                run.awaitEnd();
                mails.permits().release();
            }));
        });
    }

    static void submitWithoutAPermit(ServiceRun run) throws Exception {
        Mails mails = Mails.of(run);
        run.threads("client", 1, 1, () -> mails.pool().execute(label("send", () -> {
            work(1);
        })));
    }

    static void cancelOfTheQueuedTask(ServiceRun run) throws Exception {
        Mails mails = Mails.of(run);
        run.threads("client", 1, 1, () -> {
            mails.permits().acquire();
            Future<?> sent = mails.pool().submit(label("send", () -> {
                try {
                    run.awaitEnd();
                } finally {
                    mails.permits().release();
                }
            }));
            sent.cancel(true);
            try {
                sent.get();
            } catch (CancellationException planned) {
                return;
            }
        });
    }

    /** Interrupts the get of a job by a cancel, so that the job leaves its own job open. */
    static void cancelOfAJobThatGets(ServiceRun run) throws Exception {
        ExecutorService pages = run.pool("pages");
        run.rounds("request", 1, 1, () -> {
            CountDownLatch submitted = new CountDownLatch(1);
            CountDownLatch interrupted = new CountDownLatch(1);
            Future<?> page = pages.submit(label("page", () -> {
                Future<?> part = pages.submit(label("part", () -> {
                    run.awaitEnd();
                }));
                submitted.countDown();
                try {
                    return part.get();
                } finally {
                    interrupted.countDown();
                }
            }));
            run.await(submitted);
            page.cancel(true);
            // wait for the interrupt: a get whose job ends first would return
            run.await(interrupted);
        });
    }

    /** Cancels a future that has a stage which releases the permit. The cancel runs that stage while the job runs. */
    static void stageOfACancelledFuture(ServiceRun run) throws Exception {
        Mails mails = Mails.of(run);
        CountDownLatch started = new CountDownLatch(1);
        run.threads("client", 1, 1, () -> {
            mails.permits().acquire();
            CompletableFuture<Void> sent = CompletableFuture.runAsync(run.untilEnd(started), label("send", mails.pool()));
            sent.whenComplete((none, failed) -> mails.permits().release());
            run.await(started);
            sent.cancel(true);
        });
    }

    static void interruptInABulkhead(ServiceRun run) throws Exception {
        Mails mails = Mails.of(run);
        run.threads("client", 1, 1, () -> {
            mails.permits().acquire();
            try {
                Future<?> sent = mails.pool().submit(label("send", () -> {
                    run.awaitEnd();
                }));
                Thread.currentThread().interrupt();
                sent.get();
            } catch (InterruptedException planned) {
                return;
            } finally {
                mails.permits().release();
            }
        });
    }

    /**
     * Submits a job with a permit from a job that waits for it. The get has no timeout, so the plan would need the submit in the
     * body of the waiting job.
     */
    static void getInAJobOfAJobWithAPermit(ServiceRun run) throws Exception {
        ExecutorService web = run.pool("web");
        ExecutorService audit = run.pool("audit");
        Semaphore permits = run.permits("permit", 10);
        run.rounds("request", 1, 1, () -> web.submit(label("page", () -> {
            if (!permits.tryAcquire()) {
                return 0;
            }
            return audit.submit(label("entry", () -> {
                try {
                    return work(1);
                } finally {
                    permits.release();
                }
            })).get();
        })).get());
    }

    static void submitAfterTheRelease(ServiceRun run) throws Exception {
        Mails mails = Mails.of(run);
        CountDownLatch submitted = new CountDownLatch(1);
        run.threads("client", 1, 1, () -> {
            mails.permits().acquire();
            mails.pool().execute(label("send", () -> {
                mails.permits().release();
                mails.pool().execute(label("send", run::awaitEnd));
                submitted.countDown();
            }));
            run.await(submitted);
        });
    }

    /** Releases the permit before the last attempt. */
    static void retryWithoutItsPermit(ServiceRun run) throws Exception {
        Mails mails = Mails.of(run);
        ExecutorService send = label("send", mails.pool());
        ScheduledExecutorService scheduler = Executors.newScheduledThreadPool(1);
        CountDownLatch done = new CountDownLatch(1);
        mails.permits().acquire();
        CompletableFuture.supplyAsync(() -> work(1), send).whenComplete((sent, failed) -> {
            mails.permits().release();
            scheduler.schedule(() -> CompletableFuture.supplyAsync(() -> work(1), send).thenRun(done::countDown), 1, TimeUnit.MILLISECONDS);
        });
        run.await(done);
        scheduler.shutdown();
    }

    /** Begins a second attempt while the first one is in flight. */
    static void hedgedTry(ServiceRun run) throws Exception {
        Mails mails = Mails.of(run);
        ExecutorService send = label("send", mails.pool());
        CountDownLatch started = new CountDownLatch(1);
        run.threads("client", 1, 1, () -> {
            mails.permits().acquire();
            CompletableFuture<Void> first = CompletableFuture.runAsync(run.untilEnd(started), send);
            run.await(started);
            CompletableFuture<Void> second = CompletableFuture.runAsync(() -> work(1), send);
            CompletableFuture.anyOf(first, second).whenComplete((sent, failed) -> mails.permits().release()).join();
        });
    }

    /** Cancels a row and releases its place while the row still runs. */
    static void cancelledPlace(ServiceRun run) throws Exception {
        ExecutorService load = run.pool("load");
        Semaphore places = run.permits("place", 32);
        run.threads("importer", 1, 1, () -> {
            places.acquire();
            load.submit(label("row", () -> {
                run.awaitEnd();
            })).cancel(true);
            places.release();
        });
    }

    /** Submits a job for each batch of rows, as {@code publishOn} does. The source gets none of the jobs. */
    static void jobForEachBatch(ServiceRun run) throws Exception {
        ExecutorService load = run.pool("load");
        AtomicInteger waiting = new AtomicInteger();
        run.threads("source", 1, 3, () -> {
            if (waiting.getAndIncrement() == 0) {
                load.execute(label("row", () -> {
                    do {
                        work(1);
                    } while (waiting.decrementAndGet() > 0);
                }));
            }
        });
    }

    static void eventLoopThatWaits(ServiceRun run) throws Exception {
        Mails mails = Mails.of(run);
        run.rounds("event_loop", 1, 1, () -> mails.pool().submit(label("send", () -> work(1))).get());
    }
}
