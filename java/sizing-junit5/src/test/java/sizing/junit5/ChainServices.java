package sizing.junit5;

import static sizing.Recorder.label;
import static sizing.junit5.ServiceRun.chance;
import static sizing.junit5.ServiceRun.work;

import java.util.Arrays;
import java.util.concurrent.CancellationException;
import java.util.concurrent.CompletableFuture;
import java.util.concurrent.CompletionException;
import java.util.concurrent.CountDownLatch;
import java.util.concurrent.ExecutorService;
import java.util.concurrent.Semaphore;
import java.util.concurrent.TimeUnit;
import java.util.concurrent.TimeoutException;

/**
 * Services for the entries of docs/PATTERNS.md on chains: correct uses, and uses that the page does not cover and that `conform`
 * reports.
 */
final class ChainServices {
    private ChainServices() {}

    private record Chain(ExecutorService load, ExecutorService render) {
        static Chain of(ServiceRun run) throws Exception {
            return new Chain(label("load", run.pool("io")), label("render", run.pool("cpu")));
        }

        CompletableFuture<Integer> start() {
            return CompletableFuture.supplyAsync(() -> work(1), load).thenApplyAsync(loaded -> work(loaded + 1), render);
        }

        CompletableFuture<Integer> startWith(Semaphore permits) throws InterruptedException {
            permits.acquire();
            try {
                return start().whenComplete((page, failed) -> permits.release());
            } catch (RuntimeException | Error refused) {
                permits.release();
                throw refused;
            }
        }
    }

    static void chain(ServiceRun run) throws Exception {
        Chain chain = Chain.of(run);
        run.rounds("chain", 40, 5, () -> chain.start().join());
    }

    static void chainWithStagesInNoPool(ServiceRun run) throws Exception {
        Chain chain = Chain.of(run);
        run.rounds("chain", 40, 5, () -> {
            CompletableFuture<Integer> loaded = CompletableFuture.supplyAsync(() -> 1, chain.load).thenApply(x -> x + 1);
            if (chance()) {
                work(1);
            }
            loaded.thenApplyAsync(x -> work(x + 1), chain.render).join();
        });
    }

    static void chainThatFails(ServiceRun run) throws Exception {
        Chain chain = Chain.of(run);
        run.rounds("chain", 40, 5, () -> {
            try {
                CompletableFuture.supplyAsync(() -> {
                    if (chance()) {
                        throw new IllegalStateException("planned");
                    }
                    return work(1);
                }, chain.load).thenApplyAsync(x -> work(x + 1), chain.render).join();
            } catch (CompletionException planned) {
                work(1);
            }
        });
    }

    static void chainComposed(ServiceRun run) throws Exception {
        Chain chain = Chain.of(run);
        run.rounds("chain", 40, 5, () -> CompletableFuture.supplyAsync(() -> work(1), chain.load)
                .thenCompose(x -> CompletableFuture.supplyAsync(() -> work(x + 1), chain.render)).join());
    }

    static void chainThatIsLeft(ServiceRun run) throws Exception {
        Chain chain = Chain.of(run);
        run.rounds("chain", 4, 1, () -> CompletableFuture.runAsync(run::awaitEnd, chain.load).thenApplyAsync(x -> work(1), chain.render));
    }

    static void chainWithAStageBeside(ServiceRun run) throws Exception {
        Chain chain = Chain.of(run);
        run.rounds("chain", 1, 1, () -> {
            CompletableFuture<Integer> loaded = CompletableFuture.supplyAsync(() -> work(1), chain.load);
            loaded.thenRunAsync(run::awaitEnd, chain.render);
            loaded.join();
        });
    }

    /** Runs a caller that stops waiting while the job of the first stage runs. */
    private static void chainLeftBy(ServiceRun run, ChainEnd end) throws Exception {
        Chain chain = Chain.of(run);
        CountDownLatch started = new CountDownLatch(1);
        run.rounds("chain", 1, 1, () -> {
            CompletableFuture<Void> loaded = CompletableFuture.runAsync(run.untilEnd(started), chain.load);
            run.await(started);
            try {
                end.of(loaded);
            } catch (CompletionException | CancellationException | TimeoutException planned) {
                work(1);
            }
        });
    }

    /** A way in which the caller stops waiting. */
    private interface ChainEnd {
        void of(CompletableFuture<Void> future) throws Exception;
    }

    static void chainWithTimeout(ServiceRun run) throws Exception {
        chainLeftBy(run, future -> future.orTimeout(1, TimeUnit.MILLISECONDS).join());
    }

    static void chainCompletedOnTimeout(ServiceRun run) throws Exception {
        chainLeftBy(run, future -> future.completeOnTimeout(null, 1, TimeUnit.MILLISECONDS).join());
    }

    static void chainCancelled(ServiceRun run) throws Exception {
        chainLeftBy(run, future -> {
            future.cancel(true);
            future.join();
        });
    }

    static void chainWithTimedGet(ServiceRun run) throws Exception {
        chainLeftBy(run, future -> future.get(1, TimeUnit.MILLISECONDS));
    }

    /** Runs two chains at once. Each is a client with its own permit. */
    static void chainsSideBySide(ServiceRun run) throws Exception {
        Chain chain = Chain.of(run);
        Semaphore chains = run.permits("chain", 40);
        run.threads("request", 20, 5, () -> {
            CompletableFuture<?> one = chain.startWith(chains);
            CompletableFuture<?> other = chain.startWith(chains);
            CompletableFuture.allOf(one, other).join();
        });
    }

    static void chainsInAJob(ServiceRun run) throws Exception {
        ExecutorService web = run.pool("web");
        ExecutorService io = run.pool("io");
        ExecutorService load = label("load", io);
        ExecutorService render = label("render", io);
        // the second chain overtakes the first
        CountDownLatch overtaken = new CountDownLatch(1);
        run.rounds("user", 1, 1, () -> web.submit(label("page", () -> {
            CompletableFuture<Void> first = CompletableFuture.runAsync(() -> run.await(overtaken), load).thenRunAsync(() -> work(1), render);
            CompletableFuture<Void> second = CompletableFuture.runAsync(() -> work(1), load).thenRunAsync(overtaken::countDown, render);
            return CompletableFuture.allOf(first, second).join();
        })).get());
        // the second chain begins after the second stage of the first
        run.rounds("user", 1, 1, () -> web.submit(label("page", () -> {
            CountDownLatch loaded = new CountDownLatch(1);
            CompletableFuture<Void> first = CompletableFuture.runAsync(() -> work(1), load).thenRunAsync(loaded::countDown, render);
            run.await(loaded);
            CompletableFuture<Void> second = CompletableFuture.runAsync(() -> work(1), load).thenRunAsync(() -> work(1), render);
            return CompletableFuture.allOf(first, second).join();
        })).get());
        run.rounds("user", 20, 5, () -> web.submit(label("page", () -> {
            CompletableFuture<Void> first = CompletableFuture.runAsync(() -> work(1), load).thenRunAsync(() -> work(1), render);
            if (chance()) {
                work(1);
            }
            CompletableFuture<Void> second = CompletableFuture.runAsync(() -> work(1), load).thenRunAsync(() -> work(1), render);
            return CompletableFuture.allOf(first, second).join();
        })).get());
    }

    static void threeChainsInAJob(ServiceRun run) throws Exception {
        ExecutorService web = run.pool("web");
        ExecutorService io = run.pool("io");
        CountDownLatch submitted = new CountDownLatch(1);
        run.rounds("user", 1, 1, () -> web.submit(label("page", () -> {
            CompletableFuture<?>[] chains = new CompletableFuture<?>[3];
            Arrays.setAll(chains, number -> CompletableFuture.runAsync(() -> run.await(submitted), label("load", io))
                    .thenRunAsync(() -> work(1), label("render", io)));
            submitted.countDown();
            return CompletableFuture.allOf(chains).join();
        })).get());
    }

    /** Submits a job from a stage in no pool. The stage runs on a thread of a pool, after the end of the thread's own job. */
    static void chainWithASubmitInNoPool(ServiceRun run) throws Exception {
        Chain chain = Chain.of(run);
        CountDownLatch joined = new CountDownLatch(1);
        run.rounds("chain", 1, 1, () -> {
            CompletableFuture<Void> accepted = CompletableFuture.runAsync(() -> run.await(joined), chain.load)
                    .thenRun(() -> chain.render.submit(() -> work(1)));
            joined.countDown();
            accepted.join();
        });
    }

    /** Submits the first stage again while the second one is open. */
    static void retryBesideAnOpenStage(ServiceRun run) throws Exception {
        ExecutorService tasks = run.pool("tasks");
        ExecutorService profile = label("profile", tasks);
        CountDownLatch open = new CountDownLatch(1);
        CountDownLatch retried = new CountDownLatch(1);
        run.rounds("request", 1, 1, () -> {
            CompletableFuture<Void> loaded = CompletableFuture.runAsync(() -> {
                run.await(open);
                throw new IllegalStateException("planned");
            }, profile).exceptionallyCompose(failed -> CompletableFuture.runAsync(retried::countDown, profile));
            CompletableFuture<Void> orders = CompletableFuture.runAsync(() -> {
                open.countDown();
                run.await(retried);
            }, label("orders", tasks));
            CompletableFuture.allOf(loaded, orders).join();
        });
    }

    static void composedStageThatIsDropped(ServiceRun run) throws Exception {
        Chain chain = Chain.of(run);
        run.rounds("chain", 1, 1, () -> CompletableFuture.supplyAsync(() -> work(1), chain.load).thenCompose(loaded -> {
            CompletableFuture.runAsync(run::awaitEnd, chain.render);
            return CompletableFuture.completedFuture(loaded);
        }).join());
    }
}
