package sizing.junit5;

import static org.junit.jupiter.api.Assertions.assertThrows;
import static sizing.Recorder.label;
import static sizing.junit5.ServiceRun.task;
import static sizing.junit5.ServiceRun.work;

import java.io.IOException;
import java.io.UncheckedIOException;
import java.util.ArrayDeque;
import java.util.Collections;
import java.util.Deque;
import java.util.List;
import java.util.concurrent.Callable;
import java.util.concurrent.CompletableFuture;
import java.util.concurrent.CountDownLatch;
import java.util.concurrent.CyclicBarrier;
import java.util.concurrent.ExecutionException;
import java.util.concurrent.ExecutorCompletionService;
import java.util.concurrent.ExecutorService;
import java.util.concurrent.Executors;
import java.util.concurrent.ForkJoinWorkerThread;
import java.util.concurrent.Future;
import java.util.concurrent.Semaphore;
import java.util.concurrent.ThreadLocalRandom;
import java.util.concurrent.TimeUnit;
import java.util.concurrent.TimeoutException;
import java.util.stream.IntStream;
import java.util.stream.Stream;

/**
 * Services for the entries of docs/PATTERNS.md on clients: correct uses, and uses that the page does not cover and that `conform`
 * reports.
 */
final class ClientServices {
    private ClientServices() {}

    static void tomcat(ServiceRun run) throws Exception {
        ExecutorService queries = run.pool("queries");
        run.rounds("request", 30, 5, () -> {
            String name = "query_%02d".formatted(1 + ThreadLocalRandom.current().nextInt(30));
            queries.submit(task(name, 1)).get();
        });
    }

    static void tomcatDeferredResult(ServiceRun run) throws Exception {
        ExecutorService queries = run.pool("queries");
        run.rounds("request", 2, 2, () -> CompletableFuture.runAsync(run::awaitEnd, label("query_01", queries)));
    }

    private static List<Callable<Integer>> parts() {
        return Collections.nCopies(4, task("part", 1));
    }

    static void scheduled(ServiceRun run) throws Exception {
        ExecutorService tasks = run.pool("tasks");
        Thread report = new Thread(() -> {
            try {
                run.rounds("report", 1, 20, () -> tasks.invokeAll(parts()));
            } catch (InterruptedException interrupted) {
                Thread.currentThread().interrupt();
            }
        });
        report.start();
        run.rounds("cleanup", 1, 20, () -> tasks.submit(task("sweep", 1)).get());
        report.join();
    }

    static void scheduledThatOverlaps(ServiceRun run) throws Exception {
        ExecutorService tasks = run.pool("tasks");
        CyclicBarrier both = new CyclicBarrier(2);
        run.rounds("cleanup", 2, 1, () -> {
            both.await(60, TimeUnit.SECONDS);
            tasks.submit(task("sweep", 1)).get();
            both.await(60, TimeUnit.SECONDS);
        });
    }

    static void scheduledWithoutGet(ServiceRun run) throws Exception {
        ExecutorService tasks = run.pool("tasks");
        run.rounds("cleanup", 1, 2, () -> tasks.submit(task("sweep", 1)));
    }

    static void nightly(ServiceRun run) throws Exception {
        ExecutorService tasks = run.pool("tasks");
        Thread nightly = new Thread(() -> {
            try {
                run.rounds("nightly", 1, 5, () -> tasks.invokeAll(parts()));
            } catch (InterruptedException interrupted) {
                Thread.currentThread().interrupt();
            }
        });
        nightly.start();
        run.rounds("request", 50, 5, () -> tasks.submit(task("query", 1)).get());
        nightly.join();
    }

    static void nightlyThatOverlaps(ServiceRun run) throws Exception {
        ExecutorService tasks = run.pool("tasks");
        CyclicBarrier both = new CyclicBarrier(2);
        run.rounds("nightly", 2, 1, () -> {
            both.await(60, TimeUnit.SECONDS);
            tasks.invokeAll(parts());
            both.await(60, TimeUnit.SECONDS);
        });
    }

    static void importWindow(ServiceRun run) throws Exception {
        ExecutorCompletionService<Void> loaded = new ExecutorCompletionService<>(run.pool("load"));
        Semaphore places = run.permits("place", 32);
        run.threads("importer", 1, 1, () -> {
            int open = 0;
            for (int row = 0; row < 500; row++) {
                if (open == 32) {
                    loaded.take();
                    places.release();
                } else {
                    open++;
                }
                places.acquire();
                loaded.submit(label("row", () -> {
                    work(1);
                }), null);
            }
            while (open-- > 0) {
                loaded.take();
                places.release();
            }
        });
    }

    static void importWindowReleasedByJobs(ServiceRun run) throws Exception {
        ExecutorService load = run.pool("load");
        Semaphore places = run.permits("place", 32);
        run.threads("importer", 1, 500, () -> {
            places.acquire();
            load.execute(label("row", () -> {
                try {
                    work(1);
                } finally {
                    places.release();
                }
            }));
        });
    }

    /** Imports rows with a window that gets the oldest job first. */
    static void importWindowOfFutures(ServiceRun run) throws Exception {
        ExecutorService load = run.pool("load");
        run.threads("importer", 1, 1, () -> importRows(run, load, Collections.nCopies(500, task("row", 1))));
    }

    private static void importRows(ServiceRun run, ExecutorService load, Iterable<Callable<Integer>> rows) throws Exception {
        Semaphore places = run.permits("place", 32);
        Deque<Future<?>> open = new ArrayDeque<>();
        for (Callable<Integer> row : rows) {
            if (open.size() == 32) {
                open.removeFirst().get();
                places.release();
            }
            places.acquire();
            open.add(load.submit(row));
        }
        for (Future<?> each : open) {
            each.get();
            places.release();
        }
    }

    /** Runs an import that ends with a job open, and then another one, which assumes that all places are free. */
    private static void importTwice(ServiceRun run, Iterable<Callable<Integer>> rows, Class<? extends Exception> planned) throws Exception {
        ExecutorService load = run.pool("load");
        run.threads("importer", 1, 1, () -> {
            assertThrows(planned, () -> importRows(run, load, rows));
            importRows(run, load, Collections.nCopies(32, task("row", 1)));
        });
    }

    static void importThatIsLeft(ServiceRun run) throws Exception {
        Callable<Integer> row = label("row", run::valueAtEnd);
        importTwice(run, () -> Stream.iterate(row, before -> {
            throw new UncheckedIOException(new IOException("planned"));
        }).iterator(), UncheckedIOException.class);
    }

    static void importWindowWithAGetThatThrows(ServiceRun run) throws Exception {
        Callable<Integer> failing = label("row", () -> {
            throw new IllegalStateException("planned");
        });
        importTwice(run, List.of(failing, label("row", run::valueAtEnd)), ExecutionException.class);
    }

    static void importAllAtOnce(ServiceRun run) throws Exception {
        ExecutorService load = run.pool("load");
        run.rounds("place", 1, 1, () -> load.invokeAll(Collections.nCopies(10, task("row", 1))));
    }

    static void importThatOverlaps(ServiceRun run) throws Exception {
        ExecutorService load = run.pool("load");
        Semaphore places = run.permits("place", 2 * 32);
        run.threads("importer", 2, 1, () -> {
            for (int row = 0; row < 32; row++) {
                places.acquire();
                load.execute(label("row", () -> {
                    run.awaitEnd();
                    places.release();
                }));
            }
        });
    }

    static void importWindowWithTimedPoll(ServiceRun run) throws Exception {
        ExecutorCompletionService<Void> loaded = new ExecutorCompletionService<>(run.pool("load"));
        Semaphore places = run.permits("place", 32);
        run.threads("importer", 1, 1, () -> {
            places.acquire();
            loaded.submit(label("row", () -> {
                run.awaitEnd();
            }), null);
            loaded.poll(1, TimeUnit.MILLISECONDS);
            places.release();
        });
    }

    static void virtualThreads(ServiceRun run) throws Exception {
        ExecutorService render = run.pool("render");
        Semaphore permits = run.permits("permit", 64);
        run.threads("virtual", 100, 5, () -> {
            permits.acquire();
            try {
                render.submit(task("page", 1)).get();
            } finally {
                permits.release();
            }
        });
    }

    static void virtualThreadsTimed(ServiceRun run) throws Exception {
        ExecutorService render = run.pool("render");
        Semaphore permits = run.permits("permit", 64);
        run.threads("virtual", 1, 1, () -> {
            permits.acquire();
            try {
                render.submit(label("page", () -> {
                    run.awaitEnd();
                })).get(1, TimeUnit.MILLISECONDS);
            } catch (TimeoutException planned) {
                return;
            } finally {
                permits.release();
            }
        });
    }

    /** Waits for a job, as {@code await} in docs/PATTERNS.md does. */
    private static <T> T await(Future<T> future) {
        try {
            return future.get();
        } catch (InterruptedException | ExecutionException failed) {
            throw new IllegalStateException(failed);
        }
    }

    /** Returns the kind of the thread that runs a part of a parallel stream. */
    private static String kindOfThread() {
        return Thread.currentThread() instanceof ForkJoinWorkerThread ? "worker" : "request";
    }

    static void parallelStream(ServiceRun run) throws Exception {
        ExecutorService prices = run.pool("prices");
        run.threads("request", 50, 1, () -> IntStream.range(0, 8).parallel()
                .forEach(order -> run.round(kindOfThread(), () -> await(prices.submit(task("price", 1))))));
    }

    /** Submits from a parallel stream. The common pool starts further threads while its workers wait in {@code join}. */
    static void parallelStreamWithJoin(ServiceRun run) throws Exception {
        ExecutorService prices = label("price", run.pool("prices"));
        CountDownLatch started = new CountDownLatch(12);
        run.threads("request", 1, 1, () -> IntStream.range(0, 40).parallel().forEach(order -> run.round(kindOfThread(), () -> {
            started.countDown();
            CompletableFuture.runAsync(() -> run.await(started), prices).join();
        })));
    }

    static void kafkaConsumers(ServiceRun run) throws Exception {
        ExecutorService stock = run.pool("stock");
        run.rounds("consumer", 6, 20, () -> stock.submit(task("reserve", 1)).get());
    }

    /** Submits a job from a listener with asynchronous acknowledgement, which returns while the job is open. */
    static void kafkaListenerThatReturns(ServiceRun run) throws Exception {
        ExecutorService stock = label("reserve", run.pool("stock"));
        run.rounds("consumer", 1, 1, () -> CompletableFuture.runAsync(run::awaitEnd, stock));
    }

    static void kafkaBatchListener(ServiceRun run) throws Exception {
        ExecutorService stock = run.pool("stock");
        run.rounds("consumer", 1, 1, () -> stock.invokeAll(Collections.nCopies(3, task("reserve", 1))));
    }

    static void kafkaRetryTopic(ServiceRun run) throws Exception {
        ExecutorService stock = run.pool("stock");
        run.rounds("retry_consumer", 1, 1, () -> stock.submit(task("reserve", 1)).get());
    }

    static void kafkaContainerThatOverlaps(ServiceRun run) throws Exception {
        ExecutorService stock = run.pool("stock");
        CyclicBarrier all = new CyclicBarrier(7);
        run.rounds("consumer", 7, 1, () -> {
            all.await(60, TimeUnit.SECONDS);
            stock.submit(task("reserve", 1)).get();
        });
    }

    static void grpcServer(ServiceRun run) throws Exception {
        ExecutorService render = run.pool("render");
        ExecutorService handlers = Executors.newFixedThreadPool(64);
        for (int call = 0; call < 300; call++) {
            handlers.execute(() -> run.round("permit", () -> render.submit(task("page", 1)).get()));
        }
        handlers.shutdown();
        handlers.awaitTermination(60, TimeUnit.SECONDS);
    }

    static void grpcHandlerThatReturns(ServiceRun run) throws Exception {
        ExecutorService render = label("page", run.pool("render"));
        run.rounds("permit", 1, 1, () -> CompletableFuture.runAsync(run::awaitEnd, render).thenRun(() -> work(1)));
    }
}
