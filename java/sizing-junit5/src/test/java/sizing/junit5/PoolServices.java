package sizing.junit5;

import static sizing.Recorder.label;
import static sizing.junit5.ServiceRun.task;
import static sizing.junit5.ServiceRun.work;

import java.util.ArrayList;
import java.util.List;
import java.util.concurrent.ArrayBlockingQueue;
import java.util.concurrent.Callable;
import java.util.concurrent.CompletableFuture;
import java.util.concurrent.CompletionException;
import java.util.concurrent.CompletionStage;
import java.util.concurrent.CyclicBarrier;
import java.util.concurrent.ExecutorService;
import java.util.concurrent.Executors;
import java.util.concurrent.Future;
import java.util.concurrent.LinkedBlockingQueue;
import java.util.concurrent.RejectedExecutionException;
import java.util.concurrent.Semaphore;
import java.util.concurrent.SynchronousQueue;
import java.util.concurrent.ThreadPoolExecutor;
import java.util.concurrent.TimeUnit;
import java.util.concurrent.TimeoutException;
import java.util.function.Supplier;

/**
 * Services for the entries of docs/PATTERNS.md on pools: correct uses, and uses that the page does not cover and that `conform`
 * reports.
 */
final class PoolServices {
    private PoolServices() {}

    /** Submits tasks to an executor with the defaults of Spring's {@code ThreadPoolTaskExecutor}. */
    static void springDefaults(ServiceRun run) throws Exception {
        ExecutorService tasks = run.pool("tasks", new ThreadPoolExecutor(1, Integer.MAX_VALUE, 60, TimeUnit.SECONDS, new LinkedBlockingQueue<>()));
        run.rounds("request", 20, 5, () -> tasks.submit(task("task", 1)).get());
    }

    /** Submits tasks to an executor with the sizes of the plan, which {@code Sizing.pool} creates too. */
    static void springDefaultsOfThePlan(ServiceRun run) throws Exception {
        ExecutorService tasks = run.pool("tasks");
        run.rounds("request", 20, 5, () -> tasks.submit(task("task", 1)).get());
    }

    static void springWithQueueCapacity(ServiceRun run) throws Exception {
        ExecutorService tasks = run.pool("tasks", new ThreadPoolExecutor(1, Integer.MAX_VALUE, 60, TimeUnit.SECONDS, new LinkedBlockingQueue<>(200)));
        run.rounds("request", 2, 2, () -> tasks.submit(task("task", 1)).get());
    }

    static void springWithCoreTimeout(ServiceRun run) throws Exception {
        ThreadPoolExecutor executor = new ThreadPoolExecutor(1, Integer.MAX_VALUE, 60, TimeUnit.SECONDS, new LinkedBlockingQueue<>());
        executor.allowCoreThreadTimeOut(true);
        ExecutorService tasks = run.pool("tasks", executor);
        run.rounds("request", 2, 2, () -> tasks.submit(task("task", 1)).get());
    }

    /** Returns an executor with the settings of Spring Boot's applicationTaskExecutor, except its maximum. */
    private static ThreadPoolExecutor springBootExecutor(int max) {
        ThreadPoolExecutor executor = new ThreadPoolExecutor(8, max, 60, TimeUnit.SECONDS, new LinkedBlockingQueue<>());
        executor.allowCoreThreadTimeOut(true);
        return executor;
    }

    static void springBoot(ServiceRun run) throws Exception {
        ExecutorService tasks = run.pool("tasks", springBootExecutor(Integer.MAX_VALUE));
        run.rounds("request", 20, 5, () -> tasks.submit(task("task", 1)).get());
    }

    static void springBootOfThePlan(ServiceRun run) throws Exception {
        ExecutorService tasks = run.pool("tasks");
        run.rounds("request", 20, 5, () -> tasks.submit(task("task", 1)).get());
    }

    static void springBootOwnPool(ServiceRun run) throws Exception {
        ExecutorService tasks = run.pool("tasks", springBootExecutor(Integer.MAX_VALUE));
        ExecutorService parts = run.pool("parts", springBootExecutor(Integer.MAX_VALUE));
        run.rounds("visitor", 20, 5, () -> tasks.submit(label("page", () -> parts.submit(task("part", 1)).get())).get());
    }

    static void springBootWithAMaximum(ServiceRun run) throws Exception {
        ExecutorService tasks = run.pool("tasks", springBootExecutor(16));
        run.rounds("request", 2, 2, () -> tasks.submit(task("task", 1)).get());
    }

    static void springBootWithoutCoreTimeout(ServiceRun run) throws Exception {
        ThreadPoolExecutor executor = springBootExecutor(Integer.MAX_VALUE);
        executor.allowCoreThreadTimeOut(false);
        ExecutorService tasks = run.pool("tasks", executor);
        run.rounds("request", 2, 2, () -> tasks.submit(task("task", 1)).get());
    }

    static void fixedThreadPool(ServiceRun run) throws Exception {
        ExecutorService queries = run.pool("queries", (ThreadPoolExecutor) Executors.newFixedThreadPool(16));
        run.rounds("request", 40, 5, () -> queries.submit(task("query", 1)).get());
    }

    static void fixedThreadPoolWithABoundedQueue(ServiceRun run) throws Exception {
        ExecutorService queries = run.pool("queries", new ThreadPoolExecutor(16, 16, 0, TimeUnit.SECONDS, new ArrayBlockingQueue<>(200)));
        run.rounds("request", 40, 5, () -> queries.submit(task("query", 1)).get());
    }

    static void fixedThreadPoolWithOneThreadMore(ServiceRun run) throws Exception {
        ExecutorService queries = run.pool("queries", (ThreadPoolExecutor) Executors.newFixedThreadPool(17));
        run.rounds("request", 2, 2, () -> queries.submit(task("query", 1)).get());
    }

    static void fixedThreadPoolWithoutGet(ServiceRun run) throws Exception {
        ExecutorService queries = run.pool("queries");
        run.rounds("request", 2, 2, () -> queries.submit(task("query", 1)));
    }

    /** Writes lines of a log, for which no thread waits. */
    static void auditLog(ServiceRun run) throws Exception {
        ExecutorService web = run.pool("web");
        ExecutorService audit = label("line", run.pool("audit", (ThreadPoolExecutor) Executors.newFixedThreadPool(1)));
        run.rounds("request", 20, 5, () -> {
            web.submit(task("page", 1)).get();
            audit.execute(() -> work(1));
        });
    }

    /** Submits a line of the log, whose job submits a page and waits for it. */
    static void auditLogThatWaits(ServiceRun run) throws Exception {
        ExecutorService web = run.pool("web");
        ExecutorService audit = run.pool("audit", (ThreadPoolExecutor) Executors.newFixedThreadPool(1));
        run.rounds("request", 1, 1, () -> {
            web.submit(task("page", 1)).get();
            audit.submit(label("line", () -> web.submit(task("page", 1)).get())).get();
        });
    }

    static void cachedPoolReplaced(ServiceRun run) throws Exception {
        ExecutorService pages = run.pool("pages");
        run.rounds("request", 20, 5, () -> pages.submit(label("page", () -> pages.submit(task("part", 1)).get())).get());
    }

    static void cachedPool(ServiceRun run) throws Exception {
        ExecutorService pages = run.pool("pages", (ThreadPoolExecutor) Executors.newCachedThreadPool());
        run.rounds("request", 5, 2, () -> pages.submit(label("page", () -> pages.submit(task("part", 1)).get())).get());
    }

    static void synchronousQueue(ServiceRun run) throws Exception {
        ExecutorService render = run.pool("render", new ThreadPoolExecutor(8, 8, 0, TimeUnit.SECONDS, new SynchronousQueue<>()));
        run.rounds("permit", 1, 1, () -> render.submit(task("page", 1)).get());
    }

    static void coreZero(ServiceRun run) throws Exception {
        ExecutorService render = run.pool("render", new ThreadPoolExecutor(0, 8, 60, TimeUnit.SECONDS, new ArrayBlockingQueue<>(64)));
        run.rounds("permit", 1, 1, () -> render.submit(task("page", 1)).get());
    }

    static void asyncJoined(ServiceRun run) throws Exception {
        ExecutorService tasks = run.pool("tasks");
        run.rounds("request", 50, 5, () -> {
            CompletableFuture<Integer> profile = CompletableFuture.supplyAsync(() -> work(1), label("profile", tasks));
            CompletableFuture<Integer> orders = CompletableFuture.supplyAsync(() -> work(1), label("orders", tasks));
            CompletableFuture.allOf(profile, orders).join();
        });
    }

    static void asyncCombined(ServiceRun run) throws Exception {
        ExecutorService tasks = run.pool("tasks");
        run.rounds("request", 50, 5, () -> {
            CompletableFuture<Integer> profile = CompletableFuture.supplyAsync(() -> work(1), label("profile", tasks));
            CompletableFuture<Integer> orders = CompletableFuture.supplyAsync(() -> work(2), label("orders", tasks));
            profile.thenCombine(orders, Integer::sum).get();
        });
    }

    static void asyncDropped(ServiceRun run) throws Exception {
        ExecutorService tasks = run.pool("tasks");
        run.rounds("request", 1, 1, () -> {
            CompletableFuture<Integer> profile = CompletableFuture.supplyAsync(() -> work(1), label("profile", tasks));
            CompletableFuture.runAsync(run::awaitEnd, label("orders", tasks));
            profile.join();
        });
    }

    static void asyncWithAnyOf(ServiceRun run) throws Exception {
        ExecutorService tasks = run.pool("tasks");
        run.rounds("request", 1, 1, () -> CompletableFuture.anyOf(CompletableFuture.supplyAsync(() -> work(1), label("profile", tasks)),
                CompletableFuture.runAsync(run::awaitEnd, label("orders", tasks))).join());
    }

    static void asyncJoinThatThrows(ServiceRun run) throws Exception {
        ExecutorService tasks = run.pool("tasks");
        run.rounds("request", 1, 1, () -> {
            CompletableFuture<Integer> profile = CompletableFuture.supplyAsync(() -> {
                throw new IllegalStateException("planned");
            }, label("profile", tasks));
            CompletableFuture<Void> orders = CompletableFuture.runAsync(run::awaitEnd, label("orders", tasks));
            try {
                profile.join();
                orders.join();
            } catch (CompletionException planned) {
                return;
            }
        });
    }

    static void asyncWithCoreTimeout(ServiceRun run) throws Exception {
        ThreadPoolExecutor executor = new ThreadPoolExecutor(8, 8, 60, TimeUnit.SECONDS, new LinkedBlockingQueue<>(100));
        executor.allowCoreThreadTimeOut(true);
        ExecutorService tasks = run.pool("tasks", executor);
        run.rounds("request", 1, 1, () -> CompletableFuture.runAsync(() -> work(1), label("profile", tasks)).join());
    }

    /** Submits the job of an {@code @Async void} method, whose future is dropped. */
    static void asyncVoid(ServiceRun run) throws Exception {
        ExecutorService tasks = run.pool("tasks");
        run.rounds("request", 1, 1, () -> tasks.submit(task("profile", 1)));
    }

    /** Submits the job of an {@code @Async} method, which gets the future that the method returns. */
    static void asyncWithAnUndoneFuture(ServiceRun run) throws Exception {
        ExecutorService tasks = run.pool("tasks");
        run.rounds("request", 1, 1, () -> tasks.submit(label("profile", () -> tasks.submit(task("orders", 1)).get())).get());
    }

    /** Submits a request's {@code Callable}, which Spring MVC runs in the same executor. */
    static void asyncWithAnotherUser(ServiceRun run) throws Exception {
        ExecutorService tasks = run.pool("tasks");
        run.rounds("mvc", 1, 1, () -> tasks.submit(task("callable", 1)).get());
    }

    /** Runs each task on its own thread, which releases its place when it ends, as {@code SimpleAsyncTaskExecutor} does. */
    static void concurrencyLimit(ServiceRun run) throws Exception {
        ExecutorService render = run.pool("render");
        Semaphore places = new Semaphore(64);
        List<Thread> threads = new ArrayList<>();
        for (int number = 0; number < 200; number++) {
            places.acquire();
            Thread thread = new Thread(() -> {
                try {
                    run.round("permit", () -> render.submit(task("page", 1)).get());
                } finally {
                    places.release();
                }
            });
            threads.add(thread);
            thread.start();
        }
        for (Thread thread : threads) {
            thread.join();
        }
    }

    static void noConcurrencyLimit(ServiceRun run) throws Exception {
        ExecutorService render = run.pool("render");
        CyclicBarrier all = new CyclicBarrier(65);
        run.rounds("permit", 65, 1, () -> {
            all.await(60, TimeUnit.SECONDS);
            render.submit(task("page", 1)).get();
        });
    }

    static void callerRuns(ServiceRun run) throws Exception {
        ExecutorService pool = run.pool("p", new ThreadPoolExecutor(1, 1, 0, TimeUnit.SECONDS, new ArrayBlockingQueue<>(2),
                new ThreadPoolExecutor.CallerRunsPolicy()));
        run.rounds("c", 2, 50, () -> pool.submit(task("a", 1)).get());
    }

    static void callerRunsCalled(ServiceRun run) throws Exception {
        ExecutorService pool = run.pool("p", new ThreadPoolExecutor(1, 1, 0, TimeUnit.SECONDS, new ArrayBlockingQueue<>(2),
                new ThreadPoolExecutor.CallerRunsPolicy()));
        run.rounds("c", 1, 10, () -> {
            for (int at = 0; at < 4; at++) {
                pool.execute(label("a", () -> {
                    work(1);
                }));
            }
        });
    }

    /** Submits a job after a shutdown. The handler drops the job, so a get of it would never return. */
    static void callerRunsAfterShutdown(ServiceRun run) throws Exception {
        ExecutorService pool = run.pool("p", new ThreadPoolExecutor(1, 1, 0, TimeUnit.SECONDS, new ArrayBlockingQueue<>(2),
                new ThreadPoolExecutor.CallerRunsPolicy()));
        run.rounds("c", 1, 1, () -> {
            pool.shutdown();
            try {
                pool.submit(task("a", 1)).get(1, TimeUnit.MILLISECONDS);
            } catch (TimeoutException planned) {
                return;
            }
        });
    }

    /** Submits a job as a {@code ThreadPoolBulkhead} does, and returns a stage that completes when the job is done. */
    static <T> CompletionStage<T> executeSupplier(ExecutorService bulkhead, Supplier<T> supplier) {
        CompletableFuture<T> stage = new CompletableFuture<>();
        CompletableFuture.supplyAsync(supplier, bulkhead).whenComplete((value, failed) -> {
            if (failed == null) {
                stage.complete(value);
            } else {
                stage.completeExceptionally(failed);
            }
        });
        return stage;
    }

    static void threadPoolBulkhead(ServiceRun run) throws Exception {
        ExecutorService stock = label("call", run.pool("stock"));
        run.rounds("request", 50, 5, () -> executeSupplier(stock, () -> work(1)).toCompletableFuture().join());
    }

    static void threadPoolBulkheadWithTimeLimiter(ServiceRun run) throws Exception {
        ExecutorService stock = label("call", run.pool("stock"));
        run.rounds("request", 1, 1, () -> {
            try {
                executeSupplier(stock, run::valueAtEnd).toCompletableFuture().orTimeout(1, TimeUnit.MILLISECONDS).join();
            } catch (CompletionException planned) {
                work(1);
            }
        });
    }

    static void threadPoolBulkheadWithoutJoin(ServiceRun run) throws Exception {
        ExecutorService stock = label("call", run.pool("stock"));
        run.rounds("request", 1, 1, () -> executeSupplier(stock, run::valueAtEnd));
    }

    static void connectionPool(ServiceRun run) throws Exception {
        ExecutorService web = run.pool("web");
        ExecutorService database = run.pool("database");
        Callable<Integer> query = task("query", 1);
        run.rounds("visitor", 24, 5, () -> web.submit(label("request", () -> database.submit(query).get())).get());
        run.rounds("crawler", 1, 5, () -> web.submit(label("request", () -> work(1))).get());
    }

    static void refused(ServiceRun run) throws Exception {
        ExecutorService pool = run.pool("p");
        run.rounds("c", 1, 1, () -> {
            List<Future<?>> futures = new ArrayList<>();
            try {
                for (int at = 0; at < 4; at++) {
                    futures.add(pool.submit(label("a", () -> {
                        work(1);
                    })));
                }
            } catch (RejectedExecutionException planned) {
                for (Future<?> future : futures) {
                    future.get();
                }
            }
        });
    }

    /** Submits the code that holds a connection as a job of the pool that stands for the connections. */
    static void nestedConnections(ServiceRun run) throws Exception {
        ExecutorService connections = run.pool("connections");
        Callable<Integer> audit = task("audit", 1);
        run.rounds("request", 10, 5, () -> connections.submit(label("transaction", () -> connections.submit(audit).get())).get());
    }
}
