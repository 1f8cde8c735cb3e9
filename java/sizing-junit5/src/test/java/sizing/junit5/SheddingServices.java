package sizing.junit5;

import static sizing.Recorder.label;
import static sizing.junit5.PoolServices.executeSupplier;
import static sizing.junit5.ServiceRun.chance;
import static sizing.junit5.ServiceRun.task;
import static sizing.junit5.ServiceRun.work;

import java.util.ArrayList;
import java.util.List;
import java.util.concurrent.ArrayBlockingQueue;
import java.util.concurrent.Callable;
import java.util.concurrent.CompletionException;
import java.util.concurrent.CyclicBarrier;
import java.util.concurrent.ExecutionException;
import java.util.concurrent.ExecutorService;
import java.util.concurrent.Future;
import java.util.concurrent.RejectedExecutionException;
import java.util.concurrent.ThreadPoolExecutor;
import java.util.concurrent.TimeUnit;

/**
 * Services for the entries of docs/PATTERNS.md on pools that may reject jobs: correct uses, and uses that the page does not cover
 * and that `conform` reports.
 *
 * <p>The pools of the correct uses have room for all jobs of the run, and a random choice decides which submits are rejected.
 * Only the pool with a {@code SynchronousQueue} rejects jobs itself.
 */
final class SheddingServices {
    private SheddingServices() {}

    /** Submits the task, or throws the exception of a full pool. The choice is random. */
    private static <T> Future<T> offer(ExecutorService pool, Callable<T> task) {
        if (chance()) {
            throw new RejectedExecutionException("by chance");
        }
        return pool.submit(task);
    }

    /** Submits the task, or runs its body in the caller and returns null. The choice is random. */
    private static <T> Future<T> offerOrRun(ExecutorService pool, String name, Callable<T> body) throws Exception {
        if (chance()) {
            body.call();
            return null;
        }
        return pool.submit(label(name, body));
    }

    static void loadShedding(ServiceRun run) throws Exception {
        ExecutorService pages = run.pool("pages");
        ExecutorService copies = run.pool("copies");
        run.rounds("request", 16, 5, () -> {
            try {
                offer(pages, task("page", 1)).get();
            } catch (RejectedExecutionException full) {
                copies.submit(task("copy", 1)).get();
            }
        });
    }

    static void callerRunsLeaves(ServiceRun run) throws Exception {
        ExecutorService albums = run.pool("albums");
        ExecutorService pictures = run.pool("pictures", callerRuns(4, 16));
        Callable<Integer> album = label("album", () -> {
            List<Future<Integer>> made = new ArrayList<>();
            for (int photo = 0; photo < 3; photo++) {
                made.add(offerOrRun(pictures, "picture", () -> work(1)));
            }
            for (Future<Integer> picture : made) {
                if (picture != null) {
                    picture.get();
                }
            }
            return 1;
        });
        run.rounds("upload", 5, 5, () -> albums.submit(album).get());
    }

    static void callerRunsInPlace(ServiceRun run) throws Exception {
        ExecutorService orders = run.pool("orders", callerRuns(4, 8));
        ExecutorService database = run.pool("database");
        run.rounds("request", 8, 5, () -> {
            Future<Integer> order = offerOrRun(orders, "order", () -> database.submit(task("query", 1)).get());
            if (order != null) {
                order.get();
            }
        });
    }

    /**
     * Runs pages that submit mails. A mail may submit to the pool of the pages after the visitor has its page, so the pool of the
     * mails is shut down first.
     */
    static void callerRunsOwnPool(ServiceRun run) throws Exception {
        ExecutorService mails = run.pool("mails", callerRuns(1, 1));
        ExecutorService web = run.pool("web");
        Callable<Integer> page = label("page", () -> {
            offerOrRun(mails, "mail", () -> web.submit(task("attachment", 1)).get());
            return 1;
        });
        run.rounds("visitor", 1, 1, () -> web.submit(page).get());
    }

    /**
     * Submits reports to a pool that discards them when it is full. All requests begin at one time: if they repeated, no
     * certificate would accept the learned plan, which lacks {@code may_reject}.
     */
    static void discard(ServiceRun run) throws Exception {
        ExecutorService web = run.pool("web");
        ExecutorService reports = run.pool("reports", new ThreadPoolExecutor(1, 1, 0, TimeUnit.SECONDS, new ArrayBlockingQueue<>(100),
                new ThreadPoolExecutor.DiscardPolicy()));
        CyclicBarrier burst = new CyclicBarrier(20);
        run.rounds("request", 20, 1, () -> {
            burst.await();
            web.submit(task("page", 1)).get();
            if (chance()) {
                reports.execute(label("report", () -> {
                    work(1);
                }));
            }
        });
    }

    static void bulkheadRejects(ServiceRun run) throws Exception {
        ExecutorService bulkhead = label("call", run.pool("bulkhead"));
        ExecutorService database = run.pool("database");
        run.rounds("request", 20, 5, () -> {
            if (chance()) {
                executeSupplier(bulkhead, () -> got(database.submit(task("query", 1)))).toCompletableFuture().join();
            }
        });
    }

    /** Submits calls to a pool without a queue, which rejects most of the 100 requests while eight calls run. */
    static void synchronousBulkhead(ServiceRun run) throws Exception {
        ExecutorService bulkhead = run.pool("bulkhead");
        ExecutorService database = run.pool("database");
        run.rounds("request", 100, 5, () -> {
            try {
                bulkhead.submit(label("call", () -> database.submit(task("query", 1)).get())).get();
            } catch (RejectedExecutionException full) {
                work(1);
            }
        });
    }

    /** Submits a call to a pool with an {@code ArrayBlockingQueue}, where the plan has a {@code SynchronousQueue}. */
    static void synchronousBulkheadWithAQueue(ServiceRun run) throws Exception {
        ExecutorService bulkhead = run.pool("bulkhead", new ThreadPoolExecutor(8, 8, 0, TimeUnit.SECONDS, new ArrayBlockingQueue<>(8)));
        run.pool("database");
        run.rounds("request", 1, 1, () -> bulkhead.submit(task("call", 1)).get());
    }

    /** Submits an order that its caller runs. The order submits a query, which is not in the caller's path. */
    static void callerRunsAnOrder(ServiceRun run) throws Exception {
        ExecutorService orders = run.pool("orders", callerRuns(4, 8));
        ExecutorService database = run.pool("database");
        run.rounds("request", 1, 1, () -> {
            for (int held = 0; held < 12; held++) {
                orders.execute(label("order", run::awaitEnd));
            }
            orders.submit(label("order", () -> database.submit(task("query", 1)).get())).get();
        });
    }

    /**
     * Submits two pictures of an album, of which the second one is rejected. The exception leaves the album without a get of the
     * first one.
     */
    static void rejectedWithAnOpenFuture(ServiceRun run) throws Exception {
        ExecutorService albums = run.pool("albums");
        ExecutorService pictures = run.pool("pictures");
        run.rounds("upload", 1, 1, () -> {
            for (int held = 0; held < 19; held++) {
                pictures.execute(label("picture", run::awaitEnd));
            }
            Future<Integer> album = albums.submit(label("album", () -> {
                Future<Integer> first = pictures.submit(label("picture", run::valueAtEnd));
                return pictures.submit(task("picture", 1)).get() + first.get();
            }));
            try {
                album.get();
            } catch (ExecutionException planned) {
                work(1);
            }
        });
    }

    /**
     * Submits two pictures of an album by {@code invokeAll}. The second one is rejected, so {@code invokeAll} cancels the first
     * one in the queue.
     */
    static void rejectedByInvokeAll(ServiceRun run) throws Exception {
        ExecutorService albums = run.pool("albums");
        ExecutorService pictures = run.pool("pictures");
        run.rounds("upload", 1, 1, () -> {
            for (int held = 0; held < 19; held++) {
                pictures.execute(label("picture", run::awaitEnd));
            }
            Future<Integer> album = albums.submit(label("album", () -> pictures.invokeAll(List.of(task("picture", 1), task("picture", 2))).size()));
            try {
                album.get();
            } catch (ExecutionException planned) {
                work(1);
            }
        });
    }

    private static ThreadPoolExecutor callerRuns(int threads, int queue) {
        return new ThreadPoolExecutor(threads, threads, 0, TimeUnit.SECONDS, new ArrayBlockingQueue<>(queue), new ThreadPoolExecutor.CallerRunsPolicy());
    }

    private static <T> T got(Future<T> future) {
        try {
            return future.get();
        } catch (InterruptedException | ExecutionException failed) {
            throw new CompletionException(failed);
        }
    }
}
