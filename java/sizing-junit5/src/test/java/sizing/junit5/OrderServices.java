package sizing.junit5;

import static org.junit.jupiter.api.Assertions.assertEquals;
import static sizing.Recorder.label;
import static sizing.junit5.ServiceRun.chance;
import static sizing.junit5.ServiceRun.task;
import static sizing.junit5.ServiceRun.work;

import java.util.ArrayList;
import java.util.Iterator;
import java.util.List;
import java.util.concurrent.Callable;
import java.util.concurrent.CompletableFuture;
import java.util.concurrent.CompletionException;
import java.util.concurrent.CountDownLatch;
import java.util.concurrent.ExecutionException;
import java.util.concurrent.ExecutorCompletionService;
import java.util.concurrent.ExecutorService;
import java.util.concurrent.Future;
import java.util.concurrent.ThreadLocalRandom;
import java.util.concurrent.TimeUnit;
import java.util.function.Supplier;

/**
 * Services for the entries of docs/PATTERNS.md on gets that come in another order than the submits, or sooner: correct uses, and
 * uses that the page does not cover and that `conform` reports.
 */
final class OrderServices {
    private static final int SHOPS = 4;
    private static final int TOPICS = 6;
    private static final int WINDOW = 3;
    private static final int PARTS = 4;

    private OrderServices() {}

    /** Jobs that end one by one, in a random order that the service knows. Each needs a thread of its own. */
    private static final class HeldJobs {
        private final ServiceRun run;
        private final List<CountDownLatch> latches = new ArrayList<>();
        private final List<Integer> held = new ArrayList<>();

        HeldJobs(ServiceRun run) {
            this.run = run;
        }

        /** Returns the work of the next job, whose value is its number. */
        Supplier<Integer> next() {
            int number = latches.size();
            CountDownLatch latch = new CountDownLatch(1);
            latches.add(latch);
            held.add(number);
            return () -> {
                run.await(latch);
                return number;
            };
        }

        Callable<Integer> task(String label) {
            return label(label, next()::get);
        }

        /** Lets a random job end, and returns its number. */
        int release() {
            int number = held.remove(ThreadLocalRandom.current().nextInt(held.size()));
            latches.get(number).countDown();
            return number;
        }
    }

    private static int upTo(int most) {
        return 1 + ThreadLocalRandom.current().nextInt(most);
    }

    // ---- a completion service in a request

    static void completionService(ServiceRun run) throws Exception {
        ExecutorService pool = run.pool("quotes");
        run.rounds("request", 2, 10, () -> {
            ExecutorCompletionService<Integer> quotes = new ExecutorCompletionService<>(pool);
            HeldJobs jobs = new HeldJobs(run);
            int shops = upTo(SHOPS);
            for (int shop = 0; shop < shops; shop++) {
                quotes.submit(jobs.task("quote"));
            }
            for (int shop = 0; shop < shops; shop++) {
                int released = jobs.release();
                assertEquals(released, quotes.take().get());
            }
        });
        run.rounds("request", 20, 5, () -> getQuotes(pool, upTo(SHOPS)));
    }

    static void completionServiceWithFiveJobs(ServiceRun run) throws Exception {
        ExecutorService pool = run.pool("quotes");
        run.rounds("request", 1, 1, () -> getQuotes(pool, SHOPS + 1));
    }

    /** Submits quotes, takes each one when it is done, and reads all of them afterwards. Returns the sum. */
    private static int getQuotes(ExecutorService pool, int shops) throws InterruptedException, ExecutionException {
        ExecutorCompletionService<Integer> quotes = new ExecutorCompletionService<>(pool);
        for (int shop = 0; shop < shops; shop++) {
            quotes.submit(task("quote", shop));
        }
        List<Future<Integer>> made = new ArrayList<>();
        for (int shop = 0; shop < shops; shop++) {
            made.add(quotes.take());
        }
        return sum(made);
    }

    /** Returns from the request after the first quote. */
    static void completionServiceThatIsLeft(ServiceRun run) throws Exception {
        ExecutorService pool = run.pool("quotes");
        run.rounds("request", 1, 1, () -> {
            ExecutorCompletionService<Integer> quotes = new ExecutorCompletionService<>(pool);
            quotes.submit(label("quote", run::valueAtEnd));
            quotes.submit(task("quote", 1));
            quotes.take().get();
        });
    }

    /** Leaves the loop by a get that throws an exception, while the second quote is open. */
    static void completionServiceWithAGetThatThrows(ServiceRun run) throws Exception {
        ExecutorService pool = run.pool("quotes");
        run.rounds("request", 1, 1, () -> {
            ExecutorCompletionService<Integer> quotes = new ExecutorCompletionService<>(pool);
            quotes.submit(label("quote", () -> {
                throw new IllegalStateException("planned");
            }));
            quotes.submit(label("quote", run::valueAtEnd));
            try {
                for (int shop = 0; shop < 2; shop++) {
                    quotes.take().get();
                }
            } catch (ExecutionException planned) {
                return;
            }
        });
    }

    static void completionServiceWithTimedPoll(ServiceRun run) throws Exception {
        ExecutorService pool = run.pool("quotes");
        run.rounds("request", 1, 1, () -> {
            ExecutorCompletionService<Integer> quotes = new ExecutorCompletionService<>(pool);
            quotes.submit(label("quote", run::valueAtEnd));
            quotes.poll(1, TimeUnit.MILLISECONDS);
        });
    }

    // ---- a completion service in a job

    static void completionServiceInAJob(ServiceRun run) throws Exception {
        ExecutorService reports = run.pool("reports");
        ExecutorService sections = run.pool("sections");
        run.rounds("user", 1, 10, () -> reports.submit(label("report", () -> reportInKnownOrder(run, sections, upTo(TOPICS)))).get());
        run.rounds("user", 20, 5, () -> reports.submit(label("report", () -> report(sections, upTo(TOPICS), WINDOW))).get());
    }

    /** The way in which a report makes its sections. */
    private interface Report {
        int make(ExecutorService sections) throws Exception;
    }

    private static void oneReport(ServiceRun run, Report report) throws Exception {
        ExecutorService reports = run.pool("reports");
        ExecutorService sections = run.pool("sections");
        run.rounds("user", 1, 1, () -> reports.submit(label("report", () -> report.make(sections))).get());
    }

    static void windowOfFour(ServiceRun run) throws Exception {
        oneReport(run, sections -> report(sections, TOPICS, WINDOW + 1));
    }

    static void reportOfSevenTopics(ServiceRun run) throws Exception {
        oneReport(run, sections -> report(sections, TOPICS + 1, WINDOW));
    }

    /** Submits a job of another class between two sections. */
    static void reportWithASummary(ServiceRun run) throws Exception {
        oneReport(run, sections -> {
            ExecutorCompletionService<Integer> made = new ExecutorCompletionService<>(sections);
            made.submit(task("section", 1));
            made.submit(task("summary", 1));
            made.submit(task("section", 2));
            return made.take().get() + made.take().get() + made.take().get();
        });
    }

    static void reportThatReturnsWithAnOpenSection(ServiceRun run) throws Exception {
        oneReport(run, sections -> {
            ExecutorCompletionService<Integer> made = new ExecutorCompletionService<>(sections);
            made.submit(label("section", run::valueAtEnd));
            made.submit(task("section", 1));
            return made.take().get();
        });
    }

    private static int report(ExecutorService sections, int topics, int window) throws InterruptedException, ExecutionException {
        ExecutorCompletionService<Integer> made = new ExecutorCompletionService<>(sections);
        int sum = 0;
        int open = 0;
        for (int topic = 0; topic < topics; topic++) {
            if (open == window) {
                sum += made.take().get();
            } else {
                open++;
            }
            made.submit(task("section", topic));
        }
        while (open-- > 0) {
            sum += made.take().get();
        }
        return sum;
    }

    private static int reportInKnownOrder(ServiceRun run, ExecutorService sections, int topics) throws InterruptedException, ExecutionException {
        ExecutorCompletionService<Integer> made = new ExecutorCompletionService<>(sections);
        HeldJobs jobs = new HeldJobs(run);
        for (int topic = 0; topic < topics + WINDOW; topic++) {
            if (topic >= Math.min(WINDOW, topics) && !jobs.held.isEmpty()) {
                int released = jobs.release();
                assertEquals(released, made.take().get());
            }
            if (topic < topics) {
                made.submit(jobs.task("section"));
            }
        }
        return topics;
    }

    /**
     * Reads the sections at the end of the report. The recorder writes a get when it is called, so the window looks greater than
     * it is.
     */
    static void windowThatIsReadAtItsEnd(ServiceRun run) throws Exception {
        oneReport(run, sections -> {
            ExecutorCompletionService<Integer> made = new ExecutorCompletionService<>(sections);
            List<Future<Integer>> taken = new ArrayList<>();
            for (int topic = 0; topic < TOPICS; topic++) {
                if (topic >= WINDOW) {
                    taken.add(made.take());
                }
                made.submit(task("section", topic));
            }
            while (taken.size() < TOPICS) {
                taken.add(made.take());
            }
            return sum(taken);
        });
    }

    private static int sum(List<Future<Integer>> futures) throws InterruptedException, ExecutionException {
        int sum = 0;
        for (Future<Integer> each : futures) {
            sum += each.get();
        }
        return sum;
    }

    // ---- a loop over the futures that are done

    static void futuresThatAreDone(ServiceRun run) throws Exception {
        ExecutorService quotes = label("quote", run.pool("quotes"));
        run.rounds("request", 2, 10, () -> {
            HeldJobs jobs = new HeldJobs(run);
            List<CompletableFuture<Integer>> open = new ArrayList<>();
            for (int shops = upTo(SHOPS); shops > 0; shops--) {
                open.add(CompletableFuture.supplyAsync(jobs.next(), quotes));
            }
            while (!open.isEmpty()) {
                int released = jobs.release();
                CompletableFuture.anyOf(open.toArray(CompletableFuture[]::new)).join();
                assertEquals(List.of(released), takeDone(open));
            }
        });
        run.rounds("request", 20, 5, () -> {
            List<CompletableFuture<Integer>> open = new ArrayList<>();
            for (int shops = upTo(SHOPS); shops > 0; shops--) {
                open.add(CompletableFuture.supplyAsync(OrderServices::quoteThatMayFail, quotes));
            }
            while (!open.isEmpty()) {
                CompletableFuture.anyOf(open.toArray(CompletableFuture[]::new)).exceptionally(failed -> null).join();
                takeDone(open);
            }
        });
    }

    private static int quoteThatMayFail() {
        if (chance()) {
            throw new IllegalStateException("planned");
        }
        return work(1);
    }

    /** Removes the futures that are done, joins them, and returns their values. */
    private static List<Integer> takeDone(List<CompletableFuture<Integer>> open) {
        List<Integer> values = new ArrayList<>();
        for (Iterator<CompletableFuture<Integer>> each = open.iterator(); each.hasNext();) {
            CompletableFuture<Integer> future = each.next();
            if (future.isDone()) {
                each.remove();
                try {
                    values.add(future.join());
                } catch (CompletionException planned) {
                    values.add(-1);
                }
            }
        }
        return values;
    }

    static void futuresThatAreLeft(ServiceRun run) throws Exception {
        ExecutorService quotes = label("quote", run.pool("quotes"));
        run.rounds("request", 1, 1, () -> CompletableFuture.anyOf(CompletableFuture.supplyAsync(() -> work(1), quotes),
                CompletableFuture.supplyAsync(run::valueAtEnd, quotes)).join());
    }

    /** Adds a stage to a future, which is one more submit. */
    static void futuresWithAFurtherStage(ServiceRun run) throws Exception {
        ExecutorService quotes = run.pool("quotes");
        run.rounds("request", 1, 1, () -> CompletableFuture.supplyAsync(() -> work(1), label("quote", quotes))
                .thenRunAsync(() -> work(1), label("use", quotes)).join());
    }

    // ---- a get that comes sooner on one path

    static void soonerOnOnePath(ServiceRun run) throws Exception {
        ExecutorService shop = run.pool("shop");
        run.rounds("request", 50, 5, () -> {
            boolean isExpress = chance();
            Future<Integer> stock = shop.submit(task("stock", 1));
            if (isExpress) {
                stock.get();
            }
            Future<Integer> price = shop.submit(task("price", 1));
            if (!isExpress) {
                stock.get();
            }
            price.get();
        });
    }

    static void submitsInAnotherOrder(ServiceRun run) throws Exception {
        ExecutorService shop = run.pool("shop");
        run.rounds("request", 1, 1, () -> {
            Future<Integer> price = shop.submit(task("price", 1));
            Future<Integer> stock = shop.submit(task("stock", 1));
            stock.get();
            price.get();
        });
    }

    static void exceptionBesideAnOpenPrice(ServiceRun run) throws Exception {
        ExecutorService shop = run.pool("shop");
        run.rounds("request", 1, 1, () -> {
            Future<Integer> stock = shop.submit(label("stock", () -> {
                throw new IllegalStateException("planned");
            }));
            Future<Integer> price = shop.submit(label("price", run::valueAtEnd));
            try {
                stock.get();
                price.get();
            } catch (ExecutionException planned) {
                return;
            }
        });
    }

    // ---- a poll loop

    static void pollLoop(ServiceRun run) throws Exception {
        ExecutorService pages = run.pool("pages");
        run.rounds("user", 1, 5, () -> pages.submit(label("page", () -> {
            // the first part ends last
            CountDownLatch others = new CountDownLatch(PARTS - 1);
            List<Future<Integer>> open = new ArrayList<>();
            open.add(pages.submit(label("part", () -> {
                run.await(others);
                return 1;
            })));
            addParts(pages, open, PARTS - 1);
            return poll(open, others);
        })).get());
        run.rounds("user", 2, 20, () -> pages.submit(label("page", () -> {
            List<Future<Integer>> open = new ArrayList<>();
            addParts(pages, open, upTo(PARTS));
            return poll(open, new CountDownLatch(0));
        })).get());
    }

    private static void addParts(ExecutorService pages, List<Future<Integer>> open, int parts) {
        for (int part = 0; part < parts; part++) {
            open.add(pages.submit(task("part", 1)));
        }
    }

    /** Polls the parts, gets each one once it is done, and then counts the latch down. Returns the sum. */
    private static int poll(List<Future<Integer>> open, CountDownLatch done) throws InterruptedException, ExecutionException {
        int sum = 0;
        while (!open.isEmpty()) {
            for (Iterator<Future<Integer>> each = open.iterator(); each.hasNext();) {
                Future<Integer> part = each.next();
                if (part.isDone()) {
                    each.remove();
                    sum += part.get();
                    done.countDown();
                }
            }
            TimeUnit.MILLISECONDS.sleep(1);
        }
        return sum;
    }

    /** Submits a fifth part in the loop, when the first one is done. */
    static void pollLoopThatSubmits(ServiceRun run) throws Exception {
        ExecutorService pages = run.pool("pages");
        run.rounds("user", 1, 1, () -> pages.submit(label("page", () -> {
            List<Future<Integer>> open = new ArrayList<>();
            addParts(pages, open, PARTS);
            boolean isFirst = true;
            while (!open.isEmpty()) {
                if (open.get(0).isDone()) {
                    open.remove(0).get();
                    if (isFirst) {
                        addParts(pages, open, 1);
                    }
                    isFirst = false;
                }
                TimeUnit.MILLISECONDS.sleep(1);
            }
            return 1;
        })).get());
    }

    static void pollLoopThatGivesUp(ServiceRun run) throws Exception {
        ExecutorService pages = run.pool("pages");
        run.rounds("user", 1, 1, () -> pages.submit(label("page", () -> {
            Future<Integer> part = pages.submit(label("part", run::valueAtEnd));
            for (int turn = 0; turn < 3 && !part.isDone(); turn++) {
                TimeUnit.MILLISECONDS.sleep(1);
            }
            return 1;
        })).get());
    }
}
