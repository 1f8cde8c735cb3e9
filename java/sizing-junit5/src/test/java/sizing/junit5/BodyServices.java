package sizing.junit5;

import static sizing.Recorder.label;
import static sizing.junit5.ServiceRun.chance;
import static sizing.junit5.ServiceRun.task;
import static sizing.junit5.ServiceRun.work;

import java.util.ArrayList;
import java.util.Collections;
import java.util.List;
import java.util.concurrent.Callable;
import java.util.concurrent.CountDownLatch;
import java.util.concurrent.ExecutionException;
import java.util.concurrent.ExecutorCompletionService;
import java.util.concurrent.ExecutorService;
import java.util.concurrent.Future;
import java.util.concurrent.ThreadLocalRandom;
import java.util.concurrent.TimeUnit;
import java.util.concurrent.TimeoutException;
import java.util.function.IntSupplier;

/**
 * Services for the entries of docs/PATTERNS.md on bodies: correct uses, and uses that the page does not cover and that `conform`
 * reports.
 */
final class BodyServices {
    private BodyServices() {}

    static void endpoints(ServiceRun run) throws Exception {
        ExecutorService queries = run.pool("queries");
        run.rounds("request", 20, 5, () -> {
            for (int number = 1 + ThreadLocalRandom.current().nextInt(5); number <= 30; number += 7) {
                queries.submit(task("query_%02d".formatted(number), 1)).get();
            }
        });
    }

    static void endpointsInAnotherOrder(ServiceRun run) throws Exception {
        ExecutorService queries = run.pool("queries");
        run.rounds("request", 1, 1, () -> {
            queries.submit(task("query_02", 1)).get();
            queries.submit(task("query_01", 1)).get();
        });
    }

    static void endpointsWithTwoOpenJobs(ServiceRun run) throws Exception {
        ExecutorService queries = run.pool("queries");
        run.rounds("request", 1, 1, () -> {
            Future<Integer> first = queries.submit(task("query_01", 1));
            Future<Integer> second = queries.submit(task("query_02", 1));
            first.get();
            second.get();
        });
    }

    static void optionalCalls(ServiceRun run) throws Exception {
        ExecutorService prices = run.pool("prices");
        run.rounds("request", 50, 5, () -> {
            if (chance()) {
                return;
            }
            prices.submit(task("price", 1)).get();
            if (chance()) {
                prices.submit(task("tax", 1)).get();
            }
        });
    }

    static void returnBeforeTheGet(ServiceRun run) throws Exception {
        ExecutorService prices = run.pool("prices");
        run.rounds("request", 1, 1, () -> prices.submit(task("price", 1)));
    }

    /** Skips the get of a job, but not its submit. */
    static void getThatIsSkipped(ServiceRun run) throws Exception {
        ExecutorService prices = run.pool("prices");
        run.rounds("request", 1, 1, () -> {
            prices.submit(task("price", 1));
            prices.submit(task("tax", 1)).get();
        });
    }

    /** Gets both futures after the second submit. */
    static void getThatComesLater(ServiceRun run) throws Exception {
        ExecutorService prices = run.pool("prices");
        run.rounds("request", 1, 1, () -> {
            Future<Integer> price = prices.submit(task("price", 1));
            Future<Integer> tax = prices.submit(task("tax", 1));
            price.get();
            tax.get();
        });
    }

    static void reportUpToEight(ServiceRun run) throws Exception {
        reports(run, () -> 1 + ThreadLocalRandom.current().nextInt(8), 5, 20);
    }

    static void reportOfNine(ServiceRun run) throws Exception {
        reports(run, () -> 9, 1, 1);
    }

    private static void reports(ServiceRun run, IntSupplier sections, int users, int rounds) throws Exception {
        ExecutorService reports = run.pool("reports");
        run.rounds("user", users, rounds, () -> reports.submit(label("report", () -> {
            List<Future<Integer>> made = new ArrayList<>();
            for (int section = sections.getAsInt(); section > 0; section--) {
                made.add(reports.submit(task("section", 1)));
            }
            for (Future<Integer> each : made) {
                each.get();
            }
            return 1;
        })).get());
    }

    /** Runs a report that gets the section that is done first, which is the second one that it submitted. */
    static void reportThatGetsTheFirstDone(ServiceRun run) throws Exception {
        ExecutorService reports = run.pool("reports");
        CountDownLatch taken = new CountDownLatch(1);
        run.rounds("user", 1, 1, () -> reports.submit(label("report", () -> {
            ExecutorCompletionService<Integer> sections = new ExecutorCompletionService<>(reports);
            sections.submit(label("section", () -> {
                run.await(taken);
                return 1;
            }));
            sections.submit(task("section", 1));
            sections.take().get();
            taken.countDown();
            return sections.take().get();
        })).get());
    }

    static void reportWithAnOpenSection(ServiceRun run) throws Exception {
        ExecutorService reports = run.pool("reports");
        run.rounds("user", 1, 1, () -> {
            try {
                reports.submit(label("report", () -> {
                    Future<Integer> bad = reports.submit(label("section", () -> {
                        throw new IllegalStateException("planned");
                    }));
                    Future<Integer> open = reports.submit(task("section", 1));
                    return bad.get() + open.get();
                })).get();
            } catch (ExecutionException planned) {
                return;
            }
        });
    }

    static void exception(ServiceRun run) throws Exception {
        ExecutorService pool = run.pool("p");
        run.rounds("c", 1, 50, () -> {
            Callable<Integer> head = label("a", () -> {
                if (chance()) {
                    throw new IllegalStateException("planned");
                }
                return work(1);
            });
            List<Future<Integer>> parts = pool.invokeAll(List.of(head, task("a", 1)));
            parts.get(1).get();
        });
    }

    static void exceptionWithAnOpenFuture(ServiceRun run) throws Exception {
        ExecutorService pool = run.pool("p");
        run.rounds("c", 1, 1, () -> {
            Future<Integer> head = pool.submit(label("a", () -> {
                throw new IllegalStateException("planned");
            }));
            Future<Integer> body = pool.submit(task("a", 1));
            try {
                head.get();
                body.get();
            } catch (ExecutionException planned) {
                return;
            }
        });
    }

    static void interruptedGet(ServiceRun run) throws Exception {
        ExecutorService pool = run.pool("p");
        run.rounds("c", 1, 1, () -> {
            Future<?> future = pool.submit(label("a", () -> {
                run.awaitEnd();
            }));
            Thread.currentThread().interrupt();
            try {
                future.get();
            } catch (InterruptedException planned) {
                return;
            }
        });
    }

    static void retries(ServiceRun run) throws Exception {
        ExecutorService pool = run.pool("p");
        run.rounds("c", 1, 50, () -> {
            boolean done = false;
            for (int tries = 0; tries < 3 && !done; tries++) {
                done = pool.submit(task("a", chance())).get();
            }
        });
    }

    static void retryBeforeTheFirstIsDone(ServiceRun run) throws Exception {
        ExecutorService pool = run.pool("p");
        CountDownLatch started = new CountDownLatch(1);
        run.rounds("c", 1, 1, () -> {
            Future<?> first = pool.submit(label("a", run.untilEnd(started)));
            run.await(started);
            try {
                first.get(1, TimeUnit.MILLISECONDS);
            } catch (TimeoutException planned) {
                pool.submit(task("a", 1));
            }
        });
    }

    private static List<Callable<Integer>> calls(int count) {
        return Collections.nCopies(count, task("task", 1));
    }

    static void invokeAll(ServiceRun run) throws Exception {
        ExecutorService tasks = run.pool("tasks");
        run.rounds("caller", 5, 10, () -> tasks.invokeAll(calls(1 + ThreadLocalRandom.current().nextInt(10))));
    }

    static void invokeAllWithTimeout(ServiceRun run) throws Exception {
        ExecutorService tasks = run.pool("tasks");
        run.rounds("caller", 1, 1, () -> tasks.invokeAll(List.of(label("task", () -> {
            run.awaitEnd();
            return 1;
        })), 1, TimeUnit.MILLISECONDS));
    }

    static void invokeAny(ServiceRun run) throws Exception {
        ExecutorService tasks = run.pool("tasks");
        run.rounds("caller", 1, 1, () -> tasks.invokeAny(calls(2)));
    }

    static void invokeAllInterrupted(ServiceRun run) throws Exception {
        ExecutorService tasks = run.pool("tasks");
        run.rounds("caller", 1, 1, () -> {
            Thread.currentThread().interrupt();
            try {
                tasks.invokeAll(List.of(label("task", run::valueAtEnd)));
            } catch (InterruptedException planned) {
                return;
            }
        });
    }
}
