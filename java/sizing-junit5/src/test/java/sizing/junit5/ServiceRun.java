package sizing.junit5;

import java.io.IOException;
import java.nio.file.Path;
import java.util.ArrayList;
import java.util.List;
import java.util.Queue;
import java.util.concurrent.Callable;
import java.util.concurrent.ConcurrentLinkedQueue;
import java.util.concurrent.CountDownLatch;
import java.util.concurrent.ExecutorService;
import java.util.concurrent.RejectedExecutionException;
import java.util.concurrent.Semaphore;
import java.util.concurrent.ThreadLocalRandom;
import java.util.concurrent.ThreadPoolExecutor;
import java.util.concurrent.TimeUnit;
import java.util.function.UnaryOperator;
import sizing.PlanCheck;
import sizing.Recorder;

/** A recorded run of a small service. */
final class ServiceRun {
    /** A part of the service. */
    interface Body {
        void run() throws Exception;
    }

    final Recorder recorder;
    private final Path plan;
    private final List<ThreadPoolExecutor> executors = new ArrayList<>();
    private final Queue<Throwable> failures = new ConcurrentLinkedQueue<>();
    /** A latch that opens at the end, for jobs that outlive the round that submitted them. */
    private final CountDownLatch gate = new CountDownLatch(1);

    ServiceRun(Path plan, Path recording) throws IOException {
        this.plan = plan;
        recorder = Recorder.toFile(recording);
    }

    /** Creates a pool with the sizes of the plan, and returns its recorded view. */
    ExecutorService pool(String name) throws IOException {
        return pool(name, PlanCheck.newExecutor(plan, name));
    }

    ExecutorService pool(String name, ThreadPoolExecutor executor) {
        executors.add(executor);
        return recorder.pool(name, executor);
    }

    ExecutorService pool(String name, ThreadPoolExecutor executor, UnaryOperator<Runnable> decorator) {
        executors.add(executor);
        return recorder.pool(name, executor, decorator);
    }

    Semaphore permits(String kind, int count) {
        return recorder.permits(kind, count);
    }

    /** Runs the body on this number of threads, each of which runs it as this number of rounds of the kind. */
    void rounds(String kind, int threads, int rounds, Body body) throws InterruptedException {
        threads(kind, threads, rounds, () -> round(kind, body));
    }

    /** Runs the body as a round of this kind on the calling thread. The run does not fail if a submit is refused. */
    void round(String kind, Body body) {
        try (Recorder.Round round = recorder.round(kind)) {
            body.run();
        } catch (RejectedExecutionException refused) {
            return;
        } catch (Exception | AssertionError failed) {
            failures.add(failed);
        }
    }

    /**
     * Runs the body on this number of threads, this number of times on each and without a round. The run does not fail if a
     * submit is refused.
     */
    void threads(String name, int count, int turns, Body body) throws InterruptedException {
        List<Thread> threads = new ArrayList<>();
        for (int number = 0; number < count; number++) {
            threads.add(new Thread(() -> {
                for (int turn = 0; turn < turns; turn++) {
                    try {
                        body.run();
                    } catch (RejectedExecutionException refused) {
                        continue;
                    } catch (Exception | AssertionError failed) {
                        failures.add(failed);
                    }
                }
            }, name + "-" + number));
        }
        threads.forEach(Thread::start);
        for (Thread thread : threads) {
            thread.join();
        }
    }

    /** Waits until the run ends. */
    void awaitEnd() {
        await(gate);
    }

    void await(CountDownLatch latch) {
        try {
            if (!latch.await(60, TimeUnit.SECONDS)) {
                throw new AssertionError("a latch did not open within 60 seconds");
            }
        } catch (InterruptedException interrupted) {
            Thread.currentThread().interrupt();
        }
    }

    /** Returns a task that opens the latch when it starts, and ends with the run. */
    Runnable untilEnd(CountDownLatch started) {
        return () -> {
            started.countDown();
            awaitEnd();
        };
    }

    /** Waits until the run ends, and returns 1. */
    int valueAtEnd() {
        awaitEnd();
        return 1;
    }

    /** Returns a task with this label that works and returns the value. */
    static <T> Callable<T> task(String label, T value) {
        return Recorder.label(label, () -> work(value));
    }

    static boolean chance() {
        return ThreadLocalRandom.current().nextBoolean();
    }

    /** Works for 200 microseconds and returns the value. */
    static <T> T work(T value) {
        try {
            TimeUnit.MICROSECONDS.sleep(200);
        } catch (InterruptedException interrupted) {
            Thread.currentThread().interrupt();
        }
        return value;
    }

    /** Ends the run: opens the gate, waits until all jobs are done, and closes the recorder. */
    void end() throws Exception {
        gate.countDown();
        for (ThreadPoolExecutor executor : executors) {
            executor.shutdown();
            if (!executor.awaitTermination(60, TimeUnit.SECONDS)) {
                throw new AssertionError("jobs did not end within 60 seconds");
            }
        }
        recorder.close();
        if (!failures.isEmpty()) {
            throw new AssertionError(failures.peek());
        }
    }
}
