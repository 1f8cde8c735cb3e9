package sizing.junit5;

import java.io.IOException;
import java.nio.file.Path;
import java.util.ArrayList;
import java.util.LinkedHashMap;
import java.util.List;
import java.util.Map;
import java.util.Queue;
import java.util.concurrent.ConcurrentLinkedQueue;
import java.util.concurrent.CountDownLatch;
import java.util.concurrent.ExecutorService;
import java.util.concurrent.Semaphore;
import java.util.concurrent.ThreadPoolExecutor;
import java.util.concurrent.TimeUnit;
import java.util.concurrent.atomic.LongAdder;
import org.opentest4j.AssertionFailedError;
import sizing.PlanCheck;
import sizing.Recorder;

/** The recording of a test class: its pools, rounds and permits. All tests of a class that has {@link SizingPlan} share one. */
public final class Sizing {
    private static final long MAX_IDLE_SECONDS = 60;

    /** A part of a test. */
    @FunctionalInterface
    public interface Body {
        /** Runs the part. */
        void run() throws Exception;
    }

    private final Path plan;
    private final Path recording;
    private final Recorder recorder;
    private final List<ThreadPoolExecutor> created = new ArrayList<>();
    private final Map<String, ExecutorService> pools = new LinkedHashMap<>();

    Sizing(Path plan, Path recording) throws IOException {
        this.plan = plan;
        this.recording = recording;
        recorder = Recorder.toFile(recording);
    }

    /** Returns the file of the plan. */
    public Path plan() {
        return plan;
    }

    /** Returns the file that the recording is written to. */
    public Path recording() {
        return recording;
    }

    /** Returns the recorder, for methods that this class lacks. */
    public Recorder recorder() {
        return recorder;
    }

    /**
     * Returns a recorded executor with the sizes of the plan's pool. The first call for a pool creates it, and it is shut down
     * after the tests of the class.
     *
     * @throws IllegalArgumentException if the plan has no such pool
     */
    public synchronized ExecutorService pool(String name) throws IOException {
        ExecutorService pool = pools.get(name);
        if (pool == null) {
            ThreadPoolExecutor executor = PlanCheck.newExecutor(plan, name);
            created.add(executor);
            pool = recorder.pool(name, executor);
            pools.put(name, pool);
        }
        return pool;
    }

    /**
     * Returns a recorded view of the service's own executor.
     *
     * @throws AssertionFailedError if the executor differs from the plan's pool
     */
    public synchronized ExecutorService pool(String name, ThreadPoolExecutor executor) throws IOException {
        List<String> differences = PlanCheck.differences(plan, Map.of(name, executor)).stream()
                .filter(line -> line.startsWith("pool " + name + ": ") && !line.startsWith("pool " + name + ": handler ")).toList();
        if (!differences.isEmpty()) {
            throw new AssertionFailedError("the executor differs from the pool of " + plan + ":\n  "
                    + String.join("\n  ", differences));
        }
        ExecutorService pool = recorder.pool(name, executor);
        pools.put(name, pool);
        return pool;
    }

    /** Begins a round of a client ({@link Recorder#round}). */
    public Recorder.Round round(String kind) {
        return recorder.round(kind);
    }

    /** Returns a semaphore whose permits are clients ({@link Recorder#permits}). */
    public Semaphore permits(String kind, int permits) {
        return recorder.permits(kind, permits);
    }

    /**
     * Runs the body on this number of threads at once. Each thread runs it as this number of rounds of the kind, in sequence.
     *
     * @throws AssertionFailedError with the first exception of a body as its cause, or if no round ends for 60 seconds
     */
    public void clients(String kind, int threads, int rounds, Body body) throws InterruptedException {
        Queue<Throwable> failures = new ConcurrentLinkedQueue<>();
        LongAdder ended = new LongAdder();
        CountDownLatch start = new CountDownLatch(1);
        List<Thread> clients = new ArrayList<>();
        for (int number = 0; number < threads; number++) {
            Thread client = new Thread(() -> {
                try {
                    start.await();
                    for (int round = 0; round < rounds && failures.isEmpty(); round++) {
                        try (Recorder.Round recorded = recorder.round(kind)) {
                            body.run();
                        }
                        ended.increment();
                    }
                } catch (Throwable failed) {
                    failures.add(failed);
                }
            }, kind + "-" + number);
            client.setDaemon(true);
            clients.add(client);
        }
        clients.forEach(Thread::start);
        start.countDown();
        join(kind, clients, ended);
        if (!failures.isEmpty()) {
            throw new AssertionFailedError("a client of kind " + kind + " failed: " + failures.peek(), failures.peek());
        }
    }

    private static void join(String kind, List<Thread> clients, LongAdder ended) throws InterruptedException {
        long before = -1;
        for (long idle = 0; clients.stream().anyMatch(Thread::isAlive); idle++) {
            if (ended.sum() != before) {
                before = ended.sum();
                idle = 0;
            }
            if (idle > MAX_IDLE_SECONDS * 10) {
                long alive = clients.stream().filter(Thread::isAlive).count();
                clients.forEach(Thread::interrupt);
                throw new AssertionFailedError("no round of kind " + kind + " ended for " + MAX_IDLE_SECONDS + " seconds, and " + alive
                        + " of " + clients.size() + " threads are still in a round");
            }
            for (Thread client : clients) {
                client.join(Math.max(1, 100 / clients.size()));
            }
        }
    }

    /** Returns whether any pool is recorded. */
    boolean hasPools() {
        return !pools.isEmpty();
    }

    /** Shuts down the executors that it created and ends the recording. */
    void close() throws IOException, InterruptedException {
        for (ThreadPoolExecutor executor : created) {
            executor.shutdown();
            if (!executor.awaitTermination(MAX_IDLE_SECONDS, TimeUnit.SECONDS)) {
                executor.shutdownNow();
            }
        }
        recorder.close();
    }
}
