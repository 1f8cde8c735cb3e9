package services;

import java.io.IOException;
import java.nio.file.Path;
import java.util.ArrayList;
import java.util.LinkedHashMap;
import java.util.List;
import java.util.Map;
import java.util.Queue;
import java.util.concurrent.ConcurrentLinkedQueue;
import java.util.concurrent.CountDownLatch;
import java.util.concurrent.ExecutorService;
import java.util.concurrent.Executors;
import java.util.concurrent.LinkedBlockingQueue;
import java.util.concurrent.RejectedExecutionException;
import java.util.concurrent.ThreadPoolExecutor;
import java.util.concurrent.TimeUnit;
import java.util.concurrent.atomic.AtomicInteger;
import java.util.concurrent.atomic.LongAdder;
import java.util.function.BooleanSupplier;
import sizing.Recorder;

/**
 * A recorded run of a service: its pools and the threads of its clients. A run may have a slip, or settings that replace the
 * sizes and rounds of the service.
 */
final class Run {
    /** The body of a round. The clients of a kind are numbered from 0, and so are the rounds of each. */
    interface Round {
        void go(int client, int round) throws Exception;
    }

    private static final long SECONDS = 60;
    /** The time limit of a run. With a slip jobs may wait for each other forever; the recording is then cut off. */
    private static final long SECONDS_OF_A_SLIP = 30;
    final Recorder recorder;
    private final String slip;
    private final Settings settings;
    private final Map<String, ThreadPoolExecutor> executors = new LinkedHashMap<>();
    private final List<Thread> clients = new ArrayList<>();
    private final Queue<Throwable> failed = new ConcurrentLinkedQueue<>();
    private final LongAdder rounds = new LongAdder();
    private final LongAdder refused = new LongAdder();
    /** The number of rounds that clients may still begin, if the settings are given. */
    private final AtomicInteger roundsLeft = new AtomicInteger();
    private boolean isFirstKind = true;

    /** Creates a run with the slip `none`, `path`, `count`, `size` or `change`. */
    Run(Path recording, String slip) throws IOException {
        this(recording, slip, Settings.NONE);
    }

    /** Creates a run with these settings and no slip. */
    Run(Path recording, Settings settings) throws IOException {
        this(recording, "none", settings);
    }

    private Run(Path recording, String slip, Settings settings) throws IOException {
        recorder = Recorder.toFile(recording);
        this.slip = slip;
        this.settings = settings;
    }

    /** Returns whether the service takes a path that its plan lacks. */
    boolean takesAnotherPath() {
        return slip.equals("path");
    }

    /**
     * Creates a pool with an `ArrayBlockingQueue`, or with the sizes of the settings. The slip `size` adds a thread to the first
     * pool.
     */
    ExecutorService pool(String name, int core, int max, int queue) {
        Settings.Sizes sizes = settings.of(name, new Settings.Sizes(core, max + moreThreads(), queue));
        return pool(name, new ThreadPoolExecutor(sizes.core(), sizes.max(), 1, TimeUnit.SECONDS, settings.queueOf(sizes)));
    }

    /** Creates the pool of `Executors.newFixedThreadPool`, whose queue is unbounded, or a pool with the sizes of the settings. */
    ExecutorService fixedPool(String name, int threads) {
        if (!settings.areGiven()) {
            return pool(name, (ThreadPoolExecutor) Executors.newFixedThreadPool(threads + moreThreads()));
        }
        Settings.Sizes sizes = settings.of(name, null);
        return pool(name, new ThreadPoolExecutor(sizes.core(), sizes.max(), 0, TimeUnit.SECONDS, settings.queueOf(sizes)));
    }

    /** Creates a pool with an unbounded queue whose core threads time out after a millisecond. */
    ExecutorService timedPool(String name, int core, int max) {
        ThreadPoolExecutor executor = new ThreadPoolExecutor(core + moreThreads(), max, 1, TimeUnit.MILLISECONDS, new LinkedBlockingQueue<>());
        executor.allowCoreThreadTimeOut(true);
        return pool(name, executor);
    }

    private int moreThreads() {
        return slip.equals("size") && executors.isEmpty() ? 1 : 0;
    }

    private ExecutorService pool(String name, ThreadPoolExecutor executor) {
        if (settings.areGiven()) {
            executor.setRejectedExecutionHandler(this::refuse);
        }
        executors.put(name, executor);
        return recorder.pool(name, executor);
    }

    /** Counts a refusal and makes the clients begin no further round, even if the service catches the exception. */
    private void refuse(Runnable task, ThreadPoolExecutor executor) {
        refused.increment();
        roundsLeft.set(0);
        throw new RejectedExecutionException();
    }

    /**
     * Adds the threads of a kind of clients. In its first round, each waits until all of them have begun it. The slip `count`
     * adds a thread to the first kind. If the settings are given, the clients with more than one round share the rounds that are
     * left.
     */
    void clients(String kind, int count, int rounds, Round body) {
        int all = count + (slip.equals("count") && isFirstKind ? 1 : 0);
        isFirstKind = false;
        CountDownLatch within = new CountDownLatch(all);
        for (int number = 0; number < all; number++) {
            int client = number;
            clients.add(new Thread(() -> {
                for (int round = 0; begins(round, rounds) && round(kind, client, round, within, body); round++) {
                    continue;
                }
            }, kind + "-" + client));
        }
    }

    private boolean begins(int round, int own) {
        return round == 0 || (settings.areGiven() ? own > 1 && roundsLeft.getAndDecrement() > 0 : round < own);
    }

    /** Runs a round and returns whether it completed. */
    private boolean round(String kind, int client, int round, CountDownLatch within, Round body) {
        rounds.increment();
        try (Recorder.Round recorded = recorder.round(kind)) {
            within.countDown();
            await(within);
            body.go(client, round);
            return true;
        } catch (Exception | AssertionError wrong) {
            // with a slip a submit may be refused
            if (slip.equals("none")) {
                failed.add(wrong);
            }
            return false;
        }
    }

    static void await(CountDownLatch latch) throws InterruptedException {
        if (!latch.await(SECONDS, TimeUnit.SECONDS)) {
            throw new AssertionError("a latch did not open within 60 seconds");
        }
    }

    /**
     * Runs all clients to their ends, shuts down the pools, and closes the recorder. With a slip, waits for the clients only
     * until the time limit, closes the recorder, and then interrupts all threads.
     */
    void toItsEnd() throws Exception {
        clients.forEach(Thread::start);
        if (slip.equals("change")) {
            ThreadPoolExecutor first = executors.values().iterator().next();
            first.setMaximumPoolSize(first.getMaximumPoolSize() + 1);
            if (first.getQueue() instanceof LinkedBlockingQueue) {
                // the maximum has no effect over an unbounded queue
                first.setCorePoolSize(first.getMaximumPoolSize());
            }
        }
        if (slip.equals("none")) {
            end();
            recorder.close();
        } else {
            awaitClients(SECONDS_OF_A_SLIP);
            recorder.close();
            executors.values().forEach(ThreadPoolExecutor::shutdownNow);
            clients.forEach(Thread::interrupt);
            end();
        }
        if (!failed.isEmpty()) {
            throw new AssertionError(failed.peek());
        }
    }

    /**
     * Runs the clients until they and the pools end, or until no round begins and no job ends for this number of seconds. Returns
     * the counts of the run.
     */
    String met(long seconds) throws InterruptedException, IOException {
        roundsLeft.set(settings.rounds() - clients.size());
        clients.forEach(Thread::start);
        boolean stopped = stops(seconds, () -> clients.stream().noneMatch(Thread::isAlive));
        if (!stopped) {
            executors.values().forEach(ThreadPoolExecutor::shutdown);
            stopped = stops(seconds, () -> executors.values().stream().allMatch(ThreadPoolExecutor::isTerminated));
        }
        recorder.close();
        String met = "rounds " + rounds + ", jobs " + done() + ", refused " + refused + ", failed " + failed.size() + ", stopped " + (stopped ? 1 : 0);
        executors.values().forEach(ThreadPoolExecutor::shutdownNow);
        clients.forEach(Thread::interrupt);
        end();
        return met;
    }

    /** Returns whether no round begins and no job ends for this number of seconds before {@code through} holds. */
    private boolean stops(long seconds, BooleanSupplier through) throws InterruptedException {
        long before = -1;
        long since = System.nanoTime();
        while (!through.getAsBoolean()) {
            TimeUnit.MILLISECONDS.sleep(1);
            long now = done() + rounds.sum();
            if (now != before) {
                before = now;
                since = System.nanoTime();
            } else if (System.nanoTime() - since > TimeUnit.SECONDS.toNanos(seconds)) {
                return true;
            }
        }
        return false;
    }

    private long done() {
        return executors.values().stream().mapToLong(ThreadPoolExecutor::getCompletedTaskCount).sum();
    }

    private void end() throws InterruptedException {
        awaitClients(SECONDS);
        for (ThreadPoolExecutor executor : executors.values()) {
            executor.shutdown();
            if (clients.stream().anyMatch(Thread::isAlive) || !executor.awaitTermination(SECONDS, TimeUnit.SECONDS)) {
                throw new AssertionError("the service did not end within 60 seconds");
            }
        }
    }

    private void awaitClients(long seconds) throws InterruptedException {
        long end = System.nanoTime() + TimeUnit.SECONDS.toNanos(seconds);
        for (Thread client : clients) {
            client.join(Math.max(1, TimeUnit.NANOSECONDS.toMillis(end - System.nanoTime())));
        }
    }
}
