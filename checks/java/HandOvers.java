import java.util.ArrayList;
import java.util.Collections;
import java.util.List;
import java.util.concurrent.Callable;
import java.util.concurrent.CountDownLatch;
import java.util.concurrent.Future;
import java.util.concurrent.RejectedExecutionException;
import java.util.concurrent.RejectedExecutionHandler;
import java.util.concurrent.SynchronousQueue;
import java.util.concurrent.ThreadLocalRandom;
import java.util.concurrent.ThreadPoolExecutor;
import java.util.concurrent.ThreadPoolExecutor.AbortPolicy;
import java.util.concurrent.ThreadPoolExecutor.CallerRunsPolicy;
import java.util.concurrent.ThreadPoolExecutor.DiscardOldestPolicy;
import java.util.concurrent.ThreadPoolExecutor.DiscardPolicy;
import java.util.concurrent.TimeUnit;
import java.util.concurrent.atomic.LongAdder;
import java.util.concurrent.locks.LockSupport;

/** Experiments with a `ThreadPoolExecutor` over a `SynchronousQueue`, which is the queue of a plan's pool with `queue = 0`. */
final class HandOvers {
    private static final int ROUNDS = 100_000;
    private static final int ROUNDS_WITH_WAITS = 2000;
    private static final int SUBMITTERS = 3;
    private static final int SUBMITS = 1500;
    /** The longest pause in nanoseconds between two submits. It is above the keep-alive time. */
    private static final int LONGEST_PAUSE = 2_200_000;

    /** A pool over a `SynchronousQueue`, with all threads that it has started. */
    private static final class Pool extends ThreadPoolExecutor {
        final List<Thread> started = Collections.synchronizedList(new ArrayList<>());

        Pool(int core, int max, RejectedExecutionHandler handler) {
            super(core, max, 1, TimeUnit.HOURS, new SynchronousQueue<>(), handler);
            setThreadFactory(task -> {
                Thread thread = new Thread(task);
                thread.setDaemon(true);
                started.add(thread);
                return thread;
            });
        }

        /** Returns whether all threads wait in the queue for a job. */
        boolean isAtQueue() {
            return getActiveCount() == 0 && started.stream().map(Thread::getState)
                    .allMatch(state -> state == Thread.State.WAITING || state == Thread.State.TIMED_WAITING);
        }

        /** Submits a job that runs until the latch opens, and returns the outcome. */
        String submitHeld(CountDownLatch held) {
            int threads = started.size();
            try {
                execute(() -> Rest.hold(held));
            } catch (RejectedExecutionException rejected) {
                return "rejected";
            }
            return started.size() > threads ? "started" : "handed over";
        }
    }

    private HandOvers() {}

    /** Prints one line for each named fact. */
    public static void main(String[] names) throws Exception {
        for (String name : names) {
            System.out.println(fact(name).call());
        }
        System.exit(0);
    }

    private static Callable<String> fact(String name) {
        return switch (name) {
            case "one thread, at work" -> () -> oneThread(false);
            case "one thread, idle at the queue" -> () -> oneThread(true);
            case "one idle thread, core 1, max 2" -> () -> oneIdleThread(1);
            case "one idle thread, core 2, max 2" -> () -> oneIdleThread(2);
            case "two idle threads, max 2" -> () -> twoIdleThreads(2);
            case "two idle threads, max 3" -> () -> twoIdleThreads(3);
            case "submits at once after a get" -> HandOvers::submitsAtOnce;
            case "submits when the thread is back" -> HandOvers::submitsWhenBack;
            case "keep-alive, core 1, max 4" -> () -> keepAlive(1);
            case "keep-alive, core 4, max 4" -> () -> keepAlive(4);
            case "discard" -> () -> rejectedBy(new DiscardPolicy());
            case "discard oldest" -> () -> rejectedBy(new DiscardOldestPolicy());
            case "caller runs" -> () -> rejectedBy(new CallerRunsPolicy());
            default -> throw new IllegalArgumentException(name);
        };
    }

    /**
     * Starts the only thread with a job, and submits another job while the first one runs or, if {@code isIdle}, when the thread
     * is idle. Returns the outcome of both submits.
     */
    private static String oneThread(boolean isIdle) throws Exception {
        Pool pool = new Pool(1, 1, new AbortPolicy());
        CountDownLatch held = new CountDownLatch(isIdle ? 0 : 1);
        CountDownLatch later = new CountDownLatch(1);
        String first = pool.submitHeld(held);
        if (isIdle) {
            Rest.await(pool::isAtQueue);
        }
        String report = first + ", " + pool.submitHeld(later) + ", threads " + pool.getPoolSize();
        held.countDown();
        later.countDown();
        return report;
    }

    /** Submits two jobs while one thread is idle, and returns the outcome of each. */
    private static String oneIdleThread(int core) throws Exception {
        Pool pool = new Pool(core, 2, new AbortPolicy());
        pool.submit(() -> 7).get();
        Rest.await(pool::isAtQueue);
        CountDownLatch held = new CountDownLatch(1);
        String report = pool.submitHeld(held) + ", " + pool.submitHeld(held);
        held.countDown();
        return report;
    }

    /** Submits three jobs in sequence while two threads are idle, and returns the outcome of each. */
    private static String twoIdleThreads(int max) throws Exception {
        Pool pool = new Pool(2, max, new AbortPolicy());
        pool.prestartAllCoreThreads();
        Rest.await(pool::isAtQueue);
        CountDownLatch held = new CountDownLatch(1);
        String report = pool.submitHeld(held) + ", " + pool.submitHeld(held) + ", " + pool.submitHeld(held);
        held.countDown();
        return report;
    }

    /**
     * Submits jobs and gets each one before it submits the next, so no job is unfinished at a submit. Returns whether some are
     * rejected.
     */
    private static String submitsAtOnce() throws Exception {
        Pool pool = new Pool(1, 1, new AbortPolicy());
        int accepted = 0;
        for (int round = 0; round < ROUNDS; round++) {
            accepted += isServed(pool) ? 1 : 0;
        }
        return "some accepted " + (accepted > 1) + ", some rejected " + (accepted < ROUNDS) + ", threads " + pool.started.size();
    }

    private static String submitsWhenBack() throws Exception {
        Pool pool = new Pool(1, 1, new AbortPolicy());
        int accepted = 0;
        for (int round = 0; round < ROUNDS_WITH_WAITS; round++) {
            accepted += isServed(pool) ? 1 : 0;
            for (long end = System.nanoTime() + TimeUnit.SECONDS.toNanos(10); !pool.isAtQueue() && System.nanoTime() < end;) {
                Thread.yield();
            }
        }
        return "some accepted " + (accepted > 1) + ", some rejected " + (accepted < ROUNDS_WITH_WAITS) + ", threads " + pool.started.size();
    }

    private static boolean isServed(Pool pool) throws Exception {
        try {
            return pool.submit(() -> true).get();
        } catch (RejectedExecutionException rejected) {
            return false;
        }
    }

    /**
     * Submits jobs from several threads, with random pauses around the keep-alive time. Returns the number of accepted jobs that
     * never ran.
     */
    private static String keepAlive(int core) throws Exception {
        Pool pool = new Pool(core, 4, new AbortPolicy());
        pool.setKeepAliveTime(1, TimeUnit.MILLISECONDS);
        LongAdder accepted = new LongAdder();
        LongAdder ran = new LongAdder();
        List<Thread> submitters = new ArrayList<>();
        for (int number = 0; number < SUBMITTERS; number++) {
            submitters.add(new Thread(() -> {
                for (int submit = 0; submit < SUBMITS; submit++) {
                    try {
                        pool.execute(ran::increment);
                        accepted.increment();
                    } catch (RejectedExecutionException rejected) {
                        Thread.yield();
                    }
                    LockSupport.parkNanos(ThreadLocalRandom.current().nextInt(LONGEST_PAUSE));
                }
            }));
        }
        submitters.forEach(Thread::start);
        for (Thread submitter : submitters) {
            submitter.join();
        }
        Rest.await(() -> pool.getActiveCount() == 0 && pool.getPoolSize() == core);
        return "accepted jobs that never ran " + (accepted.sum() - ran.sum()) + ", some accepted " + (accepted.sum() > 0)
                + ", threads ended " + (pool.started.size() > core);
    }

    /** Submits a job while the only thread is at work. Returns the effect of the handler. */
    private static String rejectedBy(RejectedExecutionHandler handler) throws Exception {
        Pool pool = new Pool(1, 1, handler);
        CountDownLatch held = new CountDownLatch(1);
        pool.submitHeld(held);
        Thread[] by = new Thread[1];
        String outcome;
        try {
            Future<?> job = pool.submit(() -> by[0] = Thread.currentThread());
            outcome = "returned, done " + job.isDone() + ", by the caller " + (by[0] == Thread.currentThread());
        } catch (StackOverflowError overflow) {
            outcome = "threw StackOverflowError";
        }
        held.countDown();
        Rest.await(pool::isAtQueue);
        return outcome + ", ran " + (by[0] != null);
    }
}
