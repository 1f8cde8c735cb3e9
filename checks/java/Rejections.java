import java.util.List;
import java.util.concurrent.ArrayBlockingQueue;
import java.util.concurrent.BlockingQueue;
import java.util.concurrent.Callable;
import java.util.concurrent.CompletableFuture;
import java.util.concurrent.CompletionException;
import java.util.concurrent.CountDownLatch;
import java.util.concurrent.ExecutionException;
import java.util.concurrent.Future;
import java.util.concurrent.RejectedExecutionException;
import java.util.concurrent.RejectedExecutionHandler;
import java.util.concurrent.Semaphore;
import java.util.concurrent.ThreadLocalRandom;
import java.util.concurrent.ThreadPoolExecutor;
import java.util.concurrent.ThreadPoolExecutor.AbortPolicy;
import java.util.concurrent.ThreadPoolExecutor.CallerRunsPolicy;
import java.util.concurrent.ThreadPoolExecutor.DiscardOldestPolicy;
import java.util.concurrent.ThreadPoolExecutor.DiscardPolicy;
import java.util.concurrent.TimeUnit;
import java.util.concurrent.atomic.AtomicBoolean;
import java.util.concurrent.atomic.LongAdder;
import java.util.concurrent.locks.LockSupport;
import java.util.concurrent.locks.ReentrantLock;

/**
 * Experiments with executors that reject jobs by design when they are full: the cases of docs/COVERAGE.md and docs/PATTERNS.md.
 */
final class Rejections {
    private static final int ROUNDS = 2000;
    /** The longest time in microseconds that a thread waits before it takes a job. */
    private static final int SLOW = 300;

    /** A delay before a thread takes a job, so that threads of the pool are often idle while its queue is full. */
    private static final class SlowTaking implements Moments {
        @Override
        public Taking beforeTaking(boolean timed) {
            LockSupport.parkNanos(1000L * ThreadLocalRandom.current().nextInt(SLOW));
            return Taking.AS_EVER;
        }
    }

    /** A handler that counts the jobs that it passes on to another handler. */
    private record Counting(RejectedExecutionHandler handler, LongAdder count) implements RejectedExecutionHandler {
        Counting(RejectedExecutionHandler handler) {
            this(handler, new LongAdder());
        }

        @Override
        public void rejectedExecution(Runnable task, ThreadPoolExecutor pool) {
            count.increment();
            handler.rejectedExecution(task, pool);
        }
    }

    private Rejections() {}

    /** Prints one line for each named fact. */
    public static void main(String[] names) throws Exception {
        for (String name : names) {
            System.out.println(fact(name).call());
        }
        System.exit(0);
    }

    private static Callable<String> fact(String name) {
        return switch (name) {
            case "caller runs a job with a get, core 1" -> () -> jobWithAGet(1, new CallerRunsPolicy());
            case "caller runs a job with a get, core 2" -> () -> jobWithAGet(2, new CallerRunsPolicy());
            case "abort a job with a get, core 1" -> () -> jobWithAGet(1, new AbortPolicy());
            case "caller runs a job that submits" -> () -> jobThatSubmits(new CallerRunsPolicy());
            case "abort a job that submits" -> () -> jobThatSubmits(new AbortPolicy());
            case "caller runs, 2000 rounds, queue 2" -> () -> rounds(2);
            case "caller runs, 2000 rounds, queue 1" -> () -> rounds(1);
            case "discard and a get" -> () -> rejectedAndGot(new DiscardPolicy());
            case "discard oldest and a get" -> () -> rejectedAndGot(new DiscardOldestPolicy());
            case "caller runs and a get" -> () -> rejectedAndGot(new CallerRunsPolicy());
            case "invokeAll, abort" -> () -> invokeAll(new AbortPolicy());
            case "invokeAll, caller runs" -> () -> invokeAll(new CallerRunsPolicy());
            case "supplyAsync, abort" -> Rejections::supplyAsync;
            case "thenApplyAsync, abort" -> Rejections::thenApplyAsync;
            case "caller runs after shutdown" -> () -> callerRuns(true);
            case "caller runs before shutdown" -> () -> callerRuns(false);
            case "caller runs under a semaphore" -> Rejections::underASemaphore;
            case "caller runs under a reentrant lock" -> Rejections::underAReentrantLock;
            default -> throw new IllegalArgumentException(name);
        };
    }

    private static ThreadPoolExecutor pool(int core, int queue, RejectedExecutionHandler handler) {
        return pool(core, new ArrayBlockingQueue<>(queue), handler);
    }

    private static ThreadPoolExecutor pool(int core, BlockingQueue<Runnable> queue, RejectedExecutionHandler handler) {
        return new ThreadPoolExecutor(core, core, 1, TimeUnit.HOURS, queue, handler);
    }

    /**
     * Returns a pool with one thread and one place in its queue, both in use: one job runs until the latch opens, and one is
     * queued.
     */
    private static ThreadPoolExecutor fullPool(CountDownLatch held, RejectedExecutionHandler handler) {
        ThreadPoolExecutor pool = pool(1, 1, handler);
        pool.execute(() -> Rest.hold(held));
        pool.execute(() -> { });
        return pool;
    }

    /** Returns whether the pool's threads have run this number of jobs and are idle. */
    private static boolean ran(ThreadPoolExecutor pool, long jobs) {
        return pool.getCompletedTaskCount() == jobs && pool.getActiveCount() == 0;
    }

    private static String busy(ThreadPoolExecutor pool) {
        return pool.getActiveCount() + " at work, " + pool.getQueue().size() + " queued";
    }

    // ---- jobs that their caller runs

    /**
     * Runs jobs `a` of p, each of which submits a job `b` to q; `b` submits a job to p and gets it. A client gets each `a` before
     * it submits the next one. The first `b` is held, the second one is queued, and the third one is rejected. Then the first one
     * continues. Returns whether the third `a` is done.
     */
    private static String jobWithAGet(int core, RejectedExecutionHandler handler) throws Exception {
        Counting rejecting = new Counting(handler);
        ThreadPoolExecutor p = pool(core, 2, new AbortPolicy());
        ThreadPoolExecutor q = pool(1, 1, rejecting);
        CountDownLatch held = new CountDownLatch(1);
        AtomicBoolean isFirst = new AtomicBoolean(true);
        Callable<Integer> b = () -> {
            if (isFirst.getAndSet(false)) {
                Rest.hold(held);
            }
            return p.submit(() -> 1).get();
        };
        Runnable a = () -> submit(q, b);
        p.submit(a).get();
        p.submit(a).get();
        Future<?> third = p.submit(a);
        Rest.await(() -> rejecting.count.sum() == 1);
        held.countDown();
        int gets = handler instanceof CallerRunsPolicy ? 3 : 2;
        Rest.await(() -> p.getActiveCount() == core && p.getQueue().size() == 2 || ran(p, 3 + gets) && ran(q, 2));
        return "third done " + third.isDone() + ", p " + busy(p) + ", q " + busy(q);
    }

    /** Submits a job, and continues if the pool rejects it. */
    private static void submit(ThreadPoolExecutor pool, Callable<Integer> job) {
        try {
            pool.submit(job);
        } catch (RejectedExecutionException full) {
            // the pool has no room, and no thread gets the job
        }
    }

    /**
     * Runs jobs `a` of q, each of which submits a held job to p and gets it. Two clients submit `a` without a get: the first `a`
     * is started, the second one is queued, and two more are rejected. Each pool has one thread and one place. Returns the
     * numbers of jobs that q rejects and that p refuses.
     */
    private static String jobThatSubmits(RejectedExecutionHandler handler) throws Exception {
        Counting refusing = new Counting(new AbortPolicy());
        Counting rejecting = new Counting(handler);
        ThreadPoolExecutor p = pool(1, 1, refusing);
        ThreadPoolExecutor q = pool(1, 1, rejecting);
        CountDownLatch held = new CountDownLatch(1);
        Callable<Integer> a = () -> {
            p.submit(() -> Rest.hold(held)).get();
            return 1;
        };
        submit(q, a);
        Rest.await(() -> p.getActiveCount() == 1);
        submit(q, a);
        Thread other = new Thread(() -> submit(q, a));
        other.start();
        Rest.await(() -> !other.isAlive() || p.getQueue().size() == 1);
        submit(q, a);
        String report = "rejected by q " + rejecting.count + ", refused by p " + refusing.count;
        held.countDown();
        other.join();
        return report;
    }

    /** Runs the jobs of `jobWithAGet` for many rounds, with core 2 and threads that take jobs slowly, until p refuses a job. */
    private static String rounds(int queue) throws Exception {
        Counting refusing = new Counting(new AbortPolicy());
        Counting rejecting = new Counting(new CallerRunsPolicy());
        ThreadPoolExecutor p = pool(2, new ArrayQueue(queue, new SlowTaking()), refusing);
        ThreadPoolExecutor q = pool(1, new ArrayQueue(1, new SlowTaking()), rejecting);
        LongAdder served = new LongAdder();
        Callable<Integer> b = () -> {
            p.submit(() -> 1).get();
            served.increment();
            return 1;
        };
        int round = 0;
        for (; round < ROUNDS && refusing.count.sum() == 0; round++) {
            try {
                p.submit(() -> submit(q, b)).get(Rest.MILLISECONDS, TimeUnit.MILLISECONDS);
            } catch (RejectedExecutionException counted) {
                break;
            }
        }
        int rounds = round;
        boolean refuses = refusing.count.sum() > 0;
        if (!refuses) {
            Rest.await(() -> served.sum() == rounds);
        }
        return refuses ? "refused" : "all " + rounds + " served, some by the caller " + (rejecting.count.sum() > 0);
    }

    // ---- gets of rejected jobs

    /**
     * Submits a job to a full pool whose thread becomes idle afterwards. Returns whether the queued job and the last one are
     * done.
     */
    private static String rejectedAndGot(RejectedExecutionHandler handler) throws InterruptedException {
        CountDownLatch held = new CountDownLatch(1);
        ThreadPoolExecutor pool = pool(1, 1, handler);
        pool.execute(() -> Rest.hold(held));
        Future<Integer> queued = pool.submit(() -> 1);
        Future<Integer> last = pool.submit(() -> 2);
        held.countDown();
        Rest.await(() -> ran(pool, 2));
        return "queued done " + queued.isDone() + ", last done " + last.isDone();
    }

    /**
     * Calls `invokeAll` with two jobs for a pool that has one free place, so that the second job is rejected. Returns the
     * outcome.
     */
    private static String invokeAll(RejectedExecutionHandler handler) throws InterruptedException {
        CountDownLatch held = new CountDownLatch(1);
        ThreadPoolExecutor pool = pool(1, 1, handler);
        LongAdder ran = new LongAdder();
        pool.execute(() -> Rest.hold(held));
        Callable<Integer> first = () -> {
            ran.increment();
            return 1;
        };
        Callable<Integer> second = () -> {
            ran.increment();
            held.countDown();
            return 2;
        };
        String report;
        try {
            pool.invokeAll(List.of(first, second));
            report = "returned";
        } catch (RejectedExecutionException full) {
            report = "threw RejectedExecutionException";
        }
        report += ", queued " + pool.getQueue().size();
        held.countDown();
        Rest.await(() -> ran(pool, 2));
        return report + ", ran " + ran;
    }

    private static String supplyAsync() {
        CountDownLatch held = new CountDownLatch(1);
        try {
            CompletableFuture.supplyAsync(() -> 1, fullPool(held, new AbortPolicy()));
            return "returned a stage";
        } catch (RejectedExecutionException full) {
            return "threw RejectedExecutionException";
        } finally {
            held.countDown();
        }
    }

    /** Builds three stages, of which the second one is submitted to a full pool. Returns the outcome of the join. */
    private static String thenApplyAsync() {
        CountDownLatch held = new CountDownLatch(1);
        ThreadPoolExecutor io = pool(1, 1, new AbortPolicy());
        ThreadPoolExecutor cpu = fullPool(held, new AbortPolicy());
        LongAdder later = new LongAdder();
        CompletableFuture<Integer> chain = CompletableFuture.supplyAsync(() -> 1, io).thenApplyAsync(one -> one + 1, cpu)
                .thenApplyAsync(two -> {
                    later.increment();
                    return two + 1;
                }, io);
        try {
            return "joined " + chain.join();
        } catch (CompletionException failed) {
            return "join threw " + failed.getCause().getClass().getSimpleName() + ", later stages " + later + ", cpu " + busy(cpu);
        } finally {
            held.countDown();
        }
    }

    // ---- CallerRunsPolicy

    private static String callerRuns(boolean isShutDown) throws InterruptedException, ExecutionException {
        CountDownLatch held = new CountDownLatch(1);
        ThreadPoolExecutor pool = fullPool(held, new CallerRunsPolicy());
        if (isShutDown) {
            pool.shutdown();
        }
        Future<Thread> last = pool.submit(Thread::currentThread);
        held.countDown();
        Rest.await(() -> pool.getCompletedTaskCount() == 2);
        return "done " + last.isDone() + (last.isDone() ? ", by the caller " + (last.get() == Thread.currentThread()) : "");
    }

    private static String underASemaphore() throws InterruptedException {
        Semaphore lock = new Semaphore(1);
        return under(lock::acquireUninterruptibly, lock::release, lock::hasQueuedThreads);
    }

    private static String underAReentrantLock() throws InterruptedException {
        ReentrantLock lock = new ReentrantLock();
        return under(lock::lock, lock::unlock, lock::hasQueuedThreads);
    }

    /**
     * Submits a job to a full pool from a caller that holds a lock, which the job takes too. Returns whether the caller waits.
     */
    private static String under(Runnable locks, Runnable unlocks, Rest.Condition isAwaited) throws InterruptedException {
        CountDownLatch held = new CountDownLatch(1);
        ThreadPoolExecutor pool = fullPool(held, new CallerRunsPolicy());
        Thread caller = new Thread(() -> {
            locks.run();
            pool.execute(() -> {
                locks.run();
                unlocks.run();
            });
            unlocks.run();
        });
        caller.start();
        Rest.await(() -> !caller.isAlive() || isAwaited.holds());
        held.countDown();
        Rest.await(() -> ran(pool, 2));
        return "the caller waits " + caller.isAlive();
    }
}
