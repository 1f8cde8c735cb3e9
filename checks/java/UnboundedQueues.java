import java.util.ArrayList;
import java.util.Arrays;
import java.util.List;
import java.util.concurrent.ArrayBlockingQueue;
import java.util.concurrent.BlockingQueue;
import java.util.concurrent.Callable;
import java.util.concurrent.CountDownLatch;
import java.util.concurrent.ExecutionException;
import java.util.concurrent.Executors;
import java.util.concurrent.Future;
import java.util.concurrent.LinkedBlockingQueue;
import java.util.concurrent.RejectedExecutionException;
import java.util.concurrent.ThreadPoolExecutor;
import java.util.concurrent.ThreadPoolExecutor.CallerRunsPolicy;
import java.util.concurrent.TimeUnit;
import java.util.concurrent.TimeoutException;
import java.util.concurrent.atomic.AtomicInteger;
import java.util.concurrent.atomic.LongAdder;
import java.util.concurrent.locks.LockSupport;

/**
 * Experiments with a `ThreadPoolExecutor` over a `LinkedBlockingQueue` without a capacity, which is the unbounded queue of a
 * plan.
 */
final class UnboundedQueues {
    private static final int HELD = 10_000;
    private static final int SUBMITTERS = 4;
    private static final int SUBMITS = 5000;
    private static final int ROUNDS = 20_000;
    /** The number of milliseconds after which jobs that wait for each other count as stuck. */
    private static final int STUCK = 2000;

    private UnboundedQueues() {}

    /** Prints one line for each named fact. */
    public static void main(String[] names) throws Exception {
        for (String name : names) {
            System.out.println(fact(name).call());
        }
        System.exit(0);
    }

    private static Callable<String> fact(String name) {
        return switch (name) {
            case "one thread, 1 outer job" -> () -> outerJobs(fixed(1), 1);
            case "three threads, 2 outer jobs" -> () -> outerJobs(fixed(3), 2);
            case "three threads, 3 outer jobs" -> () -> outerJobs(fixed(3), 3);
            case "core 3, max 8, 3 outer jobs" -> () -> outerJobs(pool(3, 8, new LinkedBlockingQueue<>()), 3);
            case "core 3, max 8, queue 2, 3 outer jobs" -> () -> outerJobs(pool(3, 8, new ArrayBlockingQueue<>(2)), 3);
            case "three threads, 2 clients" -> () -> rounds(fixed(3), 2);
            case "three threads, 3 clients" -> () -> rounds(fixed(3), 3);
            case "core 2, max 8" -> () -> held(2, 8, new LinkedBlockingQueue<>());
            case "core 2, max 8, queue 100" -> () -> held(2, 8, new LinkedBlockingQueue<>(100));
            case "core 0, max 8" -> () -> held(0, 8, new LinkedBlockingQueue<>());
            case "core 2, max 8, submitters" -> () -> submitters(new LinkedBlockingQueue<>());
            case "core 2, max 8, queue 100, submitters" -> () -> submitters(new LinkedBlockingQueue<>(100));
            case "caller runs over a queue without a capacity" -> () -> callerRuns(new LinkedBlockingQueue<>());
            case "caller runs over a queue of 100" -> () -> callerRuns(new LinkedBlockingQueue<>(100));
            case "a submit after shutdown" -> UnboundedQueues::afterShutdown;
            default -> throw new IllegalArgumentException(name);
        };
    }

    /** Returns the pool that `Executors.newFixedThreadPool` makes. */
    private static ThreadPoolExecutor fixed(int threads) {
        return withDaemons((ThreadPoolExecutor) Executors.newFixedThreadPool(threads));
    }

    private static ThreadPoolExecutor pool(int core, int max, BlockingQueue<Runnable> queue) {
        return withDaemons(new ThreadPoolExecutor(core, max, 1, TimeUnit.HOURS, queue));
    }

    private static ThreadPoolExecutor withDaemons(ThreadPoolExecutor pool) {
        pool.setThreadFactory(task -> {
            Thread thread = new Thread(task);
            thread.setDaemon(true);
            return thread;
        });
        return pool;
    }

    // ---- jobs that get jobs of their own pool

    /**
     * Runs outer jobs. When all of them run, each submits a job to its own pool and gets it. Returns the number of outer jobs
     * that end within two seconds, and the pool's counts.
     */
    private static String outerJobs(ThreadPoolExecutor pool, int number) throws Exception {
        CountDownLatch running = new CountDownLatch(number);
        List<Future<Integer>> outer = new ArrayList<>();
        for (int job = 0; job < number; job++) {
            outer.add(pool.submit(() -> {
                running.countDown();
                running.await();
                return pool.submit(() -> 7).get();
            }));
        }
        int done = 0;
        for (Future<Integer> job : outer) {
            try {
                done += job.get(STUCK / number, TimeUnit.MILLISECONDS) == 7 ? 1 : 0;
            } catch (TimeoutException stuck) {
                continue;
            }
        }
        if (done == number) {
            Rest.await(() -> pool.getActiveCount() == 0);
        }
        return "outer done " + done + ", threads " + pool.getPoolSize() + ", at work " + pool.getActiveCount() + ", queued " + pool.getQueue().size();
    }

    /** Runs clients that repeatedly submit an outer job and get it. Returns whether all of these jobs were served. */
    private static String rounds(ThreadPoolExecutor pool, int clients) throws Exception {
        AtomicInteger left = new AtomicInteger(ROUNDS);
        LongAdder served = new LongAdder();
        List<Thread> threads = new ArrayList<>();
        for (int client = 0; client < clients; client++) {
            Thread thread = new Thread(() -> {
                try {
                    while (left.getAndDecrement() > 0) {
                        pool.submit(() -> {
                            Thread.yield();
                            return pool.submit(() -> 7).get();
                        }).get();
                        served.increment();
                    }
                } catch (InterruptedException | ExecutionException over) {
                    return;
                }
            });
            thread.setDaemon(true);
            threads.add(thread);
            thread.start();
        }
        long before = -1;
        for (long idle = 0; idle < STUCK && threads.stream().anyMatch(Thread::isAlive); idle++) {
            idle = served.sum() == before ? idle : 0;
            before = served.sum();
            TimeUnit.MILLISECONDS.sleep(1);
        }
        return "all served " + (served.sum() == ROUNDS) + ", largest " + pool.getLargestPoolSize();
    }

    // ---- jobs without gets

    /** Submits many jobs that run until the end, and returns the pool's counts. */
    private static String held(int core, int max, BlockingQueue<Runnable> queue) throws InterruptedException {
        ThreadPoolExecutor pool = pool(core, max, queue);
        CountDownLatch end = new CountDownLatch(1);
        AtomicInteger started = new AtomicInteger();
        int accepted = 0;
        for (int job = 0; job < HELD; job++) {
            accepted += submits(pool, () -> {
                started.incrementAndGet();
                Rest.hold(end);
            }) ? 1 : 0;
        }
        Rest.await(() -> started.get() == pool.getPoolSize());
        String report = "accepted " + accepted + ", threads " + pool.getPoolSize() + ", at work " + pool.getActiveCount() + ", queued " + pool.getQueue().size();
        end.countDown();
        return report;
    }

    private static boolean submits(ThreadPoolExecutor pool, Runnable job) {
        try {
            pool.execute(job);
            return true;
        } catch (RejectedExecutionException rejected) {
            return false;
        }
    }

    /**
     * Submits jobs from several threads without pauses. Returns whether some were rejected, and whether each accepted job ran.
     */
    private static String submitters(BlockingQueue<Runnable> queue) throws InterruptedException {
        ThreadPoolExecutor pool = pool(2, 8, queue);
        LongAdder accepted = new LongAdder();
        LongAdder ran = new LongAdder();
        Thread[] submitters = new Thread[SUBMITTERS];
        Arrays.setAll(submitters, number -> new Thread(() -> {
            for (int submit = 0; submit < SUBMITS; submit++) {
                accepted.add(submits(pool, () -> {
                    LockSupport.parkNanos(20_000);
                    ran.increment();
                }) ? 1 : 0);
            }
        }));
        for (Thread submitter : submitters) {
            submitter.start();
        }
        for (Thread submitter : submitters) {
            submitter.join();
        }
        Rest.await(() -> pool.getActiveCount() == 0 && pool.getQueue().isEmpty());
        return "some rejected " + (accepted.sum() < SUBMITTERS * SUBMITS) + ", accepted jobs that never ran " + (accepted.sum() - ran.sum())
                + ", largest " + pool.getLargestPoolSize();
    }

    /** Submits jobs while all threads are at work. Returns the number of jobs that their caller ran. */
    private static String callerRuns(BlockingQueue<Runnable> queue) {
        ThreadPoolExecutor pool = pool(2, 2, queue);
        pool.setRejectedExecutionHandler(new CallerRunsPolicy());
        CountDownLatch end = new CountDownLatch(1);
        pool.execute(() -> Rest.hold(end));
        pool.execute(() -> Rest.hold(end));
        Thread caller = Thread.currentThread();
        AtomicInteger byCaller = new AtomicInteger();
        for (int job = 0; job < HELD; job++) {
            pool.execute(() -> byCaller.addAndGet(Thread.currentThread() == caller ? 1 : 0));
        }
        String report = "by the caller " + byCaller.get() + ", queued " + pool.getQueue().size();
        end.countDown();
        return report;
    }

    private static String afterShutdown() {
        ThreadPoolExecutor pool = fixed(1);
        boolean before = submits(pool, () -> { });
        pool.shutdown();
        return "accepted before " + before + ", after " + submits(pool, () -> { });
    }
}
