import java.util.List;
import java.util.concurrent.Callable;
import java.util.concurrent.CopyOnWriteArrayList;
import java.util.concurrent.CountDownLatch;
import java.util.concurrent.Future;
import java.util.concurrent.LinkedBlockingQueue;
import java.util.concurrent.RejectedExecutionException;
import java.util.concurrent.ThreadPoolExecutor;
import java.util.concurrent.TimeUnit;
import java.util.concurrent.TimeoutException;

/**
 * Experiments with a `ThreadPoolExecutor` whose core threads may time out. The keep-alive is a millisecond. The queue pauses
 * threads at moments where the system may preempt them too: before an offer, after a poll that found nothing, and before a check
 * that the queue is empty.
 */
final class CoreTimeouts {
    /** The core size of Spring Boot's executor. */
    private static final int CORE = 8;
    private static final int UNBOUNDED = Integer.MAX_VALUE;
    /** The number of milliseconds after which jobs that wait for each other count as stuck. */
    private static final int STUCK = 2000;
    /** The number of milliseconds that a submitter waits if no core thread ends. */
    private static final int NONE_ENDS = 200;

    private CoreTimeouts() {}

    /** Prints one line for each named fact. */
    public static void main(String[] names) throws Exception {
        for (String name : names) {
            System.out.println(fact(name).call());
        }
        System.exit(0);
    }

    private static Callable<String> fact(String name) {
        return switch (name) {
            case "core 8, 2 jobs, threads end before the offer" -> () -> outerJob(UNBOUNDED, true, false, false);
            case "core 8, 2 jobs, threads end after the offer" -> () -> outerJob(UNBOUNDED, true, true, false);
            case "core 8, 2 jobs, no core timeout" -> () -> outerJob(UNBOUNDED, false, false, false);
            case "core 8, 2 jobs, queue 100" -> () -> outerJob(100, true, false, false);
            case "core 8, 2 jobs, queue 100, no core timeout" -> () -> outerJob(100, false, false, false);
            case "core 8, 2 jobs in two pools, threads end before the offer" -> () -> outerJob(UNBOUNDED, true, false, true);
            case "core 8, 2 jobs in two pools, threads end after the offer" -> () -> outerJob(UNBOUNDED, true, true, true);
            case "core 1, the thread ends before the offer" -> () -> lastThread(true);
            case "core 1, the time of the thread ends before the offer" -> () -> lastThread(false);
            case "core 1, max 2, queue without a capacity" -> () -> bothLook(2, UNBOUNDED);
            case "core 1, max 1, queue without a capacity" -> () -> bothLook(1, UNBOUNDED);
            case "core 1, max 2, queue 1, 3 jobs" -> () -> bothLook(2, 1);
            case "core 1, max 2, queue 1, 3 jobs, no core timeout" -> CoreTimeouts::threeJobs;
            default -> throw new IllegalArgumentException(name);
        };
    }

    /** A pool over a {@code TimedQueue}. The keep-alive is a millisecond until a caller changes it. */
    private static final class Pool extends ThreadPoolExecutor {
        private static final ThreadLocal<Runnable> BEFORE_OFFER = new ThreadLocal<>();
        final List<Thread> threads = new CopyOnWriteArrayList<>();
        /** The action of a thread after a poll that timed out without a job. */
        volatile Runnable afterTime = () -> { };
        /** The action of a thread before it polls for a job. */
        volatile Runnable beforeTaking = () -> { };
        /** The action of a thread before it checks whether the queue is empty. */
        volatile Runnable beforeLook = () -> { };

        Pool(int core, int max, int queue, boolean coreTimeout) {
            super(core, max, 1, TimeUnit.MILLISECONDS, new TimedQueue(queue));
            ((TimedQueue) getQueue()).pool = this;
            allowCoreThreadTimeOut(coreTimeout);
            setThreadFactory(task -> {
                Thread thread = new Thread(task);
                thread.setDaemon(true);
                threads.add(thread);
                return thread;
            });
        }

        /** Submits a job. The submitter runs {@code beforeOffer} after it has compared the number of threads with core. */
        <T> Future<T> submit(Callable<T> job, Runnable beforeOffer) {
            BEFORE_OFFER.set(beforeOffer);
            try {
                return submit(job);
            } finally {
                BEFORE_OFFER.remove();
            }
        }

        /** Starts all core threads. Each runs a job until all of them have one. */
        Pool withCoreThreads() throws InterruptedException {
            CountDownLatch all = new CountDownLatch(getCorePoolSize());
            beforeTaking = () -> hold(all);
            for (int job = 0; job < getCorePoolSize(); job++) {
                execute(() -> {
                    all.countDown();
                    hold(all);
                });
            }
            return this;
        }

        String counts() {
            return "threads " + getPoolSize() + ", at work " + getActiveCount() + ", queued " + getQueue().size();
        }
    }

    private static final class TimedQueue extends LinkedBlockingQueue<Runnable> {
        private static final long serialVersionUID = 1;
        private transient volatile Pool pool;

        TimedQueue(int capacity) {
            super(capacity);
        }

        @Override
        public boolean offer(Runnable job) {
            Runnable first = Pool.BEFORE_OFFER.get();
            if (first != null) {
                first.run();
            }
            return super.offer(job);
        }

        @Override
        public Runnable poll(long time, TimeUnit unit) throws InterruptedException {
            pool.beforeTaking.run();
            Runnable job = super.poll(time, unit);
            if (job == null) {
                pool.afterTime.run();
            }
            return job;
        }

        @Override
        public boolean isEmpty() {
            pool.beforeLook.run();
            return super.isEmpty();
        }
    }

    private static void hold(CountDownLatch latch) {
        try {
            if (!latch.await(Rest.MILLISECONDS, TimeUnit.MILLISECONDS)) {
                throw new IllegalStateException("a latch did not open within 10 seconds");
            }
        } catch (InterruptedException over) {
            Thread.currentThread().interrupt();
        }
    }

    /** Waits until the condition holds, but at most for this number of milliseconds. */
    private static void within(long milliseconds, Rest.Condition condition) {
        long end = System.nanoTime() + TimeUnit.MILLISECONDS.toNanos(milliseconds);
        while (!condition.holds() && System.nanoTime() < end) {
            Thread.onSpinWait();
        }
    }

    private static <T> boolean isDone(Future<T> job) throws Exception {
        try {
            job.get(STUCK, TimeUnit.MILLISECONDS);
            return true;
        } catch (TimeoutException stuck) {
            return false;
        }
    }

    // ---- a job that gets a job

    /**
     * Runs an outer job that submits an inner job and gets it. The inner job goes to the same pool or to another one of the same
     * sizes, whose core threads are all started. After that submit has counted the threads of its pool, and before its offer, the
     * keep-alive of all idle threads there ends, if core threads may time out. These threads then end before the offer or, if
     * {@code afterOffer}, pause until the offer is made. Returns whether the outer job is done.
     */
    private static String outerJob(int queue, boolean coreTimeout, boolean afterOffer, boolean inAnotherPool) throws Exception {
        int max = queue == UNBOUNDED ? Integer.MAX_VALUE : CORE;
        Pool pool = new Pool(CORE, max, queue, coreTimeout);
        Pool inner = inAnotherPool ? new Pool(CORE, max, queue, coreTimeout) : pool;
        CountDownLatch running = new CountDownLatch(1);
        CountDownLatch offered = new CountDownLatch(1);
        CountDownLatch over = new CountDownLatch(inAnotherPool ? CORE : CORE - 1);
        for (Pool each : inAnotherPool ? List.of(pool, inner) : List.of(pool)) {
            each.setKeepAliveTime(1, TimeUnit.HOURS);
            each.withCoreThreads();
            Rest.await(() -> each.getActiveCount() == 0);
        }
        Future<Integer> outer = pool.submit(() -> {
            running.countDown();
            Future<Integer> job = inner.submit(() -> 7, () -> {
                inner.afterTime = () -> {
                    over.countDown();
                    if (afterOffer) {
                        hold(offered);
                    }
                };
                inner.setKeepAliveTime(1, TimeUnit.MILLISECONDS);
                within(coreTimeout ? Rest.MILLISECONDS : NONE_ENDS, () -> over.getCount() == 0 && (afterOffer || inner.getPoolSize() == (inAnotherPool ? 0 : 1)));
                inner.afterTime = () -> { };
            });
            offered.countDown();
            return job.get();
        });
        hold(running);
        boolean isDone = isDone(outer);
        String report = "outer done " + isDone + (isDone ? "" : ", " + inner.counts());
        if (!isDone) {
            pool.submit(() -> 7);
            report += "; after a further submit done " + isDone(outer);
        }
        return report;
    }

    // ---- the last thread

    /**
     * Submits a job while the pool has one idle thread, whose keep-alive ends before the offer. The thread itself also ends
     * before the offer if {@code endsBefore}, and otherwise pauses until the offer is made. Returns whether the job is done, and
     * by which thread.
     */
    private static String lastThread(boolean endsBefore) throws Exception {
        Pool pool = new Pool(1, 1, UNBOUNDED, true);
        pool.setKeepAliveTime(1, TimeUnit.HOURS);
        pool.submit(() -> 7).get();
        CountDownLatch offered = new CountDownLatch(1);
        CountDownLatch over = new CountDownLatch(1);
        Thread first = pool.threads.get(0);
        Future<Integer> job = pool.submit(() -> 7, () -> {
            pool.afterTime = () -> {
                over.countDown();
                if (!endsBefore) {
                    hold(offered);
                }
            };
            pool.setKeepAliveTime(1, TimeUnit.MILLISECONDS);
            hold(over);
            within(Rest.MILLISECONDS, () -> !endsBefore || !first.isAlive());
            pool.afterTime = () -> { };
        });
        offered.countDown();
        return "done " + isDone(job) + ", by another thread " + (pool.threads.size() > 1);
    }

    /**
     * Submits a job while the only thread of the pool ends. The thread checks whether it must be replaced, and the submitter
     * checks for a thread after its offer, so both find no thread and a queued job. Then submits one more job if the queue has a
     * capacity. Returns the pool's counts.
     */
    private static String bothLook(int max, int queue) throws Exception {
        Pool pool = new Pool(1, max, queue, true);
        pool.setKeepAliveTime(1, TimeUnit.HOURS);
        pool.submit(() -> 7).get();
        CountDownLatch ended = new CountDownLatch(1);
        CountDownLatch looked = new CountDownLatch(1);
        CountDownLatch free = new CountDownLatch(1);
        Thread first = pool.threads.get(0);
        Thread submitter = new Thread(() -> pool.submit(() -> 7, () -> {
            // the thread's second check, after it has ended, decides whether it is replaced
            pool.beforeLook = new Runnable() {
                private int looks;

                @Override
                public void run() {
                    if (Thread.currentThread() == first && ++looks == 2) {
                        ended.countDown();
                        hold(looked);
                    }
                }
            };
            pool.beforeTaking = () -> {
                if (Thread.currentThread() != first) {
                    hold(free);
                }
            };
            pool.setKeepAliveTime(1, TimeUnit.MILLISECONDS);
            hold(ended);
        }));
        submitter.start();
        submitter.join();
        looked.countDown();
        first.join();
        String report = "threads " + pool.getPoolSize() + ", queued " + pool.getQueue().size();
        if (queue != UNBOUNDED) {
            report += ", a further job " + served(pool);
        }
        free.countDown();
        Rest.await(() -> pool.getCompletedTaskCount() == pool.getTaskCount());
        return report;
    }

    private static String threeJobs() {
        Pool pool = new Pool(1, 2, 1, false);
        CountDownLatch free = new CountDownLatch(1);
        StringBuilder report = new StringBuilder();
        for (int job = 0; job < 3; job++) {
            try {
                pool.execute(() -> hold(free));
                report.append("served ");
            } catch (RejectedExecutionException refused) {
                report.append("refused ");
            }
        }
        free.countDown();
        return report.toString().strip();
    }

    private static String served(Pool pool) {
        try {
            pool.execute(() -> { });
            return "served";
        } catch (RejectedExecutionException refused) {
            return "refused";
        }
    }
}
