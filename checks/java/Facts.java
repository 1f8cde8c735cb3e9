import java.util.ArrayList;
import java.util.Collections;
import java.util.List;
import java.util.concurrent.ArrayBlockingQueue;
import java.util.concurrent.BlockingQueue;
import java.util.concurrent.Callable;
import java.util.concurrent.CountDownLatch;
import java.util.concurrent.ExecutorCompletionService;
import java.util.concurrent.FutureTask;
import java.util.concurrent.LinkedBlockingQueue;
import java.util.concurrent.RejectedExecutionException;
import java.util.concurrent.Semaphore;
import java.util.concurrent.ThreadPoolExecutor;
import java.util.concurrent.TimeUnit;

/** Experiments with `ThreadPoolExecutor` and `FutureTask` for the cases of docs/COVERAGE.md that no plan contains. */
final class Facts {
    /** An exception that a job throws on purpose. */
    private static final class Planned extends RuntimeException {
        private static final long serialVersionUID = 1;
    }

    /** A pool that records the classes of the exceptions that end its threads. */
    private static final class Pool extends ThreadPoolExecutor {
        final List<String> ended = Collections.synchronizedList(new ArrayList<>());

        Pool(int core, int max, BlockingQueue<Runnable> queue) {
            super(core, max, 1, TimeUnit.HOURS, queue);
            setThreadFactory(task -> {
                Thread thread = new Thread(task);
                thread.setDaemon(true);
                thread.setUncaughtExceptionHandler((one, failed) -> ended.add(failed.getClass().getSimpleName()));
                return thread;
            });
        }
    }

    private Facts() {}

    /** Prints one line for each named fact. */
    public static void main(String[] names) throws Exception {
        for (String name : names) {
            System.out.println(fact(name).call());
        }
        System.exit(0);
    }

    private static Callable<String> fact(String name) {
        return switch (name) {
            case "done throws" -> Facts::doneThrows;
            case "done throws in a cancel" -> Facts::doneThrowsInACancel;
            case "done submits" -> Facts::doneSubmits;
            case "full completion queue" -> Facts::fullCompletionQueue;
            case "job put into the queue" -> Facts::jobPutIntoTheQueue;
            case "shared queue" -> Facts::sharedQueue;
            case "prestarted late" -> () -> prestartedLate(true);
            case "not prestarted" -> () -> prestartedLate(false);
            case "execute throws, max 2" -> () -> executeThrows(2);
            case "execute throws, max 3" -> () -> executeThrows(3);
            case "keep-alive, core 1, max 1" -> () -> keepAlive(1);
            case "keep-alive, core 1, max 2" -> () -> keepAlive(2);
            case "permit after shutdown, with catch" -> () -> permitAfterShutdown(true);
            case "permit after shutdown, without catch" -> () -> permitAfterShutdown(false);
            default -> throw new IllegalArgumentException(name);
        };
    }

    // ---- done()

    private static <T> FutureTask<T> withDone(Callable<T> body, Runnable done) {
        return new FutureTask<>(body) {
            @Override
            protected void done() {
                done.run();
            }
        };
    }

    private static void fail() {
        throw new Planned();
    }

    private static String doneThrows() throws Exception {
        Pool pool = new Pool(1, 1, new ArrayBlockingQueue<>(1));
        FutureTask<Integer> task = withDone(() -> 7, Facts::fail);
        pool.execute(task);
        int got = task.get();
        Rest.await(() -> pool.ended.size() == 1);
        return "got " + got + ", ended by " + pool.ended + ", threads " + pool.getPoolSize();
    }

    private static String doneThrowsInACancel() {
        try {
            return "cancelled " + withDone(() -> 7, Facts::fail).cancel(false);
        } catch (Planned thrown) {
            return "cancel threw Planned";
        }
    }

    private static String doneSubmits() throws Exception {
        Pool pool = new Pool(1, 1, new ArrayBlockingQueue<>(2));
        Thread[] by = new Thread[2];
        CountDownLatch done = new CountDownLatch(1);
        pool.execute(withDone(() -> 7, () -> {
            by[0] = Thread.currentThread();
            pool.execute(done::countDown);
        }));
        done.await();
        withDone(() -> 7, () -> {
            by[1] = Thread.currentThread();
            pool.execute(() -> { });
        }).cancel(false);
        Rest.await(() -> pool.getCompletedTaskCount() == 3);
        return "jobs " + pool.getCompletedTaskCount() + ", submitted by a thread of the pool " + (by[0] != Thread.currentThread())
                + ", by the thread that cancels " + (by[1] == Thread.currentThread());
    }

    private static String fullCompletionQueue() throws Exception {
        Pool pool = new Pool(1, 1, new ArrayBlockingQueue<>(2));
        ExecutorCompletionService<Integer> service = new ExecutorCompletionService<>(pool, new ArrayBlockingQueue<>(1));
        service.submit(() -> 1);
        service.submit(() -> 2);
        Rest.await(() -> pool.ended.size() == 1);
        return "ended by " + pool.ended + ", taken " + service.take().get() + ", then " + service.poll();
    }

    // ---- queues

    private static String jobPutIntoTheQueue() throws Exception {
        Pool pool = new Pool(1, 1, new ArrayBlockingQueue<>(2));
        CountDownLatch ran = new CountDownLatch(1);
        pool.getQueue().add(ran::countDown);
        boolean ranAlone = ran.await(50, TimeUnit.MILLISECONDS);
        String before = "ran " + ranAlone + ", threads " + pool.getPoolSize() + ", queued " + pool.getQueue().size();
        pool.submit(() -> 7).get();
        Rest.await(() -> ran.getCount() == 0);
        return before + "; after a submit ran " + (ran.getCount() == 0);
    }

    private static String sharedQueue() throws Exception {
        BlockingQueue<Runnable> queue = new ArrayBlockingQueue<>(1);
        Pool one = new Pool(1, 1, queue);
        Pool other = new Pool(1, 1, queue);
        CountDownLatch held = new CountDownLatch(1);
        other.prestartAllCoreThreads();
        one.execute(() -> Rest.hold(held));
        CountDownLatch started = new CountDownLatch(1);
        one.execute(() -> {
            started.countDown();
            Rest.hold(held);
        });
        started.await();
        String ran = "threads at work " + one.getActiveCount() + " and " + other.getActiveCount();
        one.execute(() -> { });
        String refused = submits(other) ? "served" : "refused";
        held.countDown();
        Rest.await(() -> one.getCompletedTaskCount() + other.getCompletedTaskCount() == 3);
        return ran + ", a submit to the other " + refused;
    }

    // ---- threads

    /**
     * Submits three jobs to a pool with core 2, max 2 and queue 1, whose threads pause before they take a job. Calls
     * {@code prestartAllCoreThreads} after the first submit if {@code isPrestarted}. Returns which submits were served.
     */
    private static String prestartedLate(boolean isPrestarted) throws Exception {
        CountDownLatch held = new CountDownLatch(1);
        Pool pool = new Pool(2, 2, new ArrayQueue(1, new Moments() {
            @Override
            public Taking beforeTaking(boolean timed) {
                Rest.hold(held);
                return Taking.AS_EVER;
            }
        }));
        List<String> answers = new ArrayList<>();
        for (int job = 0; job < 3; job++) {
            answers.add(submitsHeld(pool, held) ? "served" : "refused");
            if (isPrestarted && job == 0) {
                pool.prestartAllCoreThreads();
            }
        }
        String report = String.join(" ", answers) + ", threads " + pool.getPoolSize() + ", queued " + pool.getQueue().size();
        held.countDown();
        return report;
    }

    private static boolean submitsHeld(ThreadPoolExecutor pool, CountDownLatch held) {
        try {
            pool.execute(() -> Rest.hold(held));
            return true;
        } catch (RejectedExecutionException refused) {
            return false;
        }
    }

    private static boolean submits(ThreadPoolExecutor pool) {
        return submitsHeld(pool, new CountDownLatch(0));
    }

    /**
     * Ends a thread by an exception in a pool with core 2 and a long queue. A thread that is being added holds the lock of the
     * pool, because `addWorker` reads its state, so the thread that ends waits for that lock before it is replaced. Meanwhile one
     * job is queued, and another one is submitted. Returns the pool's counts and the jobs that started.
     */
    private static String executeThrows(int max) throws Exception {
        CountDownLatch added = new CountDownLatch(1);
        CountDownLatch goOn = new CountDownLatch(1);
        CountDownLatch held = new CountDownLatch(1);
        CountDownLatch fails = new CountDownLatch(1);
        CountDownLatch failing = new CountDownLatch(1);
        List<String> started = Collections.synchronizedList(new ArrayList<>());
        List<Thread> threads = Collections.synchronizedList(new ArrayList<>());
        Pool pool = new Pool(2, max, new LinkedBlockingQueue<>(9));
        pool.setThreadFactory(task -> {
            boolean isSecond = threads.size() == 1;
            Thread thread = new Thread(task) {
                @Override
                public State getState() {
                    if (isSecond && added.getCount() > 0) {
                        added.countDown();
                        Rest.hold(goOn);
                    }
                    return super.getState();
                }
            };
            thread.setDaemon(true);
            thread.setUncaughtExceptionHandler((one, failed) -> pool.ended.add(failed.getClass().getSimpleName()));
            threads.add(thread);
            return thread;
        });
        pool.execute(() -> {
            Rest.hold(fails);
            failing.countDown();
            fail();
        });
        Thread second = new Thread(() -> pool.execute(() -> Rest.hold(held)));
        second.start();
        added.await();
        pool.execute(() -> started.add("queued"));
        fails.countDown();
        failing.await();
        awaitWaiting(threads.get(0));
        Thread third = new Thread(() -> pool.execute(() -> {
            started.add("later");
            Rest.hold(held);
        }));
        third.start();
        Rest.await(() -> threads.size() == 3);
        goOn.countDown();
        second.join();
        third.join();
        Rest.await(() -> started.contains("later") && (max == 2 || started.size() == 2) && pool.ended.size() == 1);
        String report = "ended by " + pool.ended + ", threads " + pool.getPoolSize() + ", started " + started.stream().sorted().toList();
        held.countDown();
        return report;
    }

    private static void awaitWaiting(Thread thread) throws InterruptedException {
        for (long turns = 0; thread.getState() != Thread.State.WAITING; turns++) {
            Rest.within(turns);
            TimeUnit.MILLISECONDS.sleep(1);
        }
    }

    private static String keepAlive(int max) throws Exception {
        Pool pool = new Pool(1, max, new ArrayBlockingQueue<>(1));
        pool.setKeepAliveTime(1, TimeUnit.MILLISECONDS);
        CountDownLatch held = new CountDownLatch(1);
        for (int job = 0; job < max + 1; job++) {
            pool.execute(() -> Rest.hold(held));
        }
        int threads = pool.getPoolSize();
        held.countDown();
        TimeUnit.MILLISECONDS.sleep(100);
        return "threads " + threads + ", idle " + pool.getPoolSize();
    }

    // ---- permits

    private static String permitAfterShutdown(boolean isCaught) throws InterruptedException {
        Pool pool = new Pool(1, 1, new ArrayBlockingQueue<>(1));
        Semaphore permits = new Semaphore(1);
        pool.shutdown();
        permits.acquire();
        try {
            pool.execute(permits::release);
        } catch (RejectedExecutionException refused) {
            if (isCaught) {
                permits.release();
            }
        }
        return "permits " + permits.availablePermits();
    }
}
