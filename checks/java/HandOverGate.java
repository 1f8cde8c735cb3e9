import java.util.ArrayDeque;
import java.util.Deque;
import java.util.HashSet;
import java.util.LinkedHashMap;
import java.util.Map;
import java.util.Set;
import java.util.concurrent.ThreadPoolExecutor;

/**
 * A gate of a {@code SynchronousQueue}. An idle thread waits in Java's queue until an offer hands a job to it. Then it holds the
 * job at the gate until the driver lets it take the job. All threads of a pool are alike, so they take the jobs in the order of
 * the offers.
 */
final class HandOverGate extends Gate {
    /** The idle threads that hold no job, each with whether it waits with a timeout. */
    private final Map<Thread, Boolean> atQueue = new LinkedHashMap<>();
    private final Deque<Runnable> handed = new ArrayDeque<>();
    private final Set<Runnable> taken = new HashSet<>();
    private int holders;
    private Thread timedOut;

    // ---- called by the pool's threads and by submitters

    synchronized void arrives(boolean timed) {
        atQueue.put(Thread.currentThread(), timed);
        arrivals++;
        notifyAll();
    }

    synchronized void leaves() {
        atQueue.remove(Thread.currentThread());
    }

    synchronized void handed(Runnable job) {
        if (!open) {
            handed.add(job);
        }
    }

    /** Waits until the driver lets the thread take the job, and returns the job. An interrupt does not end this wait. */
    synchronized Runnable held(Runnable job) {
        leaves();
        holders++;
        boolean isInterrupted = false;
        while (!taken.contains(job) && !open) {
            try {
                wait();
            } catch (InterruptedException woken) {
                isInterrupted = true;
            }
        }
        holders--;
        taken.remove(job);
        if (isInterrupted) {
            Thread.currentThread().interrupt();
        }
        return job;
    }

    /** Returns whether the driver ended the keep-alive time of the current thread. */
    synchronized boolean isTimeOver() {
        return timedOut == Thread.currentThread();
    }

    // ---- called by the driver

    @Override
    synchronized int idle() {
        return atQueue.size() + holders;
    }

    @Override
    synchronized int held() {
        return handed.size();
    }

    @Override
    synchronized boolean holds(Object job) {
        return handed.contains(job);
    }

    /**
     * Waits until this number of threads is idle, until each job that was handed over is held by its thread, and until every
     * other idle thread waits in Java's queue. The states of the threads are not enough, because a thread that was just handed a
     * job may still have the state of a waiting one.
     */
    @Override
    synchronized void awaitIdle(int threads) throws InterruptedException {
        for (long turns = 0; idle() != threads || holders != handed.size() || !allWait(); turns++) {
            Rest.within(turns);
            wait(1);
        }
    }

    private boolean allWait() {
        return atQueue.keySet().stream().map(Thread::getState)
                .allMatch(state -> state == Thread.State.WAITING || state == Thread.State.TIMED_WAITING);
    }

    @Override
    synchronized void giveHead() {
        taken.add(handed.remove());
        notifyAll();
    }

    @Override
    int lookedAgain() {
        return atQueue.size();
    }

    /**
     * Interrupts a thread in the queue, which then returns as if its keep-alive time were over. Returns whether a thread waits
     * there with a timeout.
     */
    @Override
    boolean timesOut() {
        timedOut = atQueue.keySet().stream().filter(atQueue::get).findFirst().orElse(null);
        if (timedOut != null) {
            timedOut.interrupt();
        }
        return timedOut != null;
    }

    @Override
    boolean timeOut(ThreadPoolExecutor pool) throws InterruptedException {
        awaitIdle(idle());
        boolean hasEnded = super.timeOut(pool);
        awaitIdle(idle());
        return hasEnded;
    }
}
