import java.util.ArrayDeque;
import java.util.Deque;
import java.util.concurrent.ThreadPoolExecutor;
import java.util.concurrent.TimeUnit;

/**
 * A gate at which the idle threads of a pool wait until the driver decides what they take. Submitters can pause before an offer
 * and after a failed one.
 */
class Gate implements Moments {
    private static final class Waiting {
        final boolean timed;
        Taking given;

        Waiting(boolean timed) {
            this.timed = timed;
        }
    }

    private final Deque<Waiting> idle = new ArrayDeque<>();
    long arrivals;
    boolean open;
    private long keepAlive = 1_000_000;

    @Override
    public synchronized Taking beforeTaking(boolean timed) throws InterruptedException {
        Waiting mine = new Waiting(timed);
        idle.add(mine);
        arrivals++;
        notifyAll();
        try {
            while (mine.given == null && !open) {
                wait();
            }
        } finally {
            idle.remove(mine);
        }
        return mine.given == null ? Taking.AS_EVER : mine.given;
    }

    @Override
    public void beforeOffer() {
        Actor.pause("found core threads");
    }

    @Override
    public void afterFailedOffer() {
        Actor.pause("found the queue full");
    }

    // ---- called by the driver

    synchronized int idle() {
        return idle.size();
    }

    /** Returns the number of jobs that idle threads hold at the gate. */
    int held() {
        return 0;
    }

    boolean holds(Object job) {
        return false;
    }

    /** Opens the gate: afterwards all threads take jobs as they do from Java's own queue. */
    synchronized void open() {
        open = true;
        notifyAll();
    }

    synchronized void awaitIdle(int threads) throws InterruptedException {
        for (long turns = 0; idle.size() != threads; turns++) {
            Rest.within(turns);
            wait(1);
        }
    }

    /** Lets one idle thread take the head of the queue. */
    synchronized void giveHead() {
        give(idle.peek(), Taking.HEAD);
    }

    /** Ends the keep-alive time of one idle thread. Returns whether the pool lets the thread end. */
    boolean timeOut(ThreadPoolExecutor pool) throws InterruptedException {
        int threads = pool.getPoolSize();
        long seen = lookAgain(pool);
        synchronized (this) {
            if (!timesOut()) {
                return false;
            }
        }
        for (long turns = 0; pool.getPoolSize() == threads; turns++) {
            synchronized (this) {
                if (arrivals > seen) {
                    return false;
                }
                wait(1);
            }
            Rest.within(turns);
        }
        return true;
    }

    /** Ends the keep-alive time of a thread that waits with a timeout. Returns whether there is one. */
    boolean timesOut() {
        Waiting timed = idle.stream().filter(one -> one.timed).findFirst().orElse(null);
        if (timed != null) {
            give(timed, Taking.NOTHING);
        }
        return timed != null;
    }

    /** Returns the number of idle threads that poll again if the keep-alive becomes shorter. */
    int lookedAgain() {
        return idle.size();
    }

    /**
     * Sets a shorter keep-alive, which wakes the idle threads. Each then polls again, with a timeout if the pool may now end it.
     * Returns the number of arrivals afterwards.
     */
    private long lookAgain(ThreadPoolExecutor pool) throws InterruptedException {
        long wanted;
        synchronized (this) {
            wanted = arrivals + lookedAgain();
        }
        pool.setKeepAliveTime(--keepAlive, TimeUnit.SECONDS);
        synchronized (this) {
            for (long turns = 0; arrivals < wanted; turns++) {
                Rest.within(turns);
                wait(1);
            }
            return arrivals;
        }
    }

    private void give(Waiting one, Taking given) {
        idle.remove(one);
        one.given = given;
        notifyAll();
    }
}
