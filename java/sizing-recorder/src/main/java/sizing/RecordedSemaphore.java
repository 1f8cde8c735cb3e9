package sizing;

import java.util.Collection;
import java.util.Set;
import java.util.concurrent.ConcurrentHashMap;
import java.util.concurrent.Semaphore;
import java.util.concurrent.TimeUnit;

/**
 * A semaphore whose permits are rounds ({@link Recorder#permits}). A round begins after its permit was acquired and ends before
 * the permit is available again.
 */
final class RecordedSemaphore extends Semaphore {
    private static final long serialVersionUID = 1;
    /** The permits that are not available. */
    final transient Set<Actor> taken = ConcurrentHashMap.newKeySet();
    private final transient ActorLog log;
    private final String kind;

    RecordedSemaphore(ActorLog log, String kind, int permits, boolean fair) {
        super(permits, fair);
        this.log = log;
        this.kind = kind;
    }

    /**
     * Removes and returns the permit that a thread gives back if no job on the thread has one, or returns null if no permit is
     * taken. Chooses the latest permit that the thread acquired and that has no unfinished job; otherwise any whose jobs are
     * done; otherwise one that the thread acquired; otherwise any without jobs; otherwise any.
     *
     * <p>The latest one comes before an earlier one whose job is done, because the thread that ran that job may be about to give
     * that permit back. That thread would then end another round. Only one thread at a time chooses. If another thread gave back
     * the permit of this thread, this thread finds the permit of the other one.
     */
    Actor giveBack(Collection<Actor> acquired) {
        synchronized (taken) {
            Actor permit = choose(acquired);
            while (permit != null && !taken.remove(permit)) {
                // the thread that runs the permit's job has given it back in the meantime
                permit = choose(acquired);
            }
            return permit;
        }
    }

    private Actor choose(Collection<Actor> acquired) {
        Actor own = null;
        for (Actor permit : acquired) {
            if (taken.contains(permit)) {
                if (!permit.hasUnfinished()) {
                    return permit;
                }
                own = own == null ? permit : own;
            }
        }
        Actor unused = null;
        Actor open = null;
        for (Actor permit : taken) {
            if (permit.hasOnlyFinishedUnclaimed()) {
                return permit;
            }
            if (permit.hasUnclaimed()) {
                open = permit;
            } else {
                unused = permit;
            }
        }
        return own != null ? own : unused != null ? unused : open;
    }

    private boolean acquired(int permits) {
        for (int at = 0; at < permits; at++) {
            log.acquire(Actor.permit(kind, this));
        }
        return true;
    }

    @Override
    public void acquire() throws InterruptedException {
        acquire(1);
    }

    @Override
    public void acquire(int permits) throws InterruptedException {
        super.acquire(permits);
        acquired(permits);
    }

    @Override
    public void acquireUninterruptibly() {
        acquireUninterruptibly(1);
    }

    @Override
    public void acquireUninterruptibly(int permits) {
        super.acquireUninterruptibly(permits);
        acquired(permits);
    }

    @Override
    public boolean tryAcquire() {
        return tryAcquire(1);
    }

    @Override
    public boolean tryAcquire(int permits) {
        return super.tryAcquire(permits) && acquired(permits);
    }

    @Override
    public boolean tryAcquire(long timeout, TimeUnit unit) throws InterruptedException {
        return tryAcquire(1, timeout, unit);
    }

    @Override
    public boolean tryAcquire(int permits, long timeout, TimeUnit unit) throws InterruptedException {
        return super.tryAcquire(permits, timeout, unit) && acquired(permits);
    }

    @Override
    public int drainPermits() {
        int drained = super.drainPermits();
        acquired(drained);
        return drained;
    }

    @Override
    public void release() {
        release(1);
    }

    @Override
    public void release(int permits) {
        for (int at = 0; at < permits; at++) {
            log.release(this);
        }
        super.release(permits);
    }
}
