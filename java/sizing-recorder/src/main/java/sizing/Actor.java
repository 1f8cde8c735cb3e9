package sizing;

import java.util.LinkedHashSet;
import java.util.List;
import java.util.Set;

/**
 * A source of submits and gets: a job while it runs, a round of a thread, or a permit.
 *
 * <p>Most actors are used by one thread only. An actor is shared once other threads may write lines for it: a permit from its
 * start, a job or a round once it has a job whose get the recorder cannot see. The lock of a shared actor guards its unclaimed
 * jobs and its end.
 */
final class Actor {
    /**
     * The label, class or thread name from which {@link Names#of} makes the name of its class or kind. The writing thread makes
     * the name.
     */
    final Object source;
    /** The semaphore of a permit, or null. */
    final RecordedSemaphore semaphore;
    /** The number in the recording, or -1 before the actor's first line. Used by the writing thread. */
    int number = -1;
    /** The thread that the actor runs on or that took the permit; null once the actor has ended. */
    Thread thread;
    /** Whether its last line is recorded. */
    volatile boolean ended;
    /** Whether it is a round for the submit of an actor that has ended. */
    boolean isAfterEnd;
    /** The number of lines of the submits and gets of a shared actor. Guarded by this. */
    int sharedLines;
    private final boolean isJob;
    private final boolean hasLabel;
    /** The number of futures that a round without a label holds. Used by its own thread. */
    private int held;
    /** The jobs that count as got as soon as they are done, or, for a permit, all its jobs. Null unless the actor is shared. */
    private Set<Job> unclaimed;

    private Actor(Object source, boolean isJob, boolean hasLabel, RecordedSemaphore semaphore) {
        this.source = source;
        this.isJob = isJob;
        this.hasLabel = hasLabel;
        this.semaphore = semaphore;
        this.unclaimed = semaphore == null ? null : new LinkedHashSet<>();
    }

    static Actor job(Object source) {
        return new Actor(source, true, true, null);
    }

    static Actor round(String kind) {
        return new Actor(kind, false, true, null);
    }

    static Actor roundWithoutLabel(Thread thread) {
        return new Actor(new Names.OfThread(thread.getName()), false, false, null);
    }

    static Actor permit(String kind, RecordedSemaphore semaphore) {
        return new Actor(kind, false, true, semaphore);
    }

    boolean isJob() {
        return isJob;
    }

    boolean isPermit() {
        return semaphore != null;
    }

    boolean hasLabel() {
        return hasLabel;
    }

    // ---- jobs whose get the recorder cannot see

    boolean isShared() {
        return unclaimed != null;
    }

    /** Makes the actor shared. Its own thread calls this before another thread can use the actor. */
    void share() {
        if (unclaimed == null) {
            unclaimed = new LinkedHashSet<>();
        }
    }

    synchronized void addUnclaimed(Job job) {
        unclaimed.add(job);
    }

    /** Removes a job and returns whether it was unclaimed. */
    boolean removeUnclaimed(Job job) {
        if (!isShared()) {
            return false;
        }
        synchronized (this) {
            return unclaimed.remove(job);
        }
    }

    boolean hasUnclaimed() {
        return !unclaimed().isEmpty();
    }

    boolean hasUnfinished() {
        return unclaimed().stream().anyMatch(job -> !job.actor.ended);
    }

    List<Job> finishedUnclaimed() {
        return unclaimed().stream().filter(job -> job.actor.ended).toList();
    }

    /** Returns whether it has unclaimed jobs and all of them are done. */
    boolean hasOnlyFinishedUnclaimed() {
        List<Job> jobs = unclaimed();
        return !jobs.isEmpty() && jobs.stream().allMatch(job -> job.actor.ended);
    }

    /** Returns its unclaimed jobs in the order of their submits. */
    List<Job> unclaimed() {
        if (!isShared()) {
            return List.of();
        }
        synchronized (this) {
            return List.copyOf(unclaimed);
        }
    }

    // ---- rounds without a label

    void hold(Job job) {
        if (!hasLabel) {
            job.holder = this;
            held++;
        }
    }

    void release(Job job) {
        if (job.holder == this) {
            job.holder = null;
            held--;
        }
    }

    /** Returns whether it is a round without a label that has nothing left to get. */
    boolean isOver() {
        return !hasLabel && held == 0 && !hasUnclaimed();
    }

    /** Returns whether it is a round without a label whose remaining gets would not wait. */
    boolean isReadyToEnd() {
        return !hasLabel && held == 0 && isShared() && (!hasUnclaimed() || hasOnlyFinishedUnclaimed());
    }

    @Override
    public String toString() {
        return (isJob ? "job " : "round ") + number;
    }
}
