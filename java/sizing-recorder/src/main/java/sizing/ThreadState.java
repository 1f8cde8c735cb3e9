package sizing;

import java.util.ArrayDeque;
import java.util.Deque;

/** The state of one thread in a recorder. */
final class ThreadState {
    /** The actor that acts on the thread, or null. */
    Actor actor;
    /** The job that runs on the thread, or null. */
    Job job;
    /** The job that ran on the thread last, until the next one starts. */
    Job lastJob;
    /** A job that {@code newTaskFor} made and that the next {@code execute} submits, or null. */
    Job announced;
    /** The permits that the thread acquired, the latest first, without those that it is known to have given back. */
    final Deque<Actor> permits = new ArrayDeque<>(2);

    /**
     * Returns the permit of the job that runs on the thread or ran there last, or otherwise the latest permit that the thread
     * acquired, or null.
     */
    Actor permitInUse() {
        for (Job each : new Job[] {job, lastJob}) {
            if (each != null && each.submitter != null && each.submitter.isPermit() && !each.submitter.ended) {
                return each.submitter;
            }
        }
        permits.removeIf(permit -> permit.ended);
        return permits.peek();
    }

    /** Returns the permit for the thread's next submit: the latest one, if it has no open job, or otherwise null. */
    Actor freePermit() {
        if (permits.isEmpty()) {
            return null;
        }
        permits.removeIf(permit -> permit.ended);
        Actor permit = permits.peek();
        return permit != null && !permit.hasUnclaimed() ? permit : null;
    }
}
