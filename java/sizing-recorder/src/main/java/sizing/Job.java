package sizing;

/** A task that is submitted to a recorded pool. */
final class Job {
    /** The job as an actor, while it runs. */
    final Actor actor;
    final Pool pool;
    /** Whether it is a stage of a {@code CompletableFuture} whose fields are readable. */
    boolean isStage;
    /** Whether it counts as got once it is done, because the recorder cannot see whether its submitter waits for it. */
    boolean isGotWhenDone;
    /** The actor that submitted it, while it is offered. Afterwards null, unless that actor is shared. */
    Actor submitter;
    /** The number of its submit among the lines of a shared actor. */
    int submitLine;
    /** The running job that waits for this job of a permit, or null. Guarded by the permit. */
    Actor waiting;
    /**
     * The round without a label that holds its future, or null. A round that does not hold it may see an older value, but never
     * itself.
     */
    Actor holder;
    /** Whether it was submitted. Until then, no other thread can see its future. */
    boolean offered;
    /** The thread that offers it, or null. Another thread may see an older value, but never itself. */
    Thread offering;
    /** Whether its refusal is recorded. Used by the thread that offers it. */
    boolean refused;
    /** Whether it began to run. Used by the thread that runs it. */
    boolean started;
    /** The actor and the job that its thread ran before it, while it runs. */
    Actor outerActor;
    Job outerJob;

    Job(Object source, Pool pool) {
        this.actor = Actor.job(source);
        this.pool = pool;
    }

    /** Returns whether the thread that offers it also runs it, as CallerRunsPolicy does. */
    boolean isRunByItsOfferer() {
        return offering == Thread.currentThread();
    }

    /** Returns its class and pool, for the message of a refusal. */
    @Override
    public String toString() {
        return "job of class " + Names.of(actor.source) + " in pool " + pool.name;
    }
}
