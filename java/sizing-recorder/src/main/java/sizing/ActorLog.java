package sizing;

import java.util.List;

/** A log of the actions of actors: their rounds, jobs, submits, gets and permits. */
final class ActorLog {
    private static final String AFTER_END = "_after_end";
    private final Lines lines;
    private final ThreadLocal<ThreadState> threads = ThreadLocal.withInitial(ThreadState::new);
    private final Stages stages = new Stages(this);

    ActorLog(Lines lines) {
        this.lines = lines;
    }

    // ---- rounds

    /** Begins a round on this thread and returns it, or null if a job or another round with a label runs here. */
    Actor beginRound(String kind) {
        ThreadState state = threads.get();
        boolean isInside = state.actor != null && !state.actor.ended;
        if (isInside && state.actor.hasLabel()) {
            return null;
        }
        if (isInside) {
            end(state.actor);
        }
        return begin(state, Actor.round(kind));
    }

    /** Ends a round that this thread began. */
    void endRound(Actor round) {
        ThreadState state = threads.get();
        if (state.actor != round) {
            throw new IllegalStateException("only the thread that began a round may close it");
        }
        end(round);
        state.actor = null;
    }

    // ---- actors

    ThreadState state() {
        return threads.get();
    }

    Stages stages() {
        return stages;
    }

    /** Returns the actor of this thread: its job or its round, or otherwise a round without a label that begins here. */
    Actor actor() {
        ThreadState state = threads.get();
        Actor actor = state.actor;
        if (actor != null && !actor.ended && actor.isReadyToEnd()) {
            end(actor);
        }
        return actor == null || actor.ended ? begin(state, Actor.roundWithoutLabel(Thread.currentThread())) : actor;
    }

    /**
     * Returns the actor of the thread's next submit: the permit that it holds and that has no open job, or otherwise
     * {@link #actor}.
     */
    Actor submitter() {
        Actor permit = threads.get().freePermit();
        return permit == null ? actor() : permit;
    }

    private Actor begin(ThreadState state, Actor round) {
        round.thread = Thread.currentThread();
        state.actor = round;
        lines.begin(round);
        return round;
    }

    /** Ends a round without a label if it has nothing left to get. */
    void endIfOver(Actor actor) {
        ThreadState state = threads.get();
        if (state.actor == actor && actor.isOver()) {
            end(actor);
            state.actor = null;
        }
    }

    private void end(Actor round) {
        end(round, () -> lines.end(round));
    }

    private void end(Actor actor, Runnable lastLine) {
        if (actor.isShared()) {
            synchronized (actor) {
                actor.finishedUnclaimed().forEach(job -> claim(actor, job));
                lastLine.run();
                actor.ended = true;
            }
        } else {
            lastLine.run();
            actor.ended = true;
        }
        actor.thread = null;
    }

    // ---- jobs

    /** Records the start of a job on this thread. */
    void start(Job job) {
        ThreadState state = threads.get();
        job.started = true;
        job.outerActor = state.actor;
        job.outerJob = state.job;
        job.actor.thread = Thread.currentThread();
        state.actor = job.actor;
        state.job = job;
        state.lastJob = null;
        lines.start(job);
        job.pool.recordChanges();
    }

    /** Records the end of the job that runs on this thread. */
    void finish(Job job, String word) {
        end(job, word);
        ThreadState state = threads.get();
        Actor now = state.actor;
        if (now != null && now != job.actor && !now.hasLabel() && !now.ended) {
            // this round without a label began after the job's last line
            end(now);
        }
        state.actor = job.outerActor;
        state.job = job.outerJob;
        state.lastJob = job;
        job.outerActor = null;
        job.outerJob = null;
    }

    /** Adds the last line of a job, unless it has one. */
    private void end(Job job, String word) {
        if (!job.actor.ended) {
            job.pool.recordChanges();
            end(job.actor, () -> lines.finish(job, word));
        }
    }

    /** Ends a stage whose function has returned, before its future is done. */
    void endStage(Job job, Stages.Stage stage) {
        end(job, "end");
        Actor submitter = job.submitter;
        Thread waiting = submitter.thread;
        switch (stages.recordDependents(stage, job, waiting)) {
            case FOR_STAGE -> claim(submitter, job);
            case FOR_ALL -> claimInOrder(submitter);
            case NONE -> { }
        }
    }

    // ---- submits

    /**
     * Records a submit and returns its actor. The sources are the jobs after which a stage comes: their gets are recorded first.
     * If the submitter has ended, a new round makes the submit.
     */
    Actor submit(Actor submitter, List<Job> sources, Job job) {
        if (job.isGotWhenDone) {
            submitter.share();
        }
        Actor actor = submitter;
        if (!actor.isShared()) {
            lines.submit(actor, job);
        } else if (!submitFromShared(actor, sources, job)) {
            actor = Actor.round(Names.of(submitter.source, AFTER_END));
            actor.isAfterEnd = true;
            actor.share();
            lines.begin(actor);
            submitFromShared(actor, List.of(), job);
        }
        job.submitter = actor;
        return actor;
    }

    /** Records a submit of a shared actor and returns true, or returns false if the actor has ended. */
    private boolean submitFromShared(Actor actor, List<Job> sources, Job job) {
        synchronized (actor) {
            if (actor.ended) {
                return false;
            }
            actor.finishedUnclaimed().stream().filter(sources::contains).forEach(source -> claim(actor, source));
            if (actor.isPermit() || job.isGotWhenDone) {
                actor.addUnclaimed(job);
            }
            lines.submit(actor, job);
            job.submitLine = ++actor.sharedLines;
            return true;
        }
    }

    /** Records the get of a job that is done, unless its submitter has got it before. */
    private void claim(Actor submitter, Job job) {
        synchronized (submitter) {
            if (!submitter.ended && job.actor.ended && submitter.removeUnclaimed(job)) {
                if (job.waiting != null) {
                    lines.action(job.waiting, "got", job);
                }
                lines.action(submitter, "got", job);
                submitter.sharedLines++;
            }
        }
    }

    /** Records the gets of the jobs that are done, in the order of their submits, up to the first job that is not. */
    private void claimInOrder(Actor submitter) {
        synchronized (submitter) {
            for (Job job : submitter.unclaimed()) {
                if (!job.actor.ended) {
                    return;
                }
                claim(submitter, job);
            }
        }
    }

    /** Completes the submit once the executor has accepted or refused the job. */
    void endSubmit(Actor submitter, Job job) {
        job.offering = null;
        if (!submitter.isShared()) {
            // otherwise a job that submits the next one would keep all jobs before it reachable
            job.submitter = null;
        }
        if (submitter.isAfterEnd) {
            end(submitter);
        } else {
            endIfOver(submitter);
        }
    }

    /** Records a refusal if this thread offers the job. The executor's handler calls this. */
    void recordRefusal(Job job) {
        if (job.offering == Thread.currentThread()) {
            job.refused = true;
            Actor actor = job.submitter;
            synchronized (actor) {
                actor.removeUnclaimed(job);
                // a `refused` line must directly follow its submit, but another thread may have added a line of a shared actor
                boolean follows = !actor.isShared() || actor.sharedLines == job.submitLine;
                lines.action(actor, follows ? "refused" : "cancel", job);
            }
            actor.release(job);
        }
    }

    void recordInvokeAny(Pool pool) {
        Actor actor = actor();
        lines.invokeAny(actor, pool);
        endIfOver(actor);
    }

    // ---- futures

    /** Records the outcome of a get by this thread: `got`, `timeout` or `interrupted`. */
    void recordGet(String word, Job job, boolean hasTimeout) {
        if (!job.offered) {
            return;
        }
        Actor submitter = job.submitter;
        if (submitter != null && submitter.isPermit()) {
            recordGetFromPermit(submitter, word, job, hasTimeout);
            return;
        }
        boolean isOwn = submitter != null && submitter == threads.get().actor && !submitter.ended;
        Actor actor = isOwn ? submitter : actor();
        lines.action(actor, word, job);
        if (word.equals("got")) {
            actor.removeUnclaimed(job);
            actor.release(job);
        }
        endIfOver(actor);
    }

    /** Notes that a running job begins to wait for a job of a permit. No plan has such a get. */
    void beginGet(Job job) {
        Actor permit = job.submitter;
        if (permit == null || !permit.isPermit()) {
            return;
        }
        Actor waiting = threads.get().actor;
        if (waiting != null && waiting.isJob() && !waiting.ended) {
            synchronized (permit) {
                job.waiting = waiting;
            }
        }
    }

    /**
     * Records a get as the permit's: in the plan, a round that waits for the job does nothing in the meantime. If a running job
     * waits for the job, records the get as that of the running job. No plan has such a get.
     */
    private void recordGetFromPermit(Actor permit, String word, Job job, boolean hasTimeout) {
        ThreadState state = threads.get();
        boolean isInJob = state.actor != null && state.actor.isJob() && !state.actor.ended;
        if (isInJob && !hasTimeout) {
            synchronized (permit) {
                job.waiting = null;
                lines.action(state.actor, word, job);
            }
        } else if (word.equals("got") && state.permits.contains(permit)) {
            claim(permit, job);
        }
    }

    void recordCancel(Job job) {
        if (job.offered) {
            Actor actor = actor();
            lines.action(actor, "cancel", job);
            actor.release(job);
            endIfOver(actor);
        }
    }

    // ---- permits

    /** Returns a task that continues with the permit in use here ({@link Recorder#withPermit}). */
    Runnable withPermit(Runnable task) {
        Actor permit = threads.get().permitInUse();
        return permit == null ? task : () -> {
            Actor next = Actor.permit((String) permit.source, permit.semaphore);
            if (permit.semaphore.taken.remove(permit)) {
                end(permit);
                acquire(next);
            }
            try {
                task.run();
            } finally {
                threads.get().permits.remove(next);
            }
        };
    }

    void acquire(Actor permit) {
        permit.thread = Thread.currentThread();
        permit.semaphore.taken.add(permit);
        lines.begin(permit);
        threads.get().permits.push(permit);
    }

    /** Ends the round of the permit that this thread gives back. */
    void release(RecordedSemaphore semaphore) {
        ThreadState state = threads.get();
        Actor permit = permitOf(state.job, semaphore);
        if (permit != null) {
            end(state.job, "end");
        } else {
            permit = permitOf(state.lastJob, semaphore);
        }
        if (permit == null || !semaphore.taken.remove(permit)) {
            permit = semaphore.giveBack(state.permits);
        }
        if (permit != null) {
            state.permits.remove(permit);
            end(permit);
        }
    }

    private static Actor permitOf(Job job, RecordedSemaphore semaphore) {
        Actor permit = job == null ? null : job.submitter;
        return permit != null && permit.semaphore == semaphore && !permit.ended ? permit : null;
    }
}
