package sizing;

import java.util.ArrayList;
import java.util.Collection;
import java.util.List;
import java.util.Objects;
import java.util.concurrent.AbstractExecutorService;
import java.util.concurrent.Callable;
import java.util.concurrent.CancellationException;
import java.util.concurrent.ExecutionException;
import java.util.concurrent.ExecutorCompletionService;
import java.util.concurrent.Executors;
import java.util.concurrent.Future;
import java.util.concurrent.RunnableFuture;
import java.util.concurrent.ThreadPoolExecutor;
import java.util.concurrent.TimeUnit;
import java.util.concurrent.TimeoutException;
import java.util.function.UnaryOperator;

/** A recorded executor, whose futures record the outcomes of their gets. */
final class RecordedPool extends AbstractExecutorService {
    private final ActorLog log;
    private final Lines lines;
    private final Pool pool;
    /** The class of all jobs that are submitted here, or null. */
    private final String label;
    private final UnaryOperator<Runnable> decorator;
    /** Whether this is the view for {@code invokeAny}, whose futures have no lines. */
    private final boolean isForInvokeAny;

    RecordedPool(ActorLog log, Lines lines, Pool pool, String label, UnaryOperator<Runnable> decorator) {
        this(log, lines, pool, label, decorator, false);
    }

    private RecordedPool(ActorLog log, Lines lines, Pool pool, String label, UnaryOperator<Runnable> decorator, boolean isForInvokeAny) {
        this.log = log;
        this.lines = lines;
        this.pool = pool;
        this.label = label;
        this.decorator = decorator;
        this.isForInvokeAny = isForInvokeAny;
    }

    RecordedPool labelled(String other) {
        return new RecordedPool(log, lines, pool, Objects.requireNonNull(other), decorator);
    }

    ThreadPoolExecutor executor() {
        return pool.executor;
    }

    // ---- submits

    @Override
    public void execute(Runnable task) {
        Job announced = takeAnnounced(task);
        Stages.Stage stage = log.stages().of(task);
        if (announced != null) {
            offer(announced, isForInvokeAny ? new RecordedCommand(log, announced, task) : task, false);
        } else if (stage != null) {
            offer(stage);
        } else {
            Job job = job(task);
            offer(job, new RecordedCommand(log, job, task), false);
        }
    }

    /** Makes the future of a task that the same thread submits next by {@code execute}, as ExecutorCompletionService does. */
    @Override
    protected <T> RunnableFuture<T> newTaskFor(Callable<T> call) {
        Job job = job(call);
        log.state().announced = job;
        if (isForInvokeAny) {
            return super.newTaskFor(call);
        }
        job.isGotWhenDone = true;
        return new RecordedTask<>(log, lines, job, call);
    }

    @Override
    protected <T> RunnableFuture<T> newTaskFor(Runnable task, T value) {
        Job job = job(task);
        log.state().announced = job;
        if (isForInvokeAny) {
            return super.newTaskFor(task, value);
        }
        job.isGotWhenDone = true;
        return new RecordedTask<>(log, lines, job, Executors.callable(task, value));
    }

    /** Returns the job of the future that this task runs, if {@code newTaskFor} made it on this thread, or null otherwise. */
    private Job takeAnnounced(Runnable task) {
        ThreadState state = log.state();
        Job announced = state.announced;
        if (announced == null) {
            return null;
        }
        state.announced = null;
        boolean runsIt = task instanceof RecordedTask<?> recorded ? recorded.job() == announced
                : task.getClass().getEnclosingClass() == ExecutorCompletionService.class;
        return runsIt ? announced : null;
    }

    @Override
    public Future<?> submit(Runnable task) {
        return submitted(new RecordedTask<Void>(log, lines, job(task), Executors.callable(task, null)));
    }

    @Override
    public <T> Future<T> submit(Runnable task, T result) {
        return submitted(new RecordedTask<>(log, lines, job(task), Executors.callable(task, result)));
    }

    @Override
    public <T> Future<T> submit(Callable<T> task) {
        return submitted(task(task));
    }

    private <T> RecordedTask<T> task(Callable<T> task) {
        return new RecordedTask<>(log, lines, job(task), task);
    }

    private Job job(Object task) {
        Objects.requireNonNull(task);
        return new Job(label == null ? Labelled.sourceOf(task) : label, pool);
    }

    private <T> Future<T> submitted(RecordedTask<T> task) {
        offer(task.job(), task, true);
        return task;
    }

    private void offer(Job job, Runnable task, boolean isHeld) {
        Runnable decorated = decorate(job, task);
        offer(job, decorated, log.submitter(), List.of(), isHeld);
    }

    /** Offers a stage for the actor that built its chain. */
    private void offer(Stages.Stage stage) {
        Job job = job(stage.function());
        job.isStage = true;
        job.isGotWhenDone = true;
        log.stages().attach(stage, job);
        Runnable decorated = decorate(job, new RecordedCommand(log, job, (Runnable) stage.completion()));
        Actor permit = stage.isDependent() ? null : log.state().freePermit();
        Job here = log.state().job;
        List<Job> sources = new ArrayList<>(stage.sources());
        if (permit == null && here != null && here.isStage && here.actor.ended && !sources.contains(here)) {
            // the thread completed a stage and now starts those that depend on it
            sources.add(here);
        }
        Actor submitter = permit != null ? permit : sources.isEmpty() ? log.submitter() : sources.get(0).submitter;
        if (permit == null && sources.isEmpty()) {
            List<Job> finished = submitter.finishedUnclaimed();
            if (finished.size() == 1 && (stage.isDependent() || Stages.isInFunctionOfStage())) {
                // the source is a stage in no pool, which comes after the only finished job
                sources.addAll(finished);
            }
        }
        offer(job, decorated, submitter, sources, false);
    }

    private Runnable decorate(Job job, Runnable task) {
        Runnable decorated = decorator.apply(task);
        return decorated instanceof Recorded ? decorated : new WrappedTask(job, decorated);
    }

    /** Offers a job to the executor. Adds the line of the submit before that, and the line of a refusal before this returns. */
    private void offer(Job job, Runnable task, Actor submitter, List<Job> sources, boolean isHeld) {
        pool.recordChanges();
        Actor actor = log.submit(submitter, sources, job);
        if (isHeld) {
            actor.hold(job);
        }
        job.offered = true;
        job.offering = Thread.currentThread();
        boolean offered = false;
        try {
            pool.executor.execute(task);
            offered = true;
        } finally {
            if (!offered && !job.refused) {
                log.recordRefusal(job);
            }
            log.endSubmit(actor, job);
        }
    }

    // ---- invokeAll and invokeAny

    @Override
    public <T> List<Future<T>> invokeAll(Collection<? extends Callable<T>> tasks) throws InterruptedException {
        List<Future<T>> futures = new ArrayList<>(tasks.size());
        try {
            for (Callable<T> task : tasks) {
                futures.add(submit(task));
            }
            for (Future<T> future : futures) {
                await(future);
            }
        } catch (Throwable failed) {
            cancel(futures);
            throw failed;
        }
        return futures;
    }

    private static void await(Future<?> future) throws InterruptedException {
        try {
            future.get();
        } catch (ExecutionException | CancellationException isDone) {
            return;
        }
    }

    @Override
    public <T> List<Future<T>> invokeAll(Collection<? extends Callable<T>> tasks, long timeout, TimeUnit unit) throws InterruptedException {
        long end = System.nanoTime() + unit.toNanos(timeout);
        List<RecordedTask<T>> made = new ArrayList<>(tasks.size());
        try {
            for (Callable<T> task : tasks) {
                made.add(task(task));
            }
            submitUntil(end, made);
            for (RecordedTask<T> task : made) {
                awaitUntil(end, task);
            }
        } catch (TimeoutException over) {
            cancel(made);
        } catch (Throwable failed) {
            cancel(made);
            throw failed;
        }
        return new ArrayList<>(made);
    }

    private void submitUntil(long end, List<? extends RecordedTask<?>> made) throws TimeoutException {
        for (int at = 0; at < made.size(); at++) {
            if (at > 0 && end - System.nanoTime() <= 0) {
                throw new TimeoutException();
            }
            submitted(made.get(at));
        }
    }

    private static void awaitUntil(long end, Future<?> future) throws InterruptedException, TimeoutException {
        try {
            future.get(end - System.nanoTime(), TimeUnit.NANOSECONDS);
        } catch (ExecutionException | CancellationException isDone) {
            return;
        }
    }

    private static void cancel(List<? extends Future<?>> futures) {
        futures.forEach(future -> future.cancel(true));
    }

    @Override
    public <T> T invokeAny(Collection<? extends Callable<T>> tasks) throws InterruptedException, ExecutionException {
        if (isForInvokeAny) {
            return super.invokeAny(tasks);
        }
        log.recordInvokeAny(pool);
        return forInvokeAny().invokeAny(tasks);
    }

    @Override
    public <T> T invokeAny(Collection<? extends Callable<T>> tasks, long timeout, TimeUnit unit)
            throws InterruptedException, ExecutionException, TimeoutException {
        if (isForInvokeAny) {
            return super.invokeAny(tasks, timeout, unit);
        }
        log.recordInvokeAny(pool);
        return forInvokeAny().invokeAny(tasks, timeout, unit);
    }

    private RecordedPool forInvokeAny() {
        return new RecordedPool(log, lines, pool, label, decorator, true);
    }

    // ---- shutdown

    @Override
    public void shutdown() {
        lines.shutdown(pool);
        pool.executor.shutdown();
    }

    @Override
    public List<Runnable> shutdownNow() {
        lines.shutdown(pool);
        List<Runnable> taken = pool.executor.shutdownNow();
        for (Runnable task : taken) {
            if (task instanceof Recorded recorded) {
                lines.remove(recorded.job());
            }
        }
        return taken;
    }

    @Override
    public boolean isShutdown() {
        return pool.executor.isShutdown();
    }

    @Override
    public boolean isTerminated() {
        return pool.executor.isTerminated();
    }

    @Override
    public boolean awaitTermination(long timeout, TimeUnit unit) throws InterruptedException {
        return pool.executor.awaitTermination(timeout, unit);
    }

    @Override
    public String toString() {
        return "recorded " + pool.name + " " + pool.executor;
    }
}
