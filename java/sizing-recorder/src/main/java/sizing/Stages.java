package sizing;

import java.lang.System.Logger;
import java.lang.System.Logger.Level;
import java.util.ArrayDeque;
import java.util.ArrayList;
import java.util.Collections;
import java.util.Deque;
import java.util.List;
import java.util.Map;
import java.util.WeakHashMap;
import java.util.concurrent.CompletableFuture;
import java.util.concurrent.atomic.AtomicBoolean;
import java.util.function.BiConsumer;
import java.util.function.BiFunction;
import java.util.function.Consumer;
import java.util.function.Function;
import java.util.function.Supplier;

/**
 * The stages of CompletableFutures on recorded pools.
 *
 * <p>A pool gets a stage by {@code execute}, as an object of a private class of the JDK. The object's fields hold the future that
 * the stage completes, the futures after which it comes, and the function that it calls. They are readable if
 * {@code java.util.concurrent} is open to this package. Otherwise a stage is recorded as any other command.
 *
 * <p>A stage's future is done before its {@code run} returns, and a thread that waits for it may continue at once. So this class
 * replaces the function of the stage by one that also records the end of the job.
 */
final class Stages {
    private static final Logger LOGGER = System.getLogger("sizing");
    private static final String FUTURE = CompletableFuture.class.getName();
    private static final int MAX_FUTURES = 1000;
    private static final int MAX_FRAMES = 50;
    private final ActorLog log;
    private final AtomicBoolean warned = new AtomicBoolean();
    /** The job that completes each future, also through stages that run in no pool. */
    private final Map<CompletableFuture<?>, Job> jobs = Collections.synchronizedMap(new WeakHashMap<>());

    /**
     * A stage that is being submitted.
     *
     * @param completion the object that the pool was given
     * @param function the function that the stage calls
     * @param future the future that the stage completes
     * @param sources the jobs after which the stage comes
     * @param isDependent whether the stage comes after another future
     */
    record Stage(Object completion, Object function, CompletableFuture<?> future, List<Job> sources, boolean isDependent) {}

    Stages(ActorLog log) {
        this.log = log;
    }

    /** Returns the stage that the task runs, or null if the task is no stage or its fields are not readable. */
    Stage of(Runnable task) {
        if (!(task instanceof CompletableFuture.AsynchronousCompletionTask)) {
            return null;
        }
        Object function = JdkFields.get(task, "fn");
        CompletableFuture<?> future = (CompletableFuture<?>) JdkFields.get(task, "dep");
        if (function == null || future == null || !JdkFields.areOpen()) {
            warn();
            return null;
        }
        List<Job> sources = new ArrayList<>(2);
        Object source = JdkFields.get(task, "src");
        addSource(sources, source);
        addSource(sources, JdkFields.get(task, "snd"));
        return new Stage(task, function, future, sources, source != null);
    }

    private void addSource(List<Job> sources, Object future) {
        Job job = future instanceof CompletableFuture<?> ? jobs.get(future) : null;
        if (job != null && !sources.contains(job)) {
            sources.add(job);
        }
    }

    private void warn() {
        if (warned.compareAndSet(false, true)) {
            LOGGER.log(Level.WARNING, "stages of CompletableFutures are recorded as submits without gets: run the JVM with "
                    + "--add-opens java.base/java.util.concurrent=" + JdkFields.moduleName() + " (tried on OpenJDK 17)");
        }
    }

    /** Makes the stage record the end of this job before its future is done. */
    void attach(Stage stage, Job job) {
        jobs.put(stage.future, job);
        JdkFields.set(stage.completion, "fn", around(stage.function, () -> log.endStage(job, stage)));
    }

    /**
     * Returns whether this thread runs a function of a stage whose source was done when the stage was built, as in thenCompose.
     */
    static boolean isInFunctionOfStage() {
        return StackWalker.getInstance().walk(frames -> frames.limit(MAX_FRAMES).map(StackWalker.StackFrame::getClassName)
                .dropWhile(name -> !name.equals(FUTURE)).dropWhile(FUTURE::equals).anyMatch(FUTURE::equals));
    }

    /** The way in which a thread waits for a stage. */
    enum Wait { NONE, FOR_ALL, FOR_STAGE }

    private record Dependent(CompletableFuture<?> future, boolean hasOtherSources) {}

    /**
     * Assigns the job to the futures that the stage also completes, through stages that run in no pool. Returns the way in which
     * the thread waits for the stage's future or for one that depends on it: {@code FOR_ALL} if it waits for several sources, as
     * with {@code allOf}, {@code FOR_STAGE} if it waits for this stage alone, and otherwise {@code NONE}.
     */
    Wait recordDependents(Stage stage, Job job, Thread thread) {
        Wait wait = Wait.NONE;
        Deque<Dependent> dependents = new ArrayDeque<>();
        dependents.add(new Dependent(stage.future, false));
        for (int count = 0; count < MAX_FUTURES && !dependents.isEmpty(); count++) {
            Dependent dependent = dependents.poll();
            boolean isOfJob = jobs.get(dependent.future) == job;
            for (Object next = JdkFields.get(dependent.future, "stack"); next != null; next = JdkFields.get(next, "next")) {
                if (thread != null && JdkFields.get(next, "thread") == thread && wait != Wait.FOR_STAGE) {
                    wait = dependent.hasOtherSources ? Wait.FOR_ALL : Wait.FOR_STAGE;
                }
                Object base = JdkFields.get(next, "base");
                Object completion = base == null ? next : base;
                if (JdkFields.get(completion, "dep") instanceof CompletableFuture<?> future) {
                    if (isOfJob && JdkFields.get(completion, "executor") == null) {
                        jobs.putIfAbsent(future, job);
                    }
                    boolean hasOtherSources = JdkFields.get(completion, "snd") != null;
                    dependents.add(new Dependent(future, dependent.hasOtherSources || hasOtherSources));
                }
            }
        }
        return wait;
    }

    /** Returns a function of the same kind that then runs {@code after}, even if the function throws an exception. */
    @SuppressWarnings({"unchecked", "rawtypes"})
    private static Object around(Object function, Runnable after) {
        if (function instanceof Supplier given) {
            return (Supplier<Object>) () -> {
                try {
                    return given.get();
                } finally {
                    after.run();
                }
            };
        }
        if (function instanceof Runnable given) {
            return (Runnable) () -> {
                try {
                    given.run();
                } finally {
                    after.run();
                }
            };
        }
        if (function instanceof Function given) {
            return (Function<Object, Object>) value -> {
                try {
                    return given.apply(value);
                } finally {
                    after.run();
                }
            };
        }
        if (function instanceof BiFunction given) {
            return (BiFunction<Object, Object, Object>) (value, other) -> {
                try {
                    return given.apply(value, other);
                } finally {
                    after.run();
                }
            };
        }
        if (function instanceof BiConsumer given) {
            return (BiConsumer<Object, Object>) (value, other) -> {
                try {
                    given.accept(value, other);
                } finally {
                    after.run();
                }
            };
        }
        Consumer given = (Consumer) function;
        return (Consumer<Object>) value -> {
            try {
                given.accept(value);
            } finally {
                after.run();
            }
        };
    }
}
