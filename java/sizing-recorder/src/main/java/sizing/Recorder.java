package sizing;

import java.io.IOException;
import java.io.Writer;
import java.nio.charset.StandardCharsets;
import java.nio.file.Files;
import java.nio.file.Path;
import java.util.LinkedHashMap;
import java.util.Map;
import java.util.Objects;
import java.util.concurrent.Callable;
import java.util.concurrent.ExecutorService;
import java.util.concurrent.Semaphore;
import java.util.concurrent.ThreadPoolExecutor;
import java.util.function.UnaryOperator;

/**
 * A recorder of the use of thread pools by a service. It writes the lines of docs/RECORDING.md.
 *
 * <pre>{@code
 * try (Recorder recorder = Recorder.toFile(Path.of("service.recording"))) {
 *     ExecutorService web = recorder.pool("web", new ThreadPoolExecutor(..));
 *     ..
 *     try (Recorder.Round round = recorder.round("tomcat")) {     // in a filter, around each request
 *         Future<Page> page = web.submit(Recorder.label("request", () -> makePage()));
 *         page.get();
 *     }
 * }
 * }</pre>
 *
 * <p>Submit through the view that {@link #pool(String, ThreadPoolExecutor) pool} returns. The executor itself records nothing.
 *
 * <p><b>Stages of CompletableFutures.</b> The recorder sees that {@code supplyAsync(.., pool)}, {@code thenApplyAsync(.., pool)}
 * and the other stages on a recorded pool belong to one chain, and when they are got, if the JVM runs with
 * {@code --add-opens java.base/java.util.concurrent=ALL-UNNAMED} ({@code =sizing} on the module path). Without that option it
 * logs one warning, and each stage is a submit without a get. The option gives it access to private fields of the JDK. It was
 * tried on OpenJDK 17 only; if another JDK has other fields, the recorder logs the same warning.
 *
 * <p>A stage is submitted by the round, job or permit that built the chain, after the get of the stage before it. If the
 * submitter waits for a stage ({@code join}, {@code get}, {@code allOf(..).join()}, {@code anyOf(..).join()}) when the stage
 * ends, the get is recorded then, or with {@code allOf} when the stages before it are done. Otherwise it is recorded before the
 * next stage of the chain, or at the end of the submitter if the stage is done by then: a get of it would not wait. So a
 * recording does not show that a future is never joined, if its job happens to be done by the end of the round. A stage that is
 * submitted after the end of its round is recorded as a round of kind {@code KIND_after_end}, which a written plan should not
 * have.
 *
 * <p><b>Cost.</b> Each line is one entry in a lock-free queue: usually two small allocations and one or two
 * compare-and-sets on the thread that acts. A daemon thread of the recorder formats and writes the lines. A job that is
 * submitted and got takes no lock. A permit takes a lock of its own for each of its jobs, and so does a round or job
 * that has stages or jobs of an {@code ExecutorCompletionService}. A stage also takes the lock of one map, and a
 * {@code release} on a thread without a job of the permit that of its semaphore. The queue of lines has no bound: if
 * the writer is slower than the service for long, memory fills. All threads add to one queue, so the recorder may
 * change the order in which they run. Each order that it causes can also happen without it.
 *
 * <p>The lines of one actor are in its own order (docs/RECORDING.md, "Order").
 *
 * <p>Until it is closed, the recorder puts a handler of its own around the executor's handler.
 */
public final class Recorder implements AutoCloseable {
    private final Lines lines;
    private final Map<String, Pool> pools = new LinkedHashMap<>();
    private final ActorLog log;

    /** A task with a value. As an overload of its own it makes {@code label("x", this::overloaded)} unambiguous. */
    @FunctionalInterface
    public interface Task<V> extends Callable<V>, Runnable {
        @Override
        V call() throws Exception;

        /** Runs the task and drops its value. */
        @Override
        default void run() {
            try {
                call();
            } catch (RuntimeException unchecked) {
                throw unchecked;
            } catch (Exception checked) {
                throw new IllegalStateException(checked);
            }
        }
    }

    private Recorder(Writer writer) {
        lines = new Lines(writer);
        log = new ActorLog(lines);
    }

    /** Creates a recorder that writes to this writer, and closes it when the recorder is closed. */
    public static Recorder to(Writer writer) {
        return new Recorder(Objects.requireNonNull(writer));
    }

    /** Creates a recorder that writes to a file, which is created or overwritten. */
    public static Recorder toFile(Path file) throws IOException {
        return new Recorder(Files.newBufferedWriter(file, StandardCharsets.US_ASCII));
    }

    /**
     * Returns a view of the executor that records its use. Threads that the executor has already are recorded as prestarted, so
     * call this after {@code prestartAllCoreThreads} and before the first submit.
     *
     * @throws IllegalArgumentException if the executor is already recorded, or if the recorder has a pool of the same name
     */
    public ExecutorService pool(String name, ThreadPoolExecutor executor) {
        return pool(name, executor, UnaryOperator.identity());
    }

    /**
     * Returns a view of the executor that records its use. The decorator is applied to each task on the thread that submits it,
     * before the submit is recorded, as Spring's {@code TaskDecorator} is. So it may acquire a permit.
     *
     * @throws IllegalArgumentException if the executor is already recorded, or if the recorder has a pool of the same name
     */
    public ExecutorService pool(String name, ThreadPoolExecutor executor, UnaryOperator<Runnable> decorator) {
        String poolName = Names.of(name);
        synchronized (pools) {
            if (pools.containsKey(poolName)) {
                throw new IllegalArgumentException("pool " + poolName + " is already recorded");
            }
            if (executor.getRejectedExecutionHandler() instanceof NotedHandler) {
                throw new IllegalArgumentException("the executor of pool " + poolName + " is already recorded");
            }
            Pool pool = new Pool(poolName, executor, log, lines);
            pools.put(poolName, pool);
            return new RecordedPool(log, lines, pool, null, decorator);
        }
    }

    /**
     * Begins a round of a client of this kind on the calling thread. Put it around a request, or around one run of a scheduled
     * task. Within a job or another round it has no effect.
     *
     * <p>A thread that submits or gets outside a round has rounds without a label. Each begins with the first action and ends
     * when all futures that it holds were got. Its kind is the name of the thread without digits.
     */
    public Round round(String kind) {
        return new Round(log, log.beginRound(Objects.requireNonNull(kind)));
    }

    /**
     * Returns a semaphore whose permits are clients of the plan: {@code acquire} begins a round of this kind, and {@code release}
     * ends it. The next submit of the thread that holds a permit belongs to the permit, unless another job of the permit is open.
     * The get of that job is recorded at {@code release}, as the permit's. A get of it by a round is not recorded.
     *
     * <p>{@code release} may run on any thread. It gives back the permit of the job that runs on the thread, and records the end
     * of that job; otherwise that of the job that ran there last, as in {@code afterExecute}; otherwise the latest that the
     * thread acquired and that has no unfinished job; otherwise any whose jobs are done. So if a thread has an unused permit and
     * gives back that of a job that it took from a completion service, the wrong round ends: let it submit first.
     *
     * <p>If a thread has two jobs open within one permit, the second submit is recorded as the thread's own. Begin a
     * {@link #round} where it acquires such a permit, and use a plain semaphore.
     */
    public Semaphore permits(String kind, int permits) {
        return permits(kind, permits, false);
    }

    /** Returns a semaphore as {@link #permits(String, int)} does, with the fairness that {@link Semaphore} defines. */
    public Semaphore permits(String kind, int permits, boolean fair) {
        return new RecordedSemaphore(log, Objects.requireNonNull(kind), permits, fair);
    }

    /**
     * Returns a task for another thread, such as a scheduler's, that continues with the permit in use here: that of the job that
     * runs or has just ended on this thread, or otherwise the latest that the thread acquired. When the task runs, the permit's
     * round ends and its next one begins, and the next submit of that thread belongs to it. If no permit is in use here, returns
     * the task itself.
     *
     * <pre>{@code
     * CompletableFuture.supplyAsync(send, mails).whenComplete((receipt, failed) -> {
     *     if (failed == null) permits.release();
     *     else scheduler.schedule(recorder.withPermit(() -> attempt(n + 1)), 1, SECONDS);
     * });
     * }</pre>
     */
    public Runnable withPermit(Runnable task) {
        return log.withPermit(Objects.requireNonNull(task));
    }

    /** Returns the task with the label as the class of its jobs. */
    public static Runnable label(String label, Runnable task) {
        return new Labelled.Command(Objects.requireNonNull(label), Objects.requireNonNull(task));
    }

    /** Returns the task with the label as the class of its jobs. */
    public static <V> Callable<V> label(String label, Callable<V> task) {
        return new Labelled.Call<>(Objects.requireNonNull(label), Objects.requireNonNull(task));
    }

    /**
     * Returns the task with the label as the class of its jobs. A lambda that could be a {@code Runnable} or a {@code Callable}
     * selects this overload. For {@code execute}, write the body of the lambda in braces.
     */
    public static <V> Callable<V> label(String label, Task<V> task) {
        return new Labelled.Call<>(Objects.requireNonNull(label), Objects.requireNonNull(task));
    }

    /**
     * Returns a view of the pool whose jobs all have the label as their class. Use it for
     * {@code CompletableFuture.supplyAsync(.., pool)} and other methods that wrap the tasks that they submit. Returns the pool
     * itself if it is not recorded.
     */
    public static ExecutorService label(String label, ExecutorService pool) {
        return pool instanceof RecordedPool recorded ? recorded.labelled(label) : pool;
    }

    /**
     * Ends the recording and waits until it is written. Only the calling thread waits. The pools continue to work and are no
     * longer recorded.
     *
     * @throws IOException if the writer failed, so that the recording is cut off
     */
    @Override
    public void close() throws IOException {
        synchronized (pools) {
            pools.values().forEach(Pool::close);
        }
        lines.close();
    }

    /** A round of a client, until {@link #close}. */
    public static final class Round implements AutoCloseable {
        private final ActorLog log;
        private Actor round;

        private Round(ActorLog log, Actor round) {
            this.log = log;
            this.round = round;
        }

        /**
         * Ends the round.
         *
         * @throws IllegalStateException on another thread than the one that began the round
         */
        @Override
        public void close() {
            if (round != null) {
                log.endRound(round);
                round = null;
            }
        }
    }
}
