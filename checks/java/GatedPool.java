import java.util.List;
import java.util.concurrent.BlockingQueue;
import java.util.concurrent.CopyOnWriteArrayList;
import java.util.concurrent.ThreadPoolExecutor;
import java.util.concurrent.TimeUnit;

/** An executor for a pool of a plan, whose queue has a gate that the driver controls. */
final class GatedPool {
    /** The keep-alive in microseconds of core threads that may time out, once the gate is open. */
    private static final int SHORT = 20;
    final Plan.Pool pool;
    final Gate gate;
    private final BlockingQueue<Runnable> queue;
    private final List<Thread> own = new CopyOnWriteArrayList<>();
    final ThreadPoolExecutor executor;

    GatedPool(Plan.Pool pool, String kind, List<Thread> threads) throws InterruptedException {
        this.pool = pool;
        HandOverGate handOver = new HandOverGate();
        gate = pool.queue() == 0 ? handOver : new Gate();
        queue = pool.queue() == 0 ? new HandOverQueue(handOver)
                : kind.equals("linked") || pool.isUnbounded() ? new LinkedQueue(pool.queue(), gate) : new ArrayQueue(pool.queue(), gate);
        executor = new ThreadPoolExecutor(pool.core(), pool.max(), 1_000_000, TimeUnit.SECONDS, queue, work -> {
            Thread thread = new Thread(work);
            thread.setDaemon(true);
            threads.add(thread);
            own.add(thread);
            return thread;
        });
        executor.allowCoreThreadTimeOut(pool.coreTimeout());
        if (pool.prestart()) {
            executor.prestartAllCoreThreads();
            gate.awaitIdle(pool.core());
        }
    }

    /** Lets all threads take jobs. If core threads may time out, first makes the keep-alive short. */
    void open() {
        if (pool.coreTimeout()) {
            executor.setKeepAliveTime(SHORT, TimeUnit.MICROSECONDS);
        }
        gate.open();
    }

    /** Returns whether the job is in the queue, or whether an idle thread was handed it and has not taken it yet. */
    boolean isQueued(Job job) {
        return queue.contains(job.future) || gate.holds(job.future);
    }

    int queued() {
        return queue.size() + gate.held();
    }

    /** Waits until each thread that the pool let end has ended. Until then it may read the pool's state. */
    void awaitEnded() throws InterruptedException {
        Rest.await(() -> own.stream().filter(Thread::isAlive).count() == executor.getPoolSize());
    }

    /** Waits until all threads of the pool are idle, except this number of threads that run jobs. */
    void awaitIdle(long running) throws InterruptedException {
        Rest.await(() -> gate.idle() + running == executor.getPoolSize());
    }

    /** Returns the executor's own counts, and the number of its threads that wait at the gate. */
    String counts() {
        return pool.name() + ": threads " + executor.getPoolSize() + ", idle " + gate.idle() + ", queued " + queued();
    }
}
