import java.io.BufferedReader;
import java.io.InputStreamReader;
import java.util.ArrayList;
import java.util.List;
import java.util.concurrent.CopyOnWriteArrayList;
import java.util.concurrent.ExecutionException;
import java.util.concurrent.Future;
import java.util.concurrent.FutureTask;
import java.util.concurrent.LinkedBlockingQueue;
import java.util.concurrent.RejectedExecutionException;
import java.util.concurrent.ThreadLocalRandom;
import java.util.concurrent.ThreadPoolExecutor;
import java.util.concurrent.TimeUnit;
import java.util.concurrent.atomic.LongAdder;

/**
 * Clients that repeat their bodies, each on its own thread, on executors of the JDK whose threads have a short keep-alive. Before
 * a submit, an actor sometimes waits until an idle thread of the pool has waited for the whole keep-alive, and then submits while
 * that thread ends.
 */
final class Timeouts {
    /** The mean number of submits of which one waits for the end of a keep-alive: if one thread is idle, and if several are. */
    private static final int AIMED_AT_ONE = 2;
    private static final int AIMED_AT_SEVERAL = 40;
    /**
     * The maximum delay of such a submit in nanoseconds, and the number of delays to choose from, each half of the one before.
     */
    private static final int DELAY = 8000;
    private static final int HALVED = 6;
    /** The number of milliseconds without progress after which a service whose threads all wait has stopped. */
    private static final int STUCK = 500;

    private final Plan plan;
    private final long keepAlive;
    private final List<ThreadPoolExecutor> pools = new ArrayList<>();
    private final List<List<Thread>> threads = new ArrayList<>();
    private final LongAdder rounds = new LongAdder();
    private final LongAdder jobs = new LongAdder();
    private final LongAdder refused = new LongAdder();
    private final LongAdder aimed = new LongAdder();
    /** Whether a service has stopped. Then all services end. */
    private static volatile boolean found;
    private volatile boolean over;

    private Timeouts(Plan plan, int microseconds) {
        this.plan = plan;
        keepAlive = TimeUnit.MICROSECONDS.toNanos(microseconds);
        for (Plan.Pool pool : plan.pools()) {
            List<Thread> own = new CopyOnWriteArrayList<>();
            ThreadPoolExecutor executor = new ThreadPoolExecutor(pool.core(), pool.max(), keepAlive, TimeUnit.NANOSECONDS,
                    new LinkedBlockingQueue<>(pool.queue()), task -> {
                Thread thread = new Thread(task);
                thread.setDaemon(true);
                own.removeIf(one -> one.getState() == Thread.State.TERMINATED);
                own.add(thread);
                return thread;
            });
            executor.allowCoreThreadTimeOut(pool.coreTimeout());
            pools.add(executor);
            threads.add(own);
        }
    }

    /**
     * Runs services with the arguments `MICROSECONDS MILLISECONDS SERVICES`: the keep-alive, the time of the run, and the number
     * of services with their own executors that run at the same time. Reads a plan, up to a line `events`. Prints the counts of a
     * service that stopped, or of the first one.
     */
    public static void main(String[] words) throws Exception {
        Plan plan = Plan.read(new BufferedReader(new InputStreamReader(System.in)).lines().iterator());
        List<FutureTask<String>> services = new ArrayList<>();
        for (int number = 0; number < Integer.parseInt(words[2]); number++) {
            Timeouts service = new Timeouts(plan, Integer.parseInt(words[0]));
            services.add(new FutureTask<>(() -> service.run(Integer.parseInt(words[1]))));
            new Thread(services.get(number)).start();
        }
        String printed = null;
        for (FutureTask<String> service : services) {
            printed = printed == null || service.get().contains("stopped 1") ? service.get() : printed;
        }
        System.out.println(printed);
        System.exit(0);
    }

    private String run(int milliseconds) throws InterruptedException {
        List<Thread> clients = new ArrayList<>();
        for (Plan.Kind kind : plan.clients()) {
            for (int one = 0; one < kind.number(); one++) {
                Thread client = new Thread(() -> client(kind));
                client.setDaemon(true);
                clients.add(client);
            }
        }
        clients.forEach(Thread::start);
        long began = System.nanoTime();
        long since = began;
        long before = -1;
        boolean stopped = false;
        while (!stopped && clients.stream().anyMatch(Thread::isAlive)) {
            TimeUnit.MILLISECONDS.sleep(10);
            over = found || System.nanoTime() - began > TimeUnit.MILLISECONDS.toNanos(milliseconds);
            boolean still = jobs.sum() == before && allWait();
            before = jobs.sum();
            since = still ? since : System.nanoTime();
            stopped = System.nanoTime() - since > TimeUnit.MILLISECONDS.toNanos(STUCK);
        }
        found |= stopped;
        long ended = TimeUnit.NANOSECONDS.toMillis(since - began);
        if (!stopped && refused.sum() == 0) {
            Rest.await(() -> completed() == jobs.sum());
        }
        long completed = completed();
        long queued = pools.stream().mapToLong(pool -> pool.getQueue().size()).sum();
        int left = pools.stream().mapToInt(ThreadPoolExecutor::getPoolSize).sum();
        return "rounds " + rounds + ", jobs " + jobs + ", completed " + completed + ", refused " + refused + ", aimed " + aimed + ", stopped "
                + (stopped ? 1 : 0) + ", threads " + left + ", queued " + queued + ", milliseconds " + ended;
    }

    private long completed() {
        return pools.stream().mapToLong(ThreadPoolExecutor::getCompletedTaskCount).sum();
    }

    /** Returns whether a job is queued, and every thread of the pools waits without a timeout or has ended. */
    private boolean allWait() {
        return pools.stream().anyMatch(pool -> !pool.getQueue().isEmpty())
                && threads.stream().flatMap(List::stream).map(Thread::getState)
                        .allMatch(state -> state == Thread.State.WAITING || state == Thread.State.TERMINATED);
    }

    private void client(Plan.Kind kind) {
        try {
            while (!over) {
                go(kind.body());
                rounds.increment();
            }
        } catch (RejectedExecutionException | ExecutionException counted) {
            return;
        } catch (InterruptedException stopped) {
            Thread.currentThread().interrupt();
        }
    }

    private void go(List<Plan.Action> body) throws InterruptedException, ExecutionException {
        Future<?>[] slots = new Future<?>[body.size()];
        for (int at = 0; at < body.size(); at++) {
            Plan.Action action = body.get(at);
            if (action.what() == 's') {
                slots[at] = submit(plan.classes().get(action.operand()));
            } else if (action.what() == 'g') {
                slots[action.operand()].get();
            }
        }
    }

    private Future<?> submit(Plan.Kind of) {
        aim(threads.get(of.number()));
        try {
            Future<?> future = pools.get(of.number()).submit(() -> {
                go(of.body());
                return null;
            });
            jobs.increment();
            return future;
        } catch (RejectedExecutionException full) {
            refused.increment();
            throw full;
        }
    }

    /**
     * Waits, in a random part of the calls, until an idle thread no longer waits, and then for a random time in which that thread
     * may end.
     */
    private void aim(List<Thread> own) {
        List<Thread> idle = own.stream().filter(Timeouts::isIdle).toList();
        if (idle.isEmpty() || ThreadLocalRandom.current().nextInt(idle.size() == 1 ? AIMED_AT_ONE : AIMED_AT_SEVERAL) > 0) {
            return;
        }
        aimed.increment();
        long latest = System.nanoTime() + 10 * keepAlive;
        while (isIdle(idle.get(0)) && System.nanoTime() < latest) {
            Thread.onSpinWait();
        }
        long end = System.nanoTime() + ThreadLocalRandom.current().nextInt(DELAY >> ThreadLocalRandom.current().nextInt(HALVED));
        while (System.nanoTime() < end) {
            Thread.onSpinWait();
        }
    }

    /** Returns whether a thread waits with a timeout, as only idle threads do. */
    private static boolean isIdle(Thread thread) {
        return thread.getState() == Thread.State.TIMED_WAITING;
    }
}
