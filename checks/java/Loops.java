import java.io.BufferedReader;
import java.io.InputStreamReader;
import java.util.ArrayList;
import java.util.Iterator;
import java.util.List;
import java.util.concurrent.BlockingQueue;
import java.util.concurrent.ExecutionException;
import java.util.concurrent.Future;
import java.util.concurrent.RejectedExecutionException;
import java.util.concurrent.ThreadLocalRandom;
import java.util.concurrent.ThreadPoolExecutor;
import java.util.concurrent.TimeUnit;
import java.util.concurrent.atomic.AtomicInteger;
import java.util.concurrent.atomic.LongAdder;
import java.util.concurrent.locks.LockSupport;

/** Clients that repeat their bodies, each on its own thread, as in a service. */
final class Loops {
    /** A delay of less than {@code microseconds} before a worker takes a job. */
    private record SlowTaking(int microseconds) implements Moments {
        @Override
        public Taking beforeTaking(boolean timed) {
            if (microseconds > 0) {
                LockSupport.parkNanos(1000L * ThreadLocalRandom.current().nextInt(microseconds));
            }
            return Taking.AS_EVER;
        }
    }

    private final Plan plan;
    private final double leaves;
    private final boolean untilRefused;
    private final List<ThreadPoolExecutor> pools = new ArrayList<>();
    private final AtomicInteger roundsLeft;
    private final LongAdder rounds = new LongAdder();
    private final LongAdder jobs = new LongAdder();
    private final LongAdder refused = new LongAdder();

    private Loops(Plan plan, String kind, int rounds, double leaves, int microseconds, String slow, boolean untilRefused) {
        this.plan = plan;
        this.leaves = leaves;
        this.untilRefused = untilRefused;
        roundsLeft = new AtomicInteger(rounds);
        for (Plan.Pool pool : plan.pools()) {
            Moments moments = new SlowTaking(slow.equals("all") || slow.equals(pool.name()) ? microseconds : 0);
            BlockingQueue<Runnable> queue = kind.equals("linked") || pool.isUnbounded()
                    ? new LinkedQueue(pool.queue(), moments) : new ArrayQueue(pool.queue(), moments);
            pools.add(new ThreadPoolExecutor(pool.core(), pool.max(), 1, TimeUnit.MILLISECONDS, queue));
            if (pool.prestart()) {
                pools.get(pools.size() - 1).prestartAllCoreThreads();
            }
        }
    }

    /**
     * Runs the clients with the arguments `KIND ROUNDS LEAVES MICROSECONDS SLOW_POOL UNTIL_REFUSED`, where `SLOW_POOL` is the
     * pool whose threads take jobs slowly, or `all`. Reads a plan from standard input, up to a line `events`. Prints the counts
     * of the run.
     */
    public static void main(String[] words) throws Exception {
        Iterator<String> lines = new BufferedReader(new InputStreamReader(System.in)).lines().iterator();
        Loops loops = new Loops(Plan.read(lines), words[0], Integer.parseInt(words[1]), Double.parseDouble(words[2]),
                Integer.parseInt(words[3]), words[4], Boolean.parseBoolean(words[5]));
        System.out.println(loops.done());
        System.exit(0);
    }

    private String done() throws InterruptedException {
        List<Thread> clients = new ArrayList<>();
        for (Plan.Kind kind : plan.clients()) {
            for (int one = 0; one < kind.number(); one++) {
                clients.add(new Thread(() -> client(kind)));
            }
        }
        clients.forEach(Thread::start);
        for (Thread client : clients) {
            client.join();
        }
        for (ThreadPoolExecutor pool : pools) {
            pool.shutdown();
            pool.awaitTermination(10, TimeUnit.SECONDS);
        }
        long completed = pools.stream().mapToLong(ThreadPoolExecutor::getCompletedTaskCount).sum();
        long above = pools.stream().filter(pool -> pool.getLargestPoolSize() > pool.getCorePoolSize()).count();
        return "rounds " + rounds + ", jobs " + jobs + ", completed " + completed + ", refused " + refused + ", grown " + above;
    }

    private void client(Plan.Kind kind) {
        do {
            if (roundsLeft.getAndDecrement() <= 0 || untilRefused && refused.sum() > 0) {
                return;
            }
            rounds.increment();
            try {
                go(kind.body());
            } catch (RejectedExecutionException | ExecutionException counted) {
                continue;
            } catch (InterruptedException over) {
                return;
            }
        } while (kind.repeat());
    }

    /** Runs a body, and skips each submit and its get with the probability {@code leaves}. */
    private void go(List<Plan.Action> body) throws InterruptedException, ExecutionException {
        Future<?>[] slots = new Future<?>[body.size()];
        for (int at = 0; at < body.size(); at++) {
            Plan.Action action = body.get(at);
            if (action.what() == 's' && ThreadLocalRandom.current().nextDouble() >= leaves) {
                slots[at] = submit(plan.classes().get(action.operand()));
            } else if (action.what() == 'g' && slots[action.operand()] != null) {
                slots[action.operand()].get();
            }
        }
    }

    private Future<?> submit(Plan.Kind of) {
        try {
            Future<?> future = pools.get(of.number()).submit(() -> {
                go(of.body());
                return null;
            });
            jobs.increment();
            return future;
        } catch (RejectedExecutionException full) {
            refused.increment();
            throw full;
        }
    }
}
