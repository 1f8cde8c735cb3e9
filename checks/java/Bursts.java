import java.util.concurrent.BrokenBarrierException;
import java.util.concurrent.CountDownLatch;
import java.util.concurrent.CyclicBarrier;
import java.util.concurrent.RejectedExecutionException;
import java.util.concurrent.ThreadLocalRandom;
import java.util.concurrent.ThreadPoolExecutor;
import java.util.concurrent.TimeUnit;
import java.util.concurrent.atomic.AtomicInteger;

/** One-shot clients that all submit at once to a new pool, once in each round. */
final class Bursts {
    /**
     * The options of a burst. With `nested` each job first submits another one, except the job of an additional client. With
     * `held` a job runs until all clients have submitted; otherwise it ends at once. `leaves` is the probability with which a
     * client skips its submit. With `slow` the queue is slow as `SlowQueue` describes.
     */
    private record Burst(Plan.Pool pool, String kind, int clients, int more, boolean held, boolean nested, boolean slow, double leaves,
            int rounds, boolean untilRefused) {
        static Burst of(String line) {
            String[] words = line.split(" ");
            int[] numbers = new int[words.length];
            for (int at = 0; at < words.length; at++) {
                numbers[at] = words[at].matches("\\d+") ? Integer.parseInt(words[at]) : 0;
            }
            Plan.Pool pool = new Plan.Pool("p", numbers[1], numbers[2], numbers[3], words[4].equals("true"), false, false);
            return new Burst(pool, words[0], numbers[5], numbers[6], words[7].equals("true"), words[8].equals("true"), words[9].equals("true"),
                    Double.parseDouble(words[10]), numbers[11], words[12].equals("true"));
        }
    }

    private final Burst burst;
    private final CyclicBarrier begin;
    private final CyclicBarrier end;
    // The number of unfinished jobs of the pool. The pool's own counts miss a thread that is starting.
    private final AtomicInteger about = new AtomicInteger();
    private final AtomicInteger refused = new AtomicInteger();
    private volatile ThreadPoolExecutor pool;
    private volatile CountDownLatch allSubmitted;

    private Bursts(Burst burst) {
        this.burst = burst;
        begin = new CyclicBarrier(burst.clients + burst.more + 1);
        end = new CyclicBarrier(burst.clients + burst.more + 1);
    }

    /**
     * Runs the burst that each argument describes. Prints the number of its rounds in which a submit was refused, and the number
     * of times that a submitter asked for a thread while the queue had room.
     */
    public static void main(String[] lines) throws Exception {
        for (String line : lines) {
            System.out.println(new Bursts(Burst.of(line)).done());
        }
        System.exit(0);
    }

    private String done() throws InterruptedException, BrokenBarrierException {
        for (int number = 0; number < burst.clients + burst.more; number++) {
            boolean nested = burst.nested && number < burst.clients;
            Thread client = new Thread(() -> client(nested));
            client.setDaemon(true);
            client.start();
        }
        int rounds = 0;
        int withRefusals = 0;
        int most = 0;
        int asked = 0;
        while (rounds < burst.rounds && !(burst.untilRefused && withRefusals > 0)) {
            asked += round();
            rounds++;
            withRefusals += refused.get() > 0 ? 1 : 0;
            most = Math.max(most, refused.get());
        }
        return "rounds " + rounds + ", refused in " + withRefusals + ", most " + most + ", asked with room " + asked;
    }

    /** Runs a round and returns the number of times that a submitter asked for a thread while the queue had room. */
    private int round() throws InterruptedException, BrokenBarrierException {
        SlowQueue slow = new SlowQueue(burst.slow);
        slow.queue = burst.kind.equals("linked") ? new LinkedQueue(burst.pool.queue(), slow) : new ArrayQueue(burst.pool.queue(), slow);
        pool = new ThreadPoolExecutor(burst.pool.core(), burst.pool.max(), 1, TimeUnit.HOURS, slow.queue);
        if (burst.pool.prestart()) {
            pool.prestartAllCoreThreads();
        }
        allSubmitted = new CountDownLatch(1);
        refused.set(0);
        begin.await();
        end.await();
        allSubmitted.countDown();
        while (about.get() > 0) {
            Thread.yield();
        }
        pool.shutdown();
        pool.awaitTermination(10, TimeUnit.SECONDS);
        return slow.askedWithRoom.get();
    }

    private void client(boolean nested) {
        try {
            while (true) {
                begin.await();
                submit(nested);
                end.await();
            }
        } catch (InterruptedException | BrokenBarrierException over) {
            return;
        }
    }

    private void submit(boolean nested) {
        if (ThreadLocalRandom.current().nextDouble() < burst.leaves) {
            return;
        }
        about.incrementAndGet();
        try {
            pool.submit(() -> {
                if (nested) {
                    submit(false);
                }
                if (burst.held) {
                    allSubmitted.await();
                }
                return about.decrementAndGet();
            });
        } catch (RejectedExecutionException full) {
            refused.incrementAndGet();
            about.decrementAndGet();
        }
    }
}
