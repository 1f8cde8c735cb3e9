import java.util.ArrayList;
import java.util.List;
import java.util.concurrent.BlockingQueue;
import java.util.concurrent.RejectedExecutionException;
import java.util.concurrent.ThreadLocalRandom;
import java.util.concurrent.atomic.AtomicInteger;
import java.util.concurrent.atomic.LongAdder;

/**
 * Threads that repeatedly submit with permits. After half of the submits they let the job go: they cancel it, or a `get` of it
 * times out. Workers take jobs slowly, so threads are idle while jobs are queued.
 */
final class PermitLoops {
    private static final int SUBMITTERS = 4;
    private static final int THREADS = 2;
    private static final int PERMITS = 3;
    private final Permits permits;
    private final boolean untilRefused;
    private final AtomicInteger roundsLeft;
    private final LongAdder served = new LongAdder();
    private final LongAdder letGo = new LongAdder();
    private final LongAdder refused = new LongAdder();

    private PermitLoops(Permits.Way way, String kind, int places, int rounds, boolean untilRefused) {
        SlowQueue moments = new SlowQueue(true);
        BlockingQueue<Runnable> queue = kind.equals("linked") ? new LinkedQueue(places, moments) : new ArrayQueue(places, moments);
        moments.queue = queue;
        permits = new Permits(way, PERMITS, THREADS, queue);
        roundsLeft = new AtomicInteger(rounds);
        this.untilRefused = untilRefused;
    }

    /**
     * Runs the threads with the arguments `WAY KIND PLACES ROUNDS UNTIL_REFUSED`, where `PLACES` is the capacity of the queue.
     * Prints the counts.
     */
    public static void main(String[] words) throws InterruptedException {
        System.out.println(new PermitLoops(Permits.Way.valueOf(words[0]), words[1], Integer.parseInt(words[2]),
                Integer.parseInt(words[3]), Boolean.parseBoolean(words[4])).done());
        System.exit(0);
    }

    private String done() throws InterruptedException {
        List<Thread> submitters = new ArrayList<>();
        for (int one = 0; one < SUBMITTERS; one++) {
            submitters.add(new Thread(this::submitter));
        }
        submitters.forEach(Thread::start);
        for (Thread submitter : submitters) {
            submitter.join();
        }
        for (long turns = 0; permits.pool.getCompletedTaskCount() < served.sum(); turns++) {
            Rest.within(turns);
            Thread.sleep(1);
        }
        int back = 0;
        while (permits.tryAcquire()) {
            back++;
        }
        return "jobs " + served + ", let go " + letGo + ", refused " + refused + ", back " + back;
    }

    private void submitter() {
        while (roundsLeft.getAndDecrement() > 0 && !(untilRefused && refused.sum() > 0)) {
            try {
                permits.acquire();
                Permits.LetsGo job = permits.submit(PermitLoops::work);
                served.increment();
                if (ThreadLocalRandom.current().nextBoolean()) {
                    letGo.increment();
                    job.letsGo();
                }
            } catch (RejectedExecutionException full) {
                refused.increment();
                permits.permits.release();
            } catch (InterruptedException over) {
                return;
            }
        }
    }

    /** Throws an exception in one of eight jobs. */
    private static void work() {
        if (ThreadLocalRandom.current().nextInt(8) == 0) {
            throw new IllegalStateException("a job that fails");
        }
    }
}
