import java.util.concurrent.CountDownLatch;
import java.util.concurrent.ExecutionException;
import java.util.concurrent.Future;
import java.util.concurrent.RejectedExecutionException;
import java.util.concurrent.ThreadPoolExecutor;
import java.util.concurrent.TimeUnit;

/**
 * An experiment with core 1, max 2 and queue 1, and with one-shot clients W, V, X and, if asked for, Y. The offer of X fails, and
 * X pauses before it asks for a thread. When X continues, the state of the pool has changed.
 */
final class Interleavings {
    /** Hooks that pause the thread {@code who} after its failed offer. If {@code who} is null, they pause no thread. */
    private static final class WaitingOffer implements Moments {
        final CountDownLatch failed = new CountDownLatch(1);
        final CountDownLatch goOn = new CountDownLatch(1);
        volatile Thread who;

        @Override
        public void afterFailedOffer() {
            if (Thread.currentThread() == who) {
                failed.countDown();
                await(goOn);
            }
        }
    }

    private final WaitingOffer moments = new WaitingOffer();
    private final ThreadPoolExecutor pool;

    private Interleavings(String kind) {
        pool = new ThreadPoolExecutor(1, 2, 1, TimeUnit.HOURS,
                kind.equals("linked") ? new LinkedQueue(1, moments) : new ArrayQueue(1, moments));
    }

    /**
     * Runs the experiment with the arguments `KIND Y WAITS`: the kind of the queue, whether Y exists, and whether X pauses.
     * Prints the outcome of X's submit and the state of the pool after it.
     */
    public static void main(String[] words) throws Exception {
        System.out.println(new Interleavings(words[0]).report(Boolean.parseBoolean(words[1]), Boolean.parseBoolean(words[2])));
        System.exit(0);
    }

    private String report(boolean four, boolean waits) throws InterruptedException, ExecutionException {
        CountDownLatch first = new CountDownLatch(1);
        CountDownLatch held = new CountDownLatch(1);
        Future<?> jobOfW = pool.submit(() -> await(first));
        CountDownLatch taken = new CountDownLatch(1);
        Future<?> jobOfV = pool.submit(taken::countDown);
        String[] answer = new String[1];
        Thread x = new Thread(() -> answer[0] = submits(held));
        moments.who = waits ? x : null;
        x.start();
        if (waits) {
            await(moments.failed);
        } else {
            x.join();
        }
        String ofY = four ? submits(held) : "none";
        first.countDown();
        jobOfW.get();
        await(taken);
        jobOfV.get();
        while (pool.getActiveCount() != pool.getPoolSize() - 1) {
            Thread.onSpinWait();
        }
        String before = state();
        moments.goOn.countDown();
        x.join();
        while (pool.getQueue().size() > 0) {
            Thread.onSpinWait();
        }
        String after = state();
        held.countDown();
        return "Y " + ofY + ", then " + before + "; X " + answer[0] + ", then " + after;
    }

    private String submits(CountDownLatch held) {
        try {
            pool.submit(() -> await(held));
            return "served";
        } catch (RejectedExecutionException refused) {
            return "refused";
        }
    }

    private String state() {
        return "queued " + pool.getQueue().size() + " threads " + pool.getPoolSize() + " at work " + pool.getActiveCount();
    }

    private static void await(CountDownLatch latch) {
        try {
            latch.await();
        } catch (InterruptedException over) {
            Thread.currentThread().interrupt();
        }
    }
}
