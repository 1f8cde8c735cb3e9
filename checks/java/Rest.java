import java.util.concurrent.CountDownLatch;
import java.util.concurrent.TimeUnit;

/** A limit of ten seconds, within which all threads must be at rest. */
final class Rest {
    /** A condition that holds once the threads are at rest. */
    interface Condition {
        boolean holds();
    }

    static final long MILLISECONDS = 10_000;

    private Rest() {}

    static void within(long turns) {
        if (turns > MILLISECONDS) {
            throw new IllegalStateException("the threads are not at rest after 10 seconds");
        }
    }

    /** Waits until the condition holds. */
    static void await(Condition condition) throws InterruptedException {
        for (long turns = 0; !condition.holds(); turns++) {
            within(turns);
            TimeUnit.MILLISECONDS.sleep(1);
        }
    }

    /** Waits until the latch opens, without a time limit. */
    static void hold(CountDownLatch latch) {
        try {
            latch.await();
        } catch (InterruptedException over) {
            Thread.currentThread().interrupt();
        }
    }
}
