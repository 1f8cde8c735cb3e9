import java.util.concurrent.BlockingQueue;
import java.util.concurrent.ThreadLocalRandom;
import java.util.concurrent.atomic.AtomicInteger;

/**
 * Hooks that count the threads that are asked for while the queue has room. If the queue is slow, they also delay each take and
 * each failed offer for a random time below 50 microseconds.
 */
final class SlowQueue implements Moments {
    private static final int NANOSECONDS = 50_000;
    final AtomicInteger askedWithRoom = new AtomicInteger();
    volatile BlockingQueue<Runnable> queue;
    private final boolean slow;

    SlowQueue(boolean slow) {
        this.slow = slow;
    }

    @Override
    public Taking beforeTaking(boolean timed) {
        waitALittle();
        return Taking.AS_EVER;
    }

    @Override
    public void afterFailedOffer() {
        waitALittle();
        if (queue.remainingCapacity() > 0) {
            askedWithRoom.incrementAndGet();
        }
    }

    private void waitALittle() {
        long end = System.nanoTime() + (slow ? ThreadLocalRandom.current().nextInt(NANOSECONDS) : 0);
        while (System.nanoTime() < end) {
            Thread.yield();
        }
    }
}
