package services;

import java.util.concurrent.ArrayBlockingQueue;
import java.util.concurrent.ThreadLocalRandom;
import java.util.concurrent.TimeUnit;
import java.util.concurrent.locks.LockSupport;

/** Java's queue, from which threads take jobs slowly, as on a loaded machine. */
final class SlowlyTaken extends ArrayBlockingQueue<Runnable> {
    private static final long serialVersionUID = 1;
    private final int microseconds;

    SlowlyTaken(int capacity, int microseconds) {
        super(capacity);
        this.microseconds = microseconds;
    }

    @Override
    public Runnable take() throws InterruptedException {
        waitALittle(microseconds);
        return super.take();
    }

    @Override
    public Runnable poll(long time, TimeUnit unit) throws InterruptedException {
        waitALittle(microseconds);
        return super.poll(time, unit);
    }

    static void waitALittle(int microseconds) {
        LockSupport.parkNanos(1000L * ThreadLocalRandom.current().nextInt(microseconds));
    }
}
