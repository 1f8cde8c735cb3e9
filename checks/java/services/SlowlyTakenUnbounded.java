package services;

import java.util.concurrent.LinkedBlockingQueue;
import java.util.concurrent.TimeUnit;

/** Java's queue without a capacity, from which threads take jobs slowly. */
final class SlowlyTakenUnbounded extends LinkedBlockingQueue<Runnable> {
    private static final long serialVersionUID = 1;
    private final int microseconds;

    SlowlyTakenUnbounded(int microseconds) {
        this.microseconds = microseconds;
    }

    @Override
    public Runnable take() throws InterruptedException {
        SlowlyTaken.waitALittle(microseconds);
        return super.take();
    }

    @Override
    public Runnable poll(long time, TimeUnit unit) throws InterruptedException {
        SlowlyTaken.waitALittle(microseconds);
        return super.poll(time, unit);
    }
}
