package services;

import java.util.Map;
import java.util.concurrent.ArrayBlockingQueue;
import java.util.concurrent.BlockingQueue;
import java.util.concurrent.LinkedBlockingQueue;

/**
 * The settings that replace those of the service: the sizes of its pools by name, the number of rounds in all, and the maximum
 * number of microseconds that a thread waits before it takes a job.
 */
record Settings(Map<String, Sizes> pools, int rounds, int microseconds) {
    /** The sizes of a pool. An unbounded queue has the capacity of a `LinkedBlockingQueue` that is made without one. */
    record Sizes(int core, int max, int queue) {
        boolean isUnbounded() {
            return queue == Integer.MAX_VALUE;
        }
    }

    /** The settings of a service that has its own sizes and rounds. */
    static final Settings NONE = new Settings(Map.of(), 0, 0);

    boolean areGiven() {
        return rounds > 0;
    }

    Sizes of(String pool, Sizes own) {
        if (areGiven() && !pools.containsKey(pool)) {
            throw new IllegalArgumentException("no sizes of " + pool);
        }
        return pools.getOrDefault(pool, own);
    }

    BlockingQueue<Runnable> queueOf(Sizes sizes) {
        if (sizes.isUnbounded()) {
            return microseconds > 0 ? new SlowlyTakenUnbounded(microseconds) : new LinkedBlockingQueue<>();
        }
        return microseconds > 0 ? new SlowlyTaken(sizes.queue(), microseconds) : new ArrayBlockingQueue<>(sizes.queue());
    }
}
