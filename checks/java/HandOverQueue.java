import java.util.concurrent.SynchronousQueue;
import java.util.concurrent.TimeUnit;

/** Java's queue of capacity 0, with a gate at which a thread waits after it was handed a job. */
final class HandOverQueue extends SynchronousQueue<Runnable> {
    private static final long serialVersionUID = 1;
    private final transient HandOverGate gate;

    HandOverQueue(HandOverGate gate) {
        this.gate = gate;
    }

    @Override
    public boolean offer(Runnable job) {
        gate.beforeOffer();
        boolean isHanded = super.offer(job);
        if (isHanded) {
            gate.handed(job);
        } else {
            gate.afterFailedOffer();
        }
        return isHanded;
    }

    @Override
    public Runnable take() throws InterruptedException {
        gate.arrives(false);
        try {
            return gate.held(super.take());
        } finally {
            gate.leaves();
        }
    }

    @Override
    public Runnable poll(long time, TimeUnit unit) throws InterruptedException {
        gate.arrives(true);
        try {
            return gate.held(super.poll(time, unit));
        } catch (InterruptedException woken) {
            if (gate.isTimeOver()) {
                return null;
            }
            throw woken;
        } finally {
            gate.leaves();
        }
    }
}
