import java.util.concurrent.LinkedBlockingQueue;
import java.util.concurrent.TimeUnit;

/** Java's queue, which calls the hooks of its {@code Moments}. */
final class LinkedQueue extends LinkedBlockingQueue<Runnable> {
    private static final long serialVersionUID = 1;
    private final transient Moments moments;

    LinkedQueue(int capacity, Moments moments) {
        super(capacity);
        this.moments = moments;
    }

    @Override
    public boolean offer(Runnable job) {
        moments.beforeOffer();
        boolean taken = super.offer(job);
        if (!taken) {
            moments.afterFailedOffer();
        }
        return taken;
    }

    @Override
    public Runnable take() throws InterruptedException {
        return moments.beforeTaking(false) == Moments.Taking.HEAD ? remove() : super.take();
    }

    @Override
    public Runnable poll(long time, TimeUnit unit) throws InterruptedException {
        return switch (moments.beforeTaking(true)) {
            case HEAD -> remove();
            case NOTHING -> null;
            case AS_EVER -> super.poll(time, unit);
        };
    }
}
