import java.util.concurrent.Callable;
import java.util.concurrent.CountDownLatch;
import java.util.concurrent.ExecutionException;
import java.util.concurrent.Future;

/** A job of a class. Its value is the job itself, so the thread that gets it sees which job it was. */
final class Job extends Actor implements Callable<Job> {
    final int of;
    final CountDownLatch begun = new CountDownLatch(1);
    volatile int number = -1;
    volatile Future<Job> future;

    Job(Replay replay, int of) {
        super(replay, replay.plan.classes().get(of).body());
        this.of = of;
    }

    @Override
    public Job call() throws InterruptedException, ExecutionException {
        // read before `begun` opens: the driver sends an order to each job that has begun, and each of those must wait for one.
        boolean freely = replay.runsFree();
        begun.countDown();
        go(freely);
        return this;
    }
}
