import java.util.ArrayList;
import java.util.List;
import java.util.concurrent.ArrayBlockingQueue;
import java.util.concurrent.CountDownLatch;
import java.util.concurrent.RejectedExecutionException;

/**
 * An experiment with one thread, a queue of two, and two permits. Job A runs and B is queued. Their submitters stop waiting: they
 * cancel the jobs, or a `get` times out. Then C and D ask for a permit. A running job that is cancelled continues to run.
 */
final class Cancelled {
    private static final int PERMITS = 2;
    private final Permits permits;
    private int served;

    private Cancelled(Permits.Way way) {
        permits = new Permits(way, PERMITS, 1, new ArrayBlockingQueue<>(PERMITS));
    }

    /** Prints a line for each named way of returning a permit. */
    public static void main(String[] words) throws InterruptedException {
        for (String way : words) {
            System.out.println(new Cancelled(Permits.Way.valueOf(way)).report());
        }
        System.exit(0);
    }

    private String report() throws InterruptedException {
        CountDownLatch begun = new CountDownLatch(1);
        CountDownLatch held = new CountDownLatch(1);
        StringBuilder report = new StringBuilder();
        List<Permits.LetsGo> jobs = new ArrayList<>();
        report.append("A ").append(submits(jobs, () -> {
            begun.countDown();
            Permits.await(held);
        }));
        Permits.await(begun);
        report.append(", B ").append(submits(jobs, () -> {}));
        for (Permits.LetsGo job : jobs) {
            job.letsGo();
        }
        jobs.clear();
        report.append("; C ").append(submits(jobs, () -> {})).append(", D ").append(submits(jobs, () -> {}));
        held.countDown();
        for (long turns = 0; permits.pool.getCompletedTaskCount() < served; turns++) {
            Rest.within(turns);
            Thread.sleep(1);
        }
        for (Permits.LetsGo job : jobs) {
            job.letsGo();
        }
        int back = 0;
        while (permits.tryAcquire()) {
            back++;
        }
        return report + "; " + back + " of " + PERMITS + " permits come back";
    }

    private String submits(List<Permits.LetsGo> jobs, Runnable body) {
        if (!permits.tryAcquire()) {
            return "waits";
        }
        try {
            jobs.add(permits.submit(body));
            served++;
            return "served";
        } catch (RejectedExecutionException refused) {
            permits.permits.release();
            return "refused";
        }
    }
}
