package services;

import static sizing.Recorder.label;

import java.util.concurrent.CountDownLatch;
import java.util.concurrent.ExecutorService;
import java.util.concurrent.Future;
import java.util.concurrent.TimeUnit;
import java.util.concurrent.TimeoutException;

/**
 * A service of prices for patient clients and for four in a hurry: one of the four waits, one asks again, one continues, and one
 * cancels.
 */
final class HurriedPrices implements Services.Service {
    private static final int ASKS_AGAIN = 1;
    private static final int GOES_ON = 2;
    private static final int CANCELS = 3;
    private ExecutorService prices;
    private boolean takesAnotherPath;

    @Override
    public void begin(Run run) {
        prices = run.pool("prices", 2, 2, 6);
        takesAnotherPath = run.takesAnotherPath();
        run.clients("patient", 2, 5, (client, round) -> prices.submit(label("price", () -> 1)).get());
        run.clients("hurried", 4, 1, (client, round) -> hurry(client));
    }

    private void hurry(int client) throws Exception {
        CountDownLatch go = new CountDownLatch(client == 0 ? 0 : 1);
        Future<Integer> price = slow(go);
        if (client == 0) {
            price.get(1, TimeUnit.HOURS);
            return;
        }
        try {
            price.get(1, TimeUnit.MILLISECONDS);
            throw new AssertionError("the job ended before its latch opened");
        } catch (TimeoutException over) {
            afterwards(client, price, go);
        } finally {
            go.countDown();
        }
    }

    private void afterwards(int client, Future<Integer> price, CountDownLatch go) throws Exception {
        if (client == ASKS_AGAIN) {
            go.countDown();
            price.get();
        }
        if (client == GOES_ON && takesAnotherPath) {
            // the slip: one more submit, without a get
            slow(go);
        }
        if (client == CANCELS) {
            price.cancel(false);
        }
    }

    private Future<Integer> slow(CountDownLatch go) {
        return prices.submit(label("slow", () -> {
            Run.await(go);
            return 2;
        }));
    }
}
