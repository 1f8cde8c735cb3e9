package services;

import static sizing.Recorder.label;

import java.util.concurrent.Callable;
import java.util.concurrent.ExecutorService;

/**
 * A service with three pools. An order reserves goods from the stock, or has them ordered if there are none. After the
 * reservation the job sends a letter, for which no thread waits. Each buyer orders once.
 */
final class Orders implements Services.Service {
    private ExecutorService stock;
    private ExecutorService mail;
    private boolean takesAnotherPath;

    @Override
    public void begin(Run run) {
        ExecutorService front = run.pool("front", 2, 2, 10);
        stock = run.pool("stock", 1, 1, 2);
        mail = label("letter", run.pool("mail", 1, 2, 8));
        takesAnotherPath = run.takesAnotherPath();
        run.clients("buyer", 10, 1, (client, round) -> front.submit(label("order", () -> order(client % 3 > 0))).get());
    }

    private int order(boolean isThere) throws Exception {
        int first = stock(isThere);
        // the slip: an order that takes both branches, in the other order
        return takesAnotherPath && !isThere ? stock(true) : first;
    }

    private int stock(boolean isThere) throws Exception {
        Callable<Integer> reserve = this::reserve;
        Callable<Integer> reorder = () -> 0;
        Callable<Integer> task = isThere ? label("reserve", reserve) : label("reorder", reorder);
        return stock.submit(task).get();
    }

    /** Sends a letter once the goods are reserved, and does not wait for it. */
    private int reserve() {
        mail.execute(() -> { });
        return 1;
    }
}
