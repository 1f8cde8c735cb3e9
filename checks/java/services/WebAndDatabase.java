package services;

import static sizing.Recorder.label;

import java.util.concurrent.ExecutorService;
import java.util.concurrent.Future;

/** A service with a web pool, whose requests ask a database pool if the cache lacks the result. */
final class WebAndDatabase implements Services.Service {
    private final int visitors;
    private final int rounds;
    private ExecutorService database;
    private boolean takesAnotherPath;

    WebAndDatabase(int visitors, int rounds) {
        this.visitors = visitors;
        this.rounds = rounds;
    }

    @Override
    public void begin(Run run) {
        ExecutorService web = run.pool("web", 2, 4, visitors + 1);
        database = run.pool("database", 1, 1, 4);
        takesAnotherPath = run.takesAnotherPath();
        run.clients("visitor", visitors, rounds, (client, round) -> web.submit(label("request", () -> request(round % 3 == 1))).get());
        run.clients("crawler", 1, rounds, (client, round) -> web.submit(label("request", () -> request(false))).get());
    }

    private int request(boolean isCached) throws Exception {
        if (isCached) {
            return 0;
        }
        Future<Integer> rows = database.submit(label("query", () -> 7));
        // the slip: the future is dropped
        return takesAnotherPath ? 0 : rows.get();
    }
}
