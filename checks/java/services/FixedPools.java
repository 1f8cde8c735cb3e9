package services;

import static sizing.Recorder.label;

import java.util.concurrent.ExecutorService;
import java.util.concurrent.Future;

/**
 * A service with two pools of `Executors.newFixedThreadPool`, whose queues are unbounded. A page gets its part from the pool of
 * pages. Then it writes a line to the log, for which no thread waits.
 */
final class FixedPools implements Services.Service {
    private ExecutorService pages;
    private ExecutorService log;
    private boolean takesAnotherPath;

    @Override
    public void begin(Run run) {
        pages = run.fixedPool("pages", 4);
        log = label("entry", run.fixedPool("log", 1));
        takesAnotherPath = run.takesAnotherPath();
        run.clients("visitor", 3, 8, (client, round) -> pages.submit(label("page", this::page)).get());
    }

    private int page() throws Exception {
        Future<Integer> part = pages.submit(label("part", () -> 7));
        // the slip: the future is dropped
        int got = takesAnotherPath ? 0 : part.get();
        log.execute(() -> { });
        return got;
    }
}
