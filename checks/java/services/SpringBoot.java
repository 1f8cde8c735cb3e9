package services;

import static sizing.Recorder.label;

import java.util.concurrent.ExecutorService;
import java.util.concurrent.Future;

/**
 * A service with two pools whose core threads may time out, over unbounded queues, as those of Spring Boot. A page gets its part
 * from a pool of its own. Then it submits an entry of a log to the pool of pages, for which no thread waits.
 */
final class SpringBoot implements Services.Service {
    private static final int MAX = 16;
    private ExecutorService tasks;
    private ExecutorService parts;
    private boolean takesAnotherPath;

    @Override
    public void begin(Run run) {
        tasks = run.timedPool("tasks", 8, MAX);
        parts = label("part", run.timedPool("parts", 2, Integer.MAX_VALUE));
        takesAnotherPath = run.takesAnotherPath();
        run.clients("visitor", 3, 8, (client, round) -> tasks.submit(label("page", this::page)).get());
    }

    private int page() throws Exception {
        Future<Integer> part = parts.submit(() -> 7);
        // the slip: the future is dropped
        int got = takesAnotherPath ? 0 : part.get();
        tasks.execute(label("entry", () -> { }));
        return got;
    }
}
