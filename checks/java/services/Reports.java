package services;

import static sizing.Recorder.label;

import java.util.ArrayList;
import java.util.List;
import java.util.concurrent.Callable;
import java.util.concurrent.ExecutorService;
import java.util.concurrent.Future;

/** A service of reports that fan out into their own pool, with one to eight sections each. */
final class Reports implements Services.Service {
    private static final int MOST = 8;
    private ExecutorService reports;

    @Override
    public void begin(Run run) {
        reports = run.pool("reports", 4, 4, 24);
        // the slip: a ninth section
        int most = run.takesAnotherPath() ? MOST + 1 : MOST;
        run.clients("user", 3, 9, (client, round) -> reports.submit(label("report", () -> report(1 + (client + round) % most))).get());
    }

    /**
     * Makes a report: with `invokeAll` if the number of sections is even, and otherwise with a loop of submits and one of gets.
     */
    private int report(int sections) throws Exception {
        List<Callable<Integer>> tasks = new ArrayList<>();
        for (int section = 0; section < sections; section++) {
            int number = section;
            tasks.add(label("section", () -> number));
        }
        if (sections % 2 == 0) {
            return reports.invokeAll(tasks).size();
        }
        List<Future<Integer>> made = new ArrayList<>();
        for (Callable<Integer> task : tasks) {
            made.add(reports.submit(task));
        }
        int sum = 0;
        for (Future<Integer> section : made) {
            sum += section.get();
        }
        return sum;
    }
}
