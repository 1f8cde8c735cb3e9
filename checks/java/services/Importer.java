package services;

import static sizing.Recorder.label;

import java.util.ArrayDeque;
import java.util.concurrent.ExecutorService;
import java.util.concurrent.Future;

/** An importer that reads one to eight rows in a round, and has at most three of them in its window. */
final class Importer implements Services.Service {
    private static final int WINDOW = 3;
    private static final int MOST = 8;

    @Override
    public void begin(Run run) {
        ExecutorService rows = run.pool("rows", 2, 2, 3);
        // the slip: a window of four
        run.clients("importer", 1, 12, (client, round) -> importRows(rows, 1 + round % MOST, run.takesAnotherPath() ? WINDOW + 1 : WINDOW));
    }

    private static int importRows(ExecutorService rows, int number, int open) throws Exception {
        ArrayDeque<Future<Integer>> window = new ArrayDeque<>();
        int sum = 0;
        for (int row = 0; row < number; row++) {
            if (window.size() == open) {
                sum += window.removeFirst().get();
            }
            window.add(rows.submit(label("row", () -> 1)));
        }
        while (!window.isEmpty()) {
            sum += window.removeFirst().get();
        }
        return sum;
    }
}
