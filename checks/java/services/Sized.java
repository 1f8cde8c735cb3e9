package services;

import java.io.BufferedReader;
import java.io.InputStreamReader;
import java.nio.file.Path;
import java.util.HashMap;
import java.util.List;
import java.util.Map;

/** A program that runs services with given sizes and rounds, and prints the counts of each run. */
final class Sized {
    private static final int FIRST_POOL = 5;

    private Sized() {}

    /**
     * Runs a service for each line of the standard input. A line has the service, the number of rounds in all, the number of
     * seconds without progress after which the run has stopped, the maximum number of microseconds that a thread waits before it
     * takes a job, the file of the recording, and the name, core, max and queue of each pool.
     */
    public static void main(String[] none) throws Exception {
        List<String> lines = new BufferedReader(new InputStreamReader(System.in)).lines().toList();
        for (String line : lines) {
            String[] words = line.split(" ");
            Run run = new Run(Path.of(words[4]), new Settings(pools(words), Integer.parseInt(words[1]), Integer.parseInt(words[3])));
            Services.named(words[0]).begin(run);
            System.out.println(run.met(Long.parseLong(words[2])));
        }
    }

    private static Map<String, Settings.Sizes> pools(String[] words) {
        Map<String, Settings.Sizes> pools = new HashMap<>();
        for (int at = FIRST_POOL; at < words.length; at += 4) {
            pools.put(words[at], new Settings.Sizes(Integer.parseInt(words[at + 1]), Integer.parseInt(words[at + 2]), Integer.parseInt(words[at + 3])));
        }
        return pools;
    }
}
