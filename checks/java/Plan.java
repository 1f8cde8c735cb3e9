import java.util.ArrayList;
import java.util.Iterator;
import java.util.List;

/** A plan in the form of java_text.py: a line for each pool, class and client, with numbers in place of names. */
record Plan(List<Pool> pools, List<Kind> classes, List<Kind> clients) {
    record Pool(String name, int core, int max, int queue, boolean prestart, boolean mayReject, boolean coreTimeout) {
        /**
         * Returns whether the queue is unbounded: its capacity is that of a {@code LinkedBlockingQueue} that is made without one.
         */
        boolean isUnbounded() {
            return queue == Integer.MAX_VALUE;
        }
    }

    /** An action 'w', 's' or 'g'. The operand is the number of units, the class, or the position of the submit. */
    record Action(char what, int operand) {}

    /** A class with its pool, or a kind of clients with its count. */
    record Kind(int number, boolean repeat, List<Action> body) {}

    /** Reads the lines of a plan, up to a line `events`. */
    static Plan read(Iterator<String> lines) {
        Plan plan = new Plan(new ArrayList<>(), new ArrayList<>(), new ArrayList<>());
        for (String line = lines.next(); !line.equals("events"); line = lines.next()) {
            String[] words = line.split(" ");
            switch (words[0]) {
                case "pool" -> plan.pools.add(new Pool(words[1], Integer.parseInt(words[2]), Integer.parseInt(words[3]),
                        Integer.parseInt(words[4]), Boolean.parseBoolean(words[5]), Boolean.parseBoolean(words[6]), Boolean.parseBoolean(words[7])));
                case "class" -> plan.classes.add(kind(words));
                case "client" -> plan.clients.add(kind(words));
                default -> throw new IllegalArgumentException(line);
            }
        }
        return plan;
    }

    private static Kind kind(String[] words) {
        List<Action> body = new ArrayList<>();
        for (int at = 3; at < words.length; at++) {
            body.add(new Action(words[at].charAt(0), Integer.parseInt(words[at].substring(1))));
        }
        return new Kind(Integer.parseInt(words[1]), Boolean.parseBoolean(words[2]), body);
    }
}
