import java.io.BufferedReader;
import java.io.InputStreamReader;
import java.util.Iterator;

/**
 * A program that reads cases and prints what the executors did in each. A case is `case KIND STEPS`, a plan, `events`, events,
 * and `end`.
 */
final class Replays {
    private Replays() {}

    public static void main(String[] words) throws Exception {
        Iterator<String> lines = new BufferedReader(new InputStreamReader(System.in)).lines().iterator();
        StringBuilder said = new StringBuilder();
        while (lines.hasNext()) {
            String[] head = lines.next().split(" ");
            Replay replay = new Replay(Plan.read(lines), head[1], Boolean.parseBoolean(head[2]));
            int number = 0;
            boolean over = false;
            for (String event = lines.next(); !event.equals("end"); event = lines.next()) {
                if (event.startsWith("run free ")) {
                    said.append(replay.runFree(Double.parseDouble(event.substring(9)))).append('\n');
                } else if (event.equals("counts")) {
                    replay.counts().forEach(line -> said.append(line).append('\n'));
                } else if (!over) {
                    String answer = replay.answer(event);
                    over = answer.equals(Replay.NOT_POSSIBLE);
                    said.append(++number).append(": ").append(answer).append('\n');
                }
            }
            replay.close();
            said.append("end\n");
        }
        System.out.print(said);
        System.out.flush();
        System.exit(0);
    }
}
