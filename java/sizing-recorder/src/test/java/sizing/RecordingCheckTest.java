package sizing;

import static org.junit.jupiter.api.Assertions.assertEquals;

import java.util.ArrayList;
import java.util.List;
import org.junit.jupiter.api.Test;

/** Tests of {@link RecordingCheck} with recordings that break each rule. */
class RecordingCheckTest {
    private static final String POOL = "pool p core 1 max 2 queue array 3 timeout no prestarted 0 handler abort";
    private static final List<String> WHOLE = List.of("recording 1", POOL, "round 0 begin c", "round 0 submit 0 a p", "job 0 start",
            "job 0 submit 1 b p", "job 0 refused 1", "job 0 end", "round 0 got 0", "round 0 end", "end");

    @Test
    void aValidRecordingAndAllItsPrefixesAreAccepted() throws Exception {
        for (int length = 1; length <= WHOLE.size(); length++) {
            assertEquals(List.of(), RecordingCheck.faults(WHOLE.subList(0, length)));
        }
    }

    @Test
    void ruleO1IsChecked() throws Exception {
        assertEquals(List.of("line 1: O1"), RecordingCheck.faults(List.of(POOL)));
        assertEquals(List.of("line 2: O1"), RecordingCheck.faults(List.of("recording 1", "recording 1")));
        assertEquals(List.of("line 3: O1"), RecordingCheck.faults(List.of("recording 1", "end", POOL)));
    }

    @Test
    void ruleO2IsChecked() throws Exception {
        finds("O2", 4, "round 0 submit 0 a q");
        finds("O2", 4, "round 0 any q");
        finds("O2", 4, "shutdown q");
        finds("O2", 4, "unseen q 1");
    }

    @Test
    void ruleO3IsChecked() throws Exception {
        finds("O3", 4, "round 0 submit 1 a p");
        finds("O3", 4, "round 1 begin c", "round 3 begin c");
        finds("O3", 4, "job 0 start");
        finds("O3", 4, "round 0 timeout 0");
        finds("O3", 4, "removed 0");
    }

    @Test
    void ruleO4IsChecked() throws Exception {
        finds("O4", 4, "round 1 submit 0 a p");
        finds("O4", 10, "round 0 end", "round 0 timeout 0");
        finds("O4", 10, "round 0 end", "round 0 end");
    }

    @Test
    void ruleO5IsChecked() throws Exception {
        finds("O5", 5, "job 0 submit 1 b p");
        finds("O5", 6, "job 0 start");
        finds("O5", 9, "job 0 submit 2 b p");
        finds("O5", 9, "job 0 threw");
    }

    @Test
    void ruleO6IsChecked() throws Exception {
        finds("O6", 7, "round 0 refused 1");
        finds("O6", 7, "job 0 submit 2 b p", "job 0 refused 1");
        finds("O6", 7, "job 1 start", "job 0 refused 1");
    }

    @Test
    void ruleO7IsChecked() throws Exception {
        finds("O7", 8, "round 0 got 0");
    }

    @Test
    void linesOfAnotherFormAreFound() throws Exception {
        for (String bad : List.of("", "round 0  begin c", " end", "end ", "round 00 begin c", "round 1 begin C", "round 1 begin 9c",
                "round 1 begin " + "c".repeat(33), "round 1 start", "job 0 begin c", "job 0 finish", "pool p", "round 0 got", "shutdown",
                "round 2000000000 end", "# note", "round 0 got 0\r")) {
            finds("form", 9, bad);
        }
    }

    /**
     * Asserts that the last of these lines breaks the rule if the lines are put before the line of this number, and that the
     * others break none.
     */
    private static void finds(String rule, int before, String... lines) {
        List<String> all = new ArrayList<>(WHOLE.subList(0, before - 1));
        for (int at = 0; at < lines.length - 1; at++) {
            all.add(lines[at]);
        }
        assertEquals(List.of(), RecordingCheck.faults(all));
        all.add(lines[lines.length - 1]);
        List<String> found = RecordingCheck.faults(all);
        if (!found.contains("line " + all.size() + ": " + rule)) {
            throw new AssertionError(lines[lines.length - 1] + ": expected " + rule + ", but was " + found);
        }
    }
}
