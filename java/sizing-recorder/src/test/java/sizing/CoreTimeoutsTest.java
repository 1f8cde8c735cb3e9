package sizing;

import static org.junit.jupiter.api.Assertions.assertEquals;
import static org.junit.jupiter.api.Assertions.assertTrue;
import static sizing.PlanCheckTest.compared;
import static sizing.PlanCheckTest.file;

import java.nio.file.Path;
import java.util.List;
import java.util.Map;
import java.util.concurrent.ArrayBlockingQueue;
import java.util.concurrent.BlockingQueue;
import java.util.concurrent.LinkedBlockingQueue;
import java.util.concurrent.ThreadPoolExecutor;
import org.junit.jupiter.api.Test;

/** Tests of the differences between executors and a plan whose core threads may time out, and of their lines in a recording. */
class CoreTimeoutsTest {
    private static final String BOOT = "pool = [{name = 'tasks', core = 8, max = 'unbounded', queue = 'unbounded', core_timeout = true}]";
    private static final String SIXTEEN = BOOT.replace("max = 'unbounded'", "max = 16");
    private static final String BOUNDED = "pool = [{name = 'tasks', core = 2, max = 4, queue = 8, core_timeout = true}]";
    private static final String TRUE = "pool tasks: allowCoreThreadTimeOut true, plan false";
    private static final String FALSE = "pool tasks: allowCoreThreadTimeOut false, plan true";

    private static Map<String, ThreadPoolExecutor> tasks(int core, int max, BlockingQueue<Runnable> queue, boolean timeout) {
        ThreadPoolExecutor executor = Recording.executor(core, max, queue);
        executor.allowCoreThreadTimeOut(timeout);
        return Map.of("tasks", executor);
    }

    private static Map<String, ThreadPoolExecutor> unbounded(int max, boolean timeout) {
        return tasks(8, max, new LinkedBlockingQueue<>(), timeout);
    }

    private static String without(String plan) {
        return plan.replace(", core_timeout = true", "");
    }

    @Test
    void theExecutorOfSpringBootHasNoDifference() throws Exception {
        compared(file(BOOT), unbounded(Integer.MAX_VALUE, true));
    }

    @Test
    void coreTimeoutsAreComparedBothWays() throws Exception {
        compared(file(BOOT), unbounded(Integer.MAX_VALUE, false), FALSE);
        for (String plan : List.of(without(BOOT), BOOT.replace("core_timeout = true", "core_timeout = false"))) {
            compared(file(plan), unbounded(Integer.MAX_VALUE, true), TRUE);
            compared(file(plan), unbounded(Integer.MAX_VALUE, false));
        }
        compared(file(BOUNDED), tasks(2, 4, new ArrayBlockingQueue<>(8), true));
        compared(file(BOUNDED), tasks(2, 4, new ArrayBlockingQueue<>(8), false), FALSE);
        compared(file(without(BOUNDED)), tasks(2, 4, new LinkedBlockingQueue<>(8), true), TRUE);
    }

    @Test
    void theMaximumOverAnUnboundedQueueIsComparedIfCoreThreadsMayTimeOut() throws Exception {
        for (int max : new int[] {1_000_001, 1_000_000_000, Integer.MAX_VALUE}) {
            compared(file(BOOT), unbounded(max, true));
            compared(file(SIXTEEN), unbounded(max, true), "pool tasks: max " + max + ", plan 16");
        }
        compared(file(SIXTEEN), unbounded(16, true));
        for (int max : new int[] {8, 16, 1_000_000}) {
            compared(file(BOOT), unbounded(max, true), "pool tasks: max " + max + ", plan unbounded");
        }
        for (int max : new int[] {8, 15, 17}) {
            compared(file(SIXTEEN), unbounded(max, true), "pool tasks: max " + max + ", plan 16");
        }
        compared(file(SIXTEEN), unbounded(17, false), "pool tasks: max 17, plan 16", FALSE);
    }

    @Test
    void theMaximumHasNoEffectWithoutCoreTimeouts() throws Exception {
        for (int max : new int[] {8, 16, 1_000_000, Integer.MAX_VALUE}) {
            compared(file(without(BOOT)), unbounded(max, false));
            compared(file(without(SIXTEEN)), unbounded(max, false));
            compared(file(without(SIXTEEN)), unbounded(max, true), TRUE);
        }
    }

    @Test
    void theMaximumOverABoundedQueueIsAlwaysCompared() throws Exception {
        for (String plan : List.of(BOUNDED, without(BOUNDED))) {
            boolean timeout = plan.equals(BOUNDED);
            compared(file(plan), tasks(2, 5, new ArrayBlockingQueue<>(8), timeout), "pool tasks: max 5, plan 4");
            compared(file(plan), tasks(2, Integer.MAX_VALUE, new ArrayBlockingQueue<>(8), timeout), "pool tasks: max 2147483647, plan 4");
        }
    }

    @Test
    void theQueueIsComparedBesideCoreTimeouts() throws Exception {
        compared(file(BOOT), tasks(8, Integer.MAX_VALUE, new LinkedBlockingQueue<>(200), true), "pool tasks: queue 200, plan unbounded");
        compared(file(BOOT), tasks(4, 4, new ArrayBlockingQueue<>(200), false), "pool tasks: core 4, plan 8", "pool tasks: max 4, plan unbounded",
                "pool tasks: queue 200, plan unbounded", "pool tasks: queue ArrayBlockingQueue, plan LinkedBlockingQueue", FALSE);
        compared(file(BOUNDED), tasks(2, 4, new LinkedBlockingQueue<>(), true), "pool tasks: queue 2147483647, plan 8");
    }

    @Test
    void executorsAreMadeWithCoreTimeouts() throws Exception {
        for (String plan : List.of(BOOT, SIXTEEN, BOUNDED, BOUNDED.replace("core_timeout", "prestart = true, core_timeout"))) {
            Path file = file(plan);
            ThreadPoolExecutor made = PlanCheck.newExecutor(file, "tasks");
            assertTrue(made.allowsCoreThreadTimeOut());
            compared(file, Map.of("tasks", made));
            made.shutdown();
        }
        ThreadPoolExecutor made = PlanCheck.newExecutor(file(without(BOOT)), "tasks");
        compared(file(BOOT), Map.of("tasks", made), FALSE);
        made.shutdown();
    }

    @Test
    void theHandlerOverAnUnboundedQueueIsNeverCalled() throws Exception {
        Map<String, ThreadPoolExecutor> executors = unbounded(Integer.MAX_VALUE, true);
        executors.get("tasks").setRejectedExecutionHandler(new ThreadPoolExecutor.DiscardOldestPolicy());
        PlanCheck.check(file(BOOT), executors);
        assertEquals(List.of("pool tasks: handler DiscardOldestPolicy, which is never called if the plan is safe"),
                PlanCheck.differences(file(BOOT), executors));
    }

    @Test
    void aRecordingHasTheTimeoutAndTheUnboundedSizes() throws Exception {
        Recording recording = new Recording();
        recording.pool("tasks", unbounded(Integer.MAX_VALUE, true).get("tasks"));
        assertEquals("pool tasks core 8 max 1000000000 queue linked 1000000000 timeout yes prestarted 0 handler abort", recording.lines().get(1));
    }
}
