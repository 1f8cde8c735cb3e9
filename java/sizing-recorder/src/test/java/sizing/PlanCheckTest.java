package sizing;

import static org.junit.jupiter.api.Assertions.assertEquals;
import static org.junit.jupiter.api.Assertions.assertThrows;
import static org.junit.jupiter.api.Assertions.assertTrue;
import static sizing.RecordingAssertions.thrownBy;

import java.nio.file.Files;
import java.nio.file.Path;
import java.util.LinkedHashMap;
import java.util.List;
import java.util.Map;
import java.util.concurrent.CountDownLatch;
import java.util.concurrent.ExecutorService;
import java.util.concurrent.Executors;
import java.util.concurrent.ForkJoinPool;
import java.util.concurrent.LinkedBlockingQueue;
import java.util.concurrent.PriorityBlockingQueue;
import java.util.concurrent.RejectedExecutionHandler;
import java.util.concurrent.ScheduledThreadPoolExecutor;
import java.util.concurrent.SynchronousQueue;
import java.util.concurrent.ThreadPoolExecutor;
import java.util.concurrent.TimeUnit;
import java.util.concurrent.atomic.AtomicBoolean;
import org.junit.jupiter.api.Test;

/** Tests of the differences between executors and a plan. */
class PlanCheckTest {
    private static final String PLAN = """
            # two pools
            [[pool]]
            name = "web"
            core = 2
            max = 4
            queue = 8

            [[pool]]
            name = "db"
            core = 1
            max = 1
            queue = 3
            prestart = true

            [[class]]
            name = "query"
            pool = "db"
            body = ["work 1"]
            """;

    private static final String SHEDDING = """
            pool = [
              {name = "bulkhead", core = 1, max = 2, queue = 3, may_reject = true},
              {name = "db", core = 1, max = 1, queue = 3},
            ]
            [[class]]
            name = "ping"
            pool = "bulkhead"
            body = ["work 1"]
            [[class]]
            name = "query"
            pool = "db"
            body = []
            """;
    private static final String UNBOUNDED = "pool = [{name = 'tasks', core = 2, max = 'unbounded', queue = 'unbounded'}]";
    private static final String SYNCHRONOUS = "pool = [{name = 'bulkhead', core = 8, max = 8, queue = 0, may_reject = true}]";

    private static final String GETS = """
            [[class]]
            name = "call"
            pool = "bulkhead"
            body = ["submit query as q", "get q"]
            [[client]]
            name = "request"
            count = 2
            body = ["submit ping as p", "submit query as q", "get q", "get p"]
            [[class]]
            name = "late"
            pool = "bulkhead"
            body = ["work 1", "submit query"]
            """;
    private static final String NO_GETS = """
            [[client]]
            name = "request"
            count = 2
            body = ["submit ping", "submit query as p", "get p"]
            """;

    /** A handler that the JDK does not have. */
    private static class Retry implements RejectedExecutionHandler {
        @Override
        public void rejectedExecution(Runnable task, ThreadPoolExecutor executor) {
            executor.execute(task);
        }
    }

    @Test
    void executorsOfThePlanHaveNoDifference() throws Exception {
        Map<String, ThreadPoolExecutor> executors = executors();
        PlanCheck.check(file(PLAN), executors);
        same(executors);
        String inline = "pool = [{name = 'web', core = 2, max = 4, queue = 8},\n {name = 'db', core = 1, max = 1, queue = 3, prestart = true}]";
        assertEquals(List.of(), PlanCheck.differences(file(inline), executors));
        executors.put("web", Recording.executor(2, 4, new LinkedBlockingQueue<>(8)));
        same(executors);
    }

    @Test
    void differentSizesAreListed() throws Exception {
        Map<String, ThreadPoolExecutor> executors = executors();
        executors.put("web", Recording.executor(1, 5, 9));
        same(executors, "pool web: core 1, plan 2", "pool web: max 5, plan 4", "pool web: queue 9, plan 8");
    }

    @Test
    void sizesThatWereChangedAndCoreTimeoutsAreListed() throws Exception {
        Map<String, ThreadPoolExecutor> executors = executors();
        executors.get("web").setCorePoolSize(3);
        executors.get("web").setMaximumPoolSize(6);
        executors.get("db").allowCoreThreadTimeOut(true);
        same(executors, "pool web: core 3, plan 2", "pool web: max 6, plan 4", "pool db: allowCoreThreadTimeOut true, plan false");
    }

    @Test
    void queuesOfAnotherKindOrCapacityAreListed() throws Exception {
        Map<String, ThreadPoolExecutor> executors = executors();
        executors.put("web", Recording.executor(2, 4, new SynchronousQueue<>()));
        same(executors, "pool web: queue 0, plan 8", "pool web: queue SynchronousQueue, plan ArrayBlockingQueue or LinkedBlockingQueue");
        executors.put("web", Recording.executor(2, 4, new LinkedBlockingQueue<>()));
        same(executors, "pool web: queue 2147483647, plan 8");
    }

    @Test
    void aQueueOf0IsASynchronousQueue() throws Exception {
        Path plan = file(SYNCHRONOUS);
        compared(plan, Map.of("bulkhead", Recording.executor(8, 8, new SynchronousQueue<>())));
        compared(plan, Map.of("bulkhead", Recording.executor(8, 8, new SynchronousQueue<>(true))));
        compared(plan, Map.of("bulkhead", Recording.executor(8, 8, 8)),
                "pool bulkhead: queue 8, plan 0", "pool bulkhead: queue ArrayBlockingQueue, plan SynchronousQueue");
        compared(plan, Map.of("bulkhead", Recording.executor(8, 8, new LinkedBlockingQueue<>(8))),
                "pool bulkhead: queue 8, plan 0", "pool bulkhead: queue LinkedBlockingQueue, plan SynchronousQueue");
        ThreadPoolExecutor made = PlanCheck.newExecutor(plan, "bulkhead");
        compared(plan, Map.of("bulkhead", made));
        made.shutdown();
    }

    @Test
    void anUnboundedQueueIsALinkedBlockingQueueWithoutACapacity() throws Exception {
        Path plan = file(UNBOUNDED);
        compared(plan, Map.of("tasks", Recording.executor(2, 2, new LinkedBlockingQueue<>())));
        compared(plan, Map.of("tasks", (ThreadPoolExecutor) Executors.newFixedThreadPool(2)));
        compared(plan, Map.of("tasks", Recording.executor(2, 2, new LinkedBlockingQueue<>(200))), "pool tasks: queue 200, plan unbounded");
        compared(plan, Map.of("tasks", Recording.executor(2, 2, 200)),
                "pool tasks: queue 200, plan unbounded", "pool tasks: queue ArrayBlockingQueue, plan LinkedBlockingQueue");
        compared(plan, Map.of("tasks", Recording.executor(2, 2, new SynchronousQueue<>())),
                "pool tasks: queue 0, plan unbounded", "pool tasks: queue SynchronousQueue, plan LinkedBlockingQueue");
        compared(plan, Map.of("tasks", Recording.executor(2, 2, new PriorityBlockingQueue<>())),
                "pool tasks: queue PriorityBlockingQueue, plan LinkedBlockingQueue");
        ThreadPoolExecutor cores = Recording.executor(3, 3, new LinkedBlockingQueue<>());
        cores.allowCoreThreadTimeOut(true);
        compared(plan, Map.of("tasks", cores), "pool tasks: core 3, plan 2", "pool tasks: allowCoreThreadTimeOut true, plan false");
    }

    @Test
    void theMaximumBesideAnUnboundedQueueIsNotCompared() throws Exception {
        for (int max : new int[] {2, 8, Integer.MAX_VALUE}) {
            Map<String, ThreadPoolExecutor> executors = Map.of("tasks", Recording.executor(2, max, new LinkedBlockingQueue<>()));
            compared(file(UNBOUNDED), executors);
            compared(file(UNBOUNDED.replace("max = 'unbounded'", "max = 4")), executors);
        }
    }

    @Test
    void aBusyUnboundedQueueHasItsCapacity() throws Exception {
        ThreadPoolExecutor executor = Recording.executor(2, 2, new LinkedBlockingQueue<>());
        AtomicBoolean over = new AtomicBoolean();
        Thread submitter = new Thread(() -> {
            while (!over.get()) {
                if (executor.getQueue().size() < 1000) {
                    executor.submit(() -> 1);
                }
            }
        });
        submitter.start();
        try {
            for (int time = 0; time < 20; time++) {
                compared(file(UNBOUNDED), Map.of("tasks", executor));
            }
        } finally {
            over.set(true);
            submitter.join();
            executor.shutdownNow();
        }
    }

    @Test
    void aPoolWithAnUnboundedQueueNeverCallsItsHandler() throws Exception {
        ThreadPoolExecutor executor = Recording.executor(2, 2, new LinkedBlockingQueue<>());
        executor.setRejectedExecutionHandler(new ThreadPoolExecutor.DiscardOldestPolicy());
        for (String key : new String[] {"", ", may_reject = true"}) {
            Path plan = file(UNBOUNDED.replace("}]", key + "}]"));
            PlanCheck.check(plan, Map.of("tasks", executor));
            assertEquals(List.of("pool tasks: handler DiscardOldestPolicy, which is never called if the plan is safe"),
                    PlanCheck.differences(plan, Map.of("tasks", executor)));
        }
    }

    @Test
    void anExecutorWithAnUnboundedQueueIsMade() throws Exception {
        ThreadPoolExecutor made = PlanCheck.newExecutor(file(UNBOUNDED), "tasks");
        assertEquals(Integer.MAX_VALUE, made.getMaximumPoolSize());
        assertEquals(Integer.MAX_VALUE, made.getQueue().remainingCapacity());
        compared(file(UNBOUNDED), Map.of("tasks", made));
        made.shutdown();
        made = PlanCheck.newExecutor(file("pool = [{name = 'tasks', core = 2, max = 8, queue = 'unbounded', prestart = true}]"), "tasks");
        assertEquals(List.of(2, 8, 2), List.of(made.getCorePoolSize(), made.getMaximumPoolSize(), made.getPoolSize()));
        made.shutdown();
    }

    @Test
    void discardOldestPolicyDoesNotFitASynchronousQueue() throws Exception {
        ThreadPoolExecutor executor = Recording.executor(1, 1, new SynchronousQueue<>());
        executor.setRejectedExecutionHandler(new ThreadPoolExecutor.DiscardOldestPolicy());
        CountDownLatch held = new CountDownLatch(1);
        executor.submit(() -> Recording.await(held));
        assertThrows(StackOverflowError.class, () -> executor.execute(() -> { }));
        held.countDown();
        compared(file(SYNCHRONOUS.replace("8", "1")), Map.of("bulkhead", executor), "pool bulkhead: may_reject and handler DiscardOldestPolicy, "
                + "but a SynchronousQueue has no job to discard: the handler calls execute until a thread is idle or the stack overflows");
        executor.setRejectedExecutionHandler(new ThreadPoolExecutor.DiscardPolicy());
        compared(file(SYNCHRONOUS.replace("8", "1")), Map.of("bulkhead", executor));
    }

    @Test
    void poolsThatOnlyOneSideHasAreListed() throws Exception {
        Map<String, ThreadPoolExecutor> executors = executors();
        executors.put("mail", executors.remove("web"));
        same(executors, "pool web: no executor given", "pool mail: not in the plan");
    }

    @Test
    void prestartedThreadsAreCompared() throws Exception {
        Map<String, ThreadPoolExecutor> executors = executors();
        executors.get("web").prestartCoreThread();
        RecorderTest.waitUntilDone(executors.get("web"), 0);
        executors.put("db", Recording.executor(1, 1, 3));
        same(executors, "pool web: prestart true, plan false", "pool db: prestart false, plan true");
        executors.get("db").prestartAllCoreThreads();
        executors.put("web", Recording.executor(2, 4, 8));
        executors.get("web").submit(() -> 1).get();
        same(executors);
    }

    @Test
    void anExecutorThatOverridesExecuteIsListed() throws Exception {
        Map<String, ThreadPoolExecutor> executors = executors();
        executors.put("web", new ThreadPoolExecutor(2, 4, 1, TimeUnit.SECONDS, new LinkedBlockingQueue<>(8)) {
            @Override
            public void execute(Runnable task) {
                task.run();
            }
        });
        same(executors, "pool web: sizing.PlanCheckTest$1 overrides execute");
        executors.put("web", new ScheduledThreadPoolExecutor(2));
        assertTrue(PlanCheck.differences(file(PLAN), executors).contains("pool web: ScheduledThreadPoolExecutor overrides execute"));
        executors.put("web", new ThreadPoolExecutor(2, 4, 1, TimeUnit.SECONDS, new LinkedBlockingQueue<>(8)) {
            @Override
            protected void afterExecute(Runnable task, Throwable thrown) {}
        });
        same(executors);
    }

    @Test
    void aHandlerIsListedButDoesNotFailTheCheck() throws Exception {
        Map<String, ThreadPoolExecutor> executors = executors();
        executors.get("web").setRejectedExecutionHandler(new ThreadPoolExecutor.CallerRunsPolicy());
        assertEquals(List.of("pool web: handler CallerRunsPolicy, which is never called if the plan is safe"),
                PlanCheck.differences(file(PLAN), executors));
        PlanCheck.check(file(PLAN), executors);
    }

    @Test
    void abortPolicyFitsAPoolThatMayReject() throws Exception {
        handled(new ThreadPoolExecutor.AbortPolicy(), GETS);
        handled(new ThreadPoolExecutor.AbortPolicy(), NO_GETS);
    }

    @Test
    void callerRunsPolicyFitsAPoolThatMayRejectWithALineForEachClassThatIsNoLeaf() throws Exception {
        Map<String, ThreadPoolExecutor> executors = shedding(new ThreadPoolExecutor.CallerRunsPolicy());
        Path plan = file(SHEDDING + GETS);
        PlanCheck.check(plan, executors);
        String copy = "pool bulkhead: handler CallerRunsPolicy, so copy the actions of class ";
        assertEquals(List.of(copy + "call in front of each `submit call` if they are not there",
                copy + "late in front of each `submit late` if they are not there"), PlanCheck.differences(plan, executors));
        handled(new ThreadPoolExecutor.CallerRunsPolicy(), NO_GETS);
    }

    @Test
    void aPolicyThatDiscardsFitsAPoolThatMayRejectIfNobodyGetsItsJobs() throws Exception {
        String why = "but client request gets a job of class ping: this get may never return";
        handled(new ThreadPoolExecutor.DiscardPolicy(), GETS, "pool bulkhead: may_reject and handler DiscardPolicy, " + why);
        String sizes = "pool bulkhead: may_reject and handler DiscardOldestPolicy, but a plan describes it only if max is equal to core";
        handled(new ThreadPoolExecutor.DiscardOldestPolicy(), GETS, "pool bulkhead: may_reject and handler DiscardOldestPolicy, " + why, sizes);
        handled(new ThreadPoolExecutor.DiscardPolicy(), NO_GETS);
        handled(new ThreadPoolExecutor.DiscardOldestPolicy(), NO_GETS, sizes);
        Map<String, ThreadPoolExecutor> executors = Map.of("bulkhead", Recording.executor(2, 2, 3), "db", Recording.executor(1, 1, 3));
        executors.get("bulkhead").setRejectedExecutionHandler(new ThreadPoolExecutor.DiscardOldestPolicy());
        compared(file((SHEDDING + NO_GETS).replace("core = 1, max = 2", "core = 2, max = 2")), executors);
        String job = NO_GETS + "[[class]]\nname = 'deep'\npool = 'db'\nbody = ['submit query as q', 'get q', 'submit ping as q', 'work 1', 'get q']";
        handled(new ThreadPoolExecutor.DiscardPolicy(), job,
                "pool bulkhead: may_reject and handler DiscardPolicy, but class deep gets a job of class ping: this get may never return");
    }

    @Test
    void aHandlerThatIsNoneOfTheJdkFailsAPoolThatMayReject() throws Exception {
        String why = ", but a plan describes only the handlers of the JDK";
        handled(new Retry(), NO_GETS, "pool bulkhead: may_reject and handler Retry" + why);
        RejectedExecutionHandler unnamed = new Retry() {};
        handled(unnamed, NO_GETS, "pool bulkhead: may_reject and handler " + unnamed.getClass().getName() + why);
        RejectedExecutionHandler derived = new ThreadPoolExecutor.AbortPolicy() {};
        handled(derived, NO_GETS, "pool bulkhead: may_reject and handler " + derived.getClass().getName() + why);
    }

    @Test
    void aPoolThatMustNotRejectHasAnyHandlerBesideOneThatMay() throws Exception {
        Map<String, ThreadPoolExecutor> executors = shedding(new ThreadPoolExecutor.AbortPolicy());
        executors.get("db").setRejectedExecutionHandler(new Retry());
        Path plan = file(SHEDDING + GETS);
        PlanCheck.check(plan, executors);
        assertEquals(List.of("pool db: handler Retry, which is never called if the plan is safe"),
                PlanCheck.differences(plan, executors));
        Path without = file(SHEDDING.replace("may_reject = true", "may_reject = false") + GETS);
        executors.get("bulkhead").setRejectedExecutionHandler(new ThreadPoolExecutor.DiscardPolicy());
        PlanCheck.check(without, executors);
        assertEquals("pool bulkhead: handler DiscardPolicy, which is never called if the plan is safe",
                PlanCheck.differences(without, executors).get(0));
    }

    @Test
    void theHandlerOfARecordedExecutorIsItsOwn() throws Exception {
        Recording recording = new Recording();
        Map<String, ExecutorService> recorded = new LinkedHashMap<>();
        shedding(new ThreadPoolExecutor.DiscardPolicy()).forEach((name, executor) -> recorded.put(name, recording.pool(name, executor)));
        assertEquals(List.of("pool bulkhead: may_reject and handler DiscardPolicy, but client request gets a job of class ping: this get may never return"),
                PlanCheck.differences(file(SHEDDING + GETS), recorded));
        assertEquals(List.of(), PlanCheck.differences(file(SHEDDING + NO_GETS), recorded));
        recording.recorder.close();
    }

    @Test
    void executorsThatAreWrappedAreComparedOrNamed() throws Exception {
        Path plan = file("pool = [{name = 'web', core = 1, max = 1, queue = 2147483647}]");
        ExecutorService single = Executors.newSingleThreadExecutor();
        assertEquals(List.of(), PlanCheck.differences(plan, Map.of("web", single)));
        assertEquals(List.of(), PlanCheck.differences(plan, Map.of("web", Executors.unconfigurableExecutorService(Executors.newFixedThreadPool(1)))));
        assertEquals(List.of("pool web: ForkJoinPool is not a ThreadPoolExecutor"), PlanCheck.differences(plan, Map.of("web", ForkJoinPool.commonPool())));
        single.shutdown();
    }

    @Test
    void executorsHaveTheSizesOfThePlan() throws Exception {
        Path plan = file(PLAN);
        Map<String, ThreadPoolExecutor> executors = Map.of("web", PlanCheck.newExecutor(plan, "web"), "db", PlanCheck.newExecutor(plan, "db"));
        PlanCheck.check(plan, executors);
        assertEquals(List.of("web", "db"), PlanCheck.poolNames(plan));
        assertEquals("IllegalArgumentException: " + plan + ": no pool mail", thrownBy(() -> PlanCheck.newExecutor(plan, "mail")));
        executors.values().forEach(ThreadPoolExecutor::shutdown);
    }

    @Test
    void recordedExecutorsHaveNoDifference() throws Exception {
        Map<String, ThreadPoolExecutor> executors = executors();
        Recording recording = new Recording();
        Map<String, ExecutorService> recorded = new LinkedHashMap<>();
        executors.forEach((name, executor) -> recorded.put(name, recording.recorder.pool(name, executor)));
        same(executors);
        assertEquals(List.of(), PlanCheck.differences(file(PLAN), recorded));
        recording.recorder.close();
    }

    @Test
    void theExceptionListsEveryDifference() throws Exception {
        Map<String, ThreadPoolExecutor> executors = executors();
        executors.put("web", Recording.executor(3, 4, 9));
        String lines = "pool web: core 3, plan 2" + System.lineSeparator() + "pool web: queue 9, plan 8";
        assertEquals("PlanMismatchException: " + lines, thrownBy(() -> PlanCheck.check(file(PLAN), executors)));
    }

    @Test
    void unreadablePlansAreRefused() throws Exception {
        wrong("pools = 1", "a plan has [[pool]], [[class]] and [[client]], not [pools]");
        wrong("pool = 1", "pool is not a list of tables: write [[pool]]");
        wrong("[pool]\nname = 'p'", "pool is not a list of tables: write [[pool]]");
        wrong("pool = [1]", "a pool is a table with name, core, max, queue, prestart, core_timeout and may_reject, not 1");
        wrong("[[pool]]\nname = 'p'\ncorePoolSize = 1", "a pool is a table with name, core, max, queue, prestart, core_timeout and may_reject, not {name=p, corePoolSize=1}");
        wrong("[[pool]]\nname = 'p'\ncore = '1'", "invalid core in pool {name=p, core=1}");
        wrong("[[pool]]\nname = 'p'\ncore = 1\nmax = 1", "invalid queue in pool {name=p, core=1, max=1}");
        String pool = "[[pool]]\nname = 'p'\ncore = 1\nmax = 1\nqueue = 1\n";
        wrong(pool + "prestart = 1", "invalid prestart in pool {name=p, core=1, max=1, queue=1, prestart=1}");
        wrong(pool + "core_timeout = 60", "invalid core_timeout in pool {name=p, core=1, max=1, queue=1, core_timeout=60}");
        wrong(pool + "may_reject = 'yes'", "invalid may_reject in pool {name=p, core=1, max=1, queue=1, may_reject=yes}");
        wrong("[[pool]]\nname = 'p'\ncore = 1\nmax = 'unbounded'\nqueue = 1", "invalid max in pool {name=p, core=1, max=unbounded, queue=1}");
        wrong("[[pool]]\nname = 'p'\ncore = 1\nmax = 1\nqueue = 'Unbounded'", "invalid queue in pool {name=p, core=1, max=1, queue=Unbounded}");
        wrong("[[pool]]\nname = 'p'\ncore = 'unbounded'\nmax = 1\nqueue = 1", "invalid core in pool {name=p, core=unbounded, max=1, queue=1}");
        wrong("[[pool]]\nname = 'p'\ncore = 1\nmax = 1\nqueue = 0", "invalid queue in pool {name=p, core=1, max=1, queue=0}");
        wrong("[[pool]]\nname = 'p'\ncore = 1\nmax = 1\nqueue = 0\nmay_reject = false",
                "invalid queue in pool {name=p, core=1, max=1, queue=0, may_reject=false}");
        wrong("[[pool]]\nname = 'p'\ncore = 1\nmax = 1\nqueue = -1\nmay_reject = true",
                "invalid queue in pool {name=p, core=1, max=1, queue=-1, may_reject=true}");
        String shedding = pool + "may_reject = true\n";
        wrong(shedding + "[class]", "class is not a list of tables: write [[class]]");
        wrong(shedding + "[[class]]\nname = 'a'\npool = 1", "invalid pool in class {name=a, pool=1}");
        wrong(shedding + "[[class]]\nname = 'a'\npool = 'p'\nbody = [1]", "invalid body in class {name=a, pool=p, body=[1]}");
        wrong("client = [1]\n" + shedding, "invalid name in client 1");
        wrong(shedding + "[[client]]\nname = 'c'", "invalid body in client {name=c}");
        wrong(pool + pool, "duplicate pool p");
        wrong("core = 08", "line 1: unsupported value: 08");
    }

    private static Map<String, ThreadPoolExecutor> executors() {
        Map<String, ThreadPoolExecutor> executors = new LinkedHashMap<>();
        executors.put("web", Recording.executor(2, 4, 8));
        executors.put("db", Recording.executor(1, 1, 3));
        executors.get("db").prestartAllCoreThreads();
        return executors;
    }

    private static Map<String, ThreadPoolExecutor> shedding(RejectedExecutionHandler handler) {
        Map<String, ThreadPoolExecutor> executors = Map.of("bulkhead", Recording.executor(1, 2, 3), "db", Recording.executor(1, 1, 3));
        executors.get("bulkhead").setRejectedExecutionHandler(handler);
        return executors;
    }

    /** Checks the lines for a pool with {@code may_reject} and this handler. */
    private static void handled(RejectedExecutionHandler handler, String bodies, String... lines) throws Exception {
        compared(file(SHEDDING + bodies), shedding(handler), lines);
    }

    private static void same(Map<String, ThreadPoolExecutor> executors, String... lines) throws Exception {
        compared(file(PLAN), executors, lines);
    }

    static void compared(Path plan, Map<String, ThreadPoolExecutor> executors, String... lines) throws Exception {
        assertEquals(List.of(lines), PlanCheck.differences(plan, executors));
        if (lines.length == 0) {
            PlanCheck.check(plan, executors);
        } else {
            assertEquals("PlanMismatchException: " + String.join(System.lineSeparator(), lines), thrownBy(() -> PlanCheck.check(plan, executors)));
        }
    }

    private static void wrong(String text, String why) throws Exception {
        Path plan = file(text);
        assertEquals("IllegalArgumentException: " + plan + ": " + why, thrownBy(() -> PlanCheck.check(plan, Map.of())));
    }

    static Path file(String text) throws Exception {
        Path file = Files.createTempFile("sizing", ".toml");
        file.toFile().deleteOnExit();
        return Files.writeString(file, text);
    }
}
