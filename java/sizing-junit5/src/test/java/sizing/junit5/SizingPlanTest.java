package sizing.junit5;

import static org.junit.jupiter.api.Assertions.assertEquals;
import static org.junit.jupiter.api.Assertions.assertThrows;
import static org.junit.jupiter.api.Assertions.assertTrue;
import static org.junit.platform.engine.discovery.DiscoverySelectors.selectClass;
import static sizing.Recorder.label;

import java.io.IOException;
import java.io.PrintWriter;
import java.io.StringWriter;
import java.nio.file.Files;
import java.nio.file.Path;
import java.util.List;
import java.util.Map;
import java.util.concurrent.ExecutorService;
import java.util.concurrent.Executors;
import java.util.concurrent.LinkedBlockingQueue;
import java.util.concurrent.ThreadPoolExecutor;
import java.util.concurrent.TimeUnit;
import java.util.regex.Pattern;
import org.junit.jupiter.api.AfterEach;
import org.junit.jupiter.api.BeforeEach;
import org.junit.jupiter.api.Nested;
import org.junit.jupiter.api.Test;
import org.junit.jupiter.api.extension.ExtendWith;
import org.junit.platform.launcher.core.LauncherDiscoveryRequestBuilder;
import org.junit.platform.launcher.core.LauncherFactory;
import org.junit.platform.launcher.listeners.SummaryGeneratingListener;
import org.junit.platform.launcher.listeners.TestExecutionSummary;
import org.opentest4j.AssertionFailedError;
import org.opentest4j.TestAbortedException;

/** Tests that run classes with {@link SizingPlan} by the launcher. */
class SizingPlanTest {
    private static final String SHOP = Path.of("target", "test-classes", "shop.toml").toString();
    private static final String SMALL_SHOP = Path.of("target", "test-classes", "shop-small.toml").toString();
    private static final String UNBOUNDED = Path.of("target", "test-classes", "shop-unbounded.toml").toString();
    private static final String SHEDDING = Path.of("target", "test-classes", "shop-shedding.toml").toString();
    private String program;
    private String optional;

    /** Runs the service: a page that asks the database and waits. */
    static String visit(ExecutorService web, ExecutorService database) throws Exception {
        return web.submit(label("request", () -> database.submit(label("query", () -> "rows")).get() + " as a page")).get();
    }

    @BeforeEach
    void keepProperties() {
        program = System.getProperty("sizing.program");
        optional = System.getProperty("sizing.optional");
        System.clearProperty("sizing.optional");
    }

    @AfterEach
    void restoreProperties() {
        StubProgram.restore(program);
        System.clearProperty("sizing.optional");
        if (optional != null) {
            System.setProperty("sizing.optional", optional);
        }
    }

    @SizingPlan("shop.toml")
    static class Visitors {
        @Test
        void visitors(Sizing sizing) throws Exception {
            ExecutorService web = sizing.pool("web");
            ExecutorService database = sizing.pool("database");
            sizing.clients("visitor", 6, 20, () -> assertEquals("rows as a page", visit(web, database)));
        }

        @Nested
        class Others {
            @Test
            void oneMore(Sizing sizing) throws Exception {
                assertEquals(SHOP, sizing.plan().toString());
                sizing.clients("visitor", 1, 1, () -> assertEquals("rows as a page", visit(sizing.pool("web"), sizing.pool("database"))));
            }
        }
    }

    @SizingPlan(value = "shop.toml", certificate = "shop.toml")
    static class Certified {
        @Test
        void nothing() {}
    }

    @SizingPlan(value = "shop.toml", ask = false)
    static class NotAsked {
        @Test
        void nothing() {}
    }

    /** A class whose visitors do not wait for the page. The plan has no such path. */
    @SizingPlan("shop.toml")
    static class Hurried {
        @Test
        void visitors(Sizing sizing) throws Exception {
            ExecutorService web = sizing.pool("web");
            sizing.pool("database");
            sizing.clients("visitor", 1, 2, () -> web.submit(label("request", () -> "no rows")));
        }
    }

    @SizingPlan("shop-small.toml")
    static class Small {
        @Test
        void nothing() {}
    }

    @SizingPlan("missing.toml")
    static class Missing {
        @Test
        void nothing() {}
    }

    @SizingPlan("shop.toml")
    static class OtherSizes {
        @Test
        void visitors(Sizing sizing) throws Exception {
            sizing.pool("web", new ThreadPoolExecutor(2, 4, 1, TimeUnit.SECONDS, new LinkedBlockingQueue<>(6), new ThreadPoolExecutor.CallerRunsPolicy()));
        }
    }

    /** A class with an executor of the service and an executor with the sizes of the plan. */
    @SizingPlan("shop-unbounded.toml")
    static class Fixed {
        @Test
        void visitors(Sizing sizing) throws Exception {
            ThreadPoolExecutor executor = (ThreadPoolExecutor) Executors.newFixedThreadPool(2);
            ExecutorService web = sizing.pool("web", executor);
            ExecutorService database = sizing.pool("database");
            sizing.clients("visitor", 6, 20, () -> assertEquals("rows as a page", visit(web, database)));
            executor.shutdown();
        }
    }

    @SizingPlan("shop-unbounded.toml")
    static class OtherQueue {
        @Test
        void visitors(Sizing sizing) throws Exception {
            sizing.pool("web", new ThreadPoolExecutor(2, 8, 1, TimeUnit.SECONDS, new LinkedBlockingQueue<>(6)));
        }
    }

    @SizingPlan("shop-shedding.toml")
    static class Discarding {
        @Test
        void visitors(Sizing sizing) throws Exception {
            sizing.pool("web", new ThreadPoolExecutor(2, 2, 1, TimeUnit.SECONDS, new LinkedBlockingQueue<>(2), new ThreadPoolExecutor.CallerRunsPolicy()));
            sizing.pool("web", new ThreadPoolExecutor(2, 2, 1, TimeUnit.SECONDS, new LinkedBlockingQueue<>(2), new ThreadPoolExecutor.DiscardPolicy()));
        }
    }

    @SizingPlan("shop.toml")
    static class FailingClient {
        @Test
        void visitors(Sizing sizing) throws Exception {
            sizing.clients("visitor", 2, 2, () -> {
                throw new IOException("planned");
            });
        }
    }

    static class NoPlan {
        @Test
        @ExtendWith(SizingExtension.class)
        void visitors(Sizing sizing) {}
    }

    private static TestExecutionSummary run(Class<?> tests) {
        SummaryGeneratingListener listener = new SummaryGeneratingListener();
        LauncherFactory.create().execute(LauncherDiscoveryRequestBuilder.request().selectors(selectClass(tests)).build(), listener);
        return listener.getSummary();
    }

    private static void assertPasses(Class<?> tests, int count) {
        TestExecutionSummary summary = run(tests);
        StringWriter text = new StringWriter();
        summary.printFailuresTo(new PrintWriter(text));
        assertEquals(0, summary.getTotalFailureCount(), text.toString());
        assertEquals(count, summary.getTestsSucceededCount());
    }

    private static void assertMatches(String pattern, String message) {
        assertTrue(message.matches(pattern), message);
    }

    private static String failureOf(Class<?> tests) {
        List<TestExecutionSummary.Failure> failures = run(tests).getFailures();
        assertEquals(1, failures.size());
        return failures.get(0).getException().getMessage();
    }

    @Test
    void theProgramIsAskedBeforeAndAfterTheTests() throws Exception {
        try (StubProgram stub = new StubProgram(0, "SAFE", 0, "conforms")) {
            assertPasses(Visitors.class, 2);
            Path recording = Path.of("target", "sizing", Visitors.class.getName() + ".recording");
            assertEquals(List.of("ask --strict " + SHOP, "conform " + SHOP + " " + recording), stub.runs());
            List<String> lines = Files.readAllLines(recording);
            assertEquals("end", lines.get(lines.size() - 1));
            assertEquals(121, lines.stream().filter(line -> line.endsWith(" begin visitor")).count());
        }
    }

    @Test
    void aCertificateIsPassedOnAndAskMayBeSwitchedOff() throws Exception {
        try (StubProgram stub = new StubProgram(0, "SAFE", 0, "conforms")) {
            assertPasses(Certified.class, 1);
            assertPasses(NotAsked.class, 1);
            assertEquals(List.of("ask --strict " + SHOP + " " + SHOP), stub.runs());
        }
    }

    @Test
    void aPlanThatIsNotSafeFailsTheClassWithWhatAskPrints() throws Exception {
        try (StubProgram stub = new StubProgram(1, "NOT SAFE: web refuses a submit", 0, "conforms")) {
            assertEquals("`sizing ask --strict " + SMALL_SHOP + "` did not answer SAFE without warnings (exit status 1):\n"
                    + "  NOT SAFE: web refuses a submit", failureOf(Small.class));
            assertEquals(1, stub.runs().size());
        }
    }

    @Test
    void anotherPathFailsTheClassWithWhatConformPrints() throws Exception {
        try (StubProgram stub = new StubProgram(0, "SAFE", 1, "line 9: round 0 of kind visitor ended")) {
            Path recording = Path.of("target", "sizing", Hurried.class.getName() + ".recording");
            assertEquals(recording + " does not conform to " + SHOP + " (exit status 1):\n  line 9: round 0 of kind visitor ended", failureOf(Hurried.class));
            assertEquals(2, stub.runs().size());
        }
    }

    @Test
    void theProgramItselfAnswersTheSame() {
        System.setProperty("sizing.optional", "true");
        SizingAssertions.assertSafe(Path.of(SHOP));
        assertPasses(Visitors.class, 2);
        assertMatches(Pattern.quote(Path.of("target", "sizing", Hurried.class.getName() + ".recording") + " does not conform to " + SHOP
                + " (exit status 1):\n  line ") + "\\d+: round 0 of kind visitor ended without a get of job \\d+ of class request in pool web; its body has a get before its end", failureOf(Hurried.class));
        assertMatches(Pattern.quote("`sizing ask --strict " + SMALL_SHOP + "` did not answer SAFE without warnings "
                + "(exit status 1):\n  NOT SAFE\n  refused by web, after ") + "(?s).*", failureOf(Small.class));
    }

    @Test
    void aMissingPlanIsNamed() throws Exception {
        try (StubProgram stub = new StubProgram(0, "SAFE", 0, "conforms")) {
            assertEquals("no file " + Path.of("missing.toml").toAbsolutePath() + ", and no resource missing.toml on the class path", failureOf(Missing.class));
            assertEquals(List.of(), stub.runs());
        }
    }

    @Test
    void anExecutorOfOtherSizesFailsTheTest() throws Exception {
        try (StubProgram stub = new StubProgram(0, "SAFE", 0, "conforms")) {
            assertEquals("the executor differs from the pool of " + SHOP + ":\n  pool web: max 4, plan 2",
                    failureOf(OtherSizes.class));
            assertEquals(1, stub.runs().size());
        }
    }

    @Test
    void executorsWithUnboundedQueuesAreThoseOfThePlan() throws Exception {
        try (StubProgram stub = new StubProgram(0, "SAFE", 0, "conforms")) {
            assertPasses(Fixed.class, 1);
            Path recording = Path.of("target", "sizing", Fixed.class.getName() + ".recording");
            assertEquals(List.of("ask --strict " + UNBOUNDED, "conform " + UNBOUNDED + " " + recording), stub.runs());
            List<String> pools = Files.readAllLines(recording).stream().filter(line -> line.startsWith("pool ")).toList();
            assertEquals(List.of("pool web core 2 max 2 queue linked 1000000000 timeout no prestarted 0 handler abort",
                    "pool database core 1 max 1 queue linked 1000000000 timeout no prestarted 0 handler abort"), pools);
            assertEquals("the executor differs from the pool of " + UNBOUNDED + ":\n  pool web: queue 6, plan unbounded",
                    failureOf(OtherQueue.class));
        }
    }

    @Test
    void theProgramItselfKnowsUnboundedQueues() {
        System.setProperty("sizing.optional", "true");
        SizingAssertions.assertSafe(Path.of(UNBOUNDED));
        assertPasses(Fixed.class, 1);
    }

    @Test
    void aHandlerThatDoesNotFitMayRejectFailsTheTest() throws Exception {
        try (StubProgram stub = new StubProgram(0, "SAFE", 0, "conforms")) {
            assertEquals("the executor differs from the pool of " + SHEDDING + ":\n  pool web: may_reject and handler "
                    + "DiscardPolicy, but client visitor gets a job of class request: this get may never return",
                    failureOf(Discarding.class));
            assertEquals(2, stub.runs().size());
        }
    }

    @Test
    void aFailingClientFailsTheTest() throws Exception {
        try (StubProgram stub = new StubProgram(0, "SAFE", 0, "conforms")) {
            assertEquals("a client of kind visitor failed: java.io.IOException: planned", failureOf(FailingClient.class));
            assertEquals(1, stub.runs().size());
        }
    }

    @Test
    void aParameterWithoutAPlanFailsTheTest() {
        assertTrue(failureOf(NoPlan.class).contains("a parameter of type Sizing needs @SizingPlan on the test class"));
    }

    @Test
    void withoutTheProgramTheClassFailsOrIsSkipped() {
        System.setProperty("sizing.program", "/nonexistent/sizing");
        assertEquals("/nonexistent/sizing, which sizing.program or SIZING names, is not an executable file. Install the program sizing from its "
                + "release, and put it on the PATH or name it by -Dsizing.program=FILE or by the environment variable SIZING. "
                + "-Dsizing.optional=true skips the tests that need it.", failureOf(Visitors.class));
        System.setProperty("sizing.optional", "true");
        TestExecutionSummary summary = run(Visitors.class);
        assertEquals(0, summary.getTotalFailureCount());
        assertEquals(0, summary.getTestsSucceededCount());
    }

    @Test
    void withoutTheProgramAnAssertionFailsOrIsSkipped() {
        System.setProperty("sizing.program", "/nonexistent/sizing");
        assertThrows(AssertionFailedError.class, () -> SizingAssertions.assertSafe(Path.of(SHOP)));
        System.setProperty("sizing.optional", "true");
        assertThrows(TestAbortedException.class, () -> SizingAssertions.assertSafe(Path.of(SHOP)));
    }

    @Test
    void executorsAreCompared() throws Exception {
        ThreadPoolExecutor web = new ThreadPoolExecutor(2, 2, 1, TimeUnit.SECONDS, new LinkedBlockingQueue<>(6));
        AssertionFailedError thrown = assertThrows(AssertionFailedError.class, () -> SizingAssertions.assertExecutors(Path.of(SHOP), Map.of("web", web)));
        assertEquals("the executors differ from the pools of " + SHOP + ":\n  pool database: no executor given",
                thrown.getMessage());
        SizingAssertions.assertExecutors(Path.of(SHOP), Map.of("web", web, "database", new ThreadPoolExecutor(1, 1, 1, TimeUnit.SECONDS, new LinkedBlockingQueue<>(2))));
    }
}
