package sizing.spring;

import static org.junit.jupiter.api.Assertions.assertEquals;
import static org.junit.jupiter.api.Assertions.assertFalse;
import static org.junit.jupiter.api.Assertions.assertSame;
import static org.junit.jupiter.api.Assertions.assertThrows;
import static org.junit.jupiter.api.Assertions.assertTrue;

import java.io.IOException;
import java.nio.charset.StandardCharsets;
import java.nio.file.Files;
import java.nio.file.Path;
import java.util.ArrayList;
import java.util.List;
import java.util.Map;
import java.util.concurrent.ArrayBlockingQueue;
import java.util.concurrent.CompletableFuture;
import java.util.concurrent.ExecutorService;
import java.util.concurrent.Semaphore;
import java.util.concurrent.ThreadPoolExecutor;
import java.util.concurrent.TimeUnit;
import java.util.function.Consumer;
import org.junit.jupiter.api.Test;
import org.springframework.context.annotation.AnnotationConfigApplicationContext;
import org.springframework.context.annotation.Bean;
import org.springframework.scheduling.annotation.Async;
import org.springframework.scheduling.annotation.AsyncAnnotationBeanPostProcessor;
import org.springframework.scheduling.concurrent.ThreadPoolTaskExecutor;
import sizing.PlanCheck;
import sizing.PlanMismatchException;
import sizing.Recorder;
import sizing.junit5.SizingAssertions;

/** Tests of contexts with the plans `async-joined` and `permits`. */
class SizingBeansTest {
    private static final Path EXAMPLES = Path.of(System.getProperty("sizing.root"), "examples");
    private static final Path ASYNC = EXAMPLES.resolve("async-joined.toml");
    private static final Path PERMITS = EXAMPLES.resolve("permits.toml");

    /** A service whose implementation has an {@code @Async} method. */
    public interface Profiles {
        CompletableFuture<String> profile(int user);
    }

    /** A service whose implementation is an {@code @Async} class. */
    public interface Orders {
        CompletableFuture<String> orders(int user);
    }

    public static class AsyncProfiles implements Profiles {
        @Override
        @Async
        public CompletableFuture<String> profile(int user) {
            return CompletableFuture.completedFuture("profile " + user);
        }
    }

    @Async
    public static class AsyncOrders implements Orders {
        @Override
        public CompletableFuture<String> orders(int user) {
            return CompletableFuture.completedFuture("orders " + user);
        }
    }

    private static ThreadPoolTaskExecutor tasks(int core, int queue) {
        ThreadPoolTaskExecutor tasks = new ThreadPoolTaskExecutor();
        tasks.setCorePoolSize(core);
        tasks.setMaxPoolSize(core);
        tasks.setQueueCapacity(queue);
        tasks.setWaitForTasksToCompleteOnShutdown(true);
        tasks.setAwaitTerminationSeconds(60);
        return tasks;
    }

    /** The configuration of the service. It has no `@Configuration`, because Spring 4.3 cannot make its subclasses on Java 17. */
    static class Service {
        static int core;
        static Recorder recorder;

        @Bean
        static AsyncAnnotationBeanPostProcessor async() {
            return new AsyncAnnotationBeanPostProcessor();
        }

        @Bean
        static SizingBeans sizing() {
            return new SizingBeans(ASYNC, recorder).pool("tasks", "taskExecutor");
        }

        @Bean
        static AsyncLabels labels() {
            return new AsyncLabels();
        }

        @Bean
        ThreadPoolTaskExecutor taskExecutor() {
            return tasks(core, 100);
        }

        @Bean
        Profiles profiles() {
            return new AsyncProfiles();
        }

        @Bean
        Orders orders() {
            return new AsyncOrders();
        }
    }

    private static AnnotationConfigApplicationContext service(int core, Recorder recorder) {
        Service.core = core;
        Service.recorder = recorder;
        return new AnnotationConfigApplicationContext(Service.class);
    }

    /** Asserts that the recording conforms to the plan by the second implementation, and by the program if there is one. */
    private static void assertConforms(Path plan, Path recording) throws Exception {
        Path conform = Path.of(System.getProperty("sizing.root"), "checks", "java", "conform.py");
        Process python = new ProcessBuilder("python3", conform.toString(), plan.toString(), recording.toString()).redirectErrorStream(true).start();
        assertEquals("conforms\n", new String(python.getInputStream().readAllBytes(), StandardCharsets.UTF_8));
        assertEquals(0, python.waitFor());
        if (!System.getProperty("sizing.program", "").isBlank()) {
            SizingAssertions.assertConforms(plan, recording);
        }
    }

    @Test
    void theContextStartsWithTheExecutorsOfThePlan() {
        AnnotationConfigApplicationContext context = service(8, null);
        assertSame(ThreadPoolTaskExecutor.class, context.getBean("taskExecutor").getClass());
        context.close();
    }

    @Test
    void theContextDoesNotStartWithOtherExecutors() {
        PlanMismatchException thrown = assertThrows(PlanMismatchException.class, () -> service(4, null));
        assertEquals(List.of("pool tasks: core 4, plan 8", "pool tasks: max 4, plan 8"), thrown.lines());
        assertEquals(String.join(System.lineSeparator(), thrown.lines()), thrown.getMessage());
    }

    @Test
    void asyncMethodsThatAreJoinedConform() throws Exception {
        Path recording = Files.createDirectories(Path.of("target", "sizing")).resolve("async.recording");
        Recorder recorder = Recorder.toFile(recording);
        AnnotationConfigApplicationContext context = service(8, recorder);
        Profiles profiles = context.getBean(Profiles.class);
        Orders orders = context.getBean(Orders.class);
        List<Thread> threads = new ArrayList<>();
        for (int thread = 0; thread < 50; thread++) {
            int user = thread;
            threads.add(new Thread(() -> {
                for (int at = 0; at < 5; at++) {
                    try (Recorder.Round round = recorder.round("request")) {
                        CompletableFuture.allOf(profiles.profile(user), orders.orders(user)).join();
                    }
                }
            }));
        }
        threads.forEach(Thread::start);
        for (Thread thread : threads) {
            thread.join();
        }
        context.close();
        List<String> lines = Files.readAllLines(recording);
        assertEquals("end", lines.get(lines.size() - 1));
        assertEquals(250, lines.stream().filter(line -> line.endsWith(" profile tasks")).count());
        assertEquals(250, lines.stream().filter(line -> line.endsWith(" orders tasks")).count());
        assertEquals(500, lines.stream().filter(line -> line.contains(" got ")).count());
        assertConforms(ASYNC, recording);
    }

    /** A configuration with a bean that has the name of the pool, and with the decorator of docs/PERMITS.md. */
    static class Mails {
        static Recorder recorder;
        static Semaphore permits;

        @Bean
        static SizingBeans sizing() {
            return new SizingBeans(PERMITS, recorder);
        }

        @Bean
        ThreadPoolTaskExecutor mail() {
            ThreadPoolTaskExecutor tasks = tasks(2, 20);
            tasks.setTaskDecorator(task -> {
                permits.acquireUninterruptibly();
                return () -> {
                    try {
                        task.run();
                    } finally {
                        permits.release();
                    }
                };
            });
            return tasks;
        }
    }

    @Test
    void aDecoratorWithPermitsConforms() throws Exception {
        Path recording = Files.createDirectories(Path.of("target", "sizing")).resolve("decorator.recording");
        Mails.recorder = Recorder.toFile(recording);
        Mails.permits = Mails.recorder.permits("permit", 20);
        AnnotationConfigApplicationContext context = new AnnotationConfigApplicationContext(Mails.class);
        ThreadPoolTaskExecutor mail = context.getBean(ThreadPoolTaskExecutor.class);
        Runnable send = () -> { };
        List<Consumer<ThreadPoolTaskExecutor>> submits = List.of(
                it -> it.execute(Recorder.label("send", send)),
                it -> it.submit(Recorder.label("send", send)),
                it -> it.submit(Recorder.label("send", () -> 1)));
        for (int turn = 0; turn < 300; turn++) {
            submits.get(turn % submits.size()).accept(mail);
        }
        context.close();
        List<String> lines = Files.readAllLines(recording);
        assertEquals("end", lines.get(lines.size() - 1));
        assertEquals(300, lines.stream().filter(line -> line.startsWith("round ") && line.endsWith(" send mail")).count());
        assertEquals(300, lines.stream().filter(line -> line.endsWith(" begin permit")).count());
        assertFalse(lines.stream().anyMatch(line -> line.contains(" begin main")), "a submit of the thread itself");
        assertConforms(PERMITS, recording);
    }

    /** A configuration with an executor that has Spring's own sizes, or a queue with a capacity. */
    static class Defaults {
        static Path plan;
        static Recorder recorder;
        static int queue;

        @Bean
        static SizingBeans sizing() {
            return new SizingBeans(plan, recorder);
        }

        @Bean
        ThreadPoolTaskExecutor tasks() {
            ThreadPoolTaskExecutor tasks = new ThreadPoolTaskExecutor();
            if (queue > 0) {
                tasks.setQueueCapacity(queue);
            }
            return tasks;
        }
    }

    @Test
    void theDefaultsOfSpringAreAPoolWithAnUnboundedQueue() throws Exception {
        Path recording = Files.createDirectories(Path.of("target", "sizing")).resolve("defaults.recording");
        Defaults.plan = Files.writeString(Path.of("target", "sizing", "defaults.toml"), """
                pool = [{name = "tasks", core = 1, max = "unbounded", queue = "unbounded"}]
                class = [{name = "task", pool = "tasks", body = []}]
                client = [{name = "request", count = 1, repeat = true, body = ["submit task as t", "get t"]}]
                """);
        Defaults.recorder = Recorder.toFile(recording);
        Defaults.queue = 0;
        AnnotationConfigApplicationContext context = new AnnotationConfigApplicationContext(Defaults.class);
        ThreadPoolTaskExecutor tasks = context.getBean(ThreadPoolTaskExecutor.class);
        for (int at = 0; at < 20; at++) {
            try (Recorder.Round round = Defaults.recorder.round("request")) {
                assertEquals(at, tasks.submit(Recorder.label("task", Integer.valueOf(at)::intValue)).get());
            }
        }
        context.close();
        assertTrue(Files.readAllLines(recording).contains("pool tasks core 1 max 1000000000 queue linked 1000000000 timeout no prestarted 0 handler abort"));
        assertConforms(Defaults.plan, recording);
    }

    /** A configuration with the executor of Spring Boot if no property of `spring.task.execution.pool` is set. */
    static class Boot {
        static Path plan;
        static Recorder recorder;
        static boolean timeout;

        @Bean
        static SizingBeans sizing() {
            return new SizingBeans(plan, recorder).pool("tasks", "applicationTaskExecutor");
        }

        @Bean
        ThreadPoolTaskExecutor applicationTaskExecutor() {
            ThreadPoolTaskExecutor tasks = new ThreadPoolTaskExecutor();
            tasks.setQueueCapacity(Integer.MAX_VALUE);
            tasks.setCorePoolSize(8);
            tasks.setMaxPoolSize(Integer.MAX_VALUE);
            tasks.setKeepAliveSeconds(60);
            tasks.setAllowCoreThreadTimeOut(timeout);
            return tasks;
        }
    }

    private static final String BOOT = """
            pool = [{name = "tasks", core = 8, max = "unbounded", queue = "unbounded", core_timeout = true}]
            class = [{name = "task", pool = "tasks", body = []}]
            client = [{name = "request", count = 1, repeat = true, body = ["submit task as t", "get t"]}]
            """;

    @Test
    void theExecutorOfSpringBootIsAPoolWithCoreTimeouts() throws Exception {
        Path recording = Files.createDirectories(Path.of("target", "sizing")).resolve("boot.recording");
        Boot.plan = Files.writeString(Path.of("target", "sizing", "boot.toml"), BOOT);
        Boot.recorder = Recorder.toFile(recording);
        Boot.timeout = true;
        AnnotationConfigApplicationContext context = new AnnotationConfigApplicationContext(Boot.class);
        ThreadPoolTaskExecutor tasks = context.getBean(ThreadPoolTaskExecutor.class);
        for (int at = 0; at < 20; at++) {
            try (Recorder.Round round = Boot.recorder.round("request")) {
                assertEquals(at, tasks.submit(Recorder.label("task", Integer.valueOf(at)::intValue)).get());
            }
        }
        context.close();
        assertTrue(Files.readAllLines(recording).contains("pool tasks core 8 max 1000000000 queue linked 1000000000 timeout yes prestarted 0 handler abort"));
        assertConforms(Boot.plan, recording);
    }

    @Test
    void theContextDoesNotStartWithOtherCoreTimeouts() throws Exception {
        Boot.plan = Files.createTempFile("sizing", ".toml");
        Boot.recorder = null;
        for (boolean timeout : new boolean[] {false, true}) {
            Boot.timeout = timeout;
            Files.writeString(Boot.plan, BOOT.replace("core_timeout = true", "core_timeout = " + timeout));
            new AnnotationConfigApplicationContext(Boot.class).close();
            Files.writeString(Boot.plan, BOOT.replace("core_timeout = true", "core_timeout = " + !timeout));
            PlanMismatchException thrown = assertThrows(PlanMismatchException.class, () -> new AnnotationConfigApplicationContext(Boot.class));
            assertEquals(List.of("pool tasks: allowCoreThreadTimeOut " + timeout + ", plan " + !timeout), thrown.lines());
        }
        Files.delete(Boot.plan);
    }

    @Test
    void aQueueWithACapacityIsNoUnboundedQueue() throws Exception {
        Defaults.plan = Files.writeString(Files.createTempFile("sizing", ".toml"), "pool = [{name = 'tasks', core = 1, max = 1, queue = 'unbounded'}]");
        Defaults.recorder = null;
        Defaults.queue = 200;
        PlanMismatchException thrown = assertThrows(PlanMismatchException.class, () -> new AnnotationConfigApplicationContext(Defaults.class));
        assertEquals(List.of("pool tasks: queue 200, plan unbounded"), thrown.lines());
        Files.delete(Defaults.plan);
    }

    /** A configuration with a bean that is no {@code ThreadPoolTaskExecutor}. */
    static class Plain {
        static Recorder recorder;
        static Object bean;

        @Bean
        static SizingBeans sizing() {
            return new SizingBeans(PERMITS, recorder);
        }

        @Bean
        Object mail() {
            return bean;
        }
    }

    @Test
    void aThreadPoolExecutorBecomesARecordedExecutorService() throws Exception {
        Path recording = Files.createDirectories(Path.of("target", "sizing")).resolve("plain.recording");
        Plain.recorder = Recorder.toFile(recording);
        ThreadPoolExecutor executor = new ThreadPoolExecutor(2, 2, 1, TimeUnit.SECONDS, new ArrayBlockingQueue<>(20));
        Plain.bean = executor;
        AnnotationConfigApplicationContext context = new AnnotationConfigApplicationContext(Plain.class);
        assertEquals(7, ((ExecutorService) context.getBean("mail")).submit(Recorder.label("send", () -> 7)).get());
        context.close();
        assertTrue(Files.readAllLines(recording).contains("round 0 submit 0 send mail"));
        executor.shutdown();
    }

    /** A configuration in which the recorder is a bean too, as in java/README.md. */
    static class WithRecorder {
        static final Path RECORDING = Path.of("target", "sizing", "bean.recording");

        @Bean
        static Recorder recorder() throws IOException {
            Files.createDirectories(RECORDING.getParent());
            return Recorder.toFile(RECORDING);
        }

        @Bean
        static SizingBeans sizing(Recorder recorder) {
            return new SizingBeans(ASYNC, recorder).pool("tasks", "applicationTaskExecutor");
        }

        @Bean
        static AsyncAnnotationBeanPostProcessor async() {
            return new AsyncAnnotationBeanPostProcessor();
        }

        @Bean
        static AsyncLabels labels() {
            return new AsyncLabels();
        }

        @Bean
        ThreadPoolTaskExecutor applicationTaskExecutor() {
            return tasks(8, 100);
        }

        @Bean
        Profiles profiles() {
            return new AsyncProfiles();
        }
    }

    @Test
    void theRecorderMayBeABean() throws Exception {
        AnnotationConfigApplicationContext context = new AnnotationConfigApplicationContext(WithRecorder.class);
        try (Recorder.Round round = context.getBean(Recorder.class).round("request")) {
            assertEquals("profile 1", context.getBean(Profiles.class).profile(1).join());
        }
        context.close();
        List<String> lines = Files.readAllLines(WithRecorder.RECORDING);
        assertEquals("end", lines.get(lines.size() - 1));
        assertEquals(List.of("round 0 begin request", "round 0 submit 0 profile tasks", "round 0 got 0", "round 0 end"),
                lines.stream().filter(line -> line.startsWith("round 0 ")).toList());
        assertConforms(ASYNC, WithRecorder.RECORDING);
    }

    @Test
    void aBeanOfAnotherClassStopsTheStart() {
        Plain.recorder = null;
        Plain.bean = "mail";
        Exception thrown = assertThrows(Exception.class, () -> new AnnotationConfigApplicationContext(Plain.class));
        assertTrue(thrown.getMessage().contains("bean mail is pool mail of the plan, but java.lang.String is not a ThreadPoolTaskExecutor"), thrown.getMessage());
    }

    @Test
    void theDecoratorOfSpringIsNoOverriddenExecute() throws Exception {
        ThreadPoolTaskExecutor mail = tasks(2, 20);
        mail.setTaskDecorator(task -> task);
        mail.afterPropertiesSet();
        assertEquals(List.of(), PlanCheck.differences(PERMITS, Map.of("mail", mail.getThreadPoolExecutor())));
        mail.shutdown();
    }
}
