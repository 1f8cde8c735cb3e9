package sizing;

import static org.junit.jupiter.api.Assertions.assertEquals;
import static org.junit.jupiter.api.Assertions.assertTrue;
import static org.junit.jupiter.api.Assertions.assertNull;
import static sizing.RecordingAssertions.assertLines;
import static sizing.RecordingAssertions.thrownBy;

import java.io.FilterWriter;
import java.io.IOException;
import java.io.StringWriter;
import java.nio.file.Files;
import java.nio.file.Path;
import java.util.List;
import java.util.concurrent.ArrayBlockingQueue;
import java.util.concurrent.BlockingQueue;
import java.util.concurrent.Callable;
import java.util.concurrent.CompletableFuture;
import java.util.concurrent.CountDownLatch;
import java.util.concurrent.ExecutorService;
import java.util.concurrent.Future;
import java.util.concurrent.LinkedBlockingQueue;
import java.util.concurrent.PriorityBlockingQueue;
import java.util.concurrent.SynchronousQueue;
import java.util.concurrent.ThreadPoolExecutor;
import java.util.concurrent.TimeUnit;
import java.util.concurrent.atomic.AtomicBoolean;
import org.junit.jupiter.api.Test;
import org.junit.jupiter.api.function.Executable;

/** Tests of pools, jobs, rounds and labels. */
class RecorderTest {
    private static final class PriceQuery implements Runnable {
        @Override
        public void run() {}
    }

    /** A queue of a subclass, which may have another order. */
    private static final class OwnQueue extends LinkedBlockingQueue<Runnable> {
        private static final long serialVersionUID = 1;
    }

    @Test
    void anEmptyRecordingHasItsFirstAndLastLine() throws Exception {
        assertLines(new Recording().lines(), "recording 1", "end");
    }

    @Test
    void poolLinesHaveTheKindAndCapacityOfTheQueue() throws Exception {
        poolLine(new ArrayBlockingQueue<>(400), "array 400");
        poolLine(new LinkedBlockingQueue<>(7), "linked 7");
        poolLine(new LinkedBlockingQueue<>(), "linked 1000000000");
        poolLine(new SynchronousQueue<>(), "synchronous 0");
        poolLine(new PriorityBlockingQueue<>(), "priority 1000000000");
        poolLine(new OwnQueue(), "other 1000000000");
    }

    @Test
    void theCapacityOfABusyQueueIsExact() throws Exception {
        capacityWhileBusy(new ArrayBlockingQueue<>(3));
        capacityWhileBusy(new LinkedBlockingQueue<>(3));
    }

    @Test
    void poolLinesHavePrestartedThreadsTimeoutAndHandler() throws Exception {
        Recording recording = new Recording();
        ThreadPoolExecutor executor = Recording.executor(3, 4, 5);
        executor.prestartAllCoreThreads();
        executor.allowCoreThreadTimeOut(true);
        executor.setRejectedExecutionHandler(new ThreadPoolExecutor.CallerRunsPolicy());
        recording.pool("p", executor);
        assertEquals("pool p core 3 max 4 queue array 5 timeout yes prestarted 3 handler caller_runs", recording.lines().get(1));
    }

    @Test
    void handlersHaveTheirNames() throws Exception {
        assertEquals("abort", handlerWord(Recording.executor(1, 1, 1)));
        ThreadPoolExecutor executor = Recording.executor(1, 1, 1);
        executor.setRejectedExecutionHandler(new ThreadPoolExecutor.DiscardPolicy());
        assertEquals("discard", handlerWord(executor));
        executor.setRejectedExecutionHandler(new ThreadPoolExecutor.DiscardOldestPolicy());
        assertEquals("discard_oldest", handlerWord(executor));
        executor.setRejectedExecutionHandler((task, by) -> {});
        assertEquals("other", handlerWord(executor));
    }

    @Test
    void aPoolNameOrAnExecutorIsRecordedOnce() throws Exception {
        Recording recording = new Recording();
        ThreadPoolExecutor executor = Recording.executor(1, 1, 1);
        recording.pool("Web Pool", executor);
        assertEquals("IllegalArgumentException: pool web_pool is already recorded", thrownBy(() -> recording.pool("web_pool")));
        assertEquals("IllegalArgumentException: the executor of pool db is already recorded",
                thrownBy(() -> recording.pool("db", executor)));
        assertEquals(3, recording.lines().size());
    }

    private static void poolLine(BlockingQueue<Runnable> queue, String words) throws IOException {
        Recording recording = new Recording();
        recording.pool("web", Recording.executor(2, 8, queue));
        assertLines(recording.lines(), "recording 1", "pool web core 2 max 8 queue " + words + " timeout no prestarted 0 handler abort", "end");
    }

    private static void capacityWhileBusy(BlockingQueue<Runnable> queue) throws InterruptedException {
        ThreadPoolExecutor executor = Recording.executor(1, 1, queue);
        AtomicBoolean ended = new AtomicBoolean();
        Thread busy = new Thread(() -> {
            while (!ended.get()) {
                queue.offer(() -> {});
                queue.poll();
            }
        });
        busy.start();
        try {
            for (int look = 0; look < 2000; look++) {
                assertEquals(3L, Sizes.of(executor).capacity());
            }
        } finally {
            ended.set(true);
            busy.join();
        }
    }

    private static String handlerWord(ThreadPoolExecutor executor) {
        return Sizes.of(executor).handlerWord();
    }

    @Test
    void changedSizesAreRecordedAtTheNextSubmit() throws Exception {
        Recording recording = new Recording();
        ThreadPoolExecutor executor = Recording.executor(1, 2, 1);
        ExecutorService pool = recording.pool("p", executor);
        executor.setMaximumPoolSize(3);
        pool.submit(new PriceQuery()).get();
        pool.submit(new PriceQuery()).get();
        List<String> lines = recording.lines();
        assertEquals(2L, lines.stream().filter(line -> line.startsWith("pool ")).count());
        assertEquals("pool p core 1 max 3 queue array 1 timeout no prestarted 0 handler abort", lines.get(3));
    }

    @Test
    void changedSizesAreRecordedAtTheClose() throws Exception {
        Recording recording = new Recording();
        ThreadPoolExecutor core = Recording.executor(1, 2, 1);
        ThreadPoolExecutor timeout = Recording.executor(1, 2, 1);
        ThreadPoolExecutor handler = Recording.executor(1, 2, 1);
        recording.pool("core", core);
        recording.pool("timeout", timeout);
        recording.pool("handler", handler);
        recording.pool("same", Recording.executor(1, 2, 1));
        core.setCorePoolSize(2);
        timeout.allowCoreThreadTimeOut(true);
        handler.setRejectedExecutionHandler(new ThreadPoolExecutor.DiscardPolicy());
        assertLines(recording.lines().subList(5, 9),
                "pool core core 2 max 2 queue array 1 timeout no prestarted 0 handler abort",
                "pool timeout core 1 max 2 queue array 1 timeout yes prestarted 0 handler abort",
                "pool handler core 1 max 2 queue array 1 timeout no prestarted 0 handler discard", "end");
    }

    @Test
    void jobsThatBypassTheRecorderAreCountedAsUnseen() throws Exception {
        Recording recording = new Recording();
        ThreadPoolExecutor executor = Recording.executor(1, 1, 4);
        executor.submit(() -> 0).get();
        waitUntilDone(executor, 1);
        ExecutorService pool = recording.pool("p", executor);
        executor.submit(() -> 1).get();
        executor.submit(() -> 2).get();
        pool.submit(() -> 3).get();
        pool.submit(() -> 4).get();
        waitUntilDone(executor, 5);
        List<String> lines = recording.lines();
        assertLines(lines.subList(lines.size() - 2, lines.size()), "unseen p 2", "end");
    }

    @Test
    void aJobRunByItsCallerDoesNotHideAnUnseenOne() throws Exception {
        Recording recording = new Recording();
        ThreadPoolExecutor executor = Recording.executor(1, 1, 1);
        executor.setRejectedExecutionHandler(new ThreadPoolExecutor.CallerRunsPolicy());
        ExecutorService pool = recording.pool("p", executor);
        CountDownLatch ended = new CountDownLatch(1);
        pool.submit(() -> {
            ended.await();
            return 0;
        });
        Future<?> queued = pool.submit(new PriceQuery());
        pool.submit(new PriceQuery());
        ended.countDown();
        queued.get();
        executor.submit(() -> 0).get();
        waitUntilDone(executor, 3);
        List<String> lines = recording.lines();
        assertLines(lines.subList(lines.size() - 2, lines.size()), "unseen p 1", "end");
    }

    /** Waits until the counts of the executor include these jobs: it updates them after a job is done. */
    static void waitUntilDone(ThreadPoolExecutor executor, long jobs) throws InterruptedException {
        for (int turn = 0; (executor.getCompletedTaskCount() < jobs || executor.getActiveCount() > 0) && turn < 10_000; turn++) {
            Thread.sleep(1);
        }
    }

    @Test
    void aSubmittedJobAndItsGetAreRecorded() throws Exception {
        Recording recording = new Recording();
        ExecutorService pool = recording.pool("web");
        try (Recorder.Round round = recording.recorder.round("tomcat")) {
            assertEquals(42, pool.submit(Recorder.label("price", () -> 42)).get());
        }
        assertLines(recording.lines(), "recording 1", "pool web core 1 max 1 queue array 1 timeout no prestarted 0 handler abort",
                "round 0 begin tomcat", "round 0 submit 0 price web", "job 0 start", "job 0 end", "round 0 got 0", "round 0 end", "end");
    }

    @Test
    void jobsThatSubmitJobsAreActorsThemselves() throws Exception {
        Recording recording = new Recording();
        ExecutorService web = recording.pool("web");
        ExecutorService db = recording.pool("db");
        try (Recorder.Round round = recording.recorder.round("tomcat")) {
            web.submit(Recorder.label("order", () -> db.submit(Recorder.label("query", () -> 1)).get())).get();
            db.submit(Recorder.label("query", () -> 2)).get();
        }
        assertLines(recording.acts(), "round 0 begin tomcat", "round 0 submit 0 order web", "job 0 start", "job 0 submit 1 query db",
                "job 1 start", "job 1 end", "job 0 got 1", "job 0 end", "round 0 got 0",
                "round 0 submit 2 query db", "job 2 start", "job 2 end", "round 0 got 2", "round 0 end");
    }

    @Test
    void allFormsOfSubmitAreRecorded() throws Exception {
        Recording recording = new Recording();
        ExecutorService pool = recording.pool("p");
        try (Recorder.Round round = recording.recorder.round("c")) {
            assertNull(pool.submit(new PriceQuery()).get());
            assertEquals("done", pool.submit(new PriceQuery(), "done").get());
            assertEquals("called", pool.submit(() -> "called").get());
        }
        assertEquals(List.of("round 0 submit 0 price_query p", "round 0 submit 1 price_query p", "round 0 submit 2 recorder_test p"), recording.acts().stream().filter(line -> line.contains("submit")).toList());
    }

    @Test
    void executeRecordsTasksThatEndAndThatThrow() throws Exception {
        Recording recording = new Recording();
        ThreadPoolExecutor executor = Recording.executor(1, 1, 4);
        executor.setThreadFactory(task -> quiet(new Thread(task)));
        ExecutorService pool = recording.pool("p", executor);
        try (Recorder.Round round = recording.recorder.round("c")) {
            pool.execute(new PriceQuery());
            waitUntilDone(executor, 1);
            Runnable bad = () -> {
                throw new IllegalStateException("bad");
            };
            pool.execute(Recorder.label("bad", bad));
            waitUntilDone(executor, 2);
        }
        assertLines(recording.acts(), "round 0 begin c", "round 0 submit 0 price_query p", "job 0 start", "job 0 end",
                "round 0 submit 1 bad p", "job 1 start", "job 1 threw", "round 0 end");
    }

    @Test
    void aNullTaskIsNotRecorded() throws Exception {
        Recording recording = new Recording();
        ExecutorService pool = recording.pool("p");
        assertEquals("NullPointerException: null", thrownBy(() -> pool.submit((Runnable) null)));
        assertEquals("NullPointerException: null", thrownBy(() -> pool.execute(null)));
        assertLines(recording.acts());
    }

    private static Thread quiet(Thread thread) {
        thread.setUncaughtExceptionHandler((one, thrown) -> {});
        thread.setDaemon(true);
        return thread;
    }

    @Test
    void aNestedRoundBelongsToTheOuterActor() throws Exception {
        Recording recording = new Recording();
        ExecutorService pool = recording.pool("p");
        try (Recorder.Round outer = recording.recorder.round("outer"); Recorder.Round inner = recording.recorder.round("inner")) {
            pool.submit(() -> {
                try (Recorder.Round within = recording.recorder.round("within")) {
                    return 1;
                }
            }).get();
        }
        assertLines(recording.acts(), "round 0 begin outer", "round 0 submit 0 recorder_test p", "job 0 start", "job 0 end",
                "round 0 got 0", "round 0 end");
    }

    @Test
    void everyRoundHasItsOwnNumber() throws Exception {
        Recording recording = new Recording();
        recording.recorder.round("a").close();
        recording.recorder.round("b").close();
        Recording.on("other", () -> recording.recorder.round("a").close());
        assertLines(recording.acts(), "round 0 begin a", "round 0 end", "round 1 begin b", "round 1 end", "round 2 begin a", "round 2 end");
    }

    @Test
    void aRoundIsClosedOnceByItsOwnThread() throws Exception {
        Recording recording = new Recording();
        Recorder.Round round = recording.recorder.round("a");
        Recording.on("other", () -> assertEquals("IllegalStateException: only the thread that began a round may close it",
                thrownBy(round::close)));
        round.close();
        round.close();
        assertLines(recording.acts(), "round 0 begin a", "round 0 end");
    }

    @Test
    void roundsWithoutALabelEndWhenNoFutureIsHeld() throws Exception {
        Recording recording = new Recording();
        ExecutorService pool = recording.pool("p", Recording.executor(1, 1, 4));
        Recording.on("http-nio-8080-exec-7", () -> {
            pool.submit(Recorder.label("a", () -> 1)).get();
            Future<Integer> first = pool.submit(Recorder.label("b", () -> 2));
            Future<Integer> second = pool.submit(Recorder.label("b", () -> 3));
            first.get();
            second.get();
            second.get();
        });
        assertEquals(List.of(
                "round 0 begin http_nio_exec", "round 0 submit 0 a p", "round 0 got 0", "round 0 end",
                "round 1 begin http_nio_exec", "round 1 submit 1 b p", "round 1 submit 2 b p", "round 1 got 1", "round 1 got 2", "round 1 end",
                "round 2 begin http_nio_exec", "round 2 got 2", "round 2 end"), recording.acts().stream().filter(line -> line.startsWith("round")).toList());
    }

    @Test
    void executeHoldsNoFutureAndALabelledRoundEndsAnUnlabelledOne() throws Exception {
        Recording recording = new Recording();
        ExecutorService pool = recording.pool("p", Recording.executor(1, 1, 4));
        Recording.on("feeder-3", () -> {
            pool.execute(Recorder.label("mail", () -> {}));
            pool.submit(Recorder.label("a", () -> 1));
            try (Recorder.Round round = recording.recorder.round("named")) {
                pool.submit(Recorder.label("a", () -> 2)).get();
            }
        });
        assertEquals(List.of(
                "round 0 begin feeder", "round 0 submit 0 mail p", "round 0 end",
                "round 1 begin feeder", "round 1 submit 1 a p", "round 1 end",
                "round 2 begin named", "round 2 submit 2 a p", "round 2 got 2", "round 2 end"), recording.acts().stream().filter(line -> line.startsWith("round")).toList());
    }

    @Test
    void aGetByAnotherActorIsRecordedForThatActor() throws Exception {
        Recording recording = new Recording();
        ExecutorService pool = recording.pool("p");
        try (Recorder.Round round = recording.recorder.round("giver")) {
            Future<Integer> future = pool.submit(Recorder.label("a", () -> 1));
            Recording.on("taker", future::get);
        }
        assertLines(recording.acts(), "round 0 begin giver", "round 0 submit 0 a p", "job 0 start", "job 0 end",
                "round 1 begin taker", "round 1 got 0", "round 1 end", "round 0 end");
    }

    @Test
    void labelsOfTasksAndPoolsNameTheClass() throws Exception {
        Recording recording = new Recording();
        ExecutorService pool = recording.pool("p", Recording.executor(1, 1, 9));
        try (Recorder.Round round = recording.recorder.round("Nightly Run 2")) {
            pool.submit(Recorder.label("PriceQuery", () -> 1)).get();
            pool.submit(Recorder.label("stock", new PriceQuery())).get();
            ExecutorService labelled = Recorder.label("tax", pool);
            labelled.submit(Recorder.label("unused", () -> 1)).get();
            CompletableFuture.supplyAsync(() -> 1, labelled).join();
            CompletableFuture.supplyAsync(() -> 1, pool).join();
        }
        assertEquals(List.of(
                "round 0 begin nightly_run_2", "round 0 submit 0 price_query p", "round 0 submit 1 stock p", "round 0 submit 2 tax p",
                "round 0 submit 3 tax p", "round 0 submit 4 recorder_test p"),
                recording.acts().stream().filter(line -> line.contains(" begin ") || line.contains(" submit ")).toList());
    }

    private int overloaded() {
        return 7;
    }

    private int overloaded(int number) {
        return number;
    }

    private void nothing() {}

    @Test
    void labelsTakeMethodReferencesLambdasAndVariables() throws Exception {
        ThreadPoolExecutor executor = Recording.executor(1, 1, 9);
        Callable<Integer> call = () -> 7;
        Runnable command = () -> {};
        assertEquals(7, executor.submit(Recorder.label("a", this::overloaded)).get());
        assertEquals(7, executor.submit(Recorder.label("a", () -> overloaded(7))).get());
        assertEquals(7, executor.submit(Recorder.label("a", call)).get());
        executor.execute(Recorder.label("a", command));
        executor.execute(Recorder.label("a", this::nothing));
        executor.execute(Recorder.label("a", () -> {
            nothing();
        }));
        executor.shutdown();
        assertTrue(executor.awaitTermination(60, TimeUnit.SECONDS));
    }

    @Test
    void theMessageOfARefusalNamesTheClassAndThePool() throws Exception {
        Recording recording = new Recording();
        ThreadPoolExecutor executor = Recording.executor(1, 1, 1);
        ExecutorService pool = recording.pool("web", executor);
        executor.shutdown();
        for (Executable submit : List.<Executable>of(() -> pool.submit(Recorder.label("price", () -> 1)),
                () -> pool.execute(Recorder.label("price", () -> {})),
                () -> CompletableFuture.runAsync(() -> {}, Recorder.label("price", pool)).join())) {
            String message = thrownBy(submit);
            assertTrue(message.contains("Task job of class price in pool web rejected from"), message);
        }
        recording.lines();
    }

    @Test
    void labelsDoNotChangeAnExecutorThatIsNotRecorded() throws Exception {
        ThreadPoolExecutor executor = Recording.executor(1, 1, 1);
        assertEquals(executor, Recorder.label("a", executor));
        assertEquals(7, executor.submit(Recorder.label("a", () -> 7)).get());
    }

    @Test
    void afterTheCloseThePoolWorksWithItsOwnHandler() throws Exception {
        StringWriter text = new StringWriter();
        Recorder recorder = Recorder.to(text);
        ThreadPoolExecutor executor = Recording.executor(1, 1, 1);
        Object handler = executor.getRejectedExecutionHandler();
        ExecutorService pool = recorder.pool("p", executor);
        recorder.close();
        assertEquals(5, pool.submit(() -> 5).get());
        assertEquals(handler, executor.getRejectedExecutionHandler());
        assertEquals(3L, text.toString().lines().count());
    }

    @Test
    void aFailingWriterIsReportedByTheCloseOnly() throws Exception {
        Recorder recorder = Recorder.to(new FilterWriter(new StringWriter()) {
            @Override
            public void write(String text, int from, int length) throws IOException {
                throw new IOException("disk full");
            }
        });
        ExecutorService pool = recorder.pool("p", Recording.executor(1, 1, 1));
        assertEquals(5, pool.submit(() -> 5).get());
        assertEquals("IOException: disk full", thrownBy(recorder::close));
    }

    @Test
    void aFileIsWrittenWhileTheServiceRuns() throws Exception {
        Path file = Files.createTempFile("sizing", ".recording");
        try {
            Recorder recorder = Recorder.toFile(file);
            recorder.round("a").close();
            for (int turn = 0; Files.readAllLines(file).size() < 3 && turn < 1000; turn++) {
                TimeUnit.MILLISECONDS.sleep(10);
            }
            assertEquals(List.of("recording 1", "round 0 begin a", "round 0 end"), Files.readAllLines(file));
            recorder.close();
            assertEquals("recording 1\nround 0 begin a\nround 0 end\nend\n", Files.readString(file));
        } finally {
            Files.delete(file);
        }
    }
}
