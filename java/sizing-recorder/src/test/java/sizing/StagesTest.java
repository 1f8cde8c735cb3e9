package sizing;

import static org.junit.jupiter.api.Assertions.assertEquals;
import static org.junit.jupiter.api.Assertions.assertTrue;
import static sizing.RecordingAssertions.assertLines;
import static sizing.RecordingAssertions.thrownBy;

import java.util.ArrayList;
import java.util.List;
import java.util.concurrent.ArrayBlockingQueue;
import java.util.concurrent.CompletableFuture;
import java.util.concurrent.CountDownLatch;
import java.util.concurrent.ExecutorService;
import java.util.concurrent.RejectedExecutionException;
import java.util.concurrent.ThreadPoolExecutor;
import java.util.concurrent.TimeUnit;
import java.util.function.UnaryOperator;
import org.junit.jupiter.api.Test;

/** Tests of chains of CompletableFutures. */
class StagesTest {
    private final Recording recording = new Recording();
    private final ExecutorService io = recording.pool("io", Recording.executor(2, 2, 9));
    private final ExecutorService cpu = recording.pool("cpu", Recording.executor(2, 2, 9));
    private final ExecutorService load = Recorder.label("load", io);
    private final ExecutorService render = Recorder.label("render", cpu);

    private List<String> round(String number) throws Exception {
        return recording.acts().stream().filter(line -> line.startsWith("round " + number + " ")).toList();
    }

    /** Waits until the thread waits, and returns the value. So the thread acts only after the task that calls this has ended. */
    private static <T> T whenWaiting(Thread thread, T value) {
        for (int turn = 0; turn < 60_000 && thread.getState() != Thread.State.WAITING; turn++) {
            pause();
        }
        return value;
    }

    private static void pause() {
        try {
            TimeUnit.MILLISECONDS.sleep(1);
        } catch (InterruptedException interrupted) {
            Thread.currentThread().interrupt();
        }
    }

    @Test
    void aStageIsSubmittedByTheRoundThatBuiltTheChain() throws Exception {
        try (Recorder.Round round = recording.recorder.round("chain")) {
            Thread thread = Thread.currentThread();
            assertEquals(3, CompletableFuture.supplyAsync(() -> whenWaiting(thread, 1), load).thenApplyAsync(x -> x + 2, render).join());
        }
        assertLines(recording.acts(), "round 0 begin chain", "round 0 submit 0 load io", "job 0 start", "job 0 end", "round 0 got 0",
                "round 0 submit 1 render cpu", "job 1 start", "job 1 end", "round 0 got 1", "round 0 end");
    }

    @Test
    void aStageAfterAFinishedOneIsSubmittedByTheSameRound() throws Exception {
        try (Recorder.Round round = recording.recorder.round("chain")) {
            CompletableFuture<Integer> loaded = CompletableFuture.supplyAsync(() -> 1, load);
            loaded.join();
            loaded.thenApplyAsync(x -> x + 2, render).join();
        }
        assertLines(round("0"), "round 0 begin chain", "round 0 submit 0 load io", "round 0 got 0", "round 0 submit 1 render cpu",
                "round 0 got 1", "round 0 end");
    }

    @Test
    void stagesInNoPoolPassTheChainOn() throws Exception {
        try (Recorder.Round round = recording.recorder.round("chain")) {
            Thread thread = Thread.currentThread();
            CompletableFuture.supplyAsync(() -> whenWaiting(thread, 1), load).thenApply(x -> x + 1).thenApply(x -> x + 1)
                    .thenApplyAsync(x -> x + 2, render).join();
            CompletableFuture<Integer> other = CompletableFuture.supplyAsync(() -> 1, load).thenApply(x -> x + 1);
            other.join();
            other.thenApplyAsync(x -> x + 2, render).join();
        }
        assertLines(round("0"), "round 0 begin chain", "round 0 submit 0 load io", "round 0 got 0", "round 0 submit 1 render cpu",
                "round 0 got 1", "round 0 submit 2 load io", "round 0 got 2", "round 0 submit 3 render cpu", "round 0 got 3", "round 0 end");
    }

    @Test
    void joinsThatWaitAreGetsAtTheirPlace() throws Exception {
        try (Recorder.Round round = recording.recorder.round("c")) {
            Thread thread = Thread.currentThread();
            CompletableFuture.supplyAsync(() -> whenWaiting(thread, 1), load).join();
            CompletableFuture.runAsync(() -> whenWaiting(thread, 1), load).get();
            CompletableFuture.allOf(CompletableFuture.supplyAsync(() -> whenWaiting(thread, 1), load)).join();
        }
        assertLines(round("0"), "round 0 begin c", "round 0 submit 0 load io", "round 0 got 0", "round 0 submit 1 load io", "round 0 got 1",
                "round 0 submit 2 load io", "round 0 got 2", "round 0 end");
    }

    @Test
    void allSubmitsComeBeforeTheGetsOfAllOf() throws Exception {
        CountDownLatch submitted = new CountDownLatch(1);
        try (Recorder.Round round = recording.recorder.round("c")) {
            CompletableFuture<Void> first = CompletableFuture.runAsync(() -> await(submitted), load);
            CompletableFuture<Void> second = CompletableFuture.runAsync(() -> await(submitted), render);
            submitted.countDown();
            CompletableFuture.allOf(first, second).join();
        }
        List<String> lines = round("0");
        assertEquals(List.of("round 0 begin c", "round 0 submit 0 load io", "round 0 submit 1 render cpu"), lines.subList(0, 3));
        assertEquals(List.of("round 0 got 0", "round 0 got 1"), lines.subList(3, 5).stream().sorted().toList());
    }

    @Test
    void eachJoinOfAnyOfIsAGetOfTheStageThatEnds() throws Exception {
        try (Recorder.Round round = recording.recorder.round("request")) {
            Thread thread = Thread.currentThread();
            CountDownLatch second = new CountDownLatch(1);
            CompletableFuture<Integer> slow = CompletableFuture.supplyAsync(() -> {
                await(second);
                return whenWaiting(thread, 1);
            }, load);
            CompletableFuture<Integer> fast = CompletableFuture.supplyAsync(() -> whenWaiting(thread, 2), load);
            assertEquals(2, CompletableFuture.anyOf(slow, fast).join());
            second.countDown();
            assertEquals(1, CompletableFuture.anyOf(slow).join());
        }
        assertLines(round("0"), "round 0 begin request", "round 0 submit 0 load io", "round 0 submit 1 load io", "round 0 got 1",
                "round 0 got 0", "round 0 end");
    }

    private static void await(CountDownLatch latch) {
        try {
            Recording.await(latch);
        } catch (InterruptedException interrupted) {
            throw new AssertionError(interrupted);
        }
    }

    @Test
    void aStageOfTwoSourcesComesAfterBoth() throws Exception {
        try (Recorder.Round round = recording.recorder.round("c")) {
            CompletableFuture<Integer> first = CompletableFuture.supplyAsync(() -> 1, load);
            CompletableFuture<Integer> second = CompletableFuture.supplyAsync(() -> 2, load);
            assertEquals(3, first.thenCombineAsync(second, Integer::sum, render).join());
        }
        List<String> lines = round("0");
        int submit = lines.indexOf("round 0 submit 2 render cpu");
        assertTrue(submit > lines.indexOf("round 0 got 0") && submit > lines.indexOf("round 0 got 1"), lines.toString());
        assertTrue(lines.indexOf("round 0 got 0") > 0 && lines.indexOf("round 0 got 1") > 0, lines.toString());
    }

    @Test
    void everyKindOfStageIsAStage() throws Exception {
        List<UnaryOperator<CompletableFuture<Integer>>> kinds = List.of(
                one -> one.thenApplyAsync(x -> x, render),
                one -> one.thenAcceptAsync(x -> { }, render).thenApply(none -> 1),
                one -> one.thenRunAsync(() -> { }, render).thenApply(none -> 1),
                one -> one.handleAsync((x, failed) -> x, render),
                one -> one.whenCompleteAsync((x, failed) -> { }, render),
                one -> one.thenComposeAsync(x -> CompletableFuture.completedFuture(x), render),
                one -> one.thenCombineAsync(CompletableFuture.completedFuture(1), Integer::sum, render),
                one -> one.thenAcceptBothAsync(CompletableFuture.completedFuture(1), (x, y) -> { }, render).thenApply(none -> 1),
                one -> one.runAfterBothAsync(CompletableFuture.completedFuture(1), () -> { }, render).thenApply(none -> 1),
                one -> one.applyToEitherAsync(new CompletableFuture<>(), x -> x, render),
                one -> one.acceptEitherAsync(new CompletableFuture<>(), x -> { }, render).thenApply(none -> 1),
                one -> one.runAfterEitherAsync(new CompletableFuture<>(), () -> { }, render).thenApply(none -> 1));
        for (UnaryOperator<CompletableFuture<Integer>> kind : kinds) {
            try (Recorder.Round round = recording.recorder.round("chain")) {
                kind.apply(CompletableFuture.supplyAsync(() -> 1, load)).join();
            }
        }
        List<String> acts = recording.acts();
        for (int number = 0; number < kinds.size(); number++) {
            String round = "round " + number + " ";
            assertEquals(List.of(round + "begin chain", round + "submit " + 2 * number + " load io", round + "got " + 2 * number,
                    round + "submit " + (2 * number + 1) + " render cpu", round + "got " + (2 * number + 1), round + "end"),
                    acts.stream().filter(line -> line.startsWith(round)).toList());
        }
    }

    @Test
    void aStageThatComposesSubmitsForTheChain() throws Exception {
        try (Recorder.Round round = recording.recorder.round("chain")) {
            Thread thread = Thread.currentThread();
            CompletableFuture.supplyAsync(() -> whenWaiting(thread, 1), load)
                    .thenCompose(x -> CompletableFuture.supplyAsync(() -> x + 1, render)).join();
        }
        assertLines(round("0"), "round 0 begin chain", "round 0 submit 0 load io", "round 0 got 0", "round 0 submit 1 render cpu",
                "round 0 got 1", "round 0 end");
    }

    @Test
    void aStageThatComposesAfterAFinishedOneSubmitsForTheChain() throws Exception {
        try (Recorder.Round round = recording.recorder.round("chain")) {
            CompletableFuture<Integer> loaded = CompletableFuture.supplyAsync(() -> 1, load);
            awaitDone(loaded);
            loaded.thenCompose(x -> CompletableFuture.supplyAsync(() -> x + 1, render)).join();
        }
        assertLines(round("0"), "round 0 begin chain", "round 0 submit 0 load io", "round 0 got 0", "round 0 submit 1 render cpu",
                "round 0 got 1", "round 0 end");
    }

    @Test
    void submitsBesideAFinishedStageDoNotGetIt() throws Exception {
        try (Recorder.Round round = recording.recorder.round("c")) {
            CompletableFuture<Integer> first = CompletableFuture.supplyAsync(() -> 1, load);
            awaitDone(first);
            CompletableFuture.allOf(first, CompletableFuture.supplyAsync(() -> 1, render)).join();
        }
        assertLines(round("0"), "round 0 begin c", "round 0 submit 0 load io", "round 0 submit 1 render cpu", "round 0 got 0",
                "round 0 got 1", "round 0 end");
    }

    @Test
    void getsOfAllOfAreInTheOrderOfTheSubmits() throws Exception {
        CountDownLatch second = new CountDownLatch(1);
        try (Recorder.Round round = recording.recorder.round("c")) {
            Thread thread = Thread.currentThread();
            CompletableFuture<Void> one = CompletableFuture.runAsync(() -> await(second), load);
            CompletableFuture<Void> other = CompletableFuture.runAsync(() -> {
                whenWaiting(thread, 1);
            }, load);
            other.thenRun(second::countDown);
            CompletableFuture.allOf(one, other).join();
        }
        assertLines(round("0"), "round 0 begin c", "round 0 submit 0 load io", "round 0 submit 1 load io", "round 0 got 0", "round 0 got 1",
                "round 0 end");
    }

    /** Waits until the future is done, without a join, which a recorder would see. */
    private static void awaitDone(CompletableFuture<?> future) {
        for (int turn = 0; turn < 60_000 && !future.isDone(); turn++) {
            pause();
        }
    }

    @Test
    void aStageAfterAFailedOneIsNotSubmitted() throws Exception {
        try (Recorder.Round round = recording.recorder.round("chain")) {
            CompletableFuture<Integer> failing = CompletableFuture.supplyAsync(() -> {
                throw new IllegalStateException("planned");
            }, load);
            assertEquals("CompletionException: java.lang.IllegalStateException: planned",
                    thrownBy(() -> failing.thenApplyAsync(x -> x + 2, render).join()));
        }
        assertLines(recording.acts(), "round 0 begin chain", "round 0 submit 0 load io", "job 0 start", "job 0 end", "round 0 got 0", "round 0 end");
    }

    @Test
    void aJobThatBuildsAChainIsItsSubmitter() throws Exception {
        try (Recorder.Round round = recording.recorder.round("c")) {
            io.submit(Recorder.label("page", () -> CompletableFuture.supplyAsync(() -> 1, render).join())).get();
        }
        assertLines(recording.acts(), "round 0 begin c", "round 0 submit 0 page io", "job 0 start", "job 0 submit 1 render cpu",
                "job 1 start", "job 1 end", "job 0 got 1", "job 0 end", "round 0 got 0", "round 0 end");
    }

    @Test
    void aChainThatIsLeftHasNoGetAndGoesOnInARoundOfItsOwn() throws Exception {
        assertChainThatIsLeft("chain", "chain_after_end");
    }

    @Test
    void aLongKindIsCutBeforeItsSuffix() throws Exception {
        assertChainThatIsLeft("a".repeat(28), "a".repeat(18) + "_after_end");
    }

    private void assertChainThatIsLeft(String kind, String kindAfterEnd) throws Exception {
        CountDownLatch left = new CountDownLatch(1);
        CountDownLatch submitted = new CountDownLatch(1);
        CompletableFuture<Void> chain;
        try (Recorder.Round round = recording.recorder.round(kind)) {
            chain = CompletableFuture.runAsync(() -> await(left), load).thenRunAsync(() -> await(submitted), render);
        }
        left.countDown();
        // the thread of the first stage submits the second one and ends its round
        io.shutdown();
        assertTrue(io.awaitTermination(60, TimeUnit.SECONDS));
        submitted.countDown();
        chain.join();
        assertLines(recording.acts().stream().filter(line -> line.startsWith("round ")).toList(),
                "round 0 begin " + kind, "round 0 submit 0 load io", "round 0 end",
                "round 1 begin " + kindAfterEnd, "round 1 submit 1 render cpu", "round 1 end");
    }

    @Test
    void anUnlabelledRoundLastsUntilItsStagesAreDone() throws Exception {
        Recording.on("client-1", () -> {
            for (int turn = 0; turn < 2; turn++) {
                CompletableFuture.supplyAsync(() -> 1, load).thenApplyAsync(x -> x + 2, render).join();
            }
            io.submit(Recorder.label("a", () -> 1)).get();
        });
        List<String> lines = recording.acts().stream().filter(line -> line.startsWith("round ")).toList();
        assertLines(lines, "round 0 begin client", "round 0 submit 0 load io", "round 0 got 0", "round 0 submit 1 render cpu", "round 0 got 1",
                "round 0 end", "round 1 begin client", "round 1 submit 2 load io", "round 1 got 2", "round 1 submit 3 render cpu",
                "round 1 got 3", "round 1 end", "round 2 begin client", "round 2 submit 4 a io", "round 2 got 4", "round 2 end");
    }

    @Test
    void aRefusedStageIsRecordedAsRefused() throws Exception {
        cpu.shutdown();
        try (Recorder.Round round = recording.recorder.round("chain")) {
            String thrown = thrownBy(() -> CompletableFuture.supplyAsync(() -> 1, load).thenApplyAsync(x -> x + 2, render).join());
            assertTrue(thrown.startsWith("CompletionException: java.util.concurrent.RejectedExecutionException")
                    || thrown.startsWith("RejectedExecutionException"), thrown);
        }
        assertLines(round("0"), "round 0 begin chain", "round 0 submit 0 load io", "round 0 got 0", "round 0 submit 1 render cpu",
                "round 0 refused 1", "round 0 end");
    }

    @Test
    void aRoundInAStageInNoPoolIsARoundOfItsOwn() throws Exception {
        try (Recorder.Round round = recording.recorder.round("chain")) {
            Thread thread = Thread.currentThread();
            CompletableFuture.runAsync(() -> whenWaiting(thread, 1), load).thenRun(() -> {
                try (Recorder.Round callback = recording.recorder.round("callback")) {
                    render.execute(Recorder.label("render", () -> { }));
                }
            }).join();
        }
        assertLines(round("1"), "round 1 begin callback", "round 1 submit 1 render cpu", "round 1 end");
    }

    /** An executor that refuses a task once a stage of another pool has started. */
    private static final class RefusingExecutor extends ThreadPoolExecutor {
        private final CountDownLatch asked;
        private final CountDownLatch started;

        RefusingExecutor(CountDownLatch asked, CountDownLatch started) {
            super(1, 1, 1, TimeUnit.HOURS, new ArrayBlockingQueue<>(1));
            this.asked = asked;
            this.started = started;
        }

        @Override
        public void execute(Runnable task) {
            asked.countDown();
            await(started);
            throw new RejectedExecutionException();
        }
    }

    @Test
    void aRefusalAfterALineOfAnotherThreadIsACancel() throws Exception {
        CountDownLatch asked = new CountDownLatch(1);
        CountDownLatch started = new CountDownLatch(1);
        ExecutorService refusing = recording.pool("refusing", new RefusingExecutor(asked, started));
        try (Recorder.Round round = recording.recorder.round("c")) {
            CompletableFuture<Void> chain = CompletableFuture.runAsync(() -> await(asked), load).thenRunAsync(started::countDown, render);
            assertEquals("RejectedExecutionException: null", thrownBy(() -> refusing.submit(Recorder.label("bad", () -> 1))));
            chain.join();
        }
        assertLines(round("0"), "round 0 begin c", "round 0 submit 0 load io", "round 0 submit 1 bad refusing", "round 0 got 0",
                "round 0 submit 2 render cpu", "round 0 cancel 1", "round 0 got 2", "round 0 end");
    }

    @Test
    void manyChainsAtOnceKeepTheRules() throws Exception {
        Recording many = new Recording();
        ExecutorService first = many.pool("io", Recording.executor(4, 4, 1000));
        ExecutorService second = many.pool("cpu", Recording.executor(4, 4, 1000));
        List<Thread> threads = new ArrayList<>();
        for (int client = 0; client < 8; client++) {
            threads.add(new Thread(() -> {
                for (int turn = 0; turn < 200; turn++) {
                    try (Recorder.Round round = many.recorder.round("chain")) {
                        CompletableFuture<Integer> one = CompletableFuture.supplyAsync(() -> 1, first).thenApplyAsync(x -> x + 1, second);
                        CompletableFuture<Integer> other = CompletableFuture.supplyAsync(() -> 1, first);
                        one.thenCombineAsync(other, Integer::sum, first).join();
                    }
                }
            }));
        }
        threads.forEach(Thread::start);
        for (Thread thread : threads) {
            thread.join();
        }
        List<String> acts = many.acts();
        assertEquals(8 * 200 * 4, acts.stream().filter(line -> line.contains(" got ")).count());
        assertEquals(8 * 200, acts.stream().filter(line -> line.startsWith("round ") && line.endsWith(" end")).count());
    }
}
