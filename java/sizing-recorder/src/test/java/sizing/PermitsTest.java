package sizing;

import static org.junit.jupiter.api.Assertions.assertEquals;
import static org.junit.jupiter.api.Assertions.assertFalse;
import static org.junit.jupiter.api.Assertions.assertSame;
import static org.junit.jupiter.api.Assertions.assertTrue;
import static sizing.RecordingAssertions.assertLines;
import static sizing.RecordingAssertions.thrownBy;

import java.util.ArrayList;
import java.util.List;
import java.util.concurrent.ArrayBlockingQueue;
import java.util.concurrent.BrokenBarrierException;
import java.util.concurrent.CompletableFuture;
import java.util.concurrent.CountDownLatch;
import java.util.concurrent.CyclicBarrier;
import java.util.concurrent.ExecutorCompletionService;
import java.util.concurrent.ExecutorService;
import java.util.concurrent.FutureTask;
import java.util.concurrent.Semaphore;
import java.util.concurrent.ThreadPoolExecutor;
import java.util.concurrent.TimeUnit;
import java.util.concurrent.atomic.AtomicReference;
import org.junit.jupiter.api.Test;

/** Tests of permits, which are rounds. */
class PermitsTest {
    private static final String[] ONE_MAIL = {"round 0 begin permit", "round 0 submit 0 send mail", "job 0 start", "job 0 end",
        "round 0 got 0", "round 0 end"};
    private final Recording recording = new Recording();
    private final Semaphore permits = recording.recorder.permits("permit", 2);

    private ExecutorService mail() {
        return recording.pool("mail", Recording.executor(1, 1, 9));
    }

    private void awaitPermits(int count) throws InterruptedException {
        assertTrue(permits.tryAcquire(count, 60, TimeUnit.SECONDS));
    }

    /** Returns the lines without the last two, with which {@link #awaitPermits} takes both permits. */
    private List<String> actsOfJobs() throws Exception {
        List<String> acts = recording.acts();
        return acts.subList(0, acts.size() - 2);
    }

    @Test
    void releaseInTheTaskEndsTheJobAndTheRound() throws Exception {
        ExecutorService mail = mail();
        permits.acquire();
        mail.submit(Recorder.label("send", () -> {
            try {
                return 1;
            } finally {
                permits.release();
            }
        }));
        awaitPermits(2);
        assertLines(actsOfJobs(), ONE_MAIL);
    }

    @Test
    void releaseInAfterExecuteEndsTheRoundOfTheLastJob() throws Exception {
        ThreadPoolExecutor executor = new ThreadPoolExecutor(1, 1, 1, TimeUnit.HOURS, new ArrayBlockingQueue<>(9)) {
            @Override
            protected void afterExecute(Runnable task, Throwable thrown) {
                permits.release();
            }
        };
        ExecutorService mail = recording.pool("mail", executor);
        permits.acquire();
        mail.execute(Recorder.label("send", () -> { }));
        awaitPermits(2);
        assertLines(actsOfJobs(), ONE_MAIL);
    }

    @Test
    void releaseAfterTheGetEndsTheRoundOfTheThread() throws Exception {
        ExecutorService mail = mail();
        Recording.on("client", () -> {
            permits.acquireUninterruptibly();
            try {
                mail.submit(Recorder.label("send", () -> 1)).get();
            } finally {
                permits.release();
            }
        });
        assertLines(recording.acts(), ONE_MAIL);
    }

    @Test
    void releaseInAStageEndsTheRoundOfTheChain() throws Exception {
        ExecutorService mail = Recorder.label("send", mail());
        permits.acquire();
        CompletableFuture.supplyAsync(() -> 1, mail).thenApplyAsync(x -> x + 1, mail)
                .whenComplete((value, failed) -> permits.release()).copy().orTimeout(60, TimeUnit.SECONDS).join();
        awaitPermits(2);
        assertLines(actsOfJobs(), "round 0 begin permit", "round 0 submit 0 send mail", "job 0 start", "job 0 end", "round 0 got 0",
                "round 0 submit 1 send mail", "job 1 start", "job 1 end", "round 0 got 1", "round 0 end");
    }

    @Test
    void releaseByTheThreadThatTakesFromACompletionServiceEndsAFinishedPermit() throws Exception {
        ExecutorCompletionService<Integer> service = new ExecutorCompletionService<>(mail());
        Recording.on("importer", () -> {
            for (int row = 0; row < 5; row++) {
                if (row >= 2) {
                    service.take();
                    permits.release();
                }
                assertTrue(permits.tryAcquire());
                service.submit(Recorder.label("row", () -> 1));
            }
            for (int open = 0; open < 2; open++) {
                service.take();
                permits.release();
            }
        });
        List<String> acts = recording.acts();
        for (int number = 0; number < 5; number++) {
            String round = "round " + number + " ";
            assertEquals(List.of(round + "begin permit", round + "submit " + number + " row mail", round + "got " + number, round + "end"),
                    acts.stream().filter(line -> line.startsWith(round)).toList());
        }
    }

    @Test
    void aTimedGetOfAPermitsJobIsNoAction() throws Exception {
        ExecutorService mail = mail();
        CountDownLatch ended = new CountDownLatch(1);
        FutureTask<Integer> inner = new FutureTask<>(() -> {
            Recording.await(ended);
            return 1;
        });
        Recording.on("client", () -> {
            permits.acquire();
            mail.execute(Recorder.label("send", () -> {
                try {
                    inner.run();
                } finally {
                    permits.release();
                }
            }));
            assertEquals("TimeoutException: null", thrownBy(() -> inner.get(1, TimeUnit.MILLISECONDS)));
            assertTrue(inner.cancel(false));
            ended.countDown();
        });
        awaitPermits(2);
        assertLines(actsOfJobs(), ONE_MAIL);
    }

    @Test
    void releaseWhileTheJobIsOpenLeavesItWithoutAGet() throws Exception {
        ExecutorService mail = mail();
        CountDownLatch ended = new CountDownLatch(1);
        Recording.on("client", () -> {
            permits.acquire();
            try {
                thrownBy(() -> mail.submit(Recorder.label("send", () -> Recording.await(ended))).get(1, TimeUnit.MILLISECONDS));
            } finally {
                permits.release();
            }
        });
        ended.countDown();
        List<String> acts = recording.acts();
        assertEquals(List.of("round 0 begin permit", "round 0 submit 0 send mail", "round 0 end"),
                acts.stream().filter(line -> line.startsWith("round 0 ")).toList());
    }

    @Test
    void aPermitThatIsTakenByAJobHasTheSubmit() throws Exception {
        ExecutorService mail = mail();
        ExecutorService web = recording.pool("web");
        try (Recorder.Round round = recording.recorder.round("request")) {
            web.submit(Recorder.label("page", () -> {
                if (permits.tryAcquire()) {
                    mail.submit(Recorder.label("send", () -> {
                        permits.release();
                        return 1;
                    }));
                }
                return 1;
            })).get();
        }
        awaitPermits(2);
        List<String> acts = recording.acts();
        assertEquals(List.of("job 0 start", "job 0 end"), acts.stream().filter(line -> line.startsWith("job 0 ")).toList());
        assertEquals(List.of("round 1 begin permit", "round 1 submit 1 send mail", "round 1 got 1", "round 1 end"),
                acts.stream().filter(line -> line.startsWith("round 1 ")).toList());
    }

    @Test
    void aJobThatWaitsForThePermitsJobHasAGet() throws Exception {
        ExecutorService mail = mail();
        ExecutorService web = recording.pool("web");
        try (Recorder.Round round = recording.recorder.round("request")) {
            web.submit(Recorder.label("page", () -> {
                Thread thread = Thread.currentThread();
                permits.acquire();
                return mail.submit(Recorder.label("send", () -> {
                    for (int turn = 0; turn < 60_000 && thread.getState() != Thread.State.WAITING; turn++) {
                        TimeUnit.MILLISECONDS.sleep(1);
                    }
                    permits.release();
                    return 1;
                })).get();
            })).get();
        }
        List<String> acts = recording.acts();
        assertEquals(List.of("job 1 end", "job 0 got 1", "round 1 got 1", "round 1 end", "job 0 got 1", "job 0 end", "round 0 got 0", "round 0 end"),
                acts.subList(acts.indexOf("job 1 end"), acts.size()));
    }

    @Test
    void aPermitThatIsNotUsedHasNoSubmit() throws Exception {
        permits.acquire();
        permits.release();
        assertFalse(permits.tryAcquire(3));
        assertEquals(2, permits.drainPermits());
        permits.release(2);
        assertLines(recording.acts(), "round 0 begin permit", "round 0 end", "round 1 begin permit", "round 2 begin permit", "round 2 end",
                "round 1 end");
    }

    @Test
    void whatAJobSubmitsAfterItsReleaseIsAnotherRound() throws Exception {
        ExecutorService mail = mail();
        CountDownLatch done = new CountDownLatch(1);
        permits.acquire();
        mail.execute(Recorder.label("send", () -> {
            permits.release();
            mail.execute(Recorder.label("more", done::countDown));
        }));
        Recording.await(done);
        List<String> acts = recording.acts();
        assertEquals(List.of("round 1 begin thread", "round 1 submit 1 more mail", "round 1 end"),
                acts.stream().filter(line -> line.startsWith("round 1 ")).toList());
    }

    @Test
    void aTaskTakesThePermitToAnotherThread() throws Exception {
        ExecutorService mail = Recorder.label("send", mail());
        AtomicReference<Runnable> retry = new AtomicReference<>();
        permits.acquire();
        CompletableFuture.supplyAsync(() -> 1, mail)
                .whenComplete((value, failed) -> retry.set(recording.recorder.withPermit(() -> mail.execute(permits::release)))).join();
        Recording.on("scheduler", () -> {
            retry.get().run();
            mail.submit(() -> 1).get();
        });
        awaitPermits(2);
        List<String> acts = recording.acts();
        assertEquals(List.of("round 0 begin permit", "round 0 submit 0 send mail", "round 0 got 0", "round 0 end", "round 1 begin permit",
                "round 1 submit 1 send mail", "round 1 got 1", "round 1 end"),
                acts.stream().filter(line -> line.startsWith("round 0 ") || line.startsWith("round 1 ")).toList());
        assertEquals(List.of("round 2 begin scheduler", "round 2 submit 2 send mail", "round 2 got 2", "round 2 end"),
                acts.stream().filter(line -> line.startsWith("round 2 ")).toList());
    }

    @Test
    void withoutAPermitATaskIsUnchanged() throws Exception {
        Runnable task = () -> { };
        assertSame(task, recording.recorder.withPermit(task));
        permits.acquire();
        permits.release();
        assertSame(task, recording.recorder.withPermit(task));
    }

    @Test
    void aStageAfterAReleaseBelongsToTheNextPermit() throws Exception {
        ExecutorService mail = Recorder.label("send", mail());
        permits.acquire();
        CompletableFuture.supplyAsync(() -> 1, mail).thenCompose(value -> {
            permits.release();
            permits.acquireUninterruptibly();
            return CompletableFuture.runAsync(() -> { }, mail);
        }).whenComplete((none, failed) -> permits.release()).join();
        awaitPermits(2);
        assertLines(actsOfJobs().stream().filter(line -> line.startsWith("round ")).toList(), "round 0 begin permit",
                "round 0 submit 0 send mail", "round 0 got 0", "round 0 end", "round 1 begin permit", "round 1 submit 1 send mail",
                "round 1 got 1", "round 1 end");
    }

    @Test
    void aRefusedSubmitOfAPermitIsRecorded() throws Exception {
        ExecutorService mail = mail();
        mail.shutdown();
        Recording.on("client", () -> {
            permits.acquire();
            try {
                thrownBy(() -> mail.execute(Recorder.label("send", () -> { })));
            } finally {
                permits.release();
            }
        });
        assertLines(recording.acts(), "round 0 begin permit", "round 0 submit 0 send mail", "round 0 refused 0", "round 0 end");
    }

    @Test
    void releasesAtTheSameTimeEndDifferentRounds() throws Exception {
        int threads = 4;
        int turns = 300;
        Semaphore many = recording.recorder.permits("many", threads);
        CyclicBarrier together = new CyclicBarrier(threads);
        List<Thread> releasing = new ArrayList<>();
        for (int number = 0; number < threads; number++) {
            boolean acquires = number == 0;
            releasing.add(new Thread(() -> {
                try {
                    for (int turn = 0; turn < turns; turn++) {
                        if (acquires) {
                            many.acquire(threads);
                        }
                        together.await();
                        many.release();
                    }
                } catch (InterruptedException | BrokenBarrierException failed) {
                    throw new AssertionError(failed);
                }
            }));
        }
        releasing.forEach(Thread::start);
        for (Thread thread : releasing) {
            thread.join();
        }
        List<String> acts = recording.acts();
        assertEquals(threads * turns, acts.stream().filter(line -> line.endsWith(" begin many")).count());
        assertEquals(threads * turns, acts.stream().filter(line -> line.endsWith(" end")).count());
    }

    private static void await(CountDownLatch latch) {
        try {
            Recording.await(latch);
        } catch (InterruptedException interrupted) {
            throw new AssertionError(interrupted);
        }
    }

    private static List<String> linesOf(int round, List<String> acts) {
        return acts.stream().filter(line -> line.startsWith("round " + round + " ")).toList();
    }

    /** Asserts that each round submits the job with the round's number, gets it, and ends. */
    private static void assertSubmitAndGet(List<String> acts, String kind, String where, int rounds) {
        for (int number = 0; number < rounds; number++) {
            String round = "round " + number + " ";
            assertLines(linesOf(number, acts), round + "begin " + kind, round + "submit " + number + " " + where, round + "got " + number,
                    round + "end");
        }
    }

    /** Submits a row of a flatMap. The row ends only after its stage is attached, so that a thread of the pool runs the stage. */
    private static void row(ExecutorService load, CountDownLatch mayEnd, Runnable stage) {
        CountDownLatch attached = new CountDownLatch(1);
        CompletableFuture.runAsync(() -> {
            await(attached);
            await(mayEnd);
        }, load).whenComplete((none, failed) -> stage.run());
        attached.countDown();
    }

    /**
     * Checks that a release of an unused permit does not end the round of another thread. Thread 1 submits row 2 and later gives
     * back a permit that it did not use. Meanwhile row 2 is done, and thread 2, which submitted row 3, is about to give back its
     * permit. If thread 1 ended the round of row 2, thread 2 would end the round of row 3, which is open.
     */
    @Test
    void aReleaseOfAnUnusedPermitDoesNotEndOneThatAnotherThreadGivesBack() throws Exception {
        ExecutorService load = Recorder.label("row", recording.pool("load", Recording.executor(2, 2, 2)));
        Semaphore places = recording.recorder.permits("place", 3);
        CountDownLatch begun = new CountDownLatch(1);
        CountDownLatch submitted = new CountDownLatch(1);
        CountDownLatch ended = new CountDownLatch(1);
        CountDownLatch unusedReleased = new CountDownLatch(1);
        CountDownLatch released = new CountDownLatch(1);
        places.acquire();
        row(load, begun, () -> {
            places.release();
            places.acquireUninterruptibly();
            row(load, new CountDownLatch(0), () -> {
                ended.countDown();
                await(unusedReleased);
                places.release();
                released.countDown();
            });
            submitted.countDown();
            await(ended);
            places.acquireUninterruptibly();
            places.release();
            unusedReleased.countDown();
        });
        places.acquire();
        row(load, submitted, () -> {
            places.release();
            places.acquireUninterruptibly();
            row(load, released, places::release);
        });
        begun.countDown();
        await(released);
        assertTrue(places.tryAcquire(3, 60, TimeUnit.SECONDS));
        List<String> acts = recording.acts();
        assertSubmitAndGet(acts, "place", "row load", 4);
        assertLines(linesOf(4, acts), "round 4 begin place", "round 4 end");
    }

    @Test
    void aReleaseEndsAFinishedPermitOfAnotherThreadRatherThanAnOpenOne() throws Exception {
        ExecutorCompletionService<Void> service = new ExecutorCompletionService<>(recording.pool("mail", Recording.executor(2, 2, 2)));
        CountDownLatch taken = new CountDownLatch(1);
        Recording.on("importer-1", () -> {
            permits.acquire();
            service.submit(Recorder.label("row", () -> Recording.await(taken)));
            Recording.on("importer-2", () -> {
                permits.acquire();
                service.submit(Recorder.label("row", () -> null));
            });
            service.take();
            permits.release();
        });
        taken.countDown();
        Recording.on("importer-2", () -> {
            service.take();
            permits.release();
        });
        assertSubmitAndGet(recording.acts(), "permit", "row mail", 2);
    }

    @Test
    void importersThatShareACompletionServiceEndFinishedPermits() throws Exception {
        int importers = 8;
        ExecutorService mail = recording.pool("mail", Recording.executor(4, 4, importers));
        ExecutorCompletionService<Integer> service = new ExecutorCompletionService<>(mail);
        Semaphore places = recording.recorder.permits("place", importers);
        List<Thread> threads = new ArrayList<>();
        for (int importer = 0; importer < importers; importer++) {
            threads.add(new Thread(() -> {
                try {
                    for (int row = 0; row < 500; row++) {
                        places.acquire();
                        service.submit(Recorder.label("row", () -> 1));
                        service.take();
                        places.release();
                    }
                } catch (InterruptedException interrupted) {
                    throw new AssertionError(interrupted);
                }
            }));
        }
        threads.forEach(Thread::start);
        for (Thread thread : threads) {
            thread.join();
        }
        List<String> acts = recording.acts();
        assertEquals(importers * 500, acts.stream().filter(line -> line.startsWith("round ") && line.endsWith(" end")).count());
        assertEquals(importers * 500, acts.stream().filter(line -> line.contains(" got ")).count());
    }

    @Test
    void manyThreadsNeverHaveMorePermitsAtOnce() throws Exception {
        ExecutorService mail = recording.pool("mail", Recording.executor(2, 2, 2));
        List<Thread> threads = new ArrayList<>();
        for (int client = 0; client < 8; client++) {
            threads.add(new Thread(() -> {
                for (int turn = 0; turn < 200; turn++) {
                    permits.acquireUninterruptibly();
                    mail.execute(Recorder.label("send", () -> {
                        permits.release();
                    }));
                }
            }));
        }
        threads.forEach(Thread::start);
        for (Thread thread : threads) {
            thread.join();
        }
        awaitPermits(2);
        permits.release(2);
        int open = 0;
        int most = 0;
        List<String> acts = recording.acts();
        for (String line : acts) {
            open += line.endsWith(" begin permit") ? 1 : line.startsWith("round ") && line.endsWith(" end") ? -1 : 0;
            most = Math.max(most, open);
        }
        assertEquals(2, most);
        assertEquals(8 * 200, acts.stream().filter(line -> line.contains(" got ")).count());
    }
}
