package sizing.junit5;

import static org.junit.jupiter.api.Assertions.assertEquals;
import static org.junit.jupiter.api.Assertions.assertFalse;
import static org.junit.jupiter.api.Assertions.assertTrue;
import static org.junit.jupiter.api.Assumptions.assumeTrue;

import java.io.IOException;
import java.nio.charset.StandardCharsets;
import java.nio.file.Files;
import java.nio.file.Path;
import java.util.List;
import java.util.Map;
import java.util.Set;
import java.util.TreeSet;
import java.util.concurrent.ConcurrentHashMap;
import java.util.regex.Matcher;
import java.util.regex.Pattern;
import java.util.stream.Stream;
import org.junit.jupiter.api.Test;
import org.junit.jupiter.api.Timeout;
import org.junit.jupiter.params.ParameterizedTest;
import org.junit.jupiter.params.provider.MethodSource;

/**
 * Tests of docs/PATTERNS.md and docs/PERMITS.md with small services: the recording of each correct use conforms to the plan of
 * the page, and `conform` reports the recording of each use that the page does not cover.
 *
 * <p>Without the program, {@code checks/java/conform.py} compares a recording with its plan.
 */
@Timeout(120)
class ServicesTest {
    private static final Path ROOT = Path.of(System.getProperty("sizing.root"));
    private static final String NO_GET = "ended without a get of job ";
    private static final String NO_SUBMIT = "its body has no such submit ";
    private static final String ONLY = "its body has only ";
    private static final String BEFORE = " at some point before its next such submit";
    /** The recordings of the cases by name. Two tests use the recording of a correct use. */
    private static final Map<String, Path> RECORDINGS = new ConcurrentHashMap<>();

    /** The code of a service. */
    interface Service {
        void run(ServiceRun run) throws Exception;
    }

    /**
     * A service and its plan.
     *
     * @param reported a part of the line that reports the service, or null if its recording conforms
     */
    private record Case(String name, String plan, Service service, String reported) {
        Case(String name, String plan, Service service) {
            this(name, plan, service, null);
        }

        @Override
        public String toString() {
            return name + " (" + plan + ")";
        }
    }

    static Stream<Case> rightUses() {
        return Stream.of(
                // pools
                new Case("spring_boot", "spring-boot", PoolServices::springBoot),
                new Case("spring_boot_of_the_plan", "spring-boot", PoolServices::springBootOfThePlan),
                new Case("spring_boot_own_pool", "spring-boot-own-pool", PoolServices::springBootOwnPool),
                new Case("spring_defaults", "spring-defaults", PoolServices::springDefaults),
                new Case("spring_defaults_of_the_plan", "spring-defaults", PoolServices::springDefaultsOfThePlan),
                new Case("fixed_thread_pool", "fixed-thread-pool", PoolServices::fixedThreadPool),
                new Case("audit_log", "audit-log", PoolServices::auditLog),
                new Case("cached_pool_replaced", "cached-pool-replaced", PoolServices::cachedPoolReplaced),
                new Case("async_joined", "async-joined", PoolServices::asyncJoined),
                new Case("async_combined", "async-joined", PoolServices::asyncCombined),
                new Case("concurrency_limit", "virtual-threads", PoolServices::concurrencyLimit),
                new Case("caller_runs", "two-clients-queue-of-two", PoolServices::callerRuns),
                new Case("thread_pool_bulkhead", "thread-pool-bulkhead", PoolServices::threadPoolBulkhead),
                new Case("load_shedding", "load-shedding", SheddingServices::loadShedding),
                new Case("caller_runs_leaves", "caller-runs", SheddingServices::callerRunsLeaves),
                new Case("caller_runs_in_place", "caller-runs-in-place", SheddingServices::callerRunsInPlace),
                new Case("caller_runs_own_pool", "caller-runs-own-pool", SheddingServices::callerRunsOwnPool),
                new Case("discard", "discard", SheddingServices::discard),
                new Case("bulkhead_rejects", "bulkhead-rejects", SheddingServices::bulkheadRejects),
                new Case("synchronous_bulkhead", "synchronous-bulkhead", SheddingServices::synchronousBulkhead),
                new Case("connection_pool", "web-and-database-sized", PoolServices::connectionPool),
                new Case("nested_connections", "nested-connections", PoolServices::nestedConnections),
                // clients
                new Case("tomcat", "thirty-endpoints", ClientServices::tomcat),
                new Case("scheduled", "scheduled", ClientServices::scheduled),
                new Case("nightly", "nightly", ClientServices::nightly),
                new Case("import_window", "import-window", ClientServices::importWindow),
                new Case("import_window_released_by_jobs", "import-window", ClientServices::importWindowReleasedByJobs),
                new Case("import_window_of_futures", "import-window", ClientServices::importWindowOfFutures),
                new Case("flat_map", "import-window", PermitServices::flatMap),
                new Case("virtual_threads", "virtual-threads", ClientServices::virtualThreads),
                new Case("parallel_stream", "parallel-stream", ClientServices::parallelStream),
                new Case("kafka_consumers", "kafka-consumers", ClientServices::kafkaConsumers),
                new Case("grpc_server", "virtual-threads", ClientServices::grpcServer),
                new Case("event_loop", "permits", PermitServices::eventLoop),
                // bodies
                new Case("endpoints", "thirty-endpoints", BodyServices::endpoints),
                new Case("optional_calls", "optional-calls", BodyServices::optionalCalls),
                new Case("report_up_to_eight", "report-up-to-eight", BodyServices::reportUpToEight),
                new Case("report_that_gets_the_first_done", "report-up-to-eight", BodyServices::reportThatGetsTheFirstDone),
                new Case("exception", "fan-out-of-two", BodyServices::exception),
                new Case("retries", "three-tries", BodyServices::retries),
                new Case("retries_by_a_scheduler", "permits", PermitServices::retriesByAScheduler),
                new Case("completion_service", "completion-service", OrderServices::completionService),
                new Case("completion_service_in_a_job", "window-in-a-job", OrderServices::completionServiceInAJob),
                new Case("futures_that_are_done", "completion-service", OrderServices::futuresThatAreDone),
                new Case("sooner_on_one_path", "sooner-on-one-path", OrderServices::soonerOnOnePath),
                new Case("poll_loop", "poll-loop", OrderServices::pollLoop),
                new Case("invoke_all", "invoke-all", BodyServices::invokeAll),
                new Case("chain", "future-chain", ChainServices::chain),
                new Case("chain_with_stages_in_no_pool", "future-chain", ChainServices::chainWithStagesInNoPool),
                new Case("chain_that_fails", "future-chain", ChainServices::chainThatFails),
                new Case("chain_composed", "future-chain", ChainServices::chainComposed),
                new Case("chains_side_by_side", "future-chain", ChainServices::chainsSideBySide),
                new Case("chains_in_a_job", "two-chains-in-a-job", ChainServices::chainsInAJob),
                // permits
                new Case("fire_and_forget", "permits", PermitServices::fireAndForget),
                new Case("timed_gets_and_cancels", "permits", PermitServices::timedGetsAndCancels),
                new Case("permits_in_decorator", "permits", PermitServices::permitsInDecorator),
                new Case("permits_in_after_execute", "permits", PermitServices::permitsInAfterExecute),
                new Case("permits_of_who_takes", "permits", PermitServices::permitsOfWhoTakes),
                new Case("permitted_executor", "permits", PermitServices::permittedExecutor),
                new Case("bulkhead", "permits", PermitServices::bulkhead),
                new Case("bulkhead_around_join", "permits", PermitServices::bulkheadAroundJoin),
                new Case("permits_beside_requests", "permits-beside-requests", PermitServices::permitsBesideRequests),
                new Case("permits_taken_by_jobs", "permits-taken-by-jobs", PermitServices::permitsTakenByJobs),
                new Case("chain_with_a_permit", "future-chain", PermitServices::chainWithAPermit),
                new Case("one_burst", "one-burst", PermitServices::oneBurst));
    }

    static Stream<Case> otherUses() {
        return Stream.of(
                // pools
                new Case("spring_boot_with_a_maximum", "spring-boot", PoolServices::springBootWithAMaximum,
                        "pool tasks: max 16, plan unbounded"),
                new Case("spring_boot_without_core_timeout", "spring-boot", PoolServices::springBootWithoutCoreTimeout,
                        "pool tasks: core threads never time out, plan core_timeout = true"),
                new Case("spring_with_queue_capacity", "spring-defaults", PoolServices::springWithQueueCapacity,
                        "pool tasks: queue 200, plan unbounded"),
                new Case("spring_with_core_timeout", "spring-defaults", PoolServices::springWithCoreTimeout,
                        "pool tasks: core threads may time out"),
                new Case("fixed_thread_pool_with_a_bounded_queue", "fixed-thread-pool", PoolServices::fixedThreadPoolWithABoundedQueue,
                        "pool queries: queue 200, plan unbounded"),
                new Case("fixed_thread_pool_with_one_thread_more", "fixed-thread-pool", PoolServices::fixedThreadPoolWithOneThreadMore,
                        "pool queries: core 17, plan 16"),
                new Case("audit_log_that_waits", "audit-log", PoolServices::auditLogThatWaits,
                        "of class line in pool audit submitted page to pool web; " + NO_SUBMIT + "at its begin"),
                new Case("fixed_thread_pool_without_get", "fixed-thread-pool", PoolServices::fixedThreadPoolWithoutGet,
                        "round 0 of kind request " + NO_GET),
                new Case("cached_pool", "cached-pool-replaced", PoolServices::cachedPool,
                        "pool pages: queue of another kind (synchronous)"),
                new Case("synchronous_queue", "virtual-threads", PoolServices::synchronousQueue,
                        "pool render: queue of another kind (synchronous)"),
                new Case("core_zero", "virtual-threads", PoolServices::coreZero, "pool render: core 0, plan 8"),
                new Case("async_void", "async-joined", PoolServices::asyncVoid, "round 0 of kind request " + NO_GET),
                new Case("async_dropped", "async-joined", PoolServices::asyncDropped, "round 0 of kind request " + NO_GET),
                new Case("async_with_any_of", "async-joined", PoolServices::asyncWithAnyOf,
                        "round 0 of kind request " + NO_GET),
                new Case("async_join_that_throws", "async-joined", PoolServices::asyncJoinThatThrows,
                        "round 0 of kind request " + NO_GET),
                new Case("async_with_core_timeout", "async-joined", PoolServices::asyncWithCoreTimeout,
                        "pool tasks: core threads may time out"),
                new Case("async_with_another_user", "async-joined", PoolServices::asyncWithAnotherUser,
                        "kind mvc: not in the plan"),
                new Case("async_with_an_undone_future", "async-joined", PoolServices::asyncWithAnUndoneFuture,
                        "job 0 of class profile in pool tasks submitted orders to pool tasks; " + NO_SUBMIT + "at its begin"),
                new Case("no_concurrency_limit", "virtual-threads", PoolServices::noConcurrencyLimit,
                        "kind permit: 65 at once, count is 64"),
                new Case("caller_runs_called", "two-clients-queue-of-two", PoolServices::callerRunsCalled,
                        "of class a in pool p was refused"),
                new Case("caller_runs_after_shutdown", "two-clients-queue-of-two", PoolServices::callerRunsAfterShutdown,
                        "job 0 of class a in pool p was refused"),
                new Case("refused", "two-clients-queue-of-two", PoolServices::refused, "of class a in pool p was refused"),
                new Case("synchronous_bulkhead_with_a_queue", "synchronous-bulkhead", SheddingServices::synchronousBulkheadWithAQueue,
                        "pool bulkhead: queue of another kind (array)"),
                new Case("caller_runs_an_order", "caller-runs-in-place", SheddingServices::callerRunsAnOrder,
                        "job 12 of class order in pool orders was refused"),
                new Case("rejected_with_an_open_future", "caller-runs", SheddingServices::rejectedWithAnOpenFuture,
                        "of class album in pool albums " + NO_GET),
                new Case("rejected_by_invoke_all", "caller-runs", SheddingServices::rejectedByInvokeAll,
                        "of class picture in pool pictures was cancelled"),
                new Case("thread_pool_bulkhead_with_time_limiter", "thread-pool-bulkhead", PoolServices::threadPoolBulkheadWithTimeLimiter,
                        "round 0 of kind request " + NO_GET),
                new Case("thread_pool_bulkhead_without_join", "thread-pool-bulkhead", PoolServices::threadPoolBulkheadWithoutJoin,
                        "round 0 of kind request " + NO_GET),
                // clients
                new Case("tomcat_deferred_result", "thirty-endpoints", ClientServices::tomcatDeferredResult,
                        "of kind request " + NO_GET),
                new Case("scheduled_that_overlaps", "scheduled", ClientServices::scheduledThatOverlaps,
                        "kind cleanup: 2 at once, count is 1"),
                new Case("scheduled_without_get", "scheduled", ClientServices::scheduledWithoutGet,
                        "round 0 of kind cleanup " + NO_GET),
                new Case("nightly_that_overlaps", "nightly", ClientServices::nightlyThatOverlaps,
                        "kind nightly: 2 at once, count is 1"),
                new Case("import_window_with_timed_poll", "import-window", ClientServices::importWindowWithTimedPoll,
                        "round 0 of kind place " + NO_GET),
                new Case("import_all_at_once", "import-window", ClientServices::importAllAtOnce,
                        "round 0 of kind place submitted row to pool load; " + NO_SUBMIT + "after submit row"),
                new Case("import_that_overlaps", "import-window", ClientServices::importThatOverlaps,
                        "kind place: 33 at once, count is 32"),
                new Case("import_that_is_left", "import-window", ClientServices::importThatIsLeft,
                        "kind place: 33 at once, count is 32"),
                new Case("import_window_with_a_get_that_throws", "import-window", ClientServices::importWindowWithAGetThatThrows,
                        "kind place: 33 at once, count is 32"),
                new Case("job_for_each_batch", "import-window", PermitMisuses::jobForEachBatch, "kind source: not in the plan"),
                new Case("cancelled_place", "import-window", PermitMisuses::cancelledPlace, "job 0 of class row in pool load was cancelled"),
                new Case("virtual_threads_timed", "virtual-threads", ClientServices::virtualThreadsTimed,
                        "round 0 of kind permit " + NO_GET),
                new Case("parallel_stream_with_join", "parallel-stream", ClientServices::parallelStreamWithJoin,
                        "kind worker: 8 at once, count is 7"),
                new Case("kafka_listener_that_returns", "kafka-consumers", ClientServices::kafkaListenerThatReturns,
                        "round 0 of kind consumer " + NO_GET),
                new Case("kafka_batch_listener", "kafka-consumers", ClientServices::kafkaBatchListener,
                        "round 0 of kind consumer submitted reserve to pool stock; " + NO_SUBMIT + "after submit reserve"),
                new Case("kafka_retry_topic", "kafka-consumers", ClientServices::kafkaRetryTopic,
                        "kind retry_consumer: not in the plan"),
                new Case("kafka_container_that_overlaps", "kafka-consumers", ClientServices::kafkaContainerThatOverlaps,
                        "kind consumer: 7 at once, count is 6"),
                new Case("grpc_handler_that_returns", "virtual-threads", ClientServices::grpcHandlerThatReturns,
                        "round 0 of kind permit " + NO_GET),
                new Case("event_loop_that_waits", "permits", PermitMisuses::eventLoopThatWaits, "kind event_loop: not in the plan"),
                // bodies
                new Case("endpoints_in_another_order", "thirty-endpoints", BodyServices::endpointsInAnotherOrder,
                        "round 0 of kind request submitted query_01 to pool queries; " + NO_SUBMIT + "after get query_02"),
                new Case("endpoints_with_two_open_jobs", "thirty-endpoints", BodyServices::endpointsWithTwoOpenJobs,
                        "round 0 of kind request submitted query_02 to pool queries; after submit query_01, 1 job of class query_01 is open; "
                                + ONLY + "0" + BEFORE),
                new Case("return_before_the_get", "optional-calls", BodyServices::returnBeforeTheGet,
                        "round 0 of kind request " + NO_GET),
                new Case("get_that_is_skipped", "optional-calls", BodyServices::getThatIsSkipped,
                        "round 0 of kind request submitted tax to pool prices; after submit price, 1 job of class price is open; "
                                + ONLY + "0" + BEFORE),
                new Case("get_that_comes_later", "optional-calls", BodyServices::getThatComesLater,
                        "round 0 of kind request submitted tax to pool prices; after submit price, 1 job of class price is open; "
                                + ONLY + "0" + BEFORE),
                new Case("report_of_nine", "report-up-to-eight", BodyServices::reportOfNine,
                        "job 0 of class report in pool reports submitted section to pool reports; " + NO_SUBMIT + "after submit section"),
                new Case("report_with_an_open_section", "report-up-to-eight", BodyServices::reportWithAnOpenSection,
                        "job 0 of class report in pool reports " + NO_GET),
                new Case("exception_with_an_open_future", "fan-out-of-two", BodyServices::exceptionWithAnOpenFuture,
                        "round 0 of kind c " + NO_GET),
                new Case("interrupted_get", "fan-out-of-two", BodyServices::interruptedGet, "round 0 of kind c " + NO_GET),
                new Case("retry_before_the_first_is_done", "three-tries", BodyServices::retryBeforeTheFirstIsDone,
                        "round 0 of kind c submitted a to pool p; after submit a, 1 job of class a is open; " + ONLY + "0" + BEFORE),
                new Case("completion_service_with_five_jobs", "completion-service", OrderServices::completionServiceWithFiveJobs,
                        "round 0 of kind request submitted quote to pool quotes; " + NO_SUBMIT + "after submit quote"),
                new Case("completion_service_that_is_left", "completion-service", OrderServices::completionServiceThatIsLeft,
                        "round 0 of kind request " + NO_GET),
                new Case("completion_service_with_a_get_that_throws", "completion-service", OrderServices::completionServiceWithAGetThatThrows,
                        "round 0 of kind request " + NO_GET + "1 of class quote in pool quotes"),
                new Case("completion_service_with_timed_poll", "completion-service", OrderServices::completionServiceWithTimedPoll,
                        "round 0 of kind request " + NO_GET),
                new Case("window_of_four", "window-in-a-job", OrderServices::windowOfFour,
                        "job 0 of class report in pool reports submitted section to pool sections; after submit section, "
                                + "3 jobs of class section are open; " + ONLY + "2" + BEFORE),
                new Case("report_of_seven_topics", "window-in-a-job", OrderServices::reportOfSevenTopics,
                        "job 0 of class report in pool reports submitted section to pool sections; " + NO_SUBMIT + "after get section"),
                new Case("report_with_a_summary", "window-in-a-job", OrderServices::reportWithASummary,
                        "job 0 of class report in pool reports submitted summary to pool sections as job 2, which belongs to no class of the plan"),
                new Case("report_that_returns_with_an_open_section", "window-in-a-job", OrderServices::reportThatReturnsWithAnOpenSection,
                        "job 0 of class report in pool reports " + NO_GET + "1 of class section in pool sections"),
                new Case("window_that_is_read_at_its_end", "window-in-a-job", OrderServices::windowThatIsReadAtItsEnd,
                        "job 0 of class report in pool reports submitted section to pool sections; after submit section, "
                                + "3 jobs of class section are open; " + ONLY + "2" + BEFORE),
                new Case("futures_that_are_left", "completion-service", OrderServices::futuresThatAreLeft,
                        "round 0 of kind request " + NO_GET),
                new Case("futures_with_a_further_stage", "completion-service", OrderServices::futuresWithAFurtherStage,
                        "round 0 of kind request submitted use to pool quotes as job 1, which belongs to no class of the plan"),
                new Case("submits_in_another_order", "sooner-on-one-path", OrderServices::submitsInAnotherOrder,
                        "round 0 of kind request submitted stock to pool shop; " + NO_SUBMIT + "after submit price"),
                new Case("exception_beside_an_open_price", "sooner-on-one-path", OrderServices::exceptionBesideAnOpenPrice,
                        "round 0 of kind request " + NO_GET),
                new Case("poll_loop_that_gives_up", "poll-loop", OrderServices::pollLoopThatGivesUp,
                        "job 0 of class page in pool pages " + NO_GET),
                new Case("poll_loop_that_submits", "poll-loop", OrderServices::pollLoopThatSubmits,
                        "job 0 of class page in pool pages submitted part to pool pages; " + NO_SUBMIT + "after get part"),
                new Case("hedged_try", "permits", PermitMisuses::hedgedTry, "kind client: not in the plan"),
                new Case("retry_beside_an_open_stage", "async-joined", ChainServices::retryBesideAnOpenStage,
                        "round 0 of kind request submitted profile to pool tasks; " + NO_SUBMIT + "after get profile"),
                new Case("retry_without_its_permit", "permits", PermitMisuses::retryWithoutItsPermit,
                        "kind pool_thread: not in the plan"),
                new Case("invoke_all_with_timeout", "invoke-all", BodyServices::invokeAllWithTimeout,
                        "job 0 of class task in pool tasks was cancelled"),
                new Case("invoke_all_interrupted", "invoke-all", BodyServices::invokeAllInterrupted,
                        "job 0 of class task in pool tasks was cancelled"),
                new Case("invoke_any", "invoke-all", BodyServices::invokeAny, "round 0 of kind caller called invokeAny in pool tasks"),
                new Case("chain_that_is_left", "future-chain", ChainServices::chainThatIsLeft, "of kind chain " + NO_GET),
                new Case("chain_with_timeout", "future-chain", ChainServices::chainWithTimeout,
                        "round 0 of kind chain " + NO_GET),
                new Case("chain_completed_on_timeout", "future-chain", ChainServices::chainCompletedOnTimeout,
                        "round 0 of kind chain " + NO_GET),
                new Case("chain_cancelled", "future-chain", ChainServices::chainCancelled,
                        "round 0 of kind chain " + NO_GET),
                new Case("chain_with_timed_get", "future-chain", ChainServices::chainWithTimedGet,
                        "round 0 of kind chain " + NO_GET),
                new Case("chain_with_a_stage_beside", "future-chain", ChainServices::chainWithAStageBeside, "kind chain"),
                new Case("chain_with_a_submit_in_no_pool", "future-chain", ChainServices::chainWithASubmitInNoPool,
                        "kind pool_thread: not in the plan"),
                new Case("three_chains_in_a_job", "two-chains-in-a-job", ChainServices::threeChainsInAJob,
                        "job 0 of class page in pool web submitted load to pool io; after submit load, 2 jobs of class load are open; "
                                + ONLY + "0" + BEFORE),
                new Case("composed_stage_that_is_dropped", "future-chain", ChainServices::composedStageThatIsDropped,
                        "round 0 of kind chain " + NO_GET),
                // permits
                new Case("timed_bulkhead", "permits", PermitMisuses::timedBulkhead, "round 0 of kind permit " + NO_GET),
                new Case("interrupt_in_a_bulkhead", "permits", PermitMisuses::interruptInABulkhead,
                        "round 0 of kind permit " + NO_GET),
                new Case("release_in_done", "permits", PermitMisuses::releaseInDone, "round 0 of kind permit " + NO_GET),
                new Case("stage_of_a_cancelled_future", "permits", PermitMisuses::stageOfACancelledFuture,
                        "round 0 of kind permit " + NO_GET),
                new Case("release_after_a_timeout_of_the_stage", "permits", PermitMisuses::releaseAfterATimeoutOfTheStage,
                        "round 0 of kind permit " + NO_GET),
                new Case("release_before_the_last_get", "permits-taken-by-jobs", PermitMisuses::releaseBeforeTheLastGet,
                        "kind pool_thread: not in the plan"),
                new Case("release_without_acquire", "permits", PermitMisuses::releaseWithoutAcquire,
                        "kind permit: 21 at once, count is 20"),
                new Case("release_in_the_job_and_in_the_submitter", "permits", PermitMisuses::releaseInTheJobAndInTheSubmitter,
                        "kind permit: 21 at once, count is 20"),
                new Case("submit_without_a_permit", "permits", PermitMisuses::submitWithoutAPermit, "kind client: not in the plan"),
                new Case("submit_after_the_release", "permits", PermitMisuses::submitAfterTheRelease,
                        "kind pool_thread: not in the plan"),
                new Case("get_in_a_job_of_a_job_with_a_permit", "permits-taken-by-jobs", PermitMisuses::getInAJobOfAJobWithAPermit,
                        "job 0 of class page in pool web got job 1 of class entry in pool audit, which it did not submit"),
                new Case("cancel_of_the_queued_task", "permits", PermitMisuses::cancelOfTheQueuedTask,
                        "job 0 of class send in pool mail was cancelled"),
                new Case("cancel_of_a_job_that_gets", "cached-pool-replaced", PermitMisuses::cancelOfAJobThatGets,
                        "job 0 of class page in pool pages " + NO_GET));
    }

    private static Path recordingOf(Case one) throws Exception {
        Path made = RECORDINGS.get(one.name);
        if (made != null) {
            return made;
        }
        Path recording = Files.createDirectories(Path.of("target", "sizing")).resolve(one.name + ".recording");
        ServiceRun run = new ServiceRun(planOf(one), recording);
        one.service.run(run);
        run.end();
        RECORDINGS.put(one.name, recording);
        return recording;
    }

    private static Path planOf(Case one) {
        return ROOT.resolve("examples").resolve(one.plan + ".toml");
    }

    /** Compares the recording with the plan: with the program, or with {@code checks/java/conform.py} if there is no program. */
    private static SizingProgram.Answer conform(Path plan, Path recording) throws IOException, InterruptedException {
        if (SizingProgram.find().isPresent()) {
            return SizingProgram.run("conform", plan, recording);
        }
        Path output = Files.createTempFile("conform", ".out");
        try {
            Process python = new ProcessBuilder("python3", ROOT.resolve("checks/java/conform.py").toString(), plan.toString(), recording.toString())
                    .redirectErrorStream(true).redirectOutput(output.toFile()).start();
            int status = python.waitFor();
            return new SizingProgram.Answer(status, new String(Files.readAllBytes(output), StandardCharsets.UTF_8).lines().toList(), List.of());
        } catch (IOException noPython) {
            assumeTrue(false, "neither the program nor python3 is here");
            throw noPython;
        } finally {
            Files.delete(output);
        }
    }

    /**
     * Checks that each safe plan that the pages name in backquotes has a service. A plan is safe if `check` accepts its
     * certificate.
     */
    @Test
    void everySafePlanOfThePagesHasAService() throws IOException {
        Set<String> plans = new TreeSet<>();
        for (String page : List.of("PATTERNS.md", "PERMITS.md")) {
            Matcher names = Pattern.compile("`([a-z][a-z0-9-]*)`").matcher(Files.readString(ROOT.resolve("docs").resolve(page)));
            while (names.find()) {
                if (isSafe(names.group(1))) {
                    plans.add(names.group(1));
                }
            }
        }
        assertFalse(plans.isEmpty());
        rightUses().forEach(one -> plans.remove(one.plan));
        assertEquals(Set.of(), plans);
    }

    /** Returns whether the stored answer of `check` has the exit status 0. */
    private static boolean isSafe(String plan) throws IOException {
        Path answer = ROOT.resolve("examples").resolve(plan + ".check");
        return Files.exists(answer) && Files.readString(answer).endsWith("\nstatus 0\n");
    }

    @ParameterizedTest
    @MethodSource("rightUses")
    void conforms(Case one) throws Exception {
        Path recording = recordingOf(one);
        SizingProgram.Answer answer = conform(planOf(one), recording);
        // the program adds a line for each pool that rejected jobs as the plan allows
        assertEquals(List.of("conforms"), answer.lines().stream().filter(line -> !line.endsWith(", as the plan allows")).toList());
        assertEquals(0, answer.status());
    }

    @ParameterizedTest
    @MethodSource("otherUses")
    void isReported(Case one) throws Exception {
        Path recording = recordingOf(one);
        SizingProgram.Answer answer = conform(planOf(one), recording);
        String lines = String.join("\n", answer.lines());
        assertEquals(1, answer.status(), lines);
        assertTrue(lines.contains(one.reported), () -> "expected: " + one.reported + "\nbut was:\n" + lines);
    }

    @ParameterizedTest
    @MethodSource("rightUses")
    void theLearnedPlanIsSafe(Case one) throws Exception {
        assumeTrue(SizingProgram.find().isPresent(), "the program sizing was not found");
        Path recording = recordingOf(one);
        SizingProgram.Answer learned = SizingProgram.run("learn", recording);
        assertEquals(0, learned.status(), String.join("\n", learned.lines()));
        Path plan = Files.write(Path.of("target", "sizing", one.name + ".learned.toml"), learned.output());
        SizingProgram.Answer answer = SizingProgram.run("ask", plan);
        assertEquals(0, answer.status(), String.join("\n", answer.lines()));
    }
}
