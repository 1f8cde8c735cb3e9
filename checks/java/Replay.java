import java.util.ArrayList;
import java.util.Collections;
import java.util.List;
import java.util.Random;
import java.util.Set;
import java.util.TreeSet;
import java.util.concurrent.ExecutionException;
import java.util.concurrent.RejectedExecutionException;
import java.util.concurrent.TimeUnit;

/** A replay of a list of events on executors: the driver lets one thread at a time make one step, and reports the outcome. */
final class Replay {
    static final String NOT_POSSIBLE = "not possible";
    final Plan plan;
    final boolean inSteps;
    private final List<GatedPool> pools = new ArrayList<>();
    private final List<Actor> clients = new ArrayList<>();
    private final List<Boolean> repeats = new ArrayList<>();
    private final List<Job> jobs = new ArrayList<>();
    private final List<Thread> clientThreads = new ArrayList<>();
    private final List<Thread> poolThreads = Collections.synchronizedList(new ArrayList<>());
    private final Random chance = new Random(1);
    private volatile boolean free;
    private double leaves;
    private int refusals;
    private int rejections;

    Replay(Plan plan, String kind, boolean inSteps) throws InterruptedException {
        this.plan = plan;
        this.inSteps = inSteps;
        for (Plan.Pool pool : plan.pools()) {
            pools.add(new GatedPool(pool, kind, poolThreads));
        }
        for (Plan.Kind client : plan.clients()) {
            for (int one = 0; one < client.number(); one++) {
                add(client);
            }
        }
    }

    private void add(Plan.Kind client) {
        Actor actor = new Actor(this, client.body());
        clients.add(actor);
        repeats.add(client.repeat());
        Thread thread = new Thread(() -> {
            try {
                while (true) {
                    actor.go(false);
                    actor.position = 0;
                }
            } catch (InterruptedException | ExecutionException over) {
                return;
            }
        });
        thread.setDaemon(true);
        clientThreads.add(thread);
        thread.start();
    }

    GatedPool poolOf(int number) {
        return pools.get(plan.classes().get(number).number());
    }

    // ---- events

    String answer(String event) throws InterruptedException {
        String[] words = event.split(" ");
        return switch (words[0]) {
            case "take" -> take(pool(words[1]));
            case "retire" -> retire(pool(words[1]));
            case "stuck" -> stuck(words);
            case "leave" -> actor(words[1], words[2], Actor.Order.LEAVE_OUT);
            default -> actor(words[0], words[1], Actor.Order.ACT);
        };
    }

    private GatedPool pool(String name) {
        return pools.stream().filter(pool -> pool.pool.name().equals(name)).findFirst().orElseThrow();
    }

    private String actor(String word, String digits, Actor.Order order) throws InterruptedException {
        int number = Integer.parseInt(digits);
        if (word.equals("client")) {
            return number < clients.size() ? act(clients.get(number), order, repeats.get(number)) : NOT_POSSIBLE;
        }
        return number < jobs.size() && runs(jobs.get(number)) ? act(jobs.get(number), order, true) : NOT_POSSIBLE;
    }

    private static boolean runs(Job job) {
        return job.begun.getCount() == 0 && !job.future.isDone();
    }

    private String act(Actor actor, Actor.Order order, boolean goesOnAtEnd) throws InterruptedException {
        if (order == Actor.Order.LEAVE_OUT && (!actor.isAt('s') || actor.within)) {
            return NOT_POSSIBLE;
        }
        if (actor.atEnd()) {
            return goesOnAtEnd ? end(actor) : NOT_POSSIBLE;
        }
        if (actor.isAt('g') && actor.awaited() != null && !actor.awaited().future.isDone()) {
            return NOT_POSSIBLE;
        }
        int before = actor.position;
        String outcome = actor.step(order);
        if (outcome.equals("refused")) {
            refusals++;
            return "refused by " + poolOf(actor.body.get(before).operand()).pool.name();
        }
        return switch (outcome) {
            case "submitted" -> submitted(actor.submitted[before]);
            case "rejected" -> rejected(actor.submitted[before]);
            default -> outcome;
        };
    }

    /** Adds a job that the pool rejected. It counts as done. */
    private String rejected(Job job) {
        rejections++;
        job.number = jobs.size();
        jobs.add(job);
        return "rejected by " + poolOf(job.of).pool.name() + " as job " + job.number;
    }

    /** Adds a job that the pool accepted: it is in the queue, or a new thread starts it. */
    private String submitted(Job job) throws InterruptedException {
        job.number = jobs.size();
        jobs.add(job);
        GatedPool pool = poolOf(job.of);
        if (pool.isQueued(job)) {
            // if core threads may time out, the pool may have had no thread; then the submit has started one
            if (pool.pool.coreTimeout() && pool.executor.getPoolSize() == 1) {
                pool.awaitIdle(running(pool));
            }
            return "queued job " + job.number;
        }
        return began(job) ? "started job " + job.number : "lost job " + job.number;
    }

    private long running(GatedPool pool) {
        return jobs.stream().filter(job -> poolOf(job.of) == pool && runs(job)).count();
    }

    private static boolean began(Job job) throws InterruptedException {
        return job.begun.await(Rest.MILLISECONDS, TimeUnit.MILLISECONDS);
    }

    private String end(Actor actor) throws InterruptedException {
        if (!(actor instanceof Job job)) {
            actor.send(Actor.Order.ACT);
            for (long turns = 0; actor.atEnd() && !actor.body.isEmpty(); turns++) {
                Rest.within(turns);
                TimeUnit.MICROSECONDS.sleep(50);
            }
            return "looped";
        }
        Gate gate = poolOf(job.of).gate;
        int idle = gate.idle();
        job.send(Actor.Order.ACT);
        gate.awaitIdle(idle + 1);
        return job.future.isDone() ? "finished job " + job.number : "unfinished job " + job.number;
    }

    private String take(GatedPool pool) throws InterruptedException {
        if (pool.gate.idle() == 0 || pool.queued() == 0) {
            return NOT_POSSIBLE;
        }
        List<Job> waiting = jobs.stream().filter(pool::isQueued).toList();
        pool.gate.giveHead();
        for (long turns = 0;; turns++) {
            for (Job job : waiting) {
                if (job.begun.await(turns == 0 ? 0 : 100, TimeUnit.MICROSECONDS)) {
                    return "took job " + job.number;
                }
            }
            Rest.within(turns);
        }
    }

    private String retire(GatedPool pool) throws InterruptedException {
        if (pool.gate.idle() == 0 || !pool.gate.timeOut(pool.executor)) {
            return NOT_POSSIBLE;
        }
        pool.awaitEnded();
        return "retired";
    }

    // ---- the observed state of the executors

    /** Returns whether each of these jobs waits only for others among them. Reads the states of the pools and the futures. */
    private String stuck(String[] words) {
        Set<Integer> members = new TreeSet<>();
        for (int at = 1; at < words.length; at++) {
            members.add(Integer.parseInt(words[at]));
        }
        return members.stream().allMatch(number -> number < jobs.size() && waits(jobs.get(number), members)) ? "stuck yes" : "stuck no";
    }

    private boolean waits(Job job, Set<Integer> members) {
        GatedPool pool = poolOf(job.of);
        if (pool.isQueued(job)) {
            return pool.gate.idle() == 0
                    && jobs.stream().filter(other -> poolOf(other.of) == pool && runs(other)).allMatch(other -> members.contains(other.number));
        }
        return !job.future.isDone() && job.isAt('g') && job.awaited() != null && members.contains(job.awaited().number);
    }

    List<String> counts() {
        List<String> lines = new ArrayList<>();
        boolean mayReject = plan.pools().stream().anyMatch(Plan.Pool::mayReject);
        lines.add("refusals " + refusals + (mayReject ? ", rejected " + rejections : "") + ", unfinished " + unfinished());
        pools.forEach(pool -> lines.add(pool.counts()));
        return lines;
    }

    // ---- the end: all jobs run freely, and no client acts

    boolean runsFree() {
        return free;
    }

    synchronized boolean leavesOut() {
        return chance.nextDouble() < leaves;
    }

    synchronized void refusedFree() {
        refusals++;
    }

    synchronized void submittedFree(Job job) {
        jobs.add(job);
    }

    /**
     * Lets jobs and threads run until all jobs are done or no thread makes progress. Core threads that may time out then do so
     * soon.
     */
    String runFree(double part) throws InterruptedException {
        leaves = part;
        free = true;
        for (Job job : List.copyOf(jobs)) {
            if (runs(job)) {
                job.send(Actor.Order.RUN_FREE);
            }
        }
        pools.forEach(GatedPool::open);
        int still = 0;
        for (long turns = 0; unfinished() > 0 && still < 100; turns++) {
            Rest.within(turns);
            TimeUnit.MILLISECONDS.sleep(1);
            still = allThreadsWait() ? still + 1 : 0;
        }
        synchronized (this) {
            return "then refusals " + refusals + ", unfinished " + unfinished();
        }
    }

    private synchronized long unfinished() {
        return jobs.stream().filter(job -> !job.future.isDone()).count();
    }

    private boolean allThreadsWait() {
        synchronized (poolThreads) {
            return poolThreads.stream().allMatch(thread -> switch (thread.getState()) {
                case WAITING, TIMED_WAITING, TERMINATED -> true;
                default -> false;
            });
        }
    }

    void close() {
        clientThreads.forEach(Thread::interrupt);
        pools.forEach(pool -> pool.executor.shutdownNow());
    }
}
