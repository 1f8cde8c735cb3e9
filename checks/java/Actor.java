import java.util.List;
import java.util.concurrent.CompletableFuture;
import java.util.concurrent.ExecutionException;
import java.util.concurrent.Future;
import java.util.concurrent.RejectedExecutionException;
import java.util.concurrent.SynchronousQueue;
import java.util.concurrent.TimeUnit;

/** A client or a job, with a thread of its own that makes one step for each order of the driver. */
class Actor {
    enum Order { ACT, LEAVE_OUT, RUN_FREE }

    private static final ThreadLocal<Actor> CURRENT = new ThreadLocal<>();
    private final SynchronousQueue<Order> orders = new SynchronousQueue<>();
    private final SynchronousQueue<String> answers = new SynchronousQueue<>();
    final Replay replay;
    final List<Plan.Action> body;
    final Job[] submitted;
    volatile int position;
    volatile boolean within;
    private boolean free;

    Actor(Replay replay, List<Plan.Action> body) {
        this.replay = replay;
        this.body = body;
        this.submitted = new Job[body.size()];
    }

    // ---- called by the driver

    /** Orders one step and returns its outcome. */
    String step(Order order) throws InterruptedException {
        send(order);
        String answer = answers.poll(Rest.MILLISECONDS, TimeUnit.MILLISECONDS);
        if (answer == null) {
            throw new IllegalStateException("an actor did not answer within 10 seconds");
        }
        return answer;
    }

    void send(Order order) throws InterruptedException {
        if (!orders.offer(order, Rest.MILLISECONDS, TimeUnit.MILLISECONDS)) {
            throw new IllegalStateException("an actor did not wait for an order within 10 seconds");
        }
    }

    boolean atEnd() {
        return position == body.size();
    }

    boolean isAt(char what) {
        return !atEnd() && body.get(position).what() == what;
    }

    /** Returns the job that the next action gets, or null if its submit was skipped. */
    Job awaited() {
        return submitted[body.get(position).operand()];
    }

    // ---- on the actor's own thread

    /** Runs the body from the current position: one step for each order, or all of it at once if {@code freely}. */
    void go(boolean freely) throws InterruptedException, ExecutionException {
        CURRENT.set(this);
        free = freely;
        Order order = nextOrder();
        while (!atEnd()) {
            order = rest(act(order));
        }
    }

    private String act(Order order) throws InterruptedException, ExecutionException {
        Plan.Action action = body.get(position);
        String answer = switch (action.what()) {
            case 's' -> order == Order.LEAVE_OUT || free && replay.leavesOut() ? leaveOut() : submit(action.operand());
            case 'g' -> get(submitted[action.operand()]);
            default -> "worked " + action.operand();
        };
        if (!answer.equals("refused")) {
            position++;
        }
        return answer;
    }

    private String leaveOut() {
        submitted[position] = null;
        return "left out";
    }

    private String submit(int number) {
        Job job = new Job(replay, number);
        try {
            job.future = replay.poolOf(number).executor.submit(job);
        } catch (RejectedExecutionException refused) {
            if (replay.poolOf(number).pool.mayReject()) {
                job.future = CompletableFuture.completedFuture(job);
                return submitted(job, "rejected");
            }
            if (free) {
                replay.refusedFree();
                throw refused;
            }
            return "refused";
        } finally {
            within = false;
        }
        return submitted(job, "submitted");
    }

    private String submitted(Job job, String outcome) {
        submitted[position] = job;
        if (free) {
            replay.submittedFree(job);
        }
        return outcome;
    }

    private static String get(Job job) throws InterruptedException, ExecutionException {
        if (job == null) {
            return "passed";
        }
        Future<Job> future = job.future;
        return "got job " + future.get().number;
    }

    /** Pauses the actor within a submit, if the replay splits submits into steps. */
    static void pause(String where) {
        Actor actor = CURRENT.get();
        if (actor == null || !actor.replay.inSteps || actor.free) {
            return;
        }
        actor.within = true;
        try {
            actor.rest(where);
        } catch (InterruptedException over) {
            Thread.currentThread().interrupt();
        }
    }

    private Order rest(String answer) throws InterruptedException {
        if (!free) {
            answers.put(answer);
        }
        return nextOrder();
    }

    private Order nextOrder() throws InterruptedException {
        Order order = free ? Order.RUN_FREE : orders.take();
        free = order == Order.RUN_FREE;
        return order;
    }
}
