package sizing;

/** A task around a recorded one, such as a task of ExecutorCompletionService or a decorated task. */
record WrappedTask(Job job, Runnable task) implements Recorded, Runnable {
    @Override
    public void run() {
        task.run();
    }

    @Override
    public String toString() {
        return job.toString();
    }
}
