package sizing.spring;

import java.util.concurrent.Callable;
import java.util.concurrent.ExecutorService;
import java.util.concurrent.Future;
import java.util.concurrent.ThreadPoolExecutor;
import org.springframework.scheduling.concurrent.ThreadPoolTaskExecutor;
import org.springframework.util.concurrent.ListenableFuture;
import org.springframework.util.concurrent.ListenableFutureTask;
import sizing.Recorder;

/** A recorded executor in place of a bean. It records submits, and passes all other calls to the bean. */
final class RecordedTaskExecutor extends ThreadPoolTaskExecutor {
    private static final long serialVersionUID = 1;
    private final transient ThreadPoolTaskExecutor bean;
    private final transient ExecutorService recorded;

    RecordedTaskExecutor(ThreadPoolTaskExecutor bean, ExecutorService recorded) {
        this.bean = bean;
        this.recorded = recorded;
    }

    /** Returns the pool, with the label of the {@code @Async} method that this thread calls, if any. */
    private ExecutorService recorded() {
        String label = AsyncLabels.current();
        return label == null ? recorded : Recorder.label(label, recorded);
    }

    @Override
    public void execute(Runnable task) {
        recorded().execute(task);
    }

    @Override
    public void execute(Runnable task, long startTimeout) {
        recorded().execute(task);
    }

    @Override
    public Future<?> submit(Runnable task) {
        return recorded().submit(task);
    }

    @Override
    public <T> Future<T> submit(Callable<T> task) {
        return recorded().submit(task);
    }

    @Override
    public ListenableFuture<?> submitListenable(Runnable task) {
        ListenableFutureTask<Object> future = new ListenableFutureTask<>(task, null);
        recorded().execute(future);
        return future;
    }

    @Override
    public <T> ListenableFuture<T> submitListenable(Callable<T> task) {
        ListenableFutureTask<T> future = new ListenableFutureTask<>(task);
        recorded().execute(future);
        return future;
    }

    @Override
    public ThreadPoolExecutor getThreadPoolExecutor() {
        return bean.getThreadPoolExecutor();
    }

    @Override
    public int getPoolSize() {
        return bean.getPoolSize();
    }

    @Override
    public int getActiveCount() {
        return bean.getActiveCount();
    }

    @Override
    public int getCorePoolSize() {
        return bean.getCorePoolSize();
    }

    @Override
    public int getMaxPoolSize() {
        return bean.getMaxPoolSize();
    }

    @Override
    public int getKeepAliveSeconds() {
        return bean.getKeepAliveSeconds();
    }

    @Override
    public void setCorePoolSize(int size) {
        bean.setCorePoolSize(size);
    }

    @Override
    public void setMaxPoolSize(int size) {
        bean.setMaxPoolSize(size);
    }

    @Override
    public void setKeepAliveSeconds(int seconds) {
        bean.setKeepAliveSeconds(seconds);
    }

    @Override
    public void shutdown() {
        bean.shutdown();
    }
}
