package sizing.spring;

import java.io.IOException;
import java.io.UncheckedIOException;
import java.nio.file.Path;
import java.util.HashMap;
import java.util.LinkedHashMap;
import java.util.List;
import java.util.Map;
import java.util.Objects;
import java.util.concurrent.ThreadPoolExecutor;
import java.util.function.UnaryOperator;
import org.springframework.beans.BeansException;
import org.springframework.beans.DirectFieldAccessor;
import org.springframework.beans.factory.DisposableBean;
import org.springframework.beans.factory.SmartInitializingSingleton;
import org.springframework.beans.factory.config.BeanPostProcessor;
import org.springframework.core.task.TaskDecorator;
import org.springframework.scheduling.concurrent.ThreadPoolTaskExecutor;
import sizing.PlanCheck;
import sizing.PlanMismatchException;
import sizing.Recorder;

/**
 * A post-processor that compares the executor beans of a context with the pools of a plan when the context starts. If they
 * differ, the start fails with a {@link PlanMismatchException}, whose message has a line for each difference. With a recorder it
 * also records the beans.
 *
 * <pre>{@code
 * @Bean static SizingBeans sizing() {
 *     return new SizingBeans(Path.of("service.toml")).pool("tasks", "applicationTaskExecutor");
 * }
 * }</pre>
 *
 * <p>A bean is a pool of the plan if it has the pool's name, or if {@link #pool} says so. It is a {@code ThreadPoolTaskExecutor}
 * or a {@code ThreadPoolExecutor}. Other beans are left alone.
 *
 * <p>A recorded {@code ThreadPoolTaskExecutor} stays one. Its {@code TaskDecorator} runs before a submit is recorded, so it may
 * acquire a permit. A recorded {@code ThreadPoolExecutor} becomes an {@code ExecutorService}, so inject it as one. Use
 * {@link AsyncLabels} for {@code @Async} methods. The recorder is closed with the context.
 *
 * <p>Declare it as a static bean, so that Spring creates it before the executors. It was tried with Spring 4.3, and uses only
 * methods that Spring 5 and 6 also have.
 */
public final class SizingBeans implements BeanPostProcessor, SmartInitializingSingleton, DisposableBean {
    private final Path plan;
    private final Recorder recorder;
    private final List<String> poolNames;
    private final Map<String, String> poolsOfBeans = new HashMap<>();
    private final Map<String, TaskDecorator> decorators = new HashMap<>();
    private final Map<String, ThreadPoolExecutor> executors = new LinkedHashMap<>();

    /**
     * Creates a post-processor that compares the executors and records nothing.
     *
     * @throws IllegalArgumentException if the plan is not readable
     */
    public SizingBeans(Path plan) {
        this(plan, null);
    }

    /**
     * Creates a post-processor that compares the executors and records their use until the context is closed.
     *
     * @throws IllegalArgumentException if the plan is not readable
     */
    public SizingBeans(Path plan, Recorder recorder) {
        this.plan = plan;
        this.recorder = recorder;
        try {
            poolNames = PlanCheck.poolNames(plan);
        } catch (IOException failed) {
            throw new UncheckedIOException(failed);
        }
    }

    /** Sets the bean of a pool whose name differs from the pool's, and returns this. */
    public SizingBeans pool(String pool, String bean) {
        poolsOfBeans.put(Objects.requireNonNull(bean), Objects.requireNonNull(pool));
        return this;
    }

    private String poolOf(String bean) {
        String named = poolsOfBeans.get(bean);
        return named == null && poolNames.contains(bean) && !poolsOfBeans.containsValue(bean) ? bean : named;
    }

    /** Removes and keeps the decorator of a bean that will be recorded, before the bean creates its executor. */
    @Override
    public Object postProcessBeforeInitialization(Object bean, String name) throws BeansException {
        if (recorder != null && poolOf(name) != null && bean instanceof ThreadPoolTaskExecutor executor) {
            DirectFieldAccessor fields = new DirectFieldAccessor(executor);
            if (fields.isReadableProperty("taskDecorator") && fields.getPropertyValue("taskDecorator") instanceof TaskDecorator decorator) {
                decorators.put(name, decorator);
                executor.setTaskDecorator(null);
            }
        }
        return bean;
    }

    /** Replaces a bean that is a pool of the plan with a recorded view of it, if there is a recorder. */
    @Override
    public Object postProcessAfterInitialization(Object bean, String name) throws BeansException {
        String pool = poolOf(name);
        if (pool == null) {
            return bean;
        }
        if (bean instanceof ThreadPoolTaskExecutor executor) {
            executors.put(pool, executor.getThreadPoolExecutor());
            if (recorder == null) {
                return bean;
            }
            TaskDecorator decorator = decorators.get(name);
            UnaryOperator<Runnable> decorating = decorator == null ? UnaryOperator.identity() : decorator::decorate;
            return new RecordedTaskExecutor(executor, recorder.pool(pool, executor.getThreadPoolExecutor(), decorating));
        }
        if (bean instanceof ThreadPoolExecutor executor) {
            executors.put(pool, executor);
            return recorder == null ? bean : recorder.pool(pool, executor);
        }
        throw new IllegalStateException("bean " + name + " is pool " + pool + " of the plan, but " + bean.getClass().getName()
                + " is not a ThreadPoolTaskExecutor or a ThreadPoolExecutor");
    }

    /**
     * Compares the executors once all singletons are created.
     *
     * @throws PlanMismatchException if the executors differ from the pools of the plan
     */
    @Override
    public void afterSingletonsInstantiated() {
        try {
            PlanCheck.check(plan, executors);
        } catch (IOException failed) {
            throw new UncheckedIOException(failed);
        }
    }

    /** Closes the recorder, if there is one. */
    @Override
    public void destroy() throws IOException {
        if (recorder != null) {
            recorder.close();
        }
    }
}
