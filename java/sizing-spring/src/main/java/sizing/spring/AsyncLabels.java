package sizing.spring;

import org.aopalliance.intercept.MethodInterceptor;
import org.springframework.aop.framework.autoproxy.AbstractBeanFactoryAwareAdvisingPostProcessor;
import org.springframework.aop.support.ComposablePointcut;
import org.springframework.aop.support.DefaultPointcutAdvisor;
import org.springframework.aop.support.annotation.AnnotationMatchingPointcut;
import org.springframework.core.Ordered;
import org.springframework.scheduling.annotation.Async;

/**
 * A post-processor that labels the job of each {@code @Async} method with the name of the method. Declare it as a static bean
 * beside a {@link SizingBeans} that records. Without it, the class of all such jobs is named after Spring's own code.
 *
 * <pre>{@code
 * @Bean static AsyncLabels labels() {
 *     return new AsyncLabels();
 * }
 * }</pre>
 */
public final class AsyncLabels extends AbstractBeanFactoryAwareAdvisingPostProcessor {
    private static final long serialVersionUID = 1;
    /** The label of the submit that this thread makes for an {@code @Async} method. */
    private static final ThreadLocal<String> LABEL = new ThreadLocal<>();

    /** Creates the post-processor. */
    public AsyncLabels() {
        setBeforeExistingAdvisors(true);
        setOrder(Ordered.LOWEST_PRECEDENCE);
        MethodInterceptor labelling = call -> {
            String before = LABEL.get();
            LABEL.set(call.getMethod().getName());
            try {
                return call.proceed();
            } finally {
                restore(before);
            }
        };
        advisor = new DefaultPointcutAdvisor(new ComposablePointcut(AnnotationMatchingPointcut.forMethodAnnotation(Async.class))
                .union(AnnotationMatchingPointcut.forClassAnnotation(Async.class)), labelling);
    }

    private static void restore(String before) {
        if (before == null) {
            LABEL.remove();
        } else {
            LABEL.set(before);
        }
    }

    /** Returns the label for the next submit of this thread, or null. */
    static String current() {
        return LABEL.get();
    }
}
