package sizing.junit5;

import java.lang.annotation.Documented;
import java.lang.annotation.ElementType;
import java.lang.annotation.Inherited;
import java.lang.annotation.Retention;
import java.lang.annotation.RetentionPolicy;
import java.lang.annotation.Target;
import org.junit.jupiter.api.extension.ExtendWith;

/**
 * An annotation for a class whose tests run the service of a plan. Before the tests the plan must be safe
 * ({@code sizing ask --strict}). After them, if a test took a pool from {@link Sizing}, the recording must conform to the plan
 * ({@code sizing conform}).
 *
 * <pre>{@code
 * @SizingPlan("shop.toml")
 * class ShopTest {
 *     @Test
 *     void visitors(Sizing sizing) throws Exception {
 *         Shop shop = new Shop(sizing.pool("web"), sizing.pool("database"));
 *         sizing.clients("visitor", 6, 20, shop::visit);
 *     }
 * }
 * }</pre>
 *
 * <p>The recording is kept as {@code target/sizing/CLASS.recording}, or in the directory that the property
 * {@code sizing.recordings} names. {@link SizingAssertions} describes the search for the program.
 */
@Documented
@Inherited
@Target(ElementType.TYPE)
@Retention(RetentionPolicy.RUNTIME)
@ExtendWith(SizingExtension.class)
public @interface SizingPlan {
    /** Returns the plan: a file, or if there is none of that name, a resource of the test's class path. */
    String value();

    /** Returns the plan's certificate, found as the plan is. With a certificate, {@code ask} makes no search. */
    String certificate() default "";

    /** Returns whether the plan must be safe before the tests run. */
    boolean ask() default true;
}
