package sizing;

import static org.junit.jupiter.api.Assertions.assertEquals;

import org.junit.jupiter.api.Test;

/** Tests of the names of docs/RECORDING.md. */
class NamesTest {
    private static final class PriceQuery {}

    @Test
    void labelsBecomeSnakeCase() throws Exception {
        assertEquals("price", Names.of("price"));
        assertEquals("price_query", Names.of("PriceQuery"));
        assertEquals("http", Names.of("HTTP"));
        assertEquals("a1_b", Names.of("a1B"));
        assertEquals("get_orders_id", Names.of("GET /orders/{id}"));
        assertEquals("caf_noir", Names.of("café noir"));
        assertEquals("a_b_c", Names.of("a\nb\tc"));
        assertEquals("lives", Names.of("_9 lives"));
        assertEquals("price_2", Names.of("price_2"));
    }

    @Test
    void aLabelWithoutLettersBecomesUnnamed() throws Exception {
        assertEquals("unnamed", Names.of(""));
        assertEquals("unnamed", Names.of("42"));
        assertEquals("unnamed", Names.of("日本"));
    }

    @Test
    void namesAreCutTo28CharactersWithoutATrailingUnderscore() throws Exception {
        assertEquals("a".repeat(28), Names.of("a".repeat(40)));
        assertEquals("a".repeat(27), Names.of("a".repeat(27) + " b"));
    }

    @Test
    void namesAreCutSoThatASuffixFits() throws Exception {
        assertEquals("chain_after_end", Names.of("chain", "_after_end"));
        assertEquals("a".repeat(18) + "_after_end", Names.of("a".repeat(18), "_after_end"));
        assertEquals("a".repeat(18) + "_after_end", Names.of("a".repeat(28), "_after_end"));
        assertEquals("a".repeat(17) + "_after_end", Names.of("a".repeat(17) + "_b", "_after_end"));
        assertEquals("a".repeat(18) + "_after_end", Names.of(Names.of("a".repeat(28), "_after_end")));
        assertEquals("unnamed_after_end", Names.of(new Names.OfThread("17"), "_after_end"));
    }

    @Test
    void threadNamesLoseTheirDigits() throws Exception {
        assertEquals("http_nio_exec", Names.of(new Names.OfThread("http-nio-8080-exec-7")));
        assertEquals("pool_thread", Names.of(new Names.OfThread("pool-1-thread-12")));
        assertEquals("unnamed", Names.of(new Names.OfThread("17")));
    }

    @Test
    void classesAreNamedAfterTheirSimpleOrEnclosingName() throws Exception {
        Runnable lambda = () -> {};
        Object anonymous = new Object() {};
        final class Local {}
        assertEquals("price_query", Names.of(PriceQuery.class));
        assertEquals("thread", Names.of(Thread.class));
        assertEquals("names_test", Names.of(lambda.getClass()));
        assertEquals("names_test", Names.of(anonymous.getClass()));
        assertEquals("local", Names.of(Local.class));
    }
}
