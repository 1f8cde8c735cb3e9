package sizing;

import java.util.ArrayList;
import java.util.HashMap;
import java.util.List;
import java.util.Map;
import java.util.Optional;

/** The bodies of a plan. They decide which handlers a pool with {@code may_reject} may have. */
final class PlanBodies {
    /** The body of a class or of clients. Clients have no pool. */
    private record Body(String kind, String name, String pool, List<String[]> actions) {}

    private final Map<String, String> poolOfClass = new HashMap<>();
    private final List<Body> bodies = new ArrayList<>();

    PlanBodies(Map<String, Object> plan) {
        for (Object table : PlanPool.tables(plan, "class")) {
            String name = text(table, "class", "name");
            String pool = text(table, "class", "pool");
            poolOfClass.put(name, pool);
            bodies.add(new Body("class", name, pool, actions(table, "class")));
        }
        for (Object table : PlanPool.tables(plan, "client")) {
            bodies.add(new Body("client", text(table, "client", "name"), null, actions(table, "client")));
        }
    }

    /** Returns the names of the classes of the pool whose jobs submit or get, in the plan's order. */
    List<String> classesThatSubmitOrGet(String pool) {
        return bodies.stream().filter(body -> pool.equals(body.pool))
                .filter(body -> body.actions.stream().anyMatch(action -> action[0].equals("submit") || action[0].equals("get")))
                .map(Body::name).toList();
    }

    /** Returns the first get of a job of the pool, as {@code client web gets a job of class query}. */
    Optional<String> firstGet(String pool) {
        for (Body body : bodies) {
            Map<String, String> slots = new HashMap<>();
            for (String[] action : body.actions) {
                if (action[0].equals("submit") && action.length == 4) {
                    slots.put(action[3], action[1]);
                }
                String got = action[0].equals("get") && action.length == 2 ? slots.get(action[1]) : null;
                if (got != null && pool.equals(poolOfClass.get(got))) {
                    return Optional.of(body.kind + " " + body.name + " gets a job of class " + got);
                }
            }
        }
        return Optional.empty();
    }

    private static String text(Object table, String kind, String key) {
        if (table instanceof Map<?, ?> map && map.get(key) instanceof String text) {
            return text;
        }
        throw new IllegalArgumentException("invalid " + key + " in " + kind + " " + table);
    }

    private static List<String[]> actions(Object table, String kind) {
        if (table instanceof Map<?, ?> map && map.get("body") instanceof List<?> body && body.stream().allMatch(String.class::isInstance)) {
            return body.stream().map(action -> action.toString().split(" ", -1)).toList();
        }
        throw new IllegalArgumentException("invalid body in " + kind + " " + table);
    }
}
