package sizing;

import java.lang.reflect.Field;
import java.util.HashMap;
import java.util.Map;
import java.util.concurrent.CompletableFuture;

/** Private fields of classes in {@code java.util.concurrent}, if that package is open to this one. */
final class JdkFields {
    private static final ClassValue<Map<String, Field>> OF_CLASS = new ClassValue<>() {
        @Override
        protected Map<String, Field> computeValue(Class<?> type) {
            Map<String, Field> fields = new HashMap<>();
            for (Class<?> each = type; each != null && each != Object.class; each = each.getSuperclass()) {
                for (Field field : each.getDeclaredFields()) {
                    if (field.trySetAccessible()) {
                        fields.putIfAbsent(field.getName(), field);
                    }
                }
            }
            return fields;
        }
    };

    private JdkFields() {}

    /** Returns the name of the module for the option {@code --add-opens}. */
    static String moduleName() {
        Module module = JdkFields.class.getModule();
        return module.isNamed() ? module.getName() : "ALL-UNNAMED";
    }

    static boolean areOpen() {
        return OF_CLASS.get(CompletableFuture.class).containsKey("stack");
    }

    /** Returns the value of a field, or null if there is no such field or it is not readable. */
    static Object get(Object object, String name) {
        Field field = OF_CLASS.get(object.getClass()).get(name);
        try {
            return field == null ? null : field.get(object);
        } catch (IllegalAccessException closed) {
            throw new AssertionError(closed);
        }
    }

    static void set(Object object, String name, Object value) {
        try {
            OF_CLASS.get(object.getClass()).get(name).set(object, value);
        } catch (IllegalAccessException closed) {
            throw new AssertionError(closed);
        }
    }
}
