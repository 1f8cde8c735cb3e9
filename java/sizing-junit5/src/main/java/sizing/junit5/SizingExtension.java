package sizing.junit5;

import java.io.IOException;
import java.net.URISyntaxException;
import java.net.URL;
import java.nio.file.Files;
import java.nio.file.Path;
import java.util.Optional;
import org.junit.jupiter.api.extension.AfterAllCallback;
import org.junit.jupiter.api.extension.BeforeAllCallback;
import org.junit.jupiter.api.extension.ExtensionContext;
import org.junit.jupiter.api.extension.ExtensionContext.Namespace;
import org.junit.jupiter.api.extension.ParameterContext;
import org.junit.jupiter.api.extension.ParameterResolutionException;
import org.junit.jupiter.api.extension.ParameterResolver;
import org.junit.platform.commons.support.AnnotationSupport;
import org.opentest4j.AssertionFailedError;

/** The extension of {@link SizingPlan}. */
final class SizingExtension implements BeforeAllCallback, AfterAllCallback, ParameterResolver {
    private static final Namespace NAMESPACE = Namespace.create(SizingExtension.class);

    @Override
    public void beforeAll(ExtensionContext context) throws Exception {
        Class<?> tests = context.getRequiredTestClass();
        Optional<SizingPlan> annotation = AnnotationSupport.findAnnotation(tests, SizingPlan.class);
        if (annotation.isEmpty()) {
            // a nested class shares the recording of the class around it
            return;
        }
        Path plan = find(tests, annotation.get().value());
        String certificate = annotation.get().certificate();
        if (annotation.get().ask() && certificate.isEmpty()) {
            SizingAssertions.assertSafe(plan);
        } else if (annotation.get().ask()) {
            SizingAssertions.assertSafe(plan, find(tests, certificate));
        }
        Path recording = Files.createDirectories(recordings()).resolve(tests.getName() + ".recording");
        context.getStore(NAMESPACE).put(Sizing.class, new Sizing(plan, recording));
    }

    @Override
    public void afterAll(ExtensionContext context) throws Exception {
        Sizing sizing = context.getStore(NAMESPACE).remove(Sizing.class, Sizing.class);
        if (sizing != null) {
            sizing.close();
            if (sizing.hasPools()) {
                SizingAssertions.assertConforms(sizing.plan(), sizing.recording());
            }
        }
    }

    private static Path recordings() {
        String named = System.getProperty("sizing.recordings");
        if (named != null) {
            return Path.of(named);
        }
        boolean isGradle = Files.isDirectory(Path.of("build")) && !Files.isDirectory(Path.of("target"));
        return Path.of(isGradle ? "build" : "target", "sizing");
    }

    private static Path find(Class<?> tests, String name) throws IOException, URISyntaxException {
        Path file = Path.of(name);
        if (Files.exists(file)) {
            return file;
        }
        URL resource = tests.getClassLoader().getResource(name);
        if (resource == null) {
            throw new AssertionFailedError("no file " + file.toAbsolutePath() + ", and no resource " + name + " on the class path");
        }
        return relative(Path.of(resource.toURI()));
    }

    /** Returns the path relative to the working directory if the file is inside it, for shorter messages. */
    private static Path relative(Path file) {
        Path here = Path.of("").toAbsolutePath();
        return file.startsWith(here) ? here.relativize(file) : file;
    }

    @Override
    public boolean supportsParameter(ParameterContext parameter, ExtensionContext context) {
        return parameter.getParameter().getType() == Sizing.class;
    }

    @Override
    public Object resolveParameter(ParameterContext parameter, ExtensionContext context) {
        Sizing sizing = context.getStore(NAMESPACE).get(Sizing.class, Sizing.class);
        if (sizing == null) {
            throw new ParameterResolutionException("a parameter of type Sizing needs @SizingPlan on the test class");
        }
        return sizing;
    }
}
