package services;

import java.nio.file.Path;

/** A program that runs services in order. */
final class Services {
    interface Service {
        void begin(Run run);
    }

    private Services() {}

    /** Runs services. Takes three arguments for each run: the service, the slip, and the file of the recording. */
    public static void main(String[] words) throws Exception {
        for (int at = 0; at < words.length; at += 3) {
            Run run = new Run(Path.of(words[at + 2]), words[at + 1]);
            named(words[at]).begin(run);
            run.toItsEnd();
            System.out.println(words[at] + " " + words[at + 1]);
        }
    }

    static Service named(String name) {
        return switch (name) {
            case "web-and-database" -> new WebAndDatabase(6, 8);
            case "example" -> new WebAndDatabase(2, 2);
            case "reports" -> new Reports();
            case "orders" -> new Orders();
            case "importer" -> new Importer();
            case "hurried-prices" -> new HurriedPrices();
            case "fixed-pools" -> new FixedPools();
            case "spring-boot" -> new SpringBoot();
            default -> throw new IllegalArgumentException(name);
        };
    }
}
