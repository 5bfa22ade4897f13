import java.nio.charset.StandardCharsets;
import java.nio.file.Files;
import java.nio.file.Path;
import java.util.List;

/** Runs the scripts of examples/scripts and a round by calls; run with -ea. */
final class DriverTest {
    public static void main(String[] words) throws Exception {
        for (String name : List.of("round", "failover", "late_error", "load_balanced", "pins")) sameLog(Path.of(words[0]), name);
        round();
        refused();
        System.out.println("7 passed");
    }

    private static void sameLog(Path scripts, String name) throws Exception {
        List<String> lines = Files.readAllLines(scripts.resolve(name + ".script"), StandardCharsets.ISO_8859_1);
        StringBuilder log = new StringBuilder();
        try (Driver driver = new Driver(lines.get(0))) {
            log.append(driver.entry());
            for (String line : lines.subList(1, lines.size())) {
                driver.step(line);
                log.append(driver.entry());
            }
        }
        assert log.toString().equals(Files.readString(scripts.resolve(name + ".log"), StandardCharsets.ISO_8859_1)) : name;
    }

    private static void round() {
        try (Driver driver = new Driver("open seeds=a:27017 max=10")) {
            driver.step("hello 1 a:27017 0 ok rtt=5 maxWireVersion=21");
            Driver.Reply asked = driver.step("request 2 1 a:27017");
            assert asked.kind() == Driver.Kind.ESTABLISHING && asked.pool() == 0 && asked.id() == 1;
            assert asked.facts().contains(new Driver.Fact(Driver.FactKind.GRANTED, 0, 0, 1, 1, 0, 0));
            driver.step("established 3 0 1 wire=21");
            assert driver.step("return 4 1 ok").kind() == Driver.Kind.DONE;
        }
    }

    private static void refused() {
        Driver driver = new Driver("open seeds=a:27017");
        assert status(() -> new Driver("open")) == 2;
        assert status(() -> driver.step("reqest 2 1 a:27017")) == 2;
        assert driver.step("return 1 1 ok").kind() == Driver.Kind.REFUSED;
        driver.close();
        assert status(() -> driver.step("stop 2")) == 4;
        driver.close();
    }

    private static int status(Runnable does) {
        try {
            does.run();
            return 0;
        } catch (Driver.MdbException error) {
            return error.status;
        }
    }
}
