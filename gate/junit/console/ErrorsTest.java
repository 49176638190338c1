import java.util.Map;
import org.junit.jupiter.api.*;
@TestMethodOrder(MethodOrderer.MethodName.class)
class ErrorsTest {
    @Test void a(TestReporter reporter) { reporter.publishEntry(Map.of("\uD83D", "v", "\uDE00", "v")); }
    @Test void b() { System.err.println("of b"); }
}
