import java.io.*;
import java.util.logging.Logger;
import org.junit.jupiter.api.*;
import org.junit.jupiter.api.extension.*;
class LoggingTest implements BeforeEachCallback {
    static boolean logs;
    @RegisterExtension LoggingTest self = this;
    public void beforeEach(ExtensionContext context) { logs = context.getConfigurationParameter("logs").isPresent(); }
    @Test void findsItsStream() {
        if (!logs) return;
        PrintStream errors = System.err;
        ByteArrayOutputStream buffer = new ByteArrayOutputStream();
        System.setErr(new PrintStream(buffer, true));
        Logger.getLogger("of.the.test").warning("a line");
        System.setErr(errors);
        Assertions.assertTrue(buffer.toString().contains("a line"), buffer.toString());
    }
}
