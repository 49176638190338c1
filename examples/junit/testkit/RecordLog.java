package testkit;

import java.io.PrintStream;
import java.util.Arrays;
import java.util.logging.Handler;
import java.util.logging.LogRecord;
import java.util.logging.Logger;

/**
 * Says lines by the logger {@code testkit} of java.util.logging.
 *
 * <p>At the first line the logger gets a handler, which writes on one stream, and its lines go to no handler of another logger any more: so
 * JUL's configuration makes no file and no handler on our account. Until then nothing of java.util.logging is touched.
 */
final class RecordLog {

    private static final String NAME = "testkit";

    private final PrintStream errors;

    /** Makes a log that writes on this stream, whatever standard error is when it says a line: that may be a test's. */
    RecordLog(PrintStream errors) {
        this.errors = errors;
    }

    /** Writes each line on a stream. */
    private static final class Lines extends Handler {

        private final PrintStream errors;

        Lines(PrintStream errors) {
            this.errors = errors;
        }

        @Override
        public void publish(LogRecord line) {
            if (isLoggable(line)) {
                errors.println(NAME + ": " + line.getMessage());
            }
        }

        @Override
        public void flush() {
            errors.flush();
        }

        @Override
        public void close() {
        }
    }

    /** Says a line, for a thread that has no lock of ours. */
    void say(LogRecord line) {
        try {
            line.setLoggerName(NAME);
            line.setSourceClassName(RecordListener.class.getName());
            logger().log(line);
        } catch (Throwable fault) {
            // (a handler that fails, as one of a test may: then nobody is told, and what is recorded doesn't depend on it)
        }
    }

    /** Returns the logger, with one handler of ours, whichever class loader has it. The text is one object for all of them. */
    private Logger logger() {
        Logger logger = Logger.getLogger(NAME);
        synchronized (NAME) {
            if (Arrays.stream(logger.getHandlers()).noneMatch(it -> it.getClass().getName().equals(Lines.class.getName()))) {
                logger.setUseParentHandlers(false);
                logger.addHandler(new Lines(errors));
            }
        }
        return logger;
    }
}
