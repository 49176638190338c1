package testkit;

import java.io.File;
import java.io.IOException;
import java.io.PrintStream;
import java.io.UncheckedIOException;
import java.lang.reflect.Method;
import java.nio.file.Files;
import java.time.Instant;
import java.time.temporal.ChronoUnit;
import java.util.ArrayList;
import java.util.Collections;
import java.util.LinkedHashMap;
import java.util.List;
import java.util.Map;
import java.util.concurrent.CountDownLatch;
import java.util.concurrent.TimeUnit;
import java.util.function.Consumer;
import java.util.logging.Handler;
import java.util.logging.LogManager;
import java.util.logging.LogRecord;
import java.util.logging.Logger;

import org.junit.platform.engine.TestDescriptor.Type;
import org.junit.platform.engine.TestEngine;
import org.junit.platform.launcher.Launcher;
import org.junit.platform.launcher.TestExecutionListener;
import org.junit.platform.launcher.core.LauncherConfig;
import org.junit.platform.launcher.core.LauncherDiscoveryRequestBuilder;
import org.junit.platform.launcher.core.LauncherFactory;
import testkit.ScriptedEngine.Calls;
import testkit.ScriptedEngine.Node;
import testkit.ScriptedEngine.Script;
import testkit.ScriptedEngine.Tree;

/**
 * What the cases share, which are runs of small engines, each recorded, that do what Jupiter seldom or never does.
 *
 * <p>A class of cases with the words {@code FOLDER NAME..} leaves of each case a record, what was logged or went to standard error as
 * {@code NAME.messages}, and on standard output lines {@code NAME FACT VALUE}. {@code expected.txt} says what has to come.
 */
class Cases {

    private Cases() {
    }

    /** Where a case leaves what it made. */
    static class Room {

        final String folder;
        final String name;

        Room(String folder, String name) {
            this.folder = folder;
            this.name = name;
        }

        /** Returns the path of the case's record. */
        String path() {
            return folder + File.separator + name + ".record";
        }

        /** Returns one more where the case passes a limit that another one reaches. */
        int atLimit(int limit) {
            return name.startsWith("too-many-") ? limit + 1 : limit;
        }

        void fact(String word, Object value) {
            System.out.println(name + " " + word + " " + value);
        }
    }

    /** A throwable whose message can't be had. */
    static class Unreadable extends RuntimeException {

        private static final long serialVersionUID = 1;

        @Override
        public String getMessage() {
            throw new IllegalStateException("no message");
        }
    }

    /** A handler that does something with each message. */
    static class Handling extends Handler {

        private final Consumer<String> act;

        Handling(Consumer<String> act) {
            this.act = act;
        }

        @Override
        public void publish(LogRecord said) {
            act.accept(said.getMessage());
        }

        @Override
        public void flush() {
        }

        @Override
        public void close() {
        }
    }

    /** What a thread does, by its number. */
    interface Part {
        void run(int number) throws Exception;
    }

    /** Runs the cases {@code arguments[1]} and so on, and leaves what they made in the folder {@code arguments[0]}. */
    static void main(Class<?> cases, String[] arguments) throws Exception {
        // (JUnit logs what it drops)
        LogManager.getLogManager().reset();
        // (the listener's class is there before a case has another standard error)
        new RecordListener();
        for (int i = 1; i < arguments.length; i++) {
            Room room = new Room(arguments[0], arguments[i]);
            // (the method has the name in one word; a limit is reached, or is passed, in one method)
            String name = room.name.replaceFirst("^(most|too-many)-", "many-");
            StringBuilder method = new StringBuilder();
            for (String word : name.split("-")) {
                method.append(method.length() == 0 ? word : word.substring(0, 1).toUpperCase() + word.substring(1));
            }
            Method found = cases.getDeclaredMethod(method.toString(), Room.class);
            found.setAccessible(true);
            run(arguments[0], arguments[i], () -> found.invoke(null, room));
        }
    }

    /** Runs a case, and leaves what was logged and what it wrote on standard error. */
    static void run(String folder, String name, ScriptedEngine.Step step) throws Exception {
        PrintStream errors = System.err;
        Logger logger = Logger.getLogger("testkit");
        try (PrintStream messages = new PrintStream(folder + File.separator + name + ".messages", "UTF-8")) {
            Handler handler = new Handling(text -> messages.println("testkit: " + text));
            logger.addHandler(handler);
            System.setErr(messages);
            long begun = now();
            step.run();
            System.out.println(name + " microseconds " + begun + " " + now());
            logger.removeHandler(handler);
        } finally {
            System.setErr(errors);
        }
    }

    /** Returns the microseconds since 1970. */
    static long now() {
        return ChronoUnit.MICROS.between(Instant.EPOCH, Instant.now());
    }

    /** Runs the engines with this listener; {@code parameters} are names and values of configuration parameters. */
    static void launch(TestExecutionListener listener, Map<String, String> parameters, TestEngine... engines) {
        LauncherConfig config = LauncherConfig.builder().enableTestExecutionListenerAutoRegistration(false)
                .enableTestEngineAutoRegistration(false).addTestEngines(engines).addPostDiscoveryFilters(new RecordLocks()).build();
        Launcher launcher = LauncherFactory.create(config);
        launcher.registerTestExecutionListeners(listener);
        launcher.execute(LauncherDiscoveryRequestBuilder.request().configurationParameters(parameters).build());
    }

    /** Runs one engine with this listener. */
    static void launch(TestExecutionListener listener, Tree tree, Script script) {
        launch(listener, Collections.emptyMap(), new ScriptedEngine("e", "engine", tree, script));
    }

    /** Records a run of one engine at the case's path. */
    static void record(Room room, Tree tree, Script script) {
        RecordListener listener = new RecordListener(room.path());
        launch(listener, tree, script);
        room.fact("whole", listener.isWhole());
    }

    /** Leaves whether another thread can ask the listener now, so that nobody has its lock. */
    static void isFree(Room room, RecordListener listener) {
        Thread other = new Thread(listener::isWhole);
        other.start();
        try {
            other.join(5_000);
        } catch (InterruptedException fault) {
            throw new IllegalStateException(fault);
        }
        room.fact("free", !other.isAlive());
    }

    /** Adds a test. */
    static void oneTest(Node root) {
        root.add("t", "1", "one", Type.TEST);
    }

    /** Starts and finishes the root around its only child. */
    static void playOneTest(Calls calls, Node root) {
        calls.start(root);
        calls.play(root.child(0));
        calls.succeed(root);
    }

    static String letters(int count) {
        return String.join("", Collections.nCopies(count, "x"));
    }

    /** Does this in so many threads at once, and waits for their ends. */
    static void inThreads(int count, Part part) throws InterruptedException {
        List<Thread> threads = new ArrayList<>();
        for (int i = 0; i < count; i++) {
            int number = i;
            threads.add(new Thread(() -> {
                try {
                    part.run(number);
                } catch (Exception fault) {
                    throw new IllegalStateException(fault);
                }
            }));
        }
        threads.forEach(Thread::start);
        for (Thread thread : threads) {
            thread.join();
        }
    }

    static void await(CountDownLatch latch) {
        try {
            latch.await(5, TimeUnit.SECONDS);
        } catch (InterruptedException fault) {
            throw new IllegalStateException(fault);
        }
    }

    static Map<String, String> settings(String... words) {
        Map<String, String> found = new LinkedHashMap<>();
        for (int i = 0; i < words.length; i += 2) {
            found.put(words[i], words[i + 1]);
        }
        return found;
    }

    static TestEngine oneTestEngine() {
        return new ScriptedEngine("e", "engine", Cases::oneTest, Cases::playOneTest);
    }

    /** Lets at least 100 milliseconds pass. */
    static void pause() {
        long begun = System.nanoTime();
        while (System.nanoTime() - begun < 100_000_000) {
            Thread.yield();
        }
    }

    static int linesOf(File file) {
        try {
            return Files.readAllLines(file.toPath()).size();
        } catch (IOException fault) {
            throw new UncheckedIOException(fault);
        }
    }
}
