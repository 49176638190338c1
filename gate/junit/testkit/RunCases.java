package testkit;

import static java.nio.charset.StandardCharsets.UTF_8;
import static testkit.Cases.inThreads;
import static testkit.Cases.launch;
import static testkit.Cases.letters;
import static testkit.Cases.linesOf;
import static testkit.Cases.oneTest;
import static testkit.Cases.oneTestEngine;
import static testkit.Cases.record;
import static testkit.Cases.settings;

import java.io.File;
import java.io.IOException;
import java.net.URL;
import java.net.URLClassLoader;
import java.nio.file.Files;
import java.nio.file.Path;
import java.nio.file.Paths;
import java.nio.file.StandardOpenOption;
import java.util.ArrayList;
import java.util.Arrays;
import java.util.Collections;
import java.util.List;
import java.util.concurrent.CyclicBarrier;

import org.junit.platform.engine.TestDescriptor.Type;
import org.junit.platform.engine.TestExecutionResult;
import org.junit.platform.engine.UniqueId;
import org.junit.platform.engine.reporting.ReportEntry;
import org.junit.platform.launcher.TestExecutionListener;
import org.junit.platform.launcher.TestIdentifier;
import testkit.Cases.Room;
import testkit.Cases.Unreadable;
import testkit.ScriptedEngine.Node;

/** Paths and parameters, runs after and beside each other, and calls that JUnit never makes. It leaves what {@link Cases} says. */
public class RunCases {

    /** How many launches begin at once, and how often. */
    private static final int LAUNCHES = 8;
    private static final int ROUNDS = 20;

    private RunCases() {
    }

    public static void main(String[] arguments) throws Exception {
        Cases.main(RunCases.class, arguments);
    }

    /** The constructor's path counts, and the parameter's stamps. */
    private static void parameters(Room room) {
        RecordListener listener = new RecordListener(room.path());
        launch(listener, settings("testkit.record", room.path() + ".other", "testkit.stamps", "positions"), oneTestEngine());
        room.fact("whole", listener.isWhole());
        room.fact("other", Files.exists(Paths.get(room.path() + ".other")));
    }

    private static void unknownStamps(Room room) {
        launch(new RecordListener(), settings("testkit.record", room.path(), "testkit.stamps", "position"), oneTestEngine());
    }

    /** Runs that nobody records, of whose odd texts nothing is said. */
    private static void noPath(Room room) {
        RecordListener listener = new RecordListener();
        launch(listener, Collections.emptyMap(), oneTestEngine());
        launch(listener, settings("testkit.record", ""), oneTestEngine());
        launch(new RecordListener(""), Cases::oneTest, Cases::playOneTest);
        launch(listener, Cases::oneTest, (calls, root) -> {
            calls.start(root);
            calls.report(root, "\uD83D", "first", "\uDE00", "second");
            calls.register(root, "\uD83D", "dynamic", Type.TEST);
            calls.fail(root.child(0), new Unreadable());
            calls.succeed(root);
        });
        room.fact("whole", listener.isWhole());
        room.fact("whole", new RecordListener(room.path()).isWhole());
    }

    /** Two runs whose path has the process and letters, in folders that aren't there. */
    private static void processNumber(Room room) throws IOException {
        Path folder = Paths.get(room.folder, room.name + ".d", "" + ProcessHandle.current().pid());
        for (int run = 1; run <= 2; run++) {
            launch(new RecordListener(room.folder + "/" + room.name + ".d/%p/%p.%r.%"), Cases::oneTest, Cases::playOneTest);
        }
        String[] found = folder.toFile().list();
        room.fact("differ", found.length == 2 && Arrays.stream(found).allMatch(it -> it.matches("[0-9]+[.][a-z]{8}[.]%")));
        Files.move(folder.resolve(found[0]), Paths.get(room.path()));
    }

    /** Paths where no record may be: no path, a folder, below a file, files of somebody else, and a pipe, which nobody reads. */
    private static void badPaths(Room room) throws Exception {
        Path folder = Files.createDirectory(Paths.get(room.folder, room.name + ".d"));
        Files.write(folder.resolve("pom.xml"), "<project/>\n".getBytes(UTF_8));
        Files.write(folder.resolve("begins"), "testkit-record".getBytes(UTF_8));
        new ProcessBuilder("mkfifo", folder.resolve("pipe").toString()).start().waitFor();
        for (String path : new String[] {"a\u0000b", "", "pom.xml/record", "pom.xml", "begins", "pipe"}) {
            RecordListener listener = new RecordListener(path.contains("\u0000") ? path : folder + "/" + path);
            launch(listener, Cases::oneTest, Cases::playOneTest);
            room.fact("whole", listener.isWhole());
        }
        room.fact("kept", linesOf(folder.resolve("pom.xml").toFile()) + linesOf(folder.resolve("begins").toFile()));
        // (what was refused isn't taken)
        Files.write(folder.resolve("begins"), "testkit-record|".getBytes(UTF_8));
        launch(new RecordListener(folder + "/begins"), Cases::oneTest, Cases::playOneTest);
        room.fact("replaced", linesOf(folder.resolve("begins").toFile()));
    }

    /** Records of earlier processes: at the path of this one, and at a number. */
    private static void earlierRecords(Room room) throws IOException {
        for (String path : new String[] {room.path(), room.path() + ".1"}) {
            Files.write(Paths.get(path), Collections.nCopies(100, "testkit-record|0"));
        }
        launch(new RecordListener(room.path()), Cases::oneTest, (calls, root) -> calls.skip(root, "in its place"));
        launch(new RecordListener(room.path() + ".%n"), Cases::oneTest, (calls, root) -> calls.skip(root, "beside it"));
        room.fact("kept", linesOf(new File(room.path() + ".1")));
        Files.delete(Paths.get(room.path() + ".1"));
    }

    /** Runs of two copies of the listener's class, as of two builds in one process. */
    private static void twoClassLoaders(Room room) throws Exception {
        for (String reason : new String[] {"first", "second"}) {
            try (URLClassLoader loader = new URLClassLoader(new URL[] {RecordListener.class.getProtectionDomain().getCodeSource().getLocation()}) {
                @Override
                protected Class<?> loadClass(String name, boolean resolve) throws ClassNotFoundException {
                    return name.startsWith("testkit.Record") && findLoadedClass(name) == null ? findClass(name) : super.loadClass(name, resolve);
                }
            }) {
                Class<?> listener = loader.loadClass("testkit.RecordListener");
                room.fact("same", listener == RecordListener.class);
                for (String path : new String[] {room.path(), room.path() + ".%n"}) {
                    launch((TestExecutionListener) listener.getConstructor(String.class).newInstance(path), Cases::oneTest,
                            (calls, root) -> calls.skip(root, reason));
                }
            }
        }
    }

    /** Records that somebody deletes, replaces or changes while they are written. */
    private static void lostRecords(Room room) throws IOException {
        for (String how : new String[] {"deleted", "replaced", "changed", "continued"}) {
            Path path = Paths.get(room.path() + "." + how);
            RecordListener listener = new RecordListener(path.toString());
            launch(listener, Cases::oneTest, (calls, root) -> {
                calls.start(root);
                if (how.equals("changed")) {
                    Files.write(path, "testkit-record|2\n".getBytes(UTF_8));
                } else if (how.equals("continued")) {
                    // (no event comes after it)
                    Files.write(path, "E".getBytes(UTF_8), StandardOpenOption.APPEND);
                    return;
                } else {
                    Files.delete(path);
                }
                if (how.equals("replaced")) {
                    Files.createFile(path);
                }
                calls.succeed(root);
            });
            room.fact("whole", listener.isWhole());
            Files.deleteIfExists(path);
        }
    }

    /** Two runs of one listener, of which the first is the longer one and ends in a stop. */
    private static void twoRuns(Room room) {
        RecordListener listener = new RecordListener(room.path());
        launch(listener, root -> {
            oneTest(root);
            root.add("t", "2", "two", Type.TEST);
        }, (calls, root) -> {
            calls.start(root);
            calls.onThread(() -> calls.play(root.child(0)));
            calls.play(calls.register(root, "1", "dynamic", Type.TEST));
            calls.report(root.child(0), "k", letters(1_000));
            listener.executionStarted(TestIdentifier.from(new Node(root.getUniqueId().append("t", "3"), "three", Type.TEST)));
        });
        room.fact("whole", listener.isWhole());
        launch(listener, Cases::oneTest, (calls, root) -> {
            calls.onThread(() -> {
                calls.start(root);
                calls.register(root, "0", "of worker 1", Type.TEST);
            });
            calls.play(calls.register(root, "1", "dynamic", Type.TEST));
            calls.succeed(root);
        });
        room.fact("whole", listener.isWhole());
        launch(new RecordListener(room.path()), Cases::oneTest, (calls, root) -> calls.skip(root, "of another listener"));
    }

    /** Runs whose path has a place for their number, the second beside the first; and a path that their third one would have. */
    private static void numberedRuns(Room room) {
        String path = room.folder + File.separator + room.name + ".%n.%n.record";
        launch(new RecordListener(path.replace("%n", "3")), Cases::oneTest, (calls, root) -> calls.skip(root, "by its name"));
        launch(new RecordListener(path), Cases::oneTest, (calls, root) -> {
            launch(new RecordListener(path), Cases::oneTest, (inner, other) -> inner.skip(other, "inside"));
            calls.skip(root, "around");
        });
        launch(new RecordListener(path), Cases::oneTest, (calls, root) -> calls.skip(root, "after"));
    }

    /** A record that is deleted before the next run: its name is free. */
    private static void deletedRecord(Room room) throws IOException {
        launch(new RecordListener(room.path()), Cases::oneTest, (calls, root) -> calls.start(root));
        Files.delete(Paths.get(room.path()));
        launch(new RecordListener(room.path()), Cases::oneTest, Cases::playOneTest);
    }

    /** Two runs at each of some paths without an ending. */
    private static void namesWithoutEndings(Room room) throws IOException {
        Path folder = Files.createDirectory(Paths.get(room.folder, room.name + ".d"));
        for (String name : new String[] {"plain", ".hidden", "two.dots.x"}) {
            launch(new RecordListener(folder.resolve(name).toString()), Cases::oneTest, Cases::playOneTest);
            launch(new RecordListener(folder.resolve(name).toString()), Cases::oneTest, Cases::playOneTest);
        }
        String[] found = folder.toFile().list();
        Arrays.sort(found);
        room.fact("files", String.join(",", found));
    }

    /** Launches in threads that begin at once, at one path. */
    private static void runsAtOnce(Room room) throws InterruptedException {
        String path = room.folder + File.separator + room.name + ".0";
        List<RecordListener> whole = Collections.synchronizedList(new ArrayList<>());
        for (int round = 0; round < ROUNDS; round++) {
            CyclicBarrier begin = new CyclicBarrier(LAUNCHES);
            inThreads(LAUNCHES, i -> {
                RecordListener listener = new RecordListener(path);
                begin.await();
                launch(listener, Cases::oneTest, Cases::playOneTest);
                whole.add(listener);
            });
        }
        int records = 0;
        for (File file : new File(room.folder).listFiles((folder, name) -> name.startsWith(room.name + ".") && !name.endsWith(".messages"))) {
            records += linesOf(file) == 8 ? 1 : 0;
            file.delete();
        }
        room.fact("whole", whole.stream().filter(RecordListener::isWhole).count() == ROUNDS * LAUNCHES);
        room.fact("records", records == ROUNDS * LAUNCHES);
    }

    /** Runs whose listener says which file it takes, if any; and one whose listener is told to be silent. */
    private static void verbose(Room room) {
        launch(new RecordListener(), settings("testkit.record", room.path(), "testkit.verbose", "true"), oneTestEngine());
        launch(new RecordListener(), settings("testkit.verbose", "true"), oneTestEngine());
        launch(new RecordListener(), settings("testkit.verbose", "false"), oneTestEngine());
        launch(new RecordListener("."), settings("testkit.verbose", "true"), oneTestEngine());
    }

    /** Runs at the path that a run writes are recorded beside it, and don't change its record. */
    private static void runInRun(Room room) throws IOException {
        Path link = Paths.get(room.path() + ".link");
        RecordListener outer = new RecordListener(room.path());
        launch(outer, Cases::oneTest, (calls, root) -> {
            calls.start(root);
            Files.createSymbolicLink(link, Paths.get(room.path()).toAbsolutePath());
            String roundabout = room.folder + "/../" + new File(room.folder).getName() + "/run-in-run.record";
            for (String path : new String[] {room.path(), link.toString(), roundabout}) {
                RecordListener inner = new RecordListener(path);
                launch(inner, Cases::oneTest, (calls2, root2) -> calls2.skip(root2, "inside"));
                room.fact("inner-whole", inner.isWhole());
            }
            Files.delete(link);
            calls.play(root.child(0));
            calls.succeed(root);
        });
        room.fact("whole", outer.isWhole());
        RecordListener other = new RecordListener(room.path() + ".copy");
        Files.copy(Paths.get(room.path()), Paths.get(room.path() + ".copy"));
        launch(other, Cases::oneTest, (calls, root) -> calls.start(root));
        room.fact("after", linesOf(new File(room.path() + ".copy")));
    }

    /** A run inside a run with the same listener ends the recording; the next run is recorded. */
    private static void sameListenerInRun(Room room) {
        RecordListener listener = new RecordListener(room.path());
        launch(listener, Cases::oneTest, (calls, root) -> {
            calls.start(root);
            launch(listener, Cases::oneTest, Cases::playOneTest);
            launch(listener, Cases::oneTest, Cases::playOneTest);
            calls.play(root.child(0));
            calls.succeed(root);
        });
        room.fact("whole", listener.isWhole());
        room.fact("lines", linesOf(new File(room.path())));
        launch(listener, Cases::oneTest, Cases::playOneTest);
        room.fact("whole", listener.isWhole());
    }

    /** A listener that is told of an id that nobody registered, as JUnit's launcher never does. */
    private static void unregistered(Room room) {
        RecordListener listener = new RecordListener(room.path());
        launch(listener, Cases::oneTest, (calls, root) -> {
            calls.start(root);
            listener.executionStarted(TestIdentifier.from(root.add("t", "2", "two", Type.TEST)));
            calls.play(root.child(0));
            calls.succeed(root);
        });
        room.fact("whole", listener.isWhole());
    }

    /** Events before a run, and after its end. */
    private static void outsideOfRuns(Room room) throws IOException {
        RecordListener listener = new RecordListener(room.path());
        TestIdentifier test = TestIdentifier.from(new Node(UniqueId.forEngine("e").append("t", "1"), "one", Type.TEST));
        listener.dynamicTestRegistered(test);
        listener.executionStarted(test);
        room.fact("before", Files.exists(Paths.get(room.path())));
        launch(listener, Cases::oneTest, Cases::playOneTest);
        listener.dynamicTestRegistered(test);
        listener.executionStarted(test);
        listener.reportingEntryPublished(test, ReportEntry.from("k", "v"));
        listener.executionFinished(test, TestExecutionResult.successful());
        listener.executionSkipped(test, "over");
        room.fact("whole", listener.isWhole());
    }

    /** A run that waits for a line of input. */
    private static void held(Room room) {
        record(room, Cases::oneTest, (calls, root) -> {
            calls.start(root);
            room.fact("waits", true);
            if (System.in.read() < 0) {
                throw new IOException("no line");
            }
            calls.play(root.child(0));
            calls.succeed(root);
        });
    }

    /** A run at the path of the run {@code held} of another process. */
    private static void otherProcess(Room room) {
        RecordListener listener = new RecordListener(room.folder + File.separator + "held.record");
        launch(listener, Cases::oneTest, Cases::playOneTest);
        room.fact("whole", listener.isWhole());
    }
}
