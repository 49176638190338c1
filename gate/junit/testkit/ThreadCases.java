package testkit;

import static testkit.Cases.await;
import static testkit.Cases.inThreads;
import static testkit.Cases.isFree;
import static testkit.Cases.launch;
import static testkit.Cases.pause;
import static testkit.Cases.playOneTest;
import static testkit.Cases.record;
import static testkit.Cases.settings;

import java.io.File;
import java.io.IOException;
import java.io.OutputStream;
import java.io.PrintStream;
import java.nio.file.Files;
import java.nio.file.Path;
import java.nio.file.Paths;
import java.security.Security;
import java.util.Arrays;
import java.util.concurrent.CountDownLatch;
import java.util.concurrent.CyclicBarrier;
import java.util.function.Consumer;
import java.util.logging.Handler;
import java.util.logging.Logger;

import org.junit.platform.engine.TestDescriptor.Type;
import org.junit.platform.launcher.TestIdentifier;
import testkit.Cases.Handling;
import testkit.Cases.Room;
import testkit.Cases.Unreadable;
import testkit.ScriptedEngine.Calls;
import testkit.ScriptedEngine.Node;
import testkit.ScriptedEngine.Script;

/** Runs on threads, runs whose throwables do something when they are asked, and clocks. It leaves what {@link Cases} says. */
public class ThreadCases {

    /** How many threads report at once, and how often each. */
    private static final int CROWD = 30;
    private static final int REPORTS = 600;
    /** How many threads forward what they write on standard error. */
    private static final int FORWARDING = 24;

    /** A standard error that makes an entry of each line, as of a test that forwards it to its TestReporter. */
    private static class Forwarding extends OutputStream {

        private final Consumer<String> report;

        Forwarding(Consumer<String> report) {
            this.report = report;
        }

        @Override
        public void write(int letter) {
            report.accept("" + (char) letter);
        }
    }

    /** A throwable that does something when it is asked for its message. */
    private static class Acting extends RuntimeException {

        private static final long serialVersionUID = 1;

        private final transient ScriptedEngine.Step step;

        Acting(ScriptedEngine.Step step) {
            this.step = step;
        }

        @Override
        public String getMessage() {
            try {
                step.run();
            } catch (Exception fault) {
                throw new IllegalStateException(fault);
            }
            return "m";
        }
    }

    /** A listener whose clock falls. */
    private static class FallingClock extends RecordListener {

        private final long[] times = {1, 7_000, 3_000, 0, 7_001, 7_000};
        private int next;

        FallingClock(String path) {
            super(path);
        }

        @Override
        long microseconds() {
            return times[next++];
        }
    }

    /** A listener that fails at its third event, as where no memory is left. */
    private static class FailingClock extends RecordListener {

        private int calls;

        FailingClock(String path) {
            super(path);
        }

        @Override
        long microseconds() {
            if (calls++ == 2) {
                throw new OutOfMemoryError("no memory");
            }
            return super.microseconds();
        }
    }

    private ThreadCases() {
    }

    public static void main(String[] arguments) throws Exception {
        Cases.main(ThreadCases.class, arguments);
    }

    private static void registrations(Room room) {
        record(room, Cases::oneTest, (calls, root) -> {
            calls.start(root);
            Node first = calls.register(root, "1", "first", Type.TEST);
            calls.start(first);
            // The same id once more: what follows has the newer key.
            calls.register(first);
            calls.succeed(first);
            calls.onThread(() -> {
                calls.start(root.child(0));
                Node second = calls.register(root, "2", "second", Type.TEST);
                calls.start(second);
                calls.onThread(() -> calls.succeed(second));
                calls.onThread(() -> calls.play(calls.register(root, "3", "third", Type.TEST)));
                calls.play(calls.register(root, "4", "fourth", Type.TEST));
                calls.register(first);
            });
            calls.play(first);
            // A static id that is registered.
            calls.register(root.child(0));
            calls.succeed(root.child(0));
            calls.onThread(() -> {
                calls.start(first);
                calls.play(first);
            });
            // Who has started twice and finished once keeps no worker.
            calls.onThread(() -> calls.report(first));
            calls.succeed(root);
        });
    }

    /** Threads one after another, one that goes on while another thread has its worker, and sixteen at once. */
    private static void threads(Room room) {
        record(room, Cases::oneTest, (calls, root) -> {
            calls.start(root);
            for (String name : new String[] {"2", "3"}) {
                calls.onThread(() -> {
                    // (a write by a channel would close it here)
                    Thread.currentThread().interrupt();
                    calls.play(calls.register(root, name, "thread " + name, Type.TEST));
                });
            }
            calls.onThread(() -> {
                calls.play(calls.register(root, "first", "first", Type.TEST));
                calls.onThread(() -> calls.start(root.child(0)));
                calls.play(calls.register(root, "moved", "moved", Type.TEST));
                calls.succeed(root.child(0));
            });
            atOnce(calls, root, 2, 16);
            calls.succeed(root);
        });
    }

    /** A thread that runs nothing keeps its worker, though one before it is free. */
    private static void idleThread(Room room) {
        record(room, Cases::oneTest, (calls, root) -> {
            calls.start(root);
            calls.onThread(() -> calls.start(root.child(0)));
            calls.onThread(() -> {
                calls.play(calls.register(root, "1", "first", Type.TEST));
                calls.succeed(root.child(0));
                calls.play(calls.register(root, "2", "second", Type.TEST));
            });
            calls.succeed(root);
        });
    }

    /** Starts descriptors from {@code number} to {@code last}, each in a thread of its own that waits for the later ones. */
    private static void atOnce(Calls calls, Node root, int number, int last) throws InterruptedException {
        if (number > last) {
            calls.report(root.child(0), "all", "run");
            return;
        }
        calls.onThread(() -> {
            Node test = root.add("a", "" + number, "at once " + number, Type.CONTAINER_AND_TEST);
            calls.register(test);
            calls.start(test);
            atOnce(calls, root, number + 1, last);
            calls.succeed(test);
        });
    }

    /** Thirty threads that run, register and report at once. */
    private static void crowd(Room room) {
        RecordListener listener = new RecordListener(room.path());
        launch(listener, settings("testkit.stamps", "positions"), new ScriptedEngine("e", "engine", root -> {
            for (int i = 0; i < CROWD; i++) {
                root.add("t", "" + i, "thread " + i, Type.CONTAINER_AND_TEST);
            }
        }, (calls, root) -> {
            CyclicBarrier allRun = new CyclicBarrier(CROWD);
            inThreads(CROWD, i -> {
                Node test = root.child(i);
                calls.start(test);
                allRun.await();
                for (int report = 0; report < REPORTS; report++) {
                    calls.report(calls.register(test, "" + report, "report " + report, Type.TEST), "number", "" + report);
                }
                allRun.await();
                calls.succeed(test);
            });
        }));
        room.fact("whole", listener.isWhole());
    }

    /**
     * Threads whose standard error goes to the listener, while it says something there: that more than fifteen run.
     * The first thread holds the stream until that is said, and then reports: if it were said under the listener's lock, none would go on.
     */
    private static void forwardedErrors(Room room) {
        PrintStream errors = System.err;
        CountDownLatch isHeld = new CountDownLatch(1);
        CountDownLatch isSaid = new CountDownLatch(1);
        Handler handler = new Handling(text -> {
            isSaid.countDown();
            System.err.println(text);
        });
        record(room, Cases::oneTest, (calls, root) -> {
            Node forwarding = root.child(0);
            Logger.getLogger("testkit").addHandler(handler);
            System.setErr(new PrintStream(new Forwarding(letter -> {
                isHeld.countDown();
                await(isSaid);
                calls.report(forwarding, "letter", letter);
            }), true));
            CyclicBarrier allRun = new CyclicBarrier(FORWARDING);
            inThreads(FORWARDING, i -> {
                Node test;
                synchronized (root) {
                    test = root.add("d", "" + i, "thread " + i, Type.TEST);
                }
                if (i == 0) {
                    System.err.print("x");
                } else {
                    await(isHeld);
                }
                calls.register(test);
                calls.start(test);
                allRun.await();
                System.err.print("y");
                calls.succeed(test);
            });
        });
        System.setErr(errors);
        Logger.getLogger("testkit").removeHandler(handler);
    }

    /** A message that is asked for while another thread has the listener. */
    private static void askedMessage(Room room) {
        RecordListener listener = new RecordListener(room.path());
        launch(listener, Cases::oneTest, (calls, root) -> calls.fail(root, new Unreadable() {

            private static final long serialVersionUID = 1;

            @Override
            public String getMessage() {
                isFree(room, listener);
                return "m";
            }
        }));
    }

    /** A message that can't be had, while a handler refuses each line. */
    private static void refusedMessages(Room room) {
        Handler refusing = new Handling(text -> {
            throw new AssertionError("refused");
        });
        Logger.getLogger("testkit").addHandler(refusing);
        try {
            record(room, Cases::oneTest, (calls, root) -> {
                calls.start(root);
                calls.fail(root.child(0), new Unreadable());
                calls.succeed(root);
            });
        } finally {
            Logger.getLogger("testkit").removeHandler(refusing);
        }
    }

    private static void times(Room room) {
        record(room, Cases::oneTest, (calls, root) -> {
            calls.start(root);
            calls.start(root.child(0));
            pause();
            calls.succeed(root.child(0));
            calls.succeed(root);
        });
    }

    /** The clock that the first run of a process reads and leaves; another one is put in its place, by which it is 1970. */
    private static void clockOfTheProcess(Room room) throws IOException {
        record(room, Cases::oneTest, (calls, root) -> calls.skip(root, "by the clock"));
        String left = Security.getProperty("testkit.clock");
        room.fact("is-read", left != null);
        Security.setProperty("testkit.clock", "" + -System.nanoTime() / 1_000);
        Path path = Paths.get(room.path() + ".1970");
        launch(new RecordListener(path.toString()), Cases::oneTest, (calls, root) -> calls.skip(root, "at the beginning"));
        room.fact("is-followed", Files.readAllLines(path).get(3).matches("E[|]1[|]0[|][0-9]{1,9}[|]skip[|].*"));
        Files.delete(path);
        Security.setProperty("testkit.clock", left);
    }

    private static void fallingClock(Room room) {
        RecordListener listener = new FallingClock(room.path());
        launch(listener, Cases::oneTest, (calls, root) -> {
            calls.start(root);
            calls.onThread(() -> calls.play(root.child(0)));
            calls.play(calls.register(root, "1", "late", Type.TEST));
        });
    }

    /** A recording that ends as the listener fails, while JUnit's run goes on. */
    private static void failingClock(Room room) {
        RecordListener listener = new FailingClock(room.path());
        launch(listener, Cases::oneTest, (calls, root) -> {
            playOneTest(calls, root);
            room.fact("played", true);
        });
        room.fact("whole", listener.isWhole());
    }

    /** A message during which another thread reports: the place and the stamp of the finish are those of its call. */
    private static void slowMessage(Room room) {
        record(room, Cases::oneTest, (calls, root) -> {
            calls.start(root);
            calls.onThread(() -> {
                calls.start(root.child(0));
                calls.fail(root.child(0), new Acting(() -> calls.onThread(() -> {
                    calls.play(calls.register(root, "1", "meanwhile", Type.TEST));
                    room.fact("waits", Cases.linesOf(new File(room.path())));
                    pause();
                })));
            });
            calls.succeed(root);
        });
    }

    /** A message that doesn't come before the run ends: the rest of the record is there. */
    private static void hangingMessage(Room room) throws InterruptedException {
        hang(room, (calls, root) -> {
            calls.play(calls.register(root, "1", "meanwhile", Type.TEST));
            calls.succeed(root);
        });
    }

    /** A recording that ends while a message is asked for: what waits is written. */
    private static void stoppedMessage(Room room) {
        RecordListener listener = new RecordListener(room.path());
        launch(listener, Cases::oneTest, (calls, root) -> {
            calls.start(root);
            calls.fail(root.child(0), new Acting(() -> calls.onThread(() -> {
                calls.report(root, "k", "meanwhile");
                listener.executionStarted(TestIdentifier.from(root.add("t", "2", "two", Type.TEST)));
            })));
            calls.succeed(root);
        });
        room.fact("whole", listener.isWhole());
    }

    /** Entries that come while a message hangs: no more wait than a record can have. */
    private static void manyWaiting(Room room) throws InterruptedException {
        hang(room, (calls, root) -> {
            for (int i = 0; i < 300; i++) {
                calls.report(root, "k", Cases.letters(60_000));
            }
        });
    }

    /** Records a run with a thread whose message hangs until the run is over, and then a run of the same listener. */
    private static void hang(Room room, Script meanwhile) throws InterruptedException {
        CountDownLatch isAsked = new CountDownLatch(1);
        CountDownLatch isOver = new CountDownLatch(1);
        RecordListener listener = new RecordListener(room.path());
        Thread[] hanging = new Thread[1];
        launch(listener, Cases::oneTest, (calls, root) -> {
            calls.start(root);
            hanging[0] = new Thread(() -> calls.fail(root.child(0), new Acting(() -> {
                isAsked.countDown();
                isOver.await();
            })));
            hanging[0].start();
            await(isAsked);
            meanwhile.run(calls, root);
        });
        room.fact("whole", listener.isWhole());
        launch(listener, Cases::oneTest, (calls, root) -> {
            isOver.countDown();
            hanging[0].join();
            calls.skip(root, "after");
        });
        room.fact("whole", listener.isWhole());
    }

    /** A message that would fill what memory is left if it were copied, and names that would fill a record. */
    private static void hugeTexts(Room room) {
        record(room, root -> {
            for (int i = 0; i < 17; i++) {
                root.add("t", "" + i, Cases.letters(1 << 20), Type.TEST);
            }
        }, (calls, root) -> {
            char[] letters = new char[30_000_000];
            Arrays.fill(letters, 'x');
            calls.fail(root, new IllegalStateException(new String(letters)));
        });
    }
}
