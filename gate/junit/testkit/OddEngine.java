package testkit;

import java.util.ArrayList;
import java.util.List;

import org.junit.platform.engine.TestDescriptor.Type;

/** An engine that reports what Jupiter seldom or never does: odd ids and texts, and forty threads at once. */
class OddEngine extends ScriptedEngine {

    private static final int THREADS = 40;

    OddEngine() {
        super("odd", "odd | engine", OddEngine::build, OddEngine::play);
    }

    private static void build(Node root) {
        root.add("%+[]:/", "%41+[a]:b/c", "all escapes", Type.TEST);
        root.add("both", "a|b\\c\nd", "both", Type.CONTAINER_AND_TEST).add("t", "1", "below both", Type.TEST);
        root.add("t", "off", "\uD83D off", Type.TEST);
    }

    private static void play(Calls calls, Node root) throws InterruptedException {
        calls.start(root);
        calls.play(root.child(0));
        Node both = root.child(1);
        calls.start(both);
        calls.play(both.child(0));
        calls.report(both, "b", "|", "a", "\\");
        calls.fail(both, new IllegalStateException("first | line\nsecond \\ line"));
        calls.skip(root.child(2), null);
        // All are registered on this thread, and each starts on its own.
        List<Thread> threads = new ArrayList<>();
        for (int i = 0; i < THREADS; i++) {
            int number = i;
            Node test = calls.register(root, "" + i, "on thread " + i, Type.CONTAINER_AND_TEST);
            threads.add(new Thread(() -> playOnThread(calls, test, number)));
        }
        threads.forEach(Thread::start);
        for (Thread thread : threads) {
            thread.join();
        }
        calls.abort(root, null);
    }

    private static void playOnThread(Calls calls, Node test, int number) {
        // (a write by a channel would close it here)
        Thread.currentThread().interrupt();
        calls.start(test);
        Node below = calls.register(test, "below", "below " + number, Type.TEST);
        calls.start(below);
        calls.report(below, "number", "" + number);
        calls.fail(below, new IllegalStateException("failure " + number));
        calls.report(test, "half", "way");
        if (number % 2 == 0) {
            calls.succeed(test);
        } else {
            calls.abort(test, new IllegalStateException("odd"));
        }
    }
}
