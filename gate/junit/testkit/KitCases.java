package testkit;

import java.io.File;
import java.util.LinkedHashMap;
import java.util.Map;

import org.junit.platform.engine.ExecutionRequest;
import org.junit.platform.engine.TestDescriptor.Type;
import org.junit.platform.engine.TestEngine;
import org.junit.platform.engine.UniqueId;
import org.junit.platform.engine.support.hierarchical.ExclusiveResource.LockMode;
import org.junit.platform.testkit.engine.ExecutionRecorder;
import testkit.ScriptedEngine.Node;
import testkit.ScriptedEngine.Script;
import testkit.ScriptedEngine.Tree;

/**
 * Runs of small engines under the recorder of JUnit's {@code EngineTestKit}, whose results {@link ResultsWriter} writes.
 *
 * <p>It leaves what {@link Cases} does.
 */
public class KitCases {

    private interface Case {
        void run(String path, String name);
    }

    private static final Map<String, Case> CASES = new LinkedHashMap<>();

    static {
        CASES.put("kit-no-event", (path, name) -> write(path, name, root -> { }, (calls, root) -> { }));
        CASES.put("kit-endings", KitCases::endings);
        CASES.put("kit-unregistered", KitCases::unregistered);
        CASES.put("kit-threads", KitCases::threads);
        CASES.put("kit-times", KitCases::times);
        CASES.put("kit-positions", KitCases::positions);
        CASES.put("kit-two-results", KitCases::twoResults);
        CASES.put("kit-locks", KitCases::locks);
        CASES.put("kit-lock-of-registered", KitCases::lockOfRegistered);
        CASES.put("kit-over-listener", KitCases::overListener);
        CASES.put("kit-bad-path", (path, name) -> write("/", name, root -> { }, (calls, root) -> calls.start(root)));
    }

    private KitCases() {
    }

    /** Runs the cases {@code arguments[1]} and so on, and leaves what they made in the folder {@code arguments[0]}. */
    public static void main(String[] arguments) throws Exception {
        for (int i = 1; i < arguments.length; i++) {
            String name = arguments[i];
            Cases.run(arguments[0], name, () -> CASES.get(name).run(arguments[0] + File.separator + name + ".record", name));
        }
    }

    /** Runs an engine under the kit's recorder, and writes its results. */
    private static void write(String path, String name, Tree tree, Script script) {
        ExecutionRecorder recorder = new ExecutionRecorder();
        TestEngine engine = new ScriptedEngine("e", "engine", tree, script);
        engine.execute(new ExecutionRequest(engine.discover(null, UniqueId.forEngine("e")), recorder, null));
        System.out.println(name + " whole " + ResultsWriter.write(recorder.getExecutionResults(), path));
    }

    /** Results at the path of a run that a listener of this process has recorded. */
    private static void overListener(String path, String name) {
        Cases.launch(new RecordListener(path), KitCases::oneTest, (calls, root) -> calls.skip(root, "first"));
        write(path, name, KitCases::oneTest, (calls, root) -> calls.start(root));
    }

    private static void oneTest(Node root) {
        root.add("t", "1", "one", Type.TEST);
    }

    private static void endings(String path, String name) {
        write(path, name, KitCases::oneTest, (calls, root) -> {
            calls.start(root);
            calls.fail(root.child(0), null);
            calls.abort(root.child(0), new IllegalStateException());
            calls.skip(root.child(0), null);
            calls.skip(root.child(0), "a|b");
            calls.report(root.child(0), "b", "1", "a", "2");
            calls.abort(root, new IllegalStateException("why"));
        });
    }

    /** Events that JUnit's launcher would drop. */
    private static void unregistered(String path, String name) {
        write(path, name, KitCases::oneTest, (calls, root) -> {
            calls.start(root);
            // Nobody's child, and registered by nobody.
            calls.play(new Node(root.getUniqueId().append("t", "2"), "two", Type.TEST));
            // Started before it is registered.
            Node late = root.add("d", "late", "late", Type.TEST);
            calls.start(late);
            calls.register(late);
            calls.succeed(late);
            // Below a registered container.
            Node container = calls.register(root, "1", "a dynamic container", Type.CONTAINER);
            container.add("t", "never", "without an event", Type.TEST);
            calls.start(container);
            calls.play(container.add("t", "3", "three", Type.TEST));
            calls.succeed(container);
            // In the tree like what was discovered.
            calls.play(root.add("t", "4", "four", Type.TEST));
            // A root of its own, registered.
            Node other = new Node(UniqueId.forEngine("other"), "other", Type.CONTAINER);
            calls.register(other);
            calls.play(other);
            calls.succeed(root);
        });
    }

    private static void threads(String path, String name) {
        write(path, name, KitCases::oneTest, (calls, root) -> {
            calls.start(root);
            calls.onThread(() -> calls.play(root.child(0)));
            calls.onThread(() -> calls.play(calls.register(root, "1", "on a thread", Type.TEST)));
            calls.play(calls.register(root, "2", "dynamic", Type.TEST));
            calls.succeed(root);
        });
    }

    private static void times(String path, String name) {
        write(path, name, KitCases::oneTest, (calls, root) -> {
            Cases.pause();
            calls.start(root);
            Cases.pause();
            calls.succeed(root);
        });
    }

    private static void positions(String path, String name) {
        System.setProperty("testkit.stamps", "positions");
        try {
            write(path, name, KitCases::oneTest, (calls, root) -> {
                calls.start(root);
                calls.play(root.child(0));
                calls.succeed(root);
            });
        } finally {
            System.clearProperty("testkit.stamps");
        }
    }

    /** Locks of descriptors of the tree, with and without events, of one that was registered, and of one that nobody registered. */
    private static void locks(String path, String name) {
        write(path, name, root -> {
            LockCases.Locking.below(root, "1").lock("db", LockMode.READ);
            LockCases.Locking.below(root, "4").lock("net", LockMode.READ);
        }, (calls, root) -> {
            calls.play(root.child(0));
            LockCases.Locking dynamic = LockCases.Locking.below(root, "2").lock("db", LockMode.READ_WRITE);
            calls.register(dynamic);
            calls.play(dynamic);
            calls.play(new LockCases.Locking(root.getUniqueId().append("t", "3")).lock("net", LockMode.READ_WRITE));
        });
    }

    /** A lock of a registered descriptor alone, which no record has. */
    private static void lockOfRegistered(String path, String name) {
        write(path, name, KitCases::oneTest, (calls, root) -> {
            calls.start(root);
            calls.register(LockCases.Locking.below(root, "2").lock("db", LockMode.READ_WRITE));
        });
    }

    /** Results at the path of earlier ones, which have more events. The later ones have none of their root, and first one of no tree. */
    private static void twoResults(String path, String name) {
        write(path, name, TextCases::kindsTree, TextCases::kindsScript);
        write(path, name, root -> root.add("c", "1", "a container", Type.CONTAINER).add("t", "1", "a test", Type.TEST), (calls, root) -> {
            calls.start(new Node(root.getUniqueId().append("t", "2"), "two", Type.TEST));
            calls.start(root.child(0).child(0));
        });
    }
}
