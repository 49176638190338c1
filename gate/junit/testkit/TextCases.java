package testkit;

import static testkit.Cases.launch;
import static testkit.Cases.letters;
import static testkit.Cases.record;
import static testkit.Cases.settings;

import org.junit.platform.engine.TestDescriptor.Type;
import org.junit.platform.engine.UniqueId;
import testkit.Cases.Room;
import testkit.Cases.Unreadable;
import testkit.ScriptedEngine.Calls;
import testkit.ScriptedEngine.Node;

/** Runs of kinds of events, of texts and of ids. It leaves what {@link Cases} says. */
public class TextCases {

    /** Each escape, control characters, several alphabets, and surrogates in a pair and alone. */
    private static final String[] TEXTS = {"a\nb\n", "a\tb\rc\u0000d", "a|b\\c\\p\\n", "%41 %+[x]:/", "Я 日本語 \uD83D\uDE00", "\uDE00\uD83D x",
        "\uFFFD\u2028\u0085\uFEFF"};

    private TextCases() {
    }

    public static void main(String[] arguments) throws Exception {
        Cases.main(TextCases.class, arguments);
    }

    private static void kinds(Room room) {
        record(room, TextCases::kindsTree, TextCases::kindsScript);
    }

    /** Descriptors of each type. */
    static void kindsTree(Node root) {
        root.add("c", "1", "a container", Type.CONTAINER).add("t", "1", "a test", Type.TEST);
        root.add("b", "1", "both", Type.CONTAINER_AND_TEST).add("t", "2", "below both", Type.TEST);
        root.add("c", "2", "another container", Type.CONTAINER).add("t", "3", "below what is skipped", Type.TEST);
    }

    /** Events of each kind. */
    static void kindsScript(Calls calls, Node root) {
        Node container = root.child(0);
        calls.start(root);
        calls.start(container);
        calls.start(container.child(0));
        calls.report(container.child(0), "k", "v");
        calls.fail(container.child(0), new IllegalStateException("boom"));
        calls.succeed(container);
        calls.start(root.child(1));
        calls.play(root.child(1).child(0));
        calls.abort(root.child(1), new IllegalStateException("why"));
        calls.skip(root.child(2), "off");
        Node dynamic = calls.register(root, "1", "a dynamic container", Type.CONTAINER);
        calls.start(dynamic);
        calls.play(calls.register(dynamic, "1", "a dynamic test", Type.TEST));
        calls.play(calls.register(dynamic, "2", "dynamic, both", Type.CONTAINER_AND_TEST));
        calls.skip(calls.register(dynamic, "3", "not now", Type.TEST), "later");
        calls.succeed(dynamic);
        calls.succeed(root);
    }

    private static void texts(Room room) {
        record(room, root -> {
            for (int i = 0; i < TEXTS.length; i++) {
                root.add("s" + i, TEXTS[i], TEXTS[i], Type.TEST);
            }
        }, (calls, root) -> {
            calls.start(root);
            for (int i = 0; i < TEXTS.length; i++) {
                calls.skip(root.child(i), TEXTS[i]);
            }
            for (int i = 0; i < TEXTS.length; i++) {
                Node test = calls.register(root, i + TEXTS[i], TEXTS[i], Type.TEST);
                calls.start(test);
                calls.report(test, TEXTS[i], TEXTS[i]);
                calls.fail(test, new IllegalStateException(TEXTS[i]));
            }
            calls.abort(root, new IllegalStateException(TEXTS[3]));
        });
    }

    private static void endings(Room room) {
        Throwable[] throwables = {null, new IllegalStateException((String) null), new IllegalStateException(""), new IllegalStateException("m"),
            new Unreadable()};
        record(room, root -> {
            for (int i = 0; i < 7; i++) {
                root.add("t", "" + i, "test " + i, Type.TEST);
            }
        }, (calls, root) -> {
            calls.start(root);
            for (int i = 0; i < throwables.length; i++) {
                calls.start(root.child(i));
                calls.fail(root.child(i), throwables[i]);
            }
            calls.start(root.child(5));
            calls.abort(root.child(5), throwables[2]);
            calls.skip(root.child(6), null);
            calls.abort(root, null);
        });
    }

    /** Entries of no pair, and of keys in no order: byte order and that of Java's strings differ for the last two. */
    private static void entries(Room room) {
        record(room, Cases::oneTest, (calls, root) -> {
            Node test = root.child(0);
            calls.start(root);
            calls.start(test);
            calls.report(test);
            calls.report(test, "b", "1", "a|b", "2", "a{", "3", "a\\", "4", "a", "5", "\uD83D\uDE00", "6", "\uFF21", "7");
            // (both keys are the same text in the record)
            calls.report(test, "\uD83D", "first", "c", "|", "\uDE00", "second");
            calls.succeed(test);
            calls.succeed(root);
        });
    }

    private static void ids(Room room) {
        // [engine:e]/[t:..] has 10 + 1 + 4 bytes beside the value.
        int rest = 4_096 - 15;
        record(room, root -> {
            UniqueId id = root.getUniqueId();
            root.add("%+[]:/", "%41+[a]:b/c", "escapes", Type.TEST);
            root.add("t", letters(rest), "as long as may be", Type.TEST);
            root.add("t", letters(rest + 1), "too long", Type.TEST).add("t", "1", "below", Type.TEST);
            // (three bytes a sign, and three bytes an escape)
            root.add("t", letters(rest - 6) + "日/", "as many bytes as may be", Type.TEST);
            root.add("t", letters(rest - 5) + "日/", "too many bytes", Type.TEST);
            root.add("t", "\uD83D", "a surrogate", Type.TEST).add("t", "1", "below", Type.TEST);
            root.add("t", "\uFFFD", "a replacement", Type.TEST);
            UniqueId missing = id.append("missing", "a|b").append("missing", "c");
            root.addChild(new Node(missing.append("t", "1"), "far below", Type.TEST));
            root.addChild(new Node(missing.append("t", "2"), "beside", Type.TEST));
            root.addChild(new Node(UniqueId.forEngine("other").append("t", "1"), "of no root", Type.TEST));
            root.addChild(new Node(id.append("missing", letters(5_000)).append("t", "1"), "below what is too long", Type.TEST));
        }, (calls, root) -> {
            calls.start(root);
            for (int i = 0; i < 11; i++) {
                calls.skip(root.child(i), "child " + i);
            }
            calls.skip(calls.register(root, letters(rest), "as long as may be", Type.TEST), "");
            calls.skip(calls.register(root, letters(rest + 1), "too long", Type.TEST), "");
            calls.skip(calls.register(root, "\uDE00", "a surrogate", Type.TEST), "");
            calls.succeed(root);
        });
    }

    /** Descriptors with tags, one of them dynamic; and a run of the same listener whose tags nobody wants. */
    private static void tags(Room room) {
        RecordListener listener = new RecordListener(room.path());
        launch(listener, settings("testkit.tags", "true"), new ScriptedEngine("e", "engine", root -> {
            root.add("t", "1", "one", Type.TEST).tag("b\\c").tag("a");
            root.add("t", "2", "two", Type.TEST).tag("off");
        }, (calls, root) -> {
            calls.start(root);
            calls.play(root.child(0));
            calls.skip(root.child(1), "off");
            Node dynamic = root.add("d", "1", "late", Type.TEST).tag("late");
            calls.register(dynamic);
            calls.play(dynamic);
            calls.succeed(root);
        }));
        launch(listener, root -> root.add("t", "1", "one", Type.TEST).tag("a"), (calls, root) -> calls.start(root.child(0)));
    }

    /** An engine whose ids don't follow its tree: flat ones, equal last segments, and one that is registered so. */
    private static void parents(Room room) {
        UniqueId flat = UniqueId.forEngine("e");
        record(room, root -> {
            Node container = root.add("c", "1", "a container", Type.CONTAINER);
            container.addChild(new Node(flat.append("t", "1"), "one", Type.TEST));
            container.addChild(new Node(flat.append("x", "1").append("t", "1"), "another one", Type.TEST));
            Node below = new Node(flat.append("c", "2"), "below", Type.CONTAINER);
            container.addChild(below);
            below.add("t", "3", "three", Type.TEST);
            root.addChild(new Node(flat.append("c", "1").append("t", "1"), "beside its parent", Type.TEST));
        }, (calls, root) -> {
            Node container = root.child(0);
            calls.start(root);
            calls.start(container);
            calls.play(container.child(0));
            calls.play(container.child(1));
            calls.start(container.child(2));
            calls.play(container.child(2).child(0));
            calls.succeed(container.child(2));
            Node late = new Node(flat.append("d", "1"), "late", Type.TEST);
            container.addChild(late);
            calls.register(late);
            calls.play(late);
            calls.succeed(container);
            calls.play(root.child(1));
            // (its id is below the root, and its parent doesn't run)
            calls.play(container.child(0));
            calls.succeed(root);
        });
    }

    /** What was thrown, with and without a cause and frames; a throwable that doesn't tell; and a run of which nobody wants to know it. */
    private static void thrown(Room room) {
        Throwable bare = new IllegalStateException("bare");
        bare.setStackTrace(new StackTraceElement[0]);
        Throwable caused = new IllegalArgumentException("caused", bare);
        caused.setStackTrace(new StackTraceElement[] {new StackTraceElement("a.B", "c|d", "B.java", 12), new StackTraceElement("e.F", "g", null, 1)});
        RecordListener listener = new RecordListener(room.path());
        launch(listener, settings("testkit.throwables", "true", "testkit.threads", "true"), new ScriptedEngine("e", "engine", root -> {
            root.add("t", "1", "one", Type.TEST);
            root.add("t", "2", "two", Type.TEST);
        }, (calls, root) -> {
            Thread.currentThread().setName("of | the case");
            calls.start(root);
            calls.fail(root.child(0), caused);
            calls.abort(root.child(0), bare);
            calls.fail(root.child(1), new Unreadable() {

                private static final long serialVersionUID = 1;

                @Override
                public StackTraceElement[] getStackTrace() {
                    throw new IllegalStateException();
                }
            });
            calls.fail(root.child(1), null);
            calls.succeed(root);
        }));
        room.fact("whole", listener.isWhole());
        launch(listener, root -> root.add("t", "1", "one", Type.TEST), (calls, root) -> {
            calls.start(root);
            calls.fail(root, caused);
        });
    }
}
