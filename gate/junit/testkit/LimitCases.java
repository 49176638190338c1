package testkit;

import static testkit.Cases.launch;
import static testkit.Cases.letters;
import static testkit.Cases.record;
import static testkit.Cases.settings;

import java.nio.file.Files;
import java.nio.file.Paths;
import java.util.ArrayList;
import java.util.Collections;
import java.util.List;

import org.junit.platform.engine.TestDescriptor.Type;
import testkit.Cases.Room;
import testkit.ScriptedEngine.Calls;
import testkit.ScriptedEngine.Node;

/** Runs at the limits of a record, and where there is no room. It leaves what {@link Cases} says. */
public class LimitCases {

    /** How many threads forward what they write on standard error. */
    private static final int MAX_FIELD_BYTES = 65_536;
    private static final int MIB = 1 << 20;
    private static final int MAX_DESCRIPTORS = 65_536;
    private static final int MAX_TEXT_BYTES = 16 << 20;

    private LimitCases() {
    }

    public static void main(String[] arguments) throws Exception {
        Cases.main(LimitCases.class, arguments);
    }

    private static void manyStatic(Room room) {
        int count = room.atLimit(MAX_DESCRIPTORS);
        record(room, root -> {
            for (int i = 1; i < count; i++) {
                root.add("t", "" + i, "t" + i, Type.TEST);
            }
        }, (calls, root) -> {
            calls.start(root);
            calls.skip(root.child(count - 2), "last");
            calls.play(calls.register(root, "1", "dynamic", Type.TEST));
        });
    }

    private static void manyRegistered(Room room) {
        record(room, Cases::oneTest, (calls, root) -> {
            calls.start(root);
            calls.onThread(() -> calls.register(root, "other", "other", Type.TEST));
            for (int i = 0; i < room.atLimit(MAX_DESCRIPTORS); i++) {
                calls.register(root, "" + i, "d" + i, Type.TEST);
            }
            calls.onThread(() -> calls.register(root, "third", "third", Type.TEST));
        });
    }

    /** Two entries with which the whole text has so many bytes. */
    private static void manyBytes(Room room) {
        RecordListener listener = new RecordListener(room.path());
        launch(listener, settings("testkit.stamps", "positions"), new ScriptedEngine("e", "engine", Cases::oneTest, (calls, root) -> {
            calls.start(root);
            reportBytes(calls, root, 10 * MIB);
            int after = "E|1|0|2|report\nE|1|0|3|finish|ok\nZ|4\n".length();
            reportBytes(calls, root, room.atLimit(MAX_TEXT_BYTES) - (int) Files.size(Paths.get(room.path())) - after);
            calls.succeed(root);
        }));
        room.fact("whole", listener.isWhole());
    }

    /** Publishes an entry of pairs that have so many bytes in its line, each with two bars and a key of four digits beside its value. */
    private static void reportBytes(Calls calls, Node node, int bytes) {
        List<String> pairs = new ArrayList<>();
        int left = bytes;
        for (int count = bytes / 65_000 + 1; count > 0; count--) {
            pairs.add("" + (9_999 - count));
            pairs.add(letters(left / count - 6));
            left -= left / count;
        }
        calls.report(node, pairs.toArray(new String[0]));
    }

    /** Ids of as many segments as may be, and of more. */
    private static void manySegments(Room room) {
        record(room, root -> {
            Node above = root;
            for (int segments = 2; segments <= 66; segments++) {
                above = above.add("n", "" + segments, "level " + segments, Type.CONTAINER);
            }
        }, Calls::play);
    }

    /** Texts as long as may be and longer; of the longer one a character stands across the end. Three are of the least letter of 2, 3 or 4 bytes. */
    private static void longTexts(Room room) {
        String most = letters(MAX_FIELD_BYTES);
        String more = letters(MAX_FIELD_BYTES - 1) + "日";
        record(room, root -> {
            root.add("t", "1", "one", Type.TEST);
            root.add("t", "2", more, Type.TEST);
        }, (calls, root) -> {
            calls.start(root);
            calls.report(root, most, more);
            calls.report(root, more, most);
            calls.skip(root.child(0), more);
            for (int i = 0; i < 20; i++) {
                calls.fail(root.child(0), new IllegalStateException(letters(MIB)));
            }
            for (int bytes = 2; bytes <= 4; bytes++) {
                String letter = new String(Character.toChars(bytes == 2 ? 0x80 : bytes == 3 ? 0x800 : 0x1_0000));
                calls.skip(root.child(0), String.join("", Collections.nCopies(MAX_FIELD_BYTES / bytes + 1, letter)));
            }
            calls.abort(root, new IllegalStateException(more));
        });
    }

    /** Tests whose names leave 2,000 bytes, and one that needs a longer line. */
    private static void manyStaticBytes(Room room) {
        record(room, root -> {
            for (int i = 0; i < 255; i++) {
                root.add("t", "" + i, letters(MAX_FIELD_BYTES), Type.TEST);
            }
            root.add("t", "255", letters(57_463), Type.TEST);
            root.add("t", "256", letters(2_000), Type.TEST);
            root.add("t", "257", "three", Type.TEST);
        }, Cases::playOneTest);
    }

    /** Two runs at one path, at which there is no place for a header. */
    private static void fullAtOnce(Room room) {
        record(room, Cases::oneTest, Cases::playOneTest);
        record(room, Cases::oneTest, Cases::playOneTest);
    }

    /** A text for which there is no place: the process may write only short files. */
    private static void fullDisk(Room room) {
        record(room, Cases::oneTest, (calls, root) -> {
            calls.start(root);
            for (int i = 0; i < 20; i++) {
                calls.report(root.child(0), "k", letters(MAX_FIELD_BYTES));
            }
            calls.succeed(root);
        });
    }
}
