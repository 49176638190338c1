package testkit;

import static java.nio.charset.StandardCharsets.UTF_8;

import java.util.HashMap;
import java.util.Map;
import java.util.function.Consumer;

import org.junit.platform.engine.UniqueId;

/**
 * The descriptors of a run, each with its key and its id in the record.
 *
 * <p>JUnit's parent of a descriptor is the one in the tree, and a record's is that of the id. So the record's id is that of the parent in
 * the record, with the last segment of the descriptor's own id: where JUnit's ids follow the tree, as Jupiter's do, it is JUnit's.
 */
final class RecordDescriptors {

    private static final int MAX_ID_BYTES = 4_096;
    private static final int MAX_ID_SEGMENTS = 64;
    private static final String REPLACED = "replaced-id";

    private final Map<UniqueId, Integer> keys = new HashMap<>();
    /** For each of JUnit's ids the one in the record. */
    private final Map<UniqueId, UniqueId> ids = new HashMap<>();
    /** For each id in the record JUnit's one. */
    private final Map<UniqueId, UniqueId> owners = new HashMap<>();
    private boolean hasSaid;

    /** Returns a descriptor's key, the newest where it was added twice; or null where it wasn't added. */
    Integer key(UniqueId id) {
        return keys.get(id);
    }

    /** Adds a descriptor, and returns its id in the record; {@code parent} is null at a root, and {@code notes} takes what is to be said. */
    UniqueId add(UniqueId id, UniqueId parent, int key, Consumer<String> notes) {
        keys.put(id, key);
        UniqueId above = parent == null ? null : ids.getOrDefault(parent, parent);
        UniqueId.Segment last = id.getLastSegment();
        boolean isBelow = parent == null || id.getSegments().size() > 1 && id.removeLastSegment().equals(parent);
        UniqueId wanted = isBelow && (above == null || above.equals(parent)) ? id : below(above, last.getType(), last.getValue());
        UniqueId free = wanted;
        for (int number = 2; !id.equals(owners.getOrDefault(free, id)); number++) {
            free = below(above, last.getType(), last.getValue() + "#" + number);
        }
        if (!isWritable(free)) {
            UniqueId replaced = below(above, REPLACED, "" + key);
            free = isWritable(replaced) ? replaced : UniqueId.root(REPLACED, "" + key);
            notes.accept(free + " stands for an id that no record can have: " + id);
        } else if ((free != wanted || !isBelow) && !hasSaid) {
            hasSaid = true;
            notes.accept(free + " stands for " + id + ", which isn't its parent's id with a segment more; so it may be with others of this run");
        }
        owners.put(free, id);
        ids.put(id, free);
        return free;
    }

    private static UniqueId below(UniqueId above, String type, String value) {
        return above == null ? UniqueId.root(type, value) : above.append(type, value);
    }

    /** Returns whether a record can have this id. JUnit's text of an id is that of the record, with the same six escapes. */
    private static boolean isWritable(UniqueId id) {
        String text = id.toString();
        boolean isShort = id.getSegments().size() <= MAX_ID_SEGMENTS && text.getBytes(UTF_8).length <= MAX_ID_BYTES;
        return isShort && text.equals(RecordText.paired(text));
    }
}
