package testkit;

import java.io.IOException;
import java.io.UncheckedIOException;
import java.nio.file.Files;
import java.nio.file.Path;
import java.util.Collections;
import java.util.List;
import java.util.Set;
import java.util.concurrent.ConcurrentHashMap;

/** A record of which is asked: a file, or a text, for which there is a file only where somebody is told its path. */
final class RecordSource {

    /** The files that go when the process ends. */
    private static final Set<Path> TEMPORARY = ConcurrentHashMap.newKeySet();

    static {
        Runtime.getRuntime().addShutdownHook(new Thread(() -> TEMPORARY.forEach(path -> path.toFile().delete())));
    }

    private final byte[] text;
    private final List<String> unregistered;
    private Path path;

    /** Makes the source of a file. */
    RecordSource(Path path) {
        this.path = path;
        text = null;
        unregistered = Collections.emptyList();
    }

    /** Makes the source of a text, with the ids that events name before anybody has registered them, which no record tells. */
    RecordSource(byte[] text, List<String> unregistered) {
        this.text = text;
        this.unregistered = unregistered;
    }

    List<String> unregistered() {
        return unregistered;
    }

    /** Returns the record's file, which goes at the latest when the process ends. */
    synchronized Path path() {
        try {
            if (path == null) {
                path = written(text);
                TEMPORARY.add(path);
            }
            return path;
        } catch (IOException fault) {
            throw new UncheckedIOException(fault);
        }
    }

    /** Returns the record's file, which stays. */
    Path kept() {
        Path kept = path();
        TEMPORARY.remove(kept);
        return kept;
    }

    /** What asks about a file. */
    interface Question<T> {
        T ask(Path record) throws IOException;
    }

    /** Asks about a file that has the record, and then goes where it is ours. */
    <T> T ask(Question<T> question) throws IOException {
        return text == null ? question.ask(path) : askOnce(text, question);
    }

    /** Returns the source of a record that is written into an empty file, which then goes. */
    static RecordSource of(Question<RecordSource> writing) {
        try {
            return askOnce(new byte[0], writing);
        } catch (IOException fault) {
            throw new UncheckedIOException(fault);
        }
    }

    /** Asks about a file with this text, which then goes. */
    private static <T> T askOnce(byte[] text, Question<T> question) throws IOException {
        Path asked = written(text);
        try {
            return question.ask(asked);
        } finally {
            Files.deleteIfExists(asked);
        }
    }

    private static Path written(byte[] text) throws IOException {
        return Files.write(Files.createTempFile("testkit-", ".record"), text);
    }
}
