package testkit;

import java.time.Instant;
import java.time.temporal.ChronoUnit;
import java.util.HashSet;
import java.util.LinkedHashMap;
import java.util.List;
import java.util.Map;
import java.util.Optional;
import java.util.Set;
import java.util.stream.Collectors;

import org.apiguardian.api.API;
import org.junit.platform.engine.TestDescriptor;
import org.junit.platform.engine.TestExecutionResult;
import org.junit.platform.engine.UniqueId;
import org.junit.platform.engine.reporting.ReportEntry;
import org.junit.platform.launcher.TestIdentifier;
import org.junit.platform.testkit.engine.EngineExecutionResults;
import org.junit.platform.testkit.engine.Event;
import org.junit.platform.testkit.engine.EventType;

/**
 * Writes a record text ({@code docs/FORMATS.md}) of a run of {@code EngineTestKit}, with the locks of the descriptors, if they have some.
 *
 * <p>The record has each event of {@code allEvents}, in that order. The results don't say which threads called, so each entry
 * is of worker 1. A stamp is the event's time, in microseconds since 1970.
 */
@API(status = API.Status.EXPERIMENTAL, since = "0.1")
public final class ResultsWriter {

    /** The listener to which the events are reported once more, each at its own time. */
    private static class Replay extends RecordListener {

        private Instant now;

        @Override
        long microseconds() {
            return ChronoUnit.MICROS.between(Instant.EPOCH, now);
        }

        @Override
        boolean keepsEarlier() {
            return false;
        }

        void report(Event event) {
            now = event.getTimestamp();
            TestIdentifier identifier = TestIdentifier.from(event.getTestDescriptor());
            switch (event.getType()) {
                case DYNAMIC_TEST_REGISTERED:
                    dynamicTestRegistered(identifier);
                    break;
                case SKIPPED:
                    executionSkipped(identifier, event.getPayload(String.class).orElse(null));
                    break;
                case STARTED:
                    executionStarted(identifier);
                    break;
                case FINISHED:
                    executionFinished(identifier, event.getRequiredPayload(TestExecutionResult.class));
                    break;
                case REPORTING_ENTRY_PUBLISHED:
                    reportingEntryPublished(identifier, event.getRequiredPayload(ReportEntry.class));
                    break;
                default:
                    stop("no record of JUnit has an event of the type " + event.getType());
            }
        }
    }

    private ResultsWriter() {
    }

    /**
     * Writes the record of {@code results} to {@code path}, over a record there, and returns whether it has each event, and each event's
     * id was known before it. The logger of {@link RecordListener} names the others, as {@link #unregistered} does.
     *
     * <p>The numbers in a path, and what ends a recording early, are as {@link RecordListener} has them; what a listener of this process
     * has recorded there stays. The system property {@link RecordListener#STAMPS_PARAMETER} says what the stamps are.
     *
     * @param results the results; never {@code null}
     * @param path the path; never {@code null}
     */
    public static boolean write(EngineExecutionResults results, String path) {
        List<String> unregistered = unregistered(results);
        RecordAssert.given(path, "path");
        unregistered.forEach(id -> RecordListener.say("nobody registered " + id + " before its first event"));
        return writeWhole(results, path) && unregistered.isEmpty();
    }

    /** Writes the record, and returns whether it has each event, also those of ids that nobody registered. */
    static boolean writeWhole(EngineExecutionResults results, String path) {
        List<Event> events = results.allEvents().list();
        Map<UniqueId, TestIdentifier> identifiers = discovered(events);
        identifiers.putAll(unregistered(events));
        Replay replay = new Replay();
        Map<UniqueId, List<String>> locks = replay.locks(() -> RecordLocks.of(events.stream().map(it -> RecordLocks.root(it.getTestDescriptor()))));
        replay.attempt(() -> replay.begin(path, key -> Optional.ofNullable(System.getProperty(key)), identifiers, locks));
        events.forEach(replay::report);
        replay.attempt(replay::end);
        return replay.isWhole();
    }

    /**
     * Returns the ids that an event names before anybody has registered them, in the order of the events.
     *
     * <p>JUnit's launcher drops such events. What an engine adds to its tree while it runs, outside of what it registers, can't be told
     * from what it has discovered, and isn't named.
     *
     * @param results the results; never {@code null}
     * @return the ids; never {@code null}
     */
    public static List<String> unregistered(EngineExecutionResults results) {
        List<Event> events = RecordAssert.given(results, "results").allEvents().list();
        return unregistered(events).keySet().stream().map(UniqueId::toString).collect(Collectors.toList());
    }

    /** Returns what stands in the trees of the events' descriptors, and neither was registered nor is below what was, parents first. */
    private static Map<UniqueId, TestIdentifier> discovered(List<Event> events) {
        Set<UniqueId> registered = events.stream().filter(ResultsWriter::isRegistration).map(it -> it.getTestDescriptor().getUniqueId())
                .collect(Collectors.toSet());
        Map<UniqueId, TestIdentifier> identifiers = new LinkedHashMap<>();
        // (a descriptor with a longer id that has no parent is in the tree of no engine)
        events.stream().map(it -> RecordLocks.root(it.getTestDescriptor())).filter(it -> it.getUniqueId().getSegments().size() == 1)
                .forEach(it -> collect(it, registered, identifiers));
        return identifiers;
    }

    /** Returns the descriptors that have an event before they are registered, and weren't discovered. */
    private static Map<UniqueId, TestIdentifier> unregistered(List<Event> events) {
        Set<UniqueId> known = new HashSet<>(discovered(events).keySet());
        Map<UniqueId, TestIdentifier> found = new LinkedHashMap<>();
        for (Event event : events) {
            TestDescriptor descriptor = event.getTestDescriptor();
            if (known.add(descriptor.getUniqueId()) && !isRegistration(event)) {
                found.put(descriptor.getUniqueId(), TestIdentifier.from(descriptor));
            }
        }
        return found;
    }

    private static boolean isRegistration(Event event) {
        return event.getType() == EventType.DYNAMIC_TEST_REGISTERED;
    }

    /** Puts a descriptor that wasn't registered, and what is below it, into {@code identifiers}, parents first. */
    private static void collect(TestDescriptor descriptor, Set<UniqueId> registered, Map<UniqueId, TestIdentifier> identifiers) {
        if (registered.contains(descriptor.getUniqueId()) || identifiers.containsKey(descriptor.getUniqueId())) {
            return;
        }
        identifiers.put(descriptor.getUniqueId(), TestIdentifier.from(descriptor));
        descriptor.getChildren().forEach(child -> collect(child, registered, identifiers));
    }
}
