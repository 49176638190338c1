package testkit;

import static java.nio.charset.StandardCharsets.UTF_8;

import java.nio.file.Files;
import java.util.ArrayList;
import java.util.Collections;
import java.util.List;
import java.util.ServiceLoader;
import java.util.stream.Stream;
import java.util.stream.StreamSupport;

import org.apiguardian.api.API;
import org.junit.platform.engine.DiscoveryFilter;
import org.junit.platform.engine.DiscoverySelector;
import org.junit.platform.engine.EngineExecutionListener;
import org.junit.platform.engine.ExecutionRequest;
import org.junit.platform.engine.TestDescriptor;
import org.junit.platform.engine.TestEngine;
import org.junit.platform.engine.TestExecutionResult;
import org.junit.platform.engine.reporting.ReportEntry;
import org.junit.platform.launcher.LauncherDiscoveryRequest;
import org.junit.platform.launcher.TestIdentifier;
import org.junit.platform.launcher.core.LauncherDiscoveryRequestBuilder;

/**
 * Discovers and executes by one engine, and begins assertions about the record of the run.
 *
 * <pre>{@code
 * RecordKit.engine("my-engine").selectors(selectClass(X.class)).configurationParameter("k", "v").execute()
 *         .keepsLifecycle().keepsLocks()
 *         .tests().hasStatistics("failed=1").matchesInOrder(hasStarted(), hasFailed("boom"));
 * }</pre>
 *
 * <p>The record has the tree as it was before the run, the thread of each call, and the locks of the descriptors. So a descriptor that
 * the engine adds while it runs and registers nowhere is found by {@link RecordAssert#keepsLifecycle}. No parameter counts but those
 * that are given here; those of {@link RecordListener} do what they do there, but for the path.
 */
@API(status = API.Status.EXPERIMENTAL, since = "0.1")
public final class RecordKit {

    private final TestEngine engine;
    /** (JUnit's own listener of a discovery would end it at the first selector that fails.) */
    private final LauncherDiscoveryRequestBuilder request = LauncherDiscoveryRequestBuilder.request().enableImplicitConfigurationParameters(false)
            .configurationParameter(LauncherDiscoveryRequestBuilder.DEFAULT_DISCOVERY_LISTENER_CONFIGURATION_PROPERTY_NAME, "logging");

    private RecordKit(TestEngine engine) {
        this.engine = engine;
    }

    /**
     * Takes the engine with this id, which JUnit would find as a service.
     *
     * @param id the id; never {@code null}
     * @return a kit of it; never {@code null}
     * @throws IllegalArgumentException where there is none
     */
    public static RecordKit engine(String id) {
        RecordAssert.given(id, "id");
        Stream<TestEngine> engines = StreamSupport.stream(ServiceLoader.load(TestEngine.class).spliterator(), false);
        return new RecordKit(engines.filter(it -> it.getId().equals(id)).findFirst()
                .orElseThrow(() -> new IllegalArgumentException("no service is an engine with the id " + id)));
    }

    /** Takes {@code engine}, never {@code null}; returns a kit of it, never {@code null}. */
    public static RecordKit engine(TestEngine engine) {
        return new RecordKit(RecordAssert.given(engine, "engine"));
    }

    /**
     * Adds selectors to the request.
     *
     * @param selectors the selectors; never {@code null}, nor is one of them
     * @return this kit; never {@code null}
     */
    public RecordKit selectors(DiscoverySelector... selectors) {
        request.selectors(RecordAssert.allGiven(selectors, "selectors"));
        return this;
    }

    /**
     * Adds filters to the request, as the engine heeds them.
     *
     * @param filters the filters; never {@code null}, nor is one of them
     * @return this kit; never {@code null}
     */
    public RecordKit filters(DiscoveryFilter<?>... filters) {
        request.filters(RecordAssert.allGiven(filters, "filters"));
        return this;
    }

    /**
     * Adds a configuration parameter to the request.
     *
     * @param key the key; never {@code null}
     * @param value the value; never {@code null}
     * @return this kit; never {@code null}
     */
    public RecordKit configurationParameter(String key, String value) {
        request.configurationParameter(RecordAssert.given(key, "key"), RecordAssert.given(value, "value"));
        return this;
    }

    /** Discovers, and executes nothing; returns the tree, never {@code null}. */
    public RecordTree discover() {
        return RecordTree.of(engine, request);
    }

    /**
     * Discovers, executes, and begins assertions about the run. What the engine throws is thrown on.
     *
     * @return the assertions; never {@code null}
     * @throws IllegalStateException where the discovery has a fault; a selector that isn't resolved is none here
     */
    public RecordAssert execute() {
        LauncherDiscoveryRequest built = request.build();
        RecordTree tree = RecordTree.of(engine, request);
        if (!tree.isUsable()) {
            throw new IllegalStateException(String.join("; ", tree.faults()));
        }
        return new RecordAssert(RecordSource.of(path -> {
            Recorder recorder = new Recorder();
            recorder.attempt(() -> recorder.begin(path.toString(), built.getConfigurationParameters()::get, tree.identifiers(), tree.locks()));
            engine.execute(new ExecutionRequest(tree.root(), recorder, built.getConfigurationParameters()));
            recorder.attempt(recorder::end);
            return new RecordSource(recorder.whole(Files.readAllLines(path)), recorder.unregistered);
        }));
    }

    /** Records the run of an engine as a listener of a launcher does, with a static descriptor for what nobody registered. */
    private static final class Recorder extends RecordListener implements EngineExecutionListener {

        private final List<String> unregistered = new ArrayList<>();
        private final List<String> late = new ArrayList<>();

        @Override
        boolean keepsEarlier() {
            return false;
        }

        @Override
        void describeUnregistered(TestIdentifier identifier) {
            unregistered.add(identifier.getUniqueId());
            describe(identifier.getUniqueIdObject(), Collections.singletonMap(identifier.getUniqueIdObject(), identifier), late::add);
        }

        /** Returns a text of these lines, with the descriptors that nobody registered behind the others. */
        byte[] whole(List<String> lines) {
            List<String> all = new ArrayList<>(lines);
            all.addAll((int) lines.stream().filter(it -> it.startsWith("testkit-record|") || it.startsWith("N|")).count(), late);
            return (String.join("\n", all) + "\n").getBytes(UTF_8);
        }

        @Override
        public void dynamicTestRegistered(TestDescriptor descriptor) {
            dynamicTestRegistered(TestIdentifier.from(descriptor));
        }

        @Override
        public void executionSkipped(TestDescriptor descriptor, String reason) {
            executionSkipped(TestIdentifier.from(descriptor), reason);
        }

        @Override
        public void executionStarted(TestDescriptor descriptor) {
            executionStarted(TestIdentifier.from(descriptor));
        }

        @Override
        public void executionFinished(TestDescriptor descriptor, TestExecutionResult result) {
            executionFinished(TestIdentifier.from(descriptor), result);
        }

        @Override
        public void reportingEntryPublished(TestDescriptor descriptor, ReportEntry entry) {
            reportingEntryPublished(TestIdentifier.from(descriptor), entry);
        }
    }
}
