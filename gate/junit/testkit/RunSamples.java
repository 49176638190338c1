package testkit;

import static org.junit.platform.engine.discovery.DiscoverySelectors.selectClass;

import java.util.Arrays;
import java.util.List;

import org.junit.platform.engine.TestExecutionResult;
import org.junit.platform.launcher.Launcher;
import org.junit.platform.launcher.LauncherDiscoveryRequest;
import org.junit.platform.launcher.TestExecutionListener;
import org.junit.platform.launcher.TestIdentifier;
import org.junit.platform.launcher.TestPlan;
import org.junit.platform.launcher.core.LauncherConfig;
import org.junit.platform.launcher.core.LauncherDiscoveryRequestBuilder;
import org.junit.platform.launcher.core.LauncherFactory;
import org.junit.platform.launcher.listeners.SummaryGeneratingListener;
import org.junit.platform.launcher.listeners.TestExecutionSummary;

/**
 * Records a run at a path, and prints what {@link SummaryGeneratingListener} counted as words of {@code ask stats}.
 *
 * <p>The run is {@code sample}, the sample tests in parallel; {@code odd}, the odd engine; or the sample tests until their twentieth
 * start, at which {@code halt} or {@code exit} ends the process, or {@code memory} throws what a test without memory does.
 */
public class RunSamples {

    private static final List<String> CUT = Arrays.asList("halt", "exit", "memory");
    private static final int CUT_AT = 20;

    /** What the summary counts beyond events: a descriptor of both types twice, and what is below a skipped one. */
    private static class Surplus implements TestExecutionListener {

        private TestPlan plan;
        private long found;
        private long skipped;
        private long started;
        private final long[] finished = new long[TestExecutionResult.Status.values().length];

        private static long types(TestIdentifier identifier) {
            return (identifier.isContainer() ? 1 : 0) + (identifier.isTest() ? 1 : 0);
        }

        @Override
        public synchronized void testPlanExecutionStarted(TestPlan plan) {
            this.plan = plan;
            found = plan.countTestIdentifiers(TestIdentifier::isContainer) + plan.countTestIdentifiers(TestIdentifier::isTest);
        }

        @Override
        public synchronized void dynamicTestRegistered(TestIdentifier identifier) {
            found += types(identifier) - 1;
        }

        @Override
        public synchronized void executionSkipped(TestIdentifier identifier, String reason) {
            skipped += types(identifier) - 1;
            skipped += plan.getDescendants(identifier).stream().mapToLong(Surplus::types).sum();
        }

        @Override
        public synchronized void executionStarted(TestIdentifier identifier) {
            started += types(identifier) - 1;
        }

        @Override
        public synchronized void executionFinished(TestIdentifier identifier, TestExecutionResult result) {
            finished[result.getStatus().ordinal()] += types(identifier) - 1;
        }

        synchronized String words(TestExecutionSummary summary) {
            long succeeded = summary.getContainersSucceededCount() + summary.getTestsSucceededCount()
                    - finished[TestExecutionResult.Status.SUCCESSFUL.ordinal()];
            long aborted = summary.getContainersAbortedCount() + summary.getTestsAbortedCount()
                    - finished[TestExecutionResult.Status.ABORTED.ordinal()];
            long failed = summary.getContainersFailedCount() + summary.getTestsFailedCount()
                    - finished[TestExecutionResult.Status.FAILED.ordinal()];
            return "skipped=" + (summary.getContainersSkippedCount() + summary.getTestsSkippedCount() - skipped)
                    + " started=" + (summary.getContainersStartedCount() + summary.getTestsStartedCount() - started)
                    + " finished=" + (succeeded + aborted + failed)
                    + " aborted=" + aborted + " succeeded=" + succeeded + " failed=" + failed
                    + " dynamic=" + (summary.getContainersFoundCount() + summary.getTestsFoundCount() - found);
        }
    }

    /** Ends the run in this way. */
    private static void end(String how) {
        if (how.equals("halt")) {
            // (as by a signal that can't be caught: nothing is closed or flushed)
            Runtime.getRuntime().halt(0);
        }
        if (how.equals("exit")) {
            System.exit(0);
        }
        throw new OutOfMemoryError("as where there is no memory");
    }

    /** Runs what {@code arguments[0]} names, and records it at the path {@code arguments[1]}. */
    public static void main(String[] arguments) {
        String which = arguments[0];
        RecordListener recorder = new RecordListener(arguments[1]);
        SummaryGeneratingListener summary = new SummaryGeneratingListener();
        Surplus surplus = new Surplus();
        TestExecutionListener ending = new TestExecutionListener() {

            private int starts;

            @Override
            public synchronized void executionStarted(TestIdentifier identifier) {
                if (++starts == CUT_AT) {
                    System.out.println(surplus.words(summary.getSummary()));
                    System.out.flush();
                    end(which);
                }
            }
        };
        LauncherConfig.Builder config = LauncherConfig.builder().enableTestExecutionListenerAutoRegistration(false)
                .addPostDiscoveryFilters(new RecordLocks());
        if (which.equals("odd")) {
            config.enableTestEngineAutoRegistration(false).addTestEngines(new OddEngine());
        }
        Launcher launcher = LauncherFactory.create(config.build());
        launcher.registerTestExecutionListeners(recorder, summary, surplus);
        if (CUT.contains(which)) {
            launcher.registerTestExecutionListeners(ending);
        }
        LauncherDiscoveryRequest request = LauncherDiscoveryRequestBuilder.request()
                .selectors(selectClass(SampleTests.class))
                .selectors(selectClass(SampleTests.BrokenTests.class), selectClass(SampleTests.AbortedTests.class))
                .configurationParameter("junit.jupiter.execution.parallel.enabled", which.equals("sample") ? "true" : "false")
                .configurationParameter("junit.jupiter.execution.parallel.config.strategy", "fixed")
                .configurationParameter("junit.jupiter.execution.parallel.config.fixed.parallelism", "4")
                .build();
        try {
            launcher.execute(request);
        } catch (OutOfMemoryError fault) {
            System.exit(0);
        }
        System.out.println(surplus.words(summary.getSummary()));
        if (!recorder.isWhole()) {
            System.exit(1);
        }
    }
}
