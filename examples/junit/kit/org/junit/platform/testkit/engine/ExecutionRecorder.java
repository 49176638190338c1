package org.junit.platform.testkit.engine;

import java.util.List;
import java.util.concurrent.CopyOnWriteArrayList;

import org.junit.platform.engine.EngineExecutionListener;
import org.junit.platform.engine.TestDescriptor;
import org.junit.platform.engine.TestExecutionResult;
import org.junit.platform.engine.reporting.ReportEntry;

/** Stands for JUnit's class of this name. */
public class ExecutionRecorder implements EngineExecutionListener {

    private final List<Event> events = new CopyOnWriteArrayList<>();

    @Override
    public void dynamicTestRegistered(TestDescriptor descriptor) {
        events.add(new Event(EventType.DYNAMIC_TEST_REGISTERED, descriptor, null));
    }

    @Override
    public void executionSkipped(TestDescriptor descriptor, String reason) {
        events.add(new Event(EventType.SKIPPED, descriptor, reason));
    }

    @Override
    public void executionStarted(TestDescriptor descriptor) {
        events.add(new Event(EventType.STARTED, descriptor, null));
    }

    @Override
    public void executionFinished(TestDescriptor descriptor, TestExecutionResult result) {
        events.add(new Event(EventType.FINISHED, descriptor, result));
    }

    @Override
    public void reportingEntryPublished(TestDescriptor descriptor, ReportEntry entry) {
        events.add(new Event(EventType.REPORTING_ENTRY_PUBLISHED, descriptor, entry));
    }

    public EngineExecutionResults getExecutionResults() {
        return new EngineExecutionResults(events);
    }
}
