package org.junit.platform.testkit.engine;

import java.util.List;

/** Stands for JUnit's class of this name. */
public class EngineExecutionResults {

    private final Events events;

    EngineExecutionResults(List<Event> events) {
        this.events = new Events(events);
    }

    public Events allEvents() {
        return events;
    }
}
