package org.junit.platform.testkit.engine;

import java.util.ArrayList;
import java.util.List;

/** Stands for JUnit's class of this name. */
public class Events {

    private final List<Event> events;

    Events(List<Event> events) {
        this.events = new ArrayList<>(events);
    }

    public List<Event> list() {
        return events;
    }
}
