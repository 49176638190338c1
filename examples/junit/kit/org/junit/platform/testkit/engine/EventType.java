package org.junit.platform.testkit.engine;

/** Stands for JUnit's enum of this name. */
public enum EventType {
    DYNAMIC_TEST_REGISTERED, SKIPPED, STARTED, FINISHED, REPORTING_ENTRY_PUBLISHED
}
