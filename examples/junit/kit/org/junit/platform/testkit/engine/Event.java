package org.junit.platform.testkit.engine;

import java.time.Instant;
import java.util.Optional;

import org.junit.platform.engine.TestDescriptor;

/** Stands for JUnit's class of this name. */
public class Event {

    private final Instant timestamp = Instant.now();
    private final EventType type;
    private final TestDescriptor descriptor;
    private final Object payload;

    Event(EventType type, TestDescriptor descriptor, Object payload) {
        this.type = type;
        this.descriptor = descriptor;
        this.payload = payload;
    }

    public EventType getType() {
        return type;
    }

    public TestDescriptor getTestDescriptor() {
        return descriptor;
    }

    public Instant getTimestamp() {
        return timestamp;
    }

    public <T> Optional<T> getPayload(Class<T> payloadType) {
        return Optional.ofNullable(payload).filter(payloadType::isInstance).map(payloadType::cast);
    }

    public <T> T getRequiredPayload(Class<T> payloadType) {
        return getPayload(payloadType).orElseThrow(IllegalArgumentException::new);
    }
}
