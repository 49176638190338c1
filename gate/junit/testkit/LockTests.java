package testkit;

import static org.junit.jupiter.api.parallel.ExecutionMode.CONCURRENT;
import static org.junit.jupiter.api.parallel.ResourceAccessMode.READ;

import org.junit.jupiter.api.Nested;
import org.junit.jupiter.api.RepeatedTest;
import org.junit.jupiter.api.Tag;
import org.junit.jupiter.api.Test;
import org.junit.jupiter.api.parallel.Execution;
import org.junit.jupiter.api.parallel.Isolated;
import org.junit.jupiter.api.parallel.ResourceLock;
import org.junit.jupiter.api.parallel.Resources;

/** Tests with the locks of Jupiter, which run in parallel. Most have a tag, which their classes don't have. */
@Execution(CONCURRENT)
class LockTests {

    @Test
    @Tag("chosen")
    void hasNone() {
    }

    @Test
    @Tag("chosen")
    @ResourceLock("db")
    void writes() throws InterruptedException {
        Thread.sleep(5);
    }

    @Test
    @Tag("chosen")
    @ResourceLock(value = "db", mode = READ)
    void reads() throws InterruptedException {
        Thread.sleep(5);
    }

    @Test
    @Tag("chosen")
    @ResourceLock(value = "db", mode = READ)
    @ResourceLock("db")
    @ResourceLock(value = "a|b\\c\nd", mode = READ)
    void readsAndWrites() throws InterruptedException {
        Thread.sleep(5);
    }

    @RepeatedTest(2)
    @Tag("chosen")
    @ResourceLock(value = "db", mode = READ)
    void repeats() {
    }

    @Test
    @ResourceLock("db")
    void isNotChosen() {
    }

    @Nested
    @ResourceLock(value = "db", mode = READ)
    class Inner {

        @Test
        @Tag("chosen")
        @ResourceLock(Resources.SYSTEM_OUT)
        void prints() throws InterruptedException {
            Thread.sleep(5);
        }
    }

    @Isolated
    static class AloneTests {

        @Test
        @Tag("chosen")
        @ResourceLock(value = Resources.GLOBAL, mode = READ)
        @ResourceLock("global")
        void isAlone() throws InterruptedException {
            Thread.sleep(5);
        }
    }
}
