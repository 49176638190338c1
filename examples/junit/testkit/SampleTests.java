package testkit;

import static org.junit.jupiter.api.Assertions.assertEquals;
import static org.junit.jupiter.api.Assertions.fail;
import static org.junit.jupiter.api.Assumptions.assumeTrue;
import static org.junit.jupiter.api.DynamicContainer.dynamicContainer;
import static org.junit.jupiter.api.DynamicTest.dynamicTest;

import java.util.Map;
import java.util.stream.Stream;

import org.junit.jupiter.api.BeforeAll;
import org.junit.jupiter.api.Disabled;
import org.junit.jupiter.api.DisplayName;
import org.junit.jupiter.api.DynamicNode;
import org.junit.jupiter.api.Nested;
import org.junit.jupiter.api.RepeatedTest;
import org.junit.jupiter.api.Test;
import org.junit.jupiter.api.TestFactory;
import org.junit.jupiter.api.TestReporter;
import org.junit.jupiter.api.parallel.Execution;
import org.junit.jupiter.api.parallel.ExecutionMode;
import org.junit.jupiter.api.parallel.ResourceLock;
import org.junit.jupiter.params.ParameterizedTest;
import org.junit.jupiter.params.provider.ValueSource;

/** Tests with each ending and each kind of event of Jupiter, which run in parallel. Some fail, as they are meant to. */
@Execution(ExecutionMode.CONCURRENT)
class SampleTests {

    @Test
    void succeeds() {
        assertEquals(4, 2 + 2);
    }

    @Test
    void fails() {
        fail("boom");
    }

    @Test
    @DisplayName("fails with a bar | a backslash \\ and two lines")
    void failsWithTwoLines() {
        throw new IllegalStateException("first | line\nsecond \\ line");
    }

    @Test
    void failsWithoutMessage() {
        throw new IllegalStateException();
    }

    @Test
    void aborts() {
        assumeTrue(false, "no network");
    }

    @Test
    @Disabled("off")
    void isDisabled() {
    }

    @Test
    void reports(TestReporter reporter) {
        reporter.publishEntry(Map.of("width", "640", "height", "480", "Unit", "pixel"));
        reporter.publishEntry("a line");
    }

    @ParameterizedTest(name = "{0}")
    @ValueSource(strings = {"Zürich", "Ελλάδα", "日本", "a|b", "\uD83D\uDE00"})
    void takes(String name) throws InterruptedException {
        Thread.sleep(5);
        assertEquals(name, name.trim());
    }

    @RepeatedTest(5)
    @ResourceLock("db")
    void repeats() throws InterruptedException {
        Thread.sleep(2);
    }

    @TestFactory
    Stream<DynamicNode> makes() {
        return Stream.of(dynamicTest("one", () -> {}), dynamicContainer("more", Stream.of(dynamicTest("two", () -> fail("two")))));
    }

    @Nested
    class Inner {

        @Test
        void succeeds() {
        }

        @Nested
        class Innermost {

            @Test
            void aborts() {
                assumeTrue(false);
            }
        }
    }

    @Nested
    @Disabled("both off")
    class Off {

        @Test
        void one() {
        }

        @Test
        void two() {
        }
    }

    /** A container that fails, without an event of its test. */
    static class BrokenTests {

        @BeforeAll
        static void breaks() {
            throw new IllegalStateException("no database");
        }

        @Test
        void isNeverStarted() {
        }
    }

    /** A container that is aborted. */
    static class AbortedTests {

        @BeforeAll
        static void aborts() {
            assumeTrue(false, "not here");
        }

        @Test
        void isNeverStarted() {
        }
    }
}
