package testkit;

import static org.junit.platform.engine.discovery.DiscoverySelectors.selectMethod;
import static org.junit.platform.testkit.engine.EventConditions.event;
import static org.junit.platform.testkit.engine.EventConditions.finishedSuccessfully;
import static org.junit.platform.testkit.engine.EventConditions.finishedWithFailure;
import static org.junit.platform.testkit.engine.EventConditions.started;
import static org.junit.platform.testkit.engine.EventConditions.test;

import org.assertj.core.api.Condition;
import org.junit.jupiter.api.MethodOrderer;
import org.junit.jupiter.api.Order;
import org.junit.jupiter.api.Test;
import org.junit.jupiter.api.TestMethodOrder;
import org.junit.platform.testkit.engine.EngineExecutionResults;
import org.junit.platform.testkit.engine.EngineTestKit;
import org.junit.platform.testkit.engine.Event;
import org.junit.platform.testkit.engine.Events;

/**
 * Shows where {@code Events.assertEventsMatchLooselyInOrder} of JUnit 5.9.2 errs: it takes the first event that fits each condition
 * by itself, asks only whether these positions never fall, and before that whether there are as many events as conditions.
 *
 * <p>With a path as its word, the record of both tests is written there, of which {@code ask match in-order} gives the right answers.
 * The gate doesn't compile this class: Debian packages no junit-platform-testkit ({@code docs/JUNIT.md}).
 */
public class InOrder {

    /** Two tests, of which the second fails. */
    @TestMethodOrder(MethodOrderer.OrderAnnotation.class)
    static class TwoTests {

        @Test
        @Order(1)
        void one() {
        }

        @Test
        @Order(2)
        void two() {
            throw new IllegalStateException("boom");
        }
    }

    /** Prints JUnit's answer to some questions about one run, each beside the right one. */
    public static void main(String[] arguments) {
        EngineExecutionResults results = run("one", "two");
        if (arguments.length == 1 && !ResultsWriter.write(results, arguments[0])) {
            System.exit(1);
        }
        Events both = results.testEvents();
        System.out.println("events: " + both.count());
        show(both, "each once", "yes", started(), finishedSuccessfully(), finishedWithFailure());
        show(both, "three starts of two tests", "no", started(), started(), started());
        show(both, "one success twice", "no", finishedSuccessfully(), finishedSuccessfully());
        show(both, "a start after the success", "yes", finishedSuccessfully(), started());
        show(both, "a start after that of one", "yes", event(test("one"), started()), started());
        show(both, "start, success, start, failure", "yes", started(), finishedSuccessfully(), started(), finishedWithFailure());
        show(both, "a success after the failure", "no", finishedWithFailure(), finishedSuccessfully());
        Events one = run("one").testEvents();
        System.out.println("events: " + one.count());
        show(one, "one start twice", "no", started(), started());
        System.out.println("events: " + one.started().count());
        show(one.started(), "one start twice", "no", started(), started());
    }

    private static EngineExecutionResults run(String... methods) {
        EngineTestKit.Builder builder = EngineTestKit.engine("junit-jupiter");
        for (String method : methods) {
            builder.selectors(selectMethod(TwoTests.class, method));
        }
        return builder.execute();
    }

    @SafeVarargs
    @SuppressWarnings("varargs")
    private static void show(Events events, String question, String right, Condition<Event>... conditions) {
        String answer = "yes";
        try {
            events.assertEventsMatchLooselyInOrder(conditions);
        } catch (AssertionError fault) {
            answer = "no (" + fault.getMessage().trim().split("\\R")[0] + ")";
        }
        System.out.println(question + ": right is " + right + ", JUnit says " + answer);
    }
}
