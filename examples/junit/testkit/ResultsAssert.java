package testkit;

import java.nio.file.Files;
import java.util.Map;
import java.util.WeakHashMap;

import org.apiguardian.api.API;
import org.junit.platform.testkit.engine.EngineExecutionResults;

/**
 * Begins assertions about results of EngineTestKit.
 *
 * <p>Results have one record, which stays in memory as long as they do. A file is made of it for each question, and goes with it; one that
 * the message of an assertion names stays.
 */
@API(status = API.Status.EXPERIMENTAL, since = "0.1")
public final class ResultsAssert {

    private static final Map<EngineExecutionResults, RecordSource> RECORDED = new WeakHashMap<>();

    private ResultsAssert() {
    }

    /**
     * Begins assertions about results, whose record is made at the first call.
     *
     * @param results the results; never {@code null}
     * @return the assertions; never {@code null}
     */
    public static RecordAssert assertThat(EngineExecutionResults results) {
        return new RecordAssert(source(RecordAssert.given(results, "results")));
    }

    /** Returns the record of results. It is made without our lock, since an engine's code runs then, and what is said is said. */
    private static RecordSource source(EngineExecutionResults results) {
        synchronized (RECORDED) {
            if (RECORDED.containsKey(results)) {
                return RECORDED.get(results);
            }
        }
        RecordSource made = RecordSource.of(path -> {
            // (where it isn't whole, each question says so)
            ResultsWriter.writeWhole(results, path.toString());
            return new RecordSource(Files.readAllBytes(path), ResultsWriter.unregistered(results));
        });
        synchronized (RECORDED) {
            // (another thread may have been first)
            RECORDED.putIfAbsent(results, made);
            return RECORDED.get(results);
        }
    }
}
