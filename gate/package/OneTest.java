public class OneTest {
    @org.junit.jupiter.api.Test
    @org.junit.jupiter.api.parallel.ResourceLock("db")
    void one() {
        testkit.RecordAssert.assertThat(java.nio.file.Paths.get(System.getProperty("examples"), "two_tests.record")).keepsLifecycle();
    }
}
