package demo;
import org.junit.jupiter.api.Test;
import org.junit.jupiter.api.parallel.ResourceLock;
@ResourceLock("db") class {0}Test {{
    @Test void passes() throws InterruptedException {{ Thread.sleep(20); }}
    @Test void fails() {{ throw new IllegalStateException("boom {0}"); }}
}}
