package testkit;

import static java.nio.charset.StandardCharsets.UTF_8;
import static org.junit.jupiter.api.Assertions.assertEquals;
import static org.junit.jupiter.api.Assertions.assertThrows;
import static org.junit.jupiter.api.Assertions.assertTrue;
import static org.junit.platform.engine.discovery.DiscoverySelectors.selectClass;
import static org.junit.platform.engine.discovery.DiscoverySelectors.selectMethod;
import static org.junit.platform.engine.discovery.DiscoverySelectors.selectUri;

import java.io.IOException;
import java.nio.file.Files;
import java.nio.file.Path;
import java.util.Arrays;
import java.util.Collections;
import java.util.List;

import org.junit.jupiter.api.AfterEach;
import org.junit.jupiter.api.Test;
import org.junit.jupiter.api.io.TempDir;
import org.junit.platform.engine.EngineDiscoveryRequest;
import org.junit.platform.engine.TestDescriptor;
import org.junit.platform.engine.TestDescriptor.Type;
import org.junit.platform.engine.UniqueId;
import org.junit.platform.engine.support.hierarchical.ExclusiveResource.LockMode;
import org.opentest4j.AssertionFailedError;
import testkit.ScriptedEngine.Node;
import testkit.ScriptedEngine.Script;
import testkit.ScriptedEngine.Tree;

/** Tests of {@link RecordKit}: the records that it makes, and what it says of trees. */
class RecordKitTests {

    @TempDir
    Path folder;

    @AfterEach
    void clearProperty() {
        System.clearProperty("testkit.program");
        System.clearProperty("testkit.threads");
    }

    private static RecordKit kit(Tree tree, Script script) {
        return RecordKit.engine(new ScriptedEngine("e", "engine", tree, script));
    }

    private static List<String> lines(RecordAssert asserting) throws IOException {
        return Files.readAllLines(asserting.recordPath());
    }

    /** The tree before the run, what was added later and registered nowhere, and the threads of the calls. */
    @Test
    void theRecordHasThePlanAndTheThreads() throws IOException {
        Path program = folder.resolve("program");
        Files.write(program, "#!/bin/sh\necho yes\n".getBytes(UTF_8));
        assertTrue(program.toFile().setExecutable(true));
        System.setProperty("testkit.program", program.toString());
        System.setProperty("testkit.threads", "true");
        RecordAssert asserting = kit(root -> {
            root.add("t", "1", "one", Type.TEST);
            LockCases.Locking.below(root, "2").lock("db", LockMode.READ_WRITE);
            root.add("c", "empty", "no test", Type.CONTAINER);
            root.addChild(new Node(root.getUniqueId().append("c", "pruned"), "left out", Type.CONTAINER) {
                @Override
                public boolean mayRegisterTests() {
                    return false;
                }
            });
        }, (calls, root) -> {
            calls.start(root);
            calls.onThread(() -> calls.play(root.child(0)));
            Node later = root.add("t", "3", "added", Type.TEST);
            calls.play(later);
            calls.play(calls.register(root, "1", "registered", Type.TEST));
            calls.succeed(root);
        }).configurationParameter("testkit.stamps", "positions").configurationParameter("testkit.record", "elsewhere").execute();
        assertEquals(Arrays.asList("testkit-record|3", "N|C|[engine:e]|engine", "N|T|[engine:e]/[t:1]|one", "N|B|[engine:e]/[t:2]|locks",
                "N|C|[engine:e]/[c:empty]|no test", "N|T|[engine:e]/[t:3]|added", "L|2|W|db", "L|2|R|global", "E|1|0|0|start", "E|2|1|1|start",
                "E|2|1|2|finish|ok", "E|1|4|3|start", "E|1|4|4|finish|ok", "E|1|65536|5|dynamic|T|[engine:e]/[d:1]|registered", "E|1|65536|6|start",
                "E|1|65536|7|finish|ok", "E|1|0|8|finish|ok", "Z|9"), lines(asserting));
        Error fault = assertThrows(AssertionFailedError.class, asserting::keepsLifecycle);
        assertTrue(fault.getMessage().startsWith("nobody registered [engine:e]/[t:3] before the first event: "), fault.getMessage());
        assertEquals(asserting, asserting.keepsLocks());
    }

    /** An engine that JUnit finds as a service, a selector, and one that nobody resolves. */
    @Test
    void jupiterRuns() throws IOException {
        RecordKit kit = RecordKit.engine("junit-jupiter").selectors(selectMethod(LockTests.class, "writes"), selectUri("none:here"));
        assertEquals(Collections.singletonList("UriSelector [uri = none:here] isn't resolved"), kit.discover().faults());
        List<String> lines = lines(kit.execute());
        assertTrue(lines.contains("L|2|W|db"), lines.toString());
        assertEquals("Z|6", lines.get(lines.size() - 1));
    }

    @Test
    void anEngineThatThrowsIsHeard() {
        assertThrows(IllegalStateException.class, () -> RecordKit.engine("junit-jupiter").selectors(selectClass("none.Here")).execute());
        assertThrows(IllegalStateException.class, () -> kit(root -> { }, (calls, root) -> {
            throw new IllegalStateException("of the engine");
        }).execute());
        assertThrows(IllegalArgumentException.class, () -> RecordKit.engine("none"));
        assertThrows(IllegalArgumentException.class, () -> RecordKit.engine((String) null));
    }

    @Test
    void aTreeHasItsLocks() {
        RecordTree tree = RecordKit.engine("junit-jupiter").selectors(selectClass(LockTests.class), selectClass("none.Here")).discover();
        String inner = "[engine:junit-jupiter]/[class:testkit.LockTests]/[nested-class:Inner]";
        assertTrue(tree.list().contains(inner + " \"Inner\" R|db"), tree.list().toString());
        assertEquals(1, tree.faults().size(), tree.faults().toString());
        assertTrue(tree.faults().get(0).startsWith("ClassSelector [className = 'none.Here'] failed: "), tree.faults().toString());
    }

    @Test
    void eachFaultOfDiscoveryIsTold() {
        String other = "[engine:e]/[t:2] has another parent than [engine:e], whose child it is";
        assertEquals(Arrays.asList("[engine:e]/[t:1] stands twice in the tree", other),
                kit(root -> {
                    root.add("c", "1", "one", Type.CONTAINER).addChild(new Node(root.getUniqueId().append("t", "1"), "one", Type.TEST));
                    root.add("t", "1", "one", Type.TEST);
                    root.add("t", "2", "two", Type.TEST).setParent(root.child(0));
                }, (calls, root) -> { }).discover().faults());
        RecordKit throwing = kit(root -> {
            throw new IllegalStateException("no tree");
        }, (calls, root) -> { });
        assertEquals(Collections.singletonList("discover threw java.lang.IllegalStateException: no tree"), throwing.discover().faults());
        assertThrows(IllegalStateException.class, throwing::execute);
        RecordTree strange = RecordKit.engine(new ScriptedEngine("e", "engine", root -> { }, (calls, root) -> { }) {
            @Override
            public TestDescriptor discover(EngineDiscoveryRequest request, UniqueId rootId) {
                return super.discover(request, UniqueId.forEngine("f"));
            }
        }).discover();
        assertEquals(Collections.singletonList("the root is [engine:f] and not [engine:e]"), strange.faults());
    }
}
