package testkit;

import java.util.LinkedHashMap;
import java.util.LinkedHashSet;
import java.util.Map;
import java.util.Set;

import org.junit.platform.engine.EngineDiscoveryRequest;
import org.junit.platform.engine.EngineExecutionListener;
import org.junit.platform.engine.ExecutionRequest;
import org.junit.platform.engine.TestDescriptor;
import org.junit.platform.engine.TestDescriptor.Type;
import org.junit.platform.engine.TestEngine;
import org.junit.platform.engine.TestExecutionResult;
import org.junit.platform.engine.TestTag;
import org.junit.platform.engine.UniqueId;
import org.junit.platform.engine.reporting.ReportEntry;
import org.junit.platform.engine.support.descriptor.AbstractTestDescriptor;

/** An engine whose tree and whose calls of the listener a test gives. */
class ScriptedEngine implements TestEngine {

    /** A descriptor of any type. */
    static class Node extends AbstractTestDescriptor {

        private final Type type;
        private final Set<TestTag> tags = new LinkedHashSet<>();

        Node(UniqueId id, String name, Type type) {
            super(id, name);
            this.type = type;
        }

        @Override
        public Type getType() {
            return type;
        }

        @Override
        public Set<TestTag> getTags() {
            return tags;
        }

        /** Gives the node a tag. */
        Node tag(String name) {
            tags.add(TestTag.create(name));
            return this;
        }

        @Override
        public boolean mayRegisterTests() {
            // (else JUnit's launcher drops a container that has no test)
            return true;
        }

        /** Adds a child whose id has one segment more. */
        Node add(String tag, String value, String name, Type type) {
            Node child = new Node(getUniqueId().append(tag, value), name, type);
            addChild(child);
            return child;
        }

        /** Returns the child at this place. */
        Node child(int place) {
            return (Node) getChildren().toArray()[place];
        }
    }

    /** Builds a tree below its root. */
    interface Tree {
        void build(Node root);
    }

    /** What the engine reports of its tree. */
    interface Script {
        void run(Calls calls, Node root) throws Exception;
    }

    /** Part of a script. */
    interface Step {
        void run() throws Exception;
    }

    /** The calls of a listener in a few letters. */
    static class Calls {

        private final EngineExecutionListener listener;

        Calls(EngineExecutionListener listener) {
            this.listener = listener;
        }

        void start(TestDescriptor node) {
            listener.executionStarted(node);
        }

        void skip(TestDescriptor node, String reason) {
            listener.executionSkipped(node, reason);
        }

        void succeed(TestDescriptor node) {
            listener.executionFinished(node, TestExecutionResult.successful());
        }

        void abort(TestDescriptor node, Throwable throwable) {
            listener.executionFinished(node, TestExecutionResult.aborted(throwable));
        }

        void fail(TestDescriptor node, Throwable throwable) {
            listener.executionFinished(node, TestExecutionResult.failed(throwable));
        }

        /** Publishes an entry; each pair is a key and a value. */
        void report(TestDescriptor node, String... pairs) {
            Map<String, String> entry = new LinkedHashMap<>();
            for (int i = 0; i < pairs.length; i += 2) {
                entry.put(pairs[i], pairs[i + 1]);
            }
            listener.reportingEntryPublished(node, ReportEntry.from(entry));
        }

        /** Adds a child and registers it. */
        Node register(Node parent, String value, String name, Type type) {
            Node child = parent.add("d", value, name, type);
            listener.dynamicTestRegistered(child);
            return child;
        }

        /** Registers a node again. */
        void register(Node node) {
            listener.dynamicTestRegistered(node);
        }

        /** Starts the node and finishes it. */
        void play(TestDescriptor node) {
            start(node);
            succeed(node);
        }

        /** Does the step on a thread of its own, and waits for its end. */
        void onThread(Step step) throws InterruptedException {
            Thread thread = new Thread(() -> {
                try {
                    step.run();
                } catch (Exception fault) {
                    throw new IllegalStateException(fault);
                }
            });
            thread.start();
            thread.join();
        }
    }

    private final String id;
    private final String name;
    private final Tree tree;
    private final Script script;

    ScriptedEngine(String id, String name, Tree tree, Script script) {
        this.id = id;
        this.name = name;
        this.tree = tree;
        this.script = script;
    }

    @Override
    public String getId() {
        return id;
    }

    @Override
    public TestDescriptor discover(EngineDiscoveryRequest request, UniqueId rootId) {
        Node root = new Node(rootId, name, Type.CONTAINER);
        tree.build(root);
        return root;
    }

    @Override
    public void execute(ExecutionRequest request) {
        try {
            script.run(new Calls(request.getEngineExecutionListener()), (Node) request.getRootTestDescriptor());
        } catch (Exception fault) {
            throw new IllegalStateException(fault);
        }
    }
}
