package testkit;

import static org.junit.platform.engine.support.hierarchical.ExclusiveResource.LockMode.READ;
import static org.junit.platform.engine.support.hierarchical.ExclusiveResource.LockMode.READ_WRITE;

import java.lang.ref.WeakReference;
import java.lang.reflect.InvocationHandler;
import java.lang.reflect.Proxy;
import java.util.LinkedHashSet;
import java.util.Set;

import org.junit.platform.engine.EngineDiscoveryRequest;
import org.junit.platform.engine.ExecutionRequest;
import org.junit.platform.engine.FilterResult;
import org.junit.platform.engine.TestDescriptor;
import org.junit.platform.engine.TestDescriptor.Type;
import org.junit.platform.engine.TestEngine;
import org.junit.platform.engine.UniqueId;
import org.junit.platform.engine.support.hierarchical.EngineExecutionContext;
import org.junit.platform.engine.support.hierarchical.ExclusiveResource;
import org.junit.platform.engine.support.hierarchical.ExclusiveResource.LockMode;
import org.junit.platform.launcher.Launcher;
import org.junit.platform.launcher.LauncherDiscoveryRequest;
import org.junit.platform.launcher.PostDiscoveryFilter;
import org.junit.platform.launcher.TestPlan;
import org.junit.platform.launcher.core.LauncherConfig;
import org.junit.platform.launcher.core.LauncherDiscoveryRequestBuilder;
import org.junit.platform.launcher.core.LauncherFactory;
import testkit.Cases.Room;
import testkit.ScriptedEngine.Node;
import testkit.ScriptedEngine.Script;
import testkit.ScriptedEngine.Tree;

/**
 * Runs of small engines whose descriptors declare locks, each recorded.
 *
 * <p>It leaves what {@link Cases} does.
 */
public class LockCases {

    private static final LauncherDiscoveryRequest REQUEST = LauncherDiscoveryRequestBuilder.request().build();
    private static final Script START = (calls, root) -> calls.start(root);

    /** A test that declares locks, as those of an engine that is built on HierarchicalTestEngine. */
    static class Locking extends Node implements org.junit.platform.engine.support.hierarchical.Node<EngineExecutionContext> {

        private final Set<ExclusiveResource> locks = new LinkedHashSet<>();

        Locking(UniqueId id) {
            super(id, "locks", Type.CONTAINER_AND_TEST);
        }

        @Override
        public Set<ExclusiveResource> getExclusiveResources() {
            return locks;
        }

        Locking lock(String key, LockMode mode) {
            locks.add(new ExclusiveResource(key, mode));
            return this;
        }

        /** Adds a test below this one. */
        Locking below(String value) {
            return below(this, value);
        }

        /** Adds a test below a descriptor. */
        static Locking below(Node parent, String value) {
            return at(parent, parent.getUniqueId().append("t", value));
        }

        /** Adds a test with any id below a descriptor. */
        static Locking at(Node parent, UniqueId id) {
            Locking child = new Locking(id);
            parent.addChild(child);
            return child;
        }
    }

    /** An engine whose root answers a new id each time. */
    private static class NewId extends ScriptedEngine {

        private final String lock;

        NewId(String lock) {
            super("e", "engine", root -> { }, START);
            this.lock = lock;
        }

        @Override
        public TestDescriptor discover(EngineDiscoveryRequest request, UniqueId rootId) {
            Node root = new Node(rootId, "engine", Type.CONTAINER);
            Locking child = Locking.below(root, "1").lock(lock, READ);
            Class<?>[] types = {TestDescriptor.class};
            TestDescriptor answering = (TestDescriptor) Proxy.newProxyInstance(LockCases.class.getClassLoader(), types,
                    (it, method, arguments) -> {
                        if (method.getName().equals("accept")) {
                            ((TestDescriptor.Visitor) arguments[0]).visit((TestDescriptor) it);
                            child.accept((TestDescriptor.Visitor) arguments[0]);
                            return null;
                        }
                        return method.getName().equals("getUniqueId") ? UniqueId.parse(rootId.toString()) : method.invoke(root, arguments);
                    });
            child.setParent(answering);
            return answering;
        }

        @Override
        public void execute(ExecutionRequest request) {
            request.getEngineExecutionListener().executionStarted(request.getRootTestDescriptor());
        }
    }

    private LockCases() {
    }

    public static void main(String[] arguments) throws Exception {
        Cases.main(LockCases.class, arguments);
    }

    /** Returns a launcher of one engine, which starts its root alone. */
    private static Launcher launcher(Tree tree, PostDiscoveryFilter... filters) {
        return launcher(new ScriptedEngine("e", "engine", tree, START), filters);
    }

    private static Launcher launcher(TestEngine engine, PostDiscoveryFilter... filters) {
        return LauncherFactory.create(LauncherConfig.builder().enableTestExecutionListenerAutoRegistration(false)
                .enableTestEngineAutoRegistration(false).addTestEngines(engine)
                .addPostDiscoveryFilters(filters).build());
    }

    private static void launch(Room room, RecordListener listener, Tree tree, PostDiscoveryFilter... filters) {
        launcher(tree, filters).execute(REQUEST, listener);
        room.fact("whole", listener.isWhole());
    }

    private static void locks(Room room) {
        Cases.launch(new RecordListener(room.path()), root -> {
            Locking.below(root, "1").lock("db", READ_WRITE).below("2").lock("db", READ);
            Locking.below(root, "3");
            Locking.below(root, "4").lock("net", READ).lock("db", READ).lock("db", READ_WRITE);
            Locking.below(root, "5").lock("net", READ_WRITE).lock("db", READ_WRITE).lock("db", READ);
            Locking.below(root, "6").lock(ExclusiveResource.GLOBAL_KEY, READ_WRITE).lock("global", READ).lock("[replaced-lock:global]", READ_WRITE);
            Locking.below(root, "7").lock(ExclusiveResource.GLOBAL_KEY, READ).lock("Global", READ_WRITE);
            root.add("t", "8", "no lock", Type.TEST);
            Locking.below(root, "9").below("10").lock(ExclusiveResource.GLOBAL_KEY, READ_WRITE);
        }, (calls, root) -> calls.register(Locking.below(root, "dynamic").lock("db", READ_WRITE)));
    }

    /** Names with each escape, in another order than Java's; two that are one text, one that is too long, and none. */
    private static void lockNames(Room room) {
        launch(room, new RecordListener(room.path()), root -> {
            Locking test = Locking.below(root, "1");
            for (String name : new String[] {"a|b", "a{", "a\\", "a\nb", "\uD83D\uDE00", "\uFF21", Cases.letters(65_537), " b ", "\uD83D"}) {
                test.lock(name, READ);
            }
            test.lock("\uDE00", READ_WRITE).locks.add(new ExclusiveResource("none", READ) {
                @Override
                public String getKey() {
                    return "";
                }
            });
        }, new RecordLocks());
    }

    /** A filter before ours that excludes all that is no leaf, of which JUnit keeps what is above a leaf. */
    private static void locksBehindAFilter(Room room) {
        launch(room, new RecordListener(room.path()), root -> {
            Locking.below(root, "1").lock("db", READ_WRITE).below("2").below("3").lock("db", READ);
            Locking.below(root, "excluded").lock("db", READ_WRITE);
        }, it -> FilterResult.includedIf(it.getUniqueId().getLastSegment().getValue().equals("3")), new RecordLocks());
    }

    /** Plans of equal ids, which are executed in another order. */
    private static void locksOfTwoPlans(Room room) {
        Launcher first = launcher(root -> Locking.below(root, "1").lock("first", READ), new RecordLocks());
        Launcher second = launcher(root -> Locking.below(root, "1").lock("second", READ), new RecordLocks());
        TestPlan[] plans = {first.discover(REQUEST), second.discover(REQUEST)};
        first.execute(plans[0], new RecordListener(room.path() + ".first"));
        second.execute(plans[1], new RecordListener(room.path() + ".second"));
    }

    /** Descriptors that declare no lock; a launcher without the filter; descriptors whose locks, or whose parent, can't be had. */
    private static void noLocks(Room room) {
        launch(room, new RecordListener(room.path()), root -> Locking.below(root, "1"), new RecordLocks());
        Tree tree = root -> Locking.below(root, "1").lock("db", READ);
        launch(room, new RecordListener(room.path() + ".unfiltered"), tree);
        launch(room, new RecordListener(room.path() + ".failing"), root -> {
            tree.build(root);
            root.addChild(new Locking(root.getUniqueId().append("t", "2")) {
                @Override
                public Set<ExclusiveResource> getExclusiveResources() {
                    throw new Cases.Unreadable();
                }
            });
        }, new RecordLocks());
        InvocationHandler failing = (it, method, arguments) -> {
            throw new StackOverflowError();
        };
        Class<?>[] types = {TestDescriptor.class};
        TestDescriptor orphan = (TestDescriptor) Proxy.newProxyInstance(LockCases.class.getClassLoader(), types, failing);
        room.fact("included", new RecordLocks().apply(orphan).included());
    }

    /** How a run asks for locks: not where it isn't recorded, else once, while another thread has the listener; and no tree stays for it. */
    private static void askedLocks(Room room) throws InterruptedException {
        WeakReference<Node> tree = ask(room, new RecordListener());
        ask(room, new RecordListener(room.path()));
        for (int i = 0; i < 100 && tree.get() != null; i++) {
            System.gc();
            Thread.sleep(20);
        }
        room.fact("gone", tree.get() == null);
    }

    private static WeakReference<Node> ask(Room room, RecordListener listener) {
        Node[] root = new Node[1];
        launch(room, listener, it -> {
            root[0] = it;
            it.addChild(new Locking(it.getUniqueId().append("t", "1")) {
                @Override
                public Set<ExclusiveResource> getExclusiveResources() {
                    Cases.isFree(room, listener);
                    return super.getExclusiveResources();
                }
            }.lock("db", READ));
        }, new RecordLocks());
        return new WeakReference<>(root[0]);
    }

    /** A lock for which there is no place, before one for which there would be; names leave ten bytes. */
    private static void locksAtTheLimit(Room room) {
        Tree tree = root -> {
            Locking.below(root, "1").lock("a", READ).lock("bb", READ).lock("c", READ);
            for (int i = 2; i < 258; i++) {
                root.add("t", "" + i, Cases.letters(i < 257 ? 65_536 : 59_422), Type.TEST);
            }
        };
        launch(room, new RecordListener(room.path()), tree, new RecordLocks());
    }

    /** Roots that answer an equal, new id: in one plan after another, in a plan that two listeners record, and in two plans at once. */
    private static void locksOfNewIds(Room room) {
        for (String name : new String[] {"first", "second"}) {
            launcher(new NewId(name), new RecordLocks()).execute(REQUEST, new RecordListener(room.path() + "." + name),
                    new RecordListener(room.path() + "." + name + "-again"));
        }
        Launcher launcher = launcher(new NewId("third"), new RecordLocks());
        TestPlan[] plans = {launcher.discover(REQUEST), launcher.discover(REQUEST)};
        launcher.execute(plans[0], new RecordListener(room.path() + ".third"));
        room.fact("plans", plans.length);
    }
}
