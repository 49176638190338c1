package testkit;

import java.lang.ref.Reference;
import java.lang.ref.WeakReference;
import java.util.ArrayList;
import java.util.Deque;
import java.util.HashMap;
import java.util.List;
import java.util.Map;
import java.util.Objects;
import java.util.TreeMap;
import java.util.concurrent.ConcurrentLinkedDeque;
import java.util.function.Consumer;
import java.util.stream.Collectors;
import java.util.stream.Stream;

import org.apiguardian.api.API;
import org.junit.platform.engine.FilterResult;
import org.junit.platform.engine.TestDescriptor;
import org.junit.platform.engine.UniqueId;
import org.junit.platform.engine.support.hierarchical.ExclusiveResource;
import org.junit.platform.engine.support.hierarchical.ExclusiveResource.LockMode;
import org.junit.platform.engine.support.hierarchical.Node;
import org.junit.platform.launcher.PostDiscoveryFilter;
import org.junit.platform.launcher.TestPlan;

/**
 * A filter that lets everything pass, by which {@link RecordListener} has the locks that the descriptors of a run declare.
 *
 * <p>A listener gets identifiers, which don't tell locks; a filter gets the descriptors. Those of an engine built on JUnit's
 * {@code HierarchicalTestEngine}, as Jupiter is, are {@link Node}s, which are asked when a run begins that is recorded. Other descriptors
 * tell no lock. JUnit finds this class as a service. A launcher that looks for none needs it by {@code addPostDiscoveryFilters}.
 */
@API(status = API.Status.EXPERIMENTAL, since = "0.1")
public final class RecordLocks implements PostDiscoveryFilter {

    /** The name that a record has for JUnit's global lock, that of {@code @Isolated}. */
    private static final String GLOBAL = "global";
    /** How the name begins that a record has for another lock of that name, or for one whose name begins so. */
    private static final String REPLACED = "[replaced-lock:";

    /** The root of a tree that was filtered, as long as JUnit keeps it, and the plan that was executed with it. */
    private static final class Root extends WeakReference<TestDescriptor> {

        private volatile Reference<TestPlan> plan;

        Root(TestDescriptor root) {
            super(root);
        }

        boolean isFor(TestPlan other, UniqueId id) {
            TestDescriptor root = get();
            return root != null && (plan == null || plan.get() == other) && root.getUniqueId().equals(id);
        }

        boolean hasId(UniqueId id) {
            TestDescriptor root = get();
            return root != null && root.getUniqueId() == id;
        }
    }

    private static final Deque<Root> ROOTS = new ConcurrentLinkedDeque<>();

    @Override
    public FilterResult apply(TestDescriptor descriptor) {
        try {
            // (JUnit doesn't show this filter what an earlier one excludes, as a root that stays for the sake of a test)
            keep(root(descriptor));
        } catch (Throwable fault) {
            // (whatever it is: JUnit asks a descriptor for its parent too, and says so where it can't be had)
        }
        return FilterResult.included(null);
    }

    private static void keep(TestDescriptor root) {
        if (ROOTS.stream().noneMatch(it -> it.get() == root)) {
            ROOTS.removeIf(it -> it.get() == null);
            ROOTS.addFirst(new Root(root));
        }
    }

    static TestDescriptor root(TestDescriptor descriptor) {
        return descriptor.getParent().map(RecordLocks::root).orElse(descriptor);
    }

    /** Does {@link #of(Stream)} with the roots of a plan, as far as they were filtered; {@code notes} takes what is lost. */
    static Map<UniqueId, List<String>> of(TestPlan plan, Consumer<String> notes) {
        return of(plan.getRoots().stream().flatMap(root -> rootOf(plan, root.getUniqueIdObject(), notes)));
    }

    /**
     * Returns the descriptor of a root: the one from which JUnit took this id. Where none answers this id itself, the only one with an
     * equal id that no other plan has.
     */
    private static Stream<TestDescriptor> rootOf(TestPlan plan, UniqueId id, Consumer<String> notes) {
        List<Root> equal = ROOTS.stream().filter(it -> it.isFor(plan, id)).collect(Collectors.toList());
        List<Root> same = equal.stream().filter(it -> it.hasId(id)).limit(1).collect(Collectors.toList());
        List<Root> found = same.isEmpty() ? equal : same;
        if (found.size() > 1) {
            notes.accept("the locks of " + id + " aren't recorded: " + found.size() + " trees have this id");
            return Stream.empty();
        }
        found.forEach(it -> it.plan = new WeakReference<>(plan));
        return found.stream().map(Reference::get).filter(Objects::nonNull);
    }

    /** Returns the locks of what stands below these roots and has some: of each, in the order of a record, its mode and its name. */
    static Map<UniqueId, List<String>> of(Stream<TestDescriptor> roots) {
        Map<UniqueId, List<String>> found = new HashMap<>();
        roots.distinct().forEach(root -> {
            Map<UniqueId, Map<String, LockMode>> locks = new HashMap<>();
            collect(root, locks);
            root.getChildren().stream().filter(it -> it instanceof Node).forEach(it -> addGlobal(it, locks));
            locks.forEach((id, modes) -> found.put(id, lines(modes)));
        });
        return found;
    }

    private static void collect(TestDescriptor descriptor, Map<UniqueId, Map<String, LockMode>> locks) {
        if (descriptor instanceof Node) {
            locks.put(descriptor.getUniqueId(), locks((Node<?>) descriptor));
        }
        descriptor.getChildren().forEach(child -> collect(child, locks));
    }

    /** Adds the global lock, as JUnit's executor holds it round a child of an engine: for writing where it or one below declares that. */
    private static void addGlobal(TestDescriptor child, Map<UniqueId, Map<String, LockMode>> locks) {
        boolean isIsolated = Stream.concat(Stream.of(child), child.getDescendants().stream()).map(it -> locks.get(it.getUniqueId()))
                .anyMatch(it -> it != null && it.get(GLOBAL) == LockMode.READ_WRITE);
        locks.get(child.getUniqueId()).put(GLOBAL, isIsolated ? LockMode.READ_WRITE : LockMode.READ);
    }

    private static Map<String, LockMode> locks(Node<?> node) {
        Map<String, LockMode> modes = new TreeMap<>(RecordText.BYTE_ORDER);
        for (ExclusiveResource resource : node.getExclusiveResources()) {
            modes.merge(name(resource.getKey()), resource.getLockMode(), (one, other) -> one == LockMode.READ ? other : one);
        }
        // (a record has no lock without a name)
        modes.remove("");
        return modes;
    }

    private static List<String> lines(Map<String, LockMode> modes) {
        List<String> found = new ArrayList<>();
        modes.forEach((name, mode) -> found.add((mode == LockMode.READ ? "R|" : "W|") + RecordText.field(name)));
        return found;
    }

    /** Returns the name that a record has for a lock: each lock has its own. */
    private static String name(String key) {
        if (key.equals(ExclusiveResource.GLOBAL_KEY)) {
            return GLOBAL;
        }
        return key.equals(GLOBAL) || key.startsWith(REPLACED) ? RecordText.shortened(REPLACED + key + "]") : RecordText.shortened(key);
    }
}
