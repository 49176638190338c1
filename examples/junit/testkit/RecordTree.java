package testkit;

import java.util.ArrayList;
import java.util.Collections;
import java.util.HashMap;
import java.util.LinkedHashMap;
import java.util.List;
import java.util.Map;
import java.util.stream.Collectors;
import java.util.stream.Stream;

import org.apiguardian.api.API;
import org.junit.platform.engine.DiscoverySelector;
import org.junit.platform.engine.SelectorResolutionResult;
import org.junit.platform.engine.TestDescriptor;
import org.junit.platform.engine.TestEngine;
import org.junit.platform.engine.UniqueId;
import org.junit.platform.launcher.LauncherDiscoveryListener;
import org.junit.platform.launcher.TestIdentifier;
import org.junit.platform.launcher.core.LauncherDiscoveryRequestBuilder;

/** What an engine has discovered: its tree, as it was then, without the containers that JUnit's launcher leaves out, and what is wrong. */
@API(status = API.Status.EXPERIMENTAL, since = "0.1")
public final class RecordTree {

    private final List<String> faults = new ArrayList<>();
    private final Map<UniqueId, TestIdentifier> identifiers = new LinkedHashMap<>();
    private final Map<UniqueId, List<String>> locks = new HashMap<>();
    private TestDescriptor root;
    private boolean isUsable = true;

    private RecordTree() {
    }

    static RecordTree of(TestEngine engine, LauncherDiscoveryRequestBuilder request) {
        RecordTree tree = new RecordTree();
        LauncherDiscoveryListener listener = new LauncherDiscoveryListener() {

            @Override
            public void selectorProcessed(UniqueId engineId, DiscoverySelector selector, SelectorResolutionResult result) {
                if (result.getStatus() == SelectorResolutionResult.Status.FAILED) {
                    tree.fault(selector + " failed: " + result.getThrowable().map(Throwable::toString).orElse("?"));
                } else if (result.getStatus() == SelectorResolutionResult.Status.UNRESOLVED) {
                    tree.faults.add(selector + " isn't resolved");
                }
            }
        };
        try {
            tree.keep(engine.discover(request.listeners(listener).build(), UniqueId.forEngine(engine.getId())), engine.getId());
        } catch (RuntimeException fault) {
            tree.fault("discover threw " + fault);
        }
        return tree;
    }

    private void fault(String text) {
        isUsable = false;
        if (!faults.contains(text)) {
            faults.add(text);
        }
    }

    private void keep(TestDescriptor found, String engine) {
        if (found == null) {
            fault("discover returned null");
            return;
        }
        if (!found.getUniqueId().equals(UniqueId.forEngine(engine))) {
            fault("the root is " + found.getUniqueId() + " and not " + UniqueId.forEngine(engine));
        }
        collect(found);
        if (isUsable) {
            found.accept(TestDescriptor::prune);
            identifiers.clear();
            collect(found);
        }
        locks.putAll(RecordLocks.of(Stream.of(found)));
        root = found;
    }

    /** Puts a descriptor and all below it into the tree, parents first. */
    private void collect(TestDescriptor descriptor) {
        if (identifiers.containsKey(descriptor.getUniqueId())) {
            fault(descriptor.getUniqueId() + " stands twice in the tree");
            return;
        }
        identifiers.put(descriptor.getUniqueId(), TestIdentifier.from(descriptor));
        for (TestDescriptor child : descriptor.getChildren()) {
            if (child.getParent().orElse(null) != descriptor) {
                fault(child.getUniqueId() + " has another parent than " + descriptor.getUniqueId() + ", whose child it is");
            }
            collect(child);
        }
    }

    TestDescriptor root() {
        return root;
    }

    /** Returns whether the tree can be executed: it is there, and has no fault but selectors that aren't resolved. */
    boolean isUsable() {
        return isUsable;
    }

    Map<UniqueId, TestIdentifier> identifiers() {
        return new LinkedHashMap<>(identifiers);
    }

    Map<UniqueId, List<String>> locks() {
        return new HashMap<>(locks);
    }

    /**
     * Returns a line for each descriptor, parents first: its id, its name in quotes, its locks as a record has them.
     *
     * @return the lines; never {@code null}
     */
    public List<String> list() {
        return identifiers.values().stream().map(it -> it.getUniqueId() + " \"" + it.getDisplayName() + "\""
                + locks.getOrDefault(it.getUniqueIdObject(), Collections.emptyList()).stream().map(lock -> " " + lock).collect(Collectors.joining()))
                .collect(Collectors.toList());
    }

    /**
     * Returns what is wrong: an exception, a selector that failed or isn't resolved, a root of another engine, an id that stands twice, a child that
     * has another parent.
     *
     * @return the faults; never {@code null}
     */
    public List<String> faults() {
        return Collections.unmodifiableList(faults);
    }
}
