import java.util.ArrayList;
import java.util.Collection;
import java.util.HashSet;
import java.util.IdentityHashMap;
import java.util.List;
import java.util.Map;
import java.util.Set;
import java.util.TreeMap;
import java.util.function.BiConsumer;
import java.util.function.Consumer;
import java.util.function.Function;
import java.util.function.Predicate;
import java.util.stream.Collectors;
import java.util.stream.IntStream;
import org.eclipse.equinox.internal.region.StandardRegionDigraph;
import org.eclipse.equinox.region.Region;
import org.eclipse.equinox.region.RegionDigraph;
import org.eclipse.equinox.region.RegionFilter;
import org.eclipse.equinox.region.RegionFilterBuilder;
import org.osgi.framework.BundleContext;
import org.osgi.framework.BundleEvent;
import org.osgi.framework.BundleException;
import org.osgi.framework.Constants;
import org.osgi.framework.InvalidSyntaxException;
import org.osgi.framework.ServiceEvent;
import org.osgi.framework.hooks.resolver.ResolverHook;
import org.osgi.framework.wiring.BundleCapability;

/** Equinox's digraph with the bundles installed in it. Queries are answered by Equinox's own hooks. */
final class World {
    final RegionDigraph digraph;
    final Map<Long, Installed> bundles = new TreeMap<>();

    World() {
        try {
            digraph = new StandardRegionDigraph(null, null);
        } catch (BundleException e) {
            throw new IllegalStateException(e);
        }
    }

    /** Makes the change that a line of a script names. What Equinox refuses comes out as an exception. */
    void change(String[] words) throws BundleException, InvalidSyntaxException {
        change(digraph, words);
        switch (words[0]) {
            case "install":
                long location = Long.parseLong(words[2]);
                bundles.put(location, new Installed(location, list(words[3]), list(words[4]), list(words[5])));
                break;
            case "uninstall":
                bundles.remove(Long.valueOf(words[1]));
                break;
            case "remove":
                bundles.values().removeIf(b -> digraph.getRegion(b.id) == null);
                break;
            default:
        }
    }

    /** Does Equinox refuse the change? It is tried on a copy of the digraph. */
    boolean refuses(String[] words) {
        try {
            change(digraph.copy(), words);
            return false;
        } catch (BundleException | InvalidSyntaxException | RuntimeException e) {
            return true;
        }
    }

    private static void change(RegionDigraph digraph, String[] words) throws BundleException, InvalidSyntaxException {
        switch (words[0]) {
            case "add":
                digraph.createRegion(words[1]);
                break;
            case "remove":
                digraph.removeRegion(digraph.getRegion(words[1]));
                break;
            case "install":
                digraph.getRegion(words[1]).addBundle(Installed.id(Long.parseLong(words[2])));
                break;
            case "uninstall":
                long id = Installed.id(Long.parseLong(words[1]));
                digraph.getRegion(id).removeBundle(id);
                break;
            case "connect":
                digraph.connect(digraph.getRegion(words[1]), filter(digraph, words), digraph.getRegion(words[2]));
                break;
            case "disconnect":
                disconnect(digraph, digraph.getRegion(words[1]), digraph.getRegion(words[2]));
                break;
            default:
                throw new IllegalArgumentException(words[0]);
        }
    }

    /** Equinox takes a connection away where it is replaced by none, and gives back the filter that it had. */
    private static void disconnect(RegionDigraph digraph, Region source, Region target) throws BundleException {
        if (digraph.replaceConnection(source, null, target) == null) {
            throw new BundleException("no connection");
        }
    }

    /**
     * The bundle part passes the lifecycle of bundles alone. Equinox's other namespace for bundles would pass their packages and
     * services as well.
     */
    static RegionFilter filter(RegionDigraph digraph, String[] words) throws InvalidSyntaxException {
        RegionFilterBuilder builder = digraph.createRegionFilterBuilder();
        allow(builder, RegionFilter.VISIBLE_BUNDLE_LIFECYCLE_NAMESPACE, RegionFilter.VISIBLE_BUNDLE_NAMESPACE, words[3],
                Installed::bundleName);
        allowPackages(builder, words);
        allow(builder, RegionFilter.VISIBLE_OSGI_SERVICE_NAMESPACE, Constants.OBJECTCLASS, words[7], Installed::serviceName);
        return builder.build();
    }

    /** The numbers, the lowest and the highest versions stand at equal places; the shortest list counts the entries. */
    private static void allowPackages(RegionFilterBuilder builder, String[] words) throws InvalidSyntaxException {
        String namespace = RegionFilter.VISIBLE_PACKAGE_NAMESPACE;
        if (words[4].equals("*")) {
            builder.allowAll(namespace);
            return;
        }
        List<Long> numbers = list(words[4]);
        List<Long> lowest = list(words[5]);
        List<Long> highest = list(words[6]);
        for (int i = 0; i < Math.min(numbers.size(), Math.min(lowest.size(), highest.size())); i++) {
            builder.allow(namespace, "(&(" + namespace + "=" + Installed.packageName(numbers.get(i)) + ")"
                    + "(" + Constants.VERSION_ATTRIBUTE + ">=" + Installed.version(lowest.get(i)) + ")"
                    + "(" + Constants.VERSION_ATTRIBUTE + "<=" + Installed.version(highest.get(i)) + "))");
        }
    }

    private static void allow(RegionFilterBuilder builder, String namespace, String attribute, String part,
            Function<Long, String> name) throws InvalidSyntaxException {
        if (part.equals("*")) {
            builder.allowAll(namespace);
            return;
        }
        for (long number : list(part)) {
            builder.allow(namespace, "(" + attribute + "=" + name.apply(number) + ")");
        }
    }

    /** The numbers of a list in a script. */
    static List<Long> list(String text) {
        List<Long> numbers = new ArrayList<>();
        if (!text.equals("-")) {
            for (String number : text.split(",")) {
                numbers.add(Long.valueOf(number));
            }
        }
        return numbers;
    }

    List<Long> bundleFind(long location, List<Long> candidates) {
        BundleContext asker = bundles.get(location).context;
        return seen(candidates, b -> b.bundles, items -> digraph.getBundleFindHook().find(asker, items));
    }

    /** The places of the candidates, which the shortest list counts, whose capability the hook leaves: that of this very exporter. */
    List<Integer> resolve(long location, List<Long> exporters, List<Long> packages, List<Long> versions) {
        List<BundleCapability> candidates = new ArrayList<>();
        for (int i = 0; i < Math.min(exporters.size(), Math.min(packages.size(), versions.size())); i++) {
            candidates.add(capability(exporters.get(i), List.of(packages.get(i), versions.get(i))));
        }
        Set<BundleCapability> left = new HashSet<>(candidates);
        left.remove(null);
        resolverHook().filterMatches(bundles.get(location).requirement, left);
        return IntStream.range(0, candidates.size()).filter(i -> left.contains(candidates.get(i))).boxed()
                .collect(Collectors.toList());
    }

    /** What stands for a candidate; null where the exporter is not installed, or does not have the package. */
    private BundleCapability capability(long exporter, List<Long> numberAndVersion) {
        Installed bundle = bundles.get(exporter);
        return bundle == null ? null : bundle.packages.get(numberAndVersion);
    }

    List<Long> serviceFind(long location, List<Long> candidates) {
        BundleContext asker = bundles.get(location).context;
        return seen(candidates, b -> b.services, items -> digraph.getServiceFindHook().find(asker, null, null, false, items));
    }

    List<Long> bundleEvent(List<Long> listeners, long bundle) {
        return reached(listeners, bundle, b -> b.bundles, (item, contexts) ->
                digraph.getBundleEventHook().event(new BundleEvent(BundleEvent.STARTED, item), contexts));
    }

    List<Long> serviceEvent(List<Long> listeners, long service) {
        return reached(listeners, service, b -> b.services, (item, contexts) ->
                digraph.getServiceEventHook().event(new ServiceEvent(ServiceEvent.REGISTERED, item), contexts));
    }

    ResolverHook resolverHook() {
        return digraph.getResolverHookFactory().begin(List.of());
    }

    /** Gives a hook every item that a candidate's number stands for, and keeps the candidates of which an item is left. */
    private <T> List<Long> seen(List<Long> candidates, Function<Installed, Map<Long, T>> held, Consumer<Collection<T>> hook) {
        Set<Long> wanted = new HashSet<>(candidates);
        Map<T, Long> numbers = new IdentityHashMap<>();
        for (Installed bundle : bundles.values()) {
            held.apply(bundle).forEach((number, item) -> {
                if (wanted.contains(number)) {
                    numbers.put(item, number);
                }
            });
        }
        List<T> items = new ArrayList<>(numbers.keySet());
        hook.accept(items);
        Set<Long> left = new HashSet<>();
        items.forEach(item -> left.add(numbers.get(item)));
        return keep(candidates, left::contains);
    }

    /** Sends an event for every item that the number stands for, and keeps the listeners that are left by one of them. */
    private <T> List<Long> reached(List<Long> listeners, long number, Function<Installed, Map<Long, T>> held,
            BiConsumer<T, Collection<BundleContext>> hook) {
        Set<BundleContext> left = new HashSet<>();
        for (Installed bundle : bundles.values()) {
            T item = held.apply(bundle).get(number);
            if (item != null) {
                List<BundleContext> contexts = new ArrayList<>();
                listeners.forEach(listener -> contexts.add(bundles.get(listener).context));
                hook.accept(item, contexts);
                left.addAll(contexts);
            }
        }
        return keep(listeners, listener -> left.contains(bundles.get(listener).context));
    }

    private static List<Long> keep(List<Long> numbers, Predicate<Long> kept) {
        return numbers.stream().filter(kept).collect(Collectors.toList());
    }
}
