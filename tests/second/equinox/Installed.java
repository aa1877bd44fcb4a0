import java.util.LinkedHashMap;
import java.util.List;
import java.util.Map;
import java.util.function.Function;
import java.util.stream.IntStream;
import org.osgi.framework.Bundle;
import org.osgi.framework.BundleContext;
import org.osgi.framework.Constants;
import org.osgi.framework.ServiceReference;
import org.osgi.framework.Version;
import org.osgi.framework.wiring.BundleCapability;
import org.osgi.framework.wiring.BundleRequirement;
import org.osgi.framework.wiring.BundleRevision;
import org.eclipse.equinox.region.RegionFilter;

/** An installed bundle as the hooks see it: itself, its context, its packages and its services. */
final class Installed {
    final long id;
    final BundleContext context;
    final BundleRequirement requirement;
    /** What the bundle holds, by number: itself and its services; and its packages, by number and version. */
    final Map<Long, Bundle> bundles;
    final Map<List<Long>, BundleCapability> packages = new LinkedHashMap<>();
    final Map<Long, ServiceReference<?>> services = new LinkedHashMap<>();

    /** The packages have their numbers and versions at equal places; the shorter list counts them. */
    Installed(long location, List<Long> packageNumbers, List<Long> versions, List<Long> serviceNumbers) {
        id = id(location);
        Bundle bundle = Fake.of(Bundle.class, Map.of(
                "getBundleId", id, "getSymbolicName", bundleName(location), "getVersion", Version.emptyVersion));
        context = Fake.of(BundleContext.class, Map.of("getBundle", bundle));
        BundleRevision revision = Fake.of(BundleRevision.class, Map.of(
                "getBundle", bundle, "getSymbolicName", bundleName(location), "getVersion", Version.emptyVersion));
        requirement = Fake.of(BundleRequirement.class, Map.of("getRevision", revision));
        bundles = Map.of(location, bundle);
        IntStream.range(0, Math.min(packageNumbers.size(), versions.size())).forEach(i -> packages.put(
                List.of(packageNumbers.get(i), versions.get(i)), capability(revision, packageNumbers.get(i), versions.get(i))));
        serviceNumbers.forEach(number -> services.put(number, reference(bundle, number)));
    }

    /** Equinox shows everything to the bundle with id 0, the system bundle, so ids start with 1. */
    static long id(long location) {
        return location + 1;
    }

    static String bundleName(long location) {
        return "b" + location;
    }

    static String packageName(long number) {
        return "p" + number;
    }

    static String serviceName(long number) {
        return "s" + number;
    }

    /** A version of a package is the first number of one of the framework. */
    static Version version(long number) {
        return new Version((int) number, 0, 0);
    }

    private static BundleCapability capability(BundleRevision revision, long number, long version) {
        String namespace = RegionFilter.VISIBLE_PACKAGE_NAMESPACE;
        Map<String, Object> attributes =
                Map.of(namespace, packageName(number), Constants.VERSION_ATTRIBUTE, version(version));
        return Fake.of(BundleCapability.class, Map.of(
                "getNamespace", namespace, "getAttributes", attributes, "getRevision", revision));
    }

    private static ServiceReference<?> reference(Bundle bundle, long number) {
        String[] names = {serviceName(number)};
        Function<Object, Object> property = key -> Constants.OBJECTCLASS.equals(key) ? names : null;
        return Fake.of(ServiceReference.class, Map.of(
                "getBundle", bundle, "getProperty", property, "getPropertyKeys", new String[] {Constants.OBJECTCLASS}));
    }
}
