import java.util.ArrayList;
import java.util.Collection;
import java.util.List;
import java.util.concurrent.Callable;
import java.util.function.Function;
import java.util.stream.Collectors;
import java.util.stream.LongStream;
import org.eclipse.equinox.region.Region;
import org.eclipse.equinox.region.RegionFilter;
import org.osgi.framework.BundleContext;
import org.osgi.framework.ServiceEvent;
import org.osgi.framework.ServiceReference;
import org.osgi.framework.wiring.BundleCapability;

/**
 * Measures Equinox's digraph and hooks. Prints a line for each call: name, nanoseconds of one call, and what it answered.
 * bench/README.md says what is measured; the programs of the other implementations measure the same.
 */
final class Measure {
    /** Short rounds, so that some of them pass without a break by the system. */
    private static final int ROUNDS = 100;
    private static final long ROUND = 2_000_000;
    private static final long WARM_UP = 1_000_000_000;
    /** Calls between two looks at the clock, where that many go into a round. */
    private static final int BATCH = 64;
    /** Graphs on which a changing call is made one after another before the opposite call is. */
    private static final int COPIES = 8;

    private static final long ASKER = 2000;
    /** Held in region 15, five connections away from the asker. */
    private static final long SEEN_ITEM = 511;
    /** Held in region 15, and passed by every connection but those to region 15. */
    private static final long HIDDEN_ITEM = 504;
    private static final String LISTED = "504,505,506,507,508,509,510,511";
    private static final String LISTED_TO_15 = "505,506,507,508,509,510,511,1000";
    /** Versions of 8 packages, and the ends of 8 entries that pass every version. */
    private static final String LOWEST = "0,0,0,0,0,0,0,0";
    private static final String HIGHEST = "65535,65535,65535,65535,65535,65535,65535,65535";
    private static final int HELD = 512;
    private static final int LIST = 1000;

    private Measure() {
    }

    public static void main(String[] arguments) throws Exception {
        World all = fullGraph(target -> "- * - - *");
        one("seen_all", all, SEEN_ITEM);
        lists("all", all);
        World listed = listedGraph();
        one("seen_listed", listed, SEEN_ITEM);
        one("hidden_listed", listed, HIDDEN_ITEM);
        lists("listed", listed);
        changes();
    }

    /** A find of a service, and a resolve of the package of that number. */
    private static void one(String name, World world, long number) throws Exception {
        find("find_1_" + name, world, services(world, List.of(number)));
        resolve("resolve_1_" + name, world, packages(world, List.of(number)));
    }

    private static World listedGraph() throws Exception {
        return fullGraph(target -> {
            String numbers = target == 15 ? LISTED_TO_15 : LISTED;
            return filter(numbers);
        });
    }

    /** A filter that lists the same numbers in every part. */
    private static String filter(String numbers) {
        return numbers + " " + numbers + " " + LOWEST + " " + HIGHEST + " " + numbers;
    }

    /** 16 regions, 64 bundles, 48 connections; the filter of a connection by its target. */
    private static World fullGraph(Function<Integer, String> filter) throws Exception {
        World world = new World();
        for (int region = 0; region < 16; region++) {
            world.change(words("add " + region));
        }
        for (int i = 0; i < 64; i++) {
            String numbers = numbers(8 * i, 8);
            world.change(words("install " + i % 16 + " " + (ASKER + i) + " " + numbers + " " + LOWEST + " " + numbers));
        }
        for (int region = 0; region < 16; region++) {
            for (int step = 1; step <= 3; step++) {
                int target = (region + step) % 16;
                world.change(words("connect " + region + " " + target + " " + filter.apply(target)));
            }
        }
        return world;
    }

    private static String[] words(String line) {
        return line.split(" ");
    }

    private static String numbers(long first, int count) {
        return LongStream.range(first, first + count).mapToObj(String::valueOf).collect(Collectors.joining(","));
    }

    /** The capability that each number stands for; in these graphs every package has one exporter. */
    private static List<BundleCapability> packages(World world, List<Long> numbers) {
        return numbers.stream().map(number -> holder(world, number).packages.get(List.of(number, 0L))).collect(Collectors.toList());
    }

    /** And so the service. */
    private static List<ServiceReference<?>> services(World world, List<Long> numbers) {
        return numbers.stream().map(number -> holder(world, number).services.get(number)).collect(Collectors.toList());
    }

    private static Installed holder(World world, long number) {
        return world.bundles.get(ASKER + number / 8);
    }

    private static void lists(String filters, World world) throws Exception {
        List<Long> candidates = LongStream.range(0, LIST).mapToObj(i -> i % HELD).collect(Collectors.toList());
        find("find_1000_" + filters, world, services(world, candidates));
        resolve("resolve_1000_" + filters, world, packages(world, candidates));
        ServiceReference<?> service = holder(world, SEEN_ITEM).services.get(SEEN_ITEM);
        List<BundleContext> listeners =
                LongStream.range(0, LIST).mapToObj(i -> world.bundles.get(ASKER + i % 64).context).collect(Collectors.toList());
        best("event_1000_" + filters, () -> {
            Collection<BundleContext> left = new ArrayList<>(listeners);
            world.digraph.getServiceEventHook().event(new ServiceEvent(ServiceEvent.REGISTERED, service), left);
            return left.size();
        });
    }

    private static void find(String name, World world, List<ServiceReference<?>> candidates) throws Exception {
        best(name, () -> {
            Collection<ServiceReference<?>> left = new ArrayList<>(candidates);
            world.digraph.getServiceFindHook().find(world.bundles.get(ASKER).context, null, null, false, left);
            return left.size();
        });
    }

    private static void resolve(String name, World world, List<BundleCapability> candidates) throws Exception {
        best(name, () -> {
            Collection<BundleCapability> left = new ArrayList<>(candidates);
            world.resolverHook().filterMatches(world.bundles.get(ASKER).requirement, left);
            return left.size();
        });
    }

    /** Bundles are added and removed by id; a connection gets a filter that is there. */
    private static void changes() throws Exception {
        List<World> copies = new ArrayList<>();
        for (int i = 0; i < COPIES; i++) {
            copies.add(listedGraph());
        }
        long id = Installed.id(ASKER + 32);
        bestPair(copies, "uninstall", world -> region(world, 0).removeBundle(id), "install", world -> region(world, 0).addBundle(id));
        RegionFilter filter =
                World.filter(copies.get(0).digraph, words("connect 7 9 " + filter(LISTED)));
        bestPair(copies,
                "disconnect", world -> world.digraph.replaceConnection(region(world, 7), null, region(world, 9)),
                "connect", world -> world.digraph.connect(region(world, 7), filter, region(world, 9)));
    }

    private static Region region(World world, int number) {
        return world.digraph.getRegion(String.valueOf(number));
    }

    /** Prints the best average of the rounds, after a second of warm-up. */
    private static void best(String name, Callable<Integer> call) throws Exception {
        int answer = call.call();
        long warm = System.nanoTime();
        long warmCalls = 0;
        while (System.nanoTime() - warm < WARM_UP) {
            call.call();
            warmCalls++;
        }
        int batch = WARM_UP / warmCalls * BATCH > ROUND ? 1 : BATCH;
        double least = Double.MAX_VALUE;
        for (int round = 0; round < ROUNDS; round++) {
            least = Math.min(least, round(call, batch, answer));
        }
        System.out.printf("%s %.1f %d%n", name, least, answer);
    }

    private static double round(Callable<Integer> call, int batch, int answer) throws Exception {
        long start = System.nanoTime();
        long calls = 0;
        while (System.nanoTime() - start < ROUND) {
            for (int i = 0; i < batch; i++) {
                if (call.call() != answer) {
                    throw new IllegalStateException("another answer");
                }
            }
            calls += batch;
        }
        return (double) (System.nanoTime() - start) / calls;
    }

    /** A changing call. */
    private interface Change {
        void on(World world) throws Exception;
    }

    /** Prints the best averages of a call that removes and of the one that puts back. */
    private static void bestPair(List<World> copies, String removes, Change down, String putsBack, Change up) throws Exception {
        double leastDown = Double.MAX_VALUE;
        double leastUp = Double.MAX_VALUE;
        long warm = System.nanoTime();
        for (int round = 0; round < ROUNDS || System.nanoTime() - warm < WARM_UP; round++) {
            long spentDown = 0;
            long spentUp = 0;
            long calls = 0;
            while (spentDown + spentUp < ROUND) {
                spentDown += time(copies, down);
                spentUp += time(copies, up);
                calls += COPIES;
            }
            leastDown = Math.min(leastDown, (double) spentDown / calls);
            leastUp = Math.min(leastUp, (double) spentUp / calls);
        }
        System.out.printf("%s %.1f 0%n%s %.1f 0%n", removes, leastDown, putsBack, leastUp);
    }

    private static long time(List<World> copies, Change change) throws Exception {
        long start = System.nanoTime();
        for (World world : copies) {
            change.on(world);
        }
        return System.nanoTime() - start;
    }
}
