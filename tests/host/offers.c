/* Resolve beside a plain search: random graphs, the same in every run, in which every bundle asks for every package of every
   bundle. The graph is kept here as the calls built it; the library's record is not read. Packages have versions, and connections
   pass ranges of them. */
#include "candidates.h"
#include "graphs.h"
#include "host.h"

#include <stdio.h>

enum {
    NUMBERS = 12,                        /* the packages of the graphs, and the services */
    LOCATIONS = REGION_MOST_BUNDLES + 2, /* of the bundles, and two where none is */
    ASKED = NUMBERS + 2,                 /* the packages, and two that nobody exports */
    LISTS = 32,                          /* short lists that a bundle asks for */
    LONGEST = 9                          /* candidates of a short list */
};

static_assert(LOCATIONS * ASKED <= PLACES, "more candidates than a list has places");

/* Ascending; many have the same remainder by 256 or by 65536. */
static const uint32_t numbers[NUMBERS] = {0, 1, 2, 3, 256, 257, 513, 65536, 65537, 0x80000001, UINT32_MAX - 255, UINT32_MAX};

/* Ascending; some numbers have several versions. The last two are nobody's. */
static const struct package {
    uint32_t number;
    uint16_t version;
} packages[ASKED] = {{0, 0},
                     {0, 7},
                     {0, 256},
                     {1, 0},
                     {1, 65535},
                     {256, 7},
                     {257, 255},
                     {257, 256},
                     {65536, 1},
                     {65537, 1},
                     {UINT32_MAX - 255, 3},
                     {UINT32_MAX, 65535},
                     {0, 8},
                     {1025, 0}};

/* A set of the services has bit i for number i, and one of the packages for package i. */
struct plain_bundle {
    uint32_t location;
    uint32_t region;
    uint32_t packages;
};

struct plain_connection {
    uint32_t source;
    uint32_t target;
    uint32_t packages;
};

static struct {
    uint32_t regions;
    struct plain_bundle bundles[REGION_MOST_BUNDLES];
    size_t connection_count;
    struct plain_connection connections[REGION_MOST_CONNECTIONS];
    bool routed[ASKED][REGION_REGIONS][REGION_REGIONS]; /* whether there is a route from one region to another */
} plain;

static uint64_t state;

/* A random number below a limit. */
static uint32_t below(uint32_t limit)
{
    state = state * 6364136223846793005u + 1442695040888963407u;
    return (uint32_t)(state >> 33) % limit;
}

/* A random set of so many numbers at most. */
static uint32_t some(uint32_t most)
{
    uint32_t set = 0;
    for (uint32_t left = below(most + 1); left > 0; left--) {
        set |= 1u << below(NUMBERS);
    }
    return set;
}

/* Writes the numbers of a set, ascending, and returns how many. */
static size_t listed(uint32_t set, uint32_t *list)
{
    size_t count = 0;
    for (size_t i = 0; i < NUMBERS; i++) {
        if ((set >> i & 1) != 0) {
            list[count++] = numbers[i];
        }
    }
    return count;
}

/* The regions of a graph, spread over all numbers: those at the places below their count. */
static uint32_t region_at(uint32_t i)
{
    return (i * 37 + 11) % REGION_REGIONS;
}

/* The locations: some are also packages, some have the same remainders. */
static uint32_t location_at(size_t i)
{
    return i < NUMBERS ? numbers[i] : 1000 + 256 * (uint32_t)i;
}

/* Writes the packages of a set, and returns how many. */
static size_t exported(uint32_t set, uint32_t *list, uint16_t *versions)
{
    size_t count = 0;
    for (size_t i = 0; i < NUMBERS; i++) {
        if ((set >> i & 1) != 0) {
            list[count] = packages[i].number;
            versions[count++] = packages[i].version;
        }
    }
    return count;
}

/* Entries of a package part. */
struct entries {
    size_t count;
    uint32_t numbers[NUMBERS];
    uint16_t lowest[NUMBERS];
    uint16_t highest[NUMBERS];
};

/* A random range: of one version, up to one, from one on, or between two. */
static void put_range(struct entries *entries, uint32_t number)
{
    static const uint16_t ends[] = {0, 1, 6, 7, 8, 255, 256, 65534, 65535};
    uint16_t one = ends[below(9)];
    uint16_t other = ends[below(9)];
    entries->numbers[entries->count] = number;
    entries->lowest[entries->count] = one < other ? one : other;
    entries->highest[entries->count++] = one < other ? other : one;
}

/* Entries for some of the numbers of packages. */
static struct entries some_entries(void)
{
    struct entries entries = {0};
    for (size_t i = 0; i < NUMBERS; i++) {
        if ((i == 0 || packages[i].number != packages[i - 1].number) && below(3) > 0) {
            put_range(&entries, packages[i].number);
        }
    }
    return entries;
}

/* The packages, those of nobody among them, that entries pass. */
static uint32_t passed(const struct entries *entries)
{
    uint32_t set = 0;
    for (size_t i = 0; i < ASKED; i++) {
        for (size_t k = 0; k < entries->count; k++) {
            if (entries->numbers[k] == packages[i].number && entries->lowest[k] <= packages[i].version
                && packages[i].version <= entries->highest[k]) {
                set |= 1u << i;
            }
        }
    }
    return set;
}

/* Bundles from the last location to the first, with packages and services. */
static void put_bundles(void)
{
    for (size_t i = REGION_MOST_BUNDLES; i-- > 0;) {
        struct plain_bundle b = {.location = location_at(i)};
        b.region = region_at(below(plain.regions));
        b.packages = some(REGION_MOST_PROVIDED);
        uint32_t list[NUMBERS];
        uint16_t versions[NUMBERS];
        uint32_t services[NUMBERS];
        size_t package_count = exported(b.packages, list, versions);
        size_t service_count = listed(some(REGION_MOST_PROVIDED), services);
        ACCEPTED(
            region_install_v4(graph, b.region, b.location, list, package_count, versions, package_count, services, service_count));
        plain.bundles[i] = b;
    }
}

static bool connected(uint32_t source, uint32_t target)
{
    for (size_t i = 0; i < plain.connection_count; i++) {
        if (plain.connections[i].source == source && plain.connections[i].target == target) {
            return true;
        }
    }
    return source == target;
}

/* Passes some packages or all of them, and bundles and services, which are of no matter here. */
static void put_connection(uint32_t source, uint32_t target)
{
    uint32_t bundles[NUMBERS];
    uint32_t services[NUMBERS];
    bool all = below(8) == 0;
    const struct entries e = some_entries();
    struct plain_connection c = {source, target, passed(&e)};
    size_t bundle_count = listed(some(NUMBERS), bundles);
    size_t service_count = listed(some(NUMBERS), services);
    ACCEPTED(region_connect_v5(graph, source, target, bundles, bundle_count, all, e.numbers, e.count, e.lowest, e.count, e.highest,
                               e.count, below(2) == 0, services, service_count));
    c.packages = all ? UINT32_MAX : c.packages;
    plain.connections[plain.connection_count++] = c;
}

/* Marks the regions that connections lead to for a package from those that are marked. */
static void search(size_t package, bool *found)
{
    bool grown = true;
    while (grown) {
        grown = false;
        for (size_t i = 0; i < plain.connection_count; i++) {
            struct plain_connection c = plain.connections[i];
            if ((c.packages >> package & 1) != 0 && found[c.source] && !found[c.target]) {
                found[c.target] = true;
                grown = true;
            }
        }
    }
}

static void find_routes(void)
{
    for (size_t package = 0; package < ASKED; package++) {
        for (size_t start = 0; start < REGION_REGIONS; start++) {
            bool *found = plain.routed[package][start];
            for (size_t region = 0; region < REGION_REGIONS; region++) {
                found[region] = region == start;
            }
            search(package, found);
        }
    }
}

/* A graph with as many bundles as there can be, and as many connections, where the regions allow them. */
static void build(uint32_t region_count)
{
    lend();
    plain.regions = region_count;
    plain.connection_count = 0;
    for (uint32_t i = 0; i < region_count; i++) {
        ACCEPTED(region_add(graph, region_at(i)));
    }
    put_bundles();
    for (int tries = 0; tries < 1000 && plain.connection_count < REGION_MOST_CONNECTIONS; tries++) {
        uint32_t source = region_at(below(region_count));
        uint32_t target = region_at(below(region_count));
        if (!connected(source, target)) {
            put_connection(source, target);
        }
    }
    find_routes();
}

/* Whether a bundle is offered a candidate, all by their places. The places behind the bundles and the numbers are of nobody. */
static bool offered(size_t asker, size_t exporter, size_t package)
{
    if (exporter >= REGION_MOST_BUNDLES || package >= NUMBERS) {
        return false;
    }
    struct plain_bundle b = plain.bundles[exporter];
    return (b.packages >> package & 1) != 0 && plain.routed[package][plain.bundles[asker].region][b.region];
}

static void add(size_t asker, size_t exporter, size_t package)
{
    add_versioned(location_at(exporter), packages[package].number, packages[package].version, offered(asker, exporter, package));
}

static bool right(size_t asker)
{
    char text[99];
    snprintf(text, sizeof text, "bundle %u of %u regions, %zu candidates", (unsigned)location_at(asker), (unsigned)plain.regions,
             given.count);
    return check_resolve(location_at(asker), __FILE__, __LINE__, text);
}

/* All candidates in steps of five from a random place on, so many in a call. */
static bool all_candidates(size_t asker, size_t together)
{
    const size_t count = LOCATIONS * ASKED;
    size_t place = below((uint32_t)count);
    bool same = true;
    start_candidates();
    for (size_t i = 0; same && i < count; i++) {
        place = (place + 5) % count;
        add(asker, place / ASKED, place % ASKED);
        if (given.count == together) {
            same = right(asker);
            start_candidates();
        }
    }
    return same && right(asker);
}

/* A few candidates, some of them repeated, and many of the bundle itself. */
static void add_some(size_t asker, size_t count)
{
    size_t exporter = asker;
    size_t package = 0;
    start_candidates();
    for (size_t i = 0; i < count; i++) {
        if (below(3) > 0) {
            exporter = below(2) == 0 ? asker : below(LOCATIONS);
            package = below(ASKED);
        }
        add(asker, exporter, package);
    }
}

/* A few candidates where one input list may be longer than the others, and each output list has as many places as are needed, or one
   more; at times one has one less. */
static bool short_list(size_t asker)
{
    const uint32_t longer = below(4);
    const uint32_t more = below(4);
    const uint32_t less = below(3);
    const size_t count = below(LONGEST + 1);
    const bool refused = count > 0 && below(8) == 0;
    size_t given_counts[3];
    size_t places[3];
    for (size_t i = 0; i < 3; i++) {
        given_counts[i] = longer == i ? count + 3 : count;
        places[i] = refused && less == i ? count - 1 : more == i ? count + 1 : count;
    }
    add_some(asker, count);
    expect_same();
    if (!refused) {
        expect_numbers(kept.exporters, kept.count);
        expect_others(kept.packages, kept.count);
        expect_versions(kept.versions, kept.count);
    }
    int64_t answer =
        region_resolve_v4(graph, lent.places, places[0], lent.others, places[1], lent.versions, places[2], location_at(asker),
                          given.exporters, given_counts[0], given.packages, given_counts[1], given.versions, given_counts[2]);
    return check_call(answer == (refused ? -REGION_NO_PLACE : (int64_t)kept.count), __FILE__, __LINE__, "a short list");
}

/* Every bundle of the graph asks, with tables and without them, until an answer is wrong. */
static void ask_all(void)
{
    bool same = true;
    for (size_t asker = 0; same && asker < REGION_MOST_BUNDLES; asker++) {
        same = all_candidates(asker, LOCATIONS * ASKED) && all_candidates(asker, 1 + asker % 3);
        for (int i = 0; same && i < LISTS; i++) {
            same = short_list(asker);
        }
    }
}

void test_offers(void)
{
    static const uint32_t region_counts[] = {1, 3, 6, 12, 24, REGION_REGIONS};
    state = 14;
    for (size_t i = 0; i < sizeof region_counts / sizeof region_counts[0]; i++) {
        build(region_counts[i]);
        ask_all();
    }
}
