/* Wrong engines, to see that the comparison finds them: the driver's calls go through here (the linker's --wrap), and the fault that
   the variable FAULT of the environment names is put in front of the engine or behind it. In a resolve another resolver stands in the
   engine's place, and in a lookup of a name another reader of sheets; both answer right where there is no fault. A back is put to the
   file that the engine writes after reading the one that is given. `selfcheck` runs them all. */
#define _POSIX_C_SOURCE 200809L
#include <stdlib.h>
#include <string.h>

#include "guarded.h"
#include "wimboru.h"

/* The faults have the numbers from 1 up to this one; 0 is none. */
enum { FAULTS = 157 };
/* From this one on, up to OLDER, they convert a file so that the other conversion does not give it again. */
enum { ONE_WAY = 146 };
/* From this one on, up to OUTSIDE, they take a file of version 1 or 2 otherwise than a reader must that knows no other version. */
enum { OLDER = 150 };
/* From this one on they let a bundle learn what stands in regions that no connection leads to. */
enum { OUTSIDE = 154 };
/* The longest list that a fault of a changing call takes. */
enum { LONGEST = 4096 };

#define CALL(type, name, ...) \
    type __real_##name(__VA_ARGS__); \
    type __wrap_##name(__VA_ARGS__); \
    type __wrap_##name(__VA_ARGS__)

static bool fault(int number)
{
    const char *text = getenv("FAULT");

    return text != NULL && number <= FAULTS && atoi(text) == number;
}

static bool not_installed(const region_graph *g, uint32_t location)
{
    uint8_t out[REGION_ROUTE_BYTES];

    return region_route_v4(g, out, sizeof out, location, 0, location, 0) == -REGION_NOT_INSTALLED;
}

static size_t smaller(size_t a, size_t b)
{
    return a < b ? a : b;
}

static size_t larger(size_t a, size_t b)
{
    return a < b ? b : a;
}

/* ---- lists of packages ---- */

/* Copies of lists that stand at equal places, with zeros behind them. */
struct columns {
    size_t count;
    uint32_t numbers[LONGEST];
    uint16_t lowest[LONGEST];
    uint16_t highest[LONGEST];
};

static struct columns columns;

static void copy_column(uint16_t *to, const uint16_t *from, size_t count)
{
    memset(to, 0, sizeof columns.lowest);
    memcpy(to, from, smaller(count, LONGEST) * sizeof *to);
}

static void copy_columns(const uint32_t *numbers, size_t count, const uint16_t *lowest, size_t lowest_count,
                         const uint16_t *highest, size_t highest_count)
{
    memset(columns.numbers, 0, sizeof columns.numbers);
    memcpy(columns.numbers, numbers, smaller(count, LONGEST) * sizeof *numbers);
    copy_column(columns.lowest, lowest, lowest_count);
    copy_column(columns.highest, highest, highest_count);
    columns.count = smaller(smaller(count, LONGEST), smaller(lowest_count, highest_count));
}

static void swap_versions(uint16_t *a, uint16_t *b)
{
    uint16_t kept = *a;

    *a = *b;
    *b = kept;
}

/* Puts versions of one number that stand side by side in order. */
static void sort_versions(void)
{
    for (size_t end = columns.count; end > 1; end--) {
        for (size_t i = 1; i < end; i++) {
            if (columns.numbers[i - 1] == columns.numbers[i] && columns.lowest[i - 1] > columns.lowest[i]) {
                swap_versions(&columns.lowest[i - 1], &columns.lowest[i]);
            }
        }
    }
}

/* Whether a number stands twice, side by side. */
static bool has_twice(void)
{
    for (size_t i = 1; i < columns.count; i++) {
        if (columns.numbers[i - 1] == columns.numbers[i]) {
            return true;
        }
    }
    return false;
}

/* Leaves the first entry of each number. */
static void drop_twice(void)
{
    size_t kept = 0;

    for (size_t i = 0; i < columns.count; i++) {
        if (kept == 0 || columns.numbers[kept - 1] != columns.numbers[i]) {
            columns.numbers[kept] = columns.numbers[i];
            columns.lowest[kept] = columns.lowest[i];
            columns.highest[kept++] = columns.highest[i];
        }
    }
    columns.count = kept;
}

/* Whether the lowest version of an entry is above the highest by so many at least, among the first ones. */
static bool is_reversed(size_t count, int by)
{
    for (size_t i = 0; i < smaller(count, LONGEST); i++) {
        if (columns.lowest[i] >= columns.highest[i] + by) {
            return true;
        }
    }
    return false;
}

static void turn_ranges(void)
{
    for (size_t i = 0; i < columns.count; i++) {
        if (columns.lowest[i] > columns.highest[i]) {
            swap_versions(&columns.lowest[i], &columns.highest[i]);
        }
    }
}

/* ---- changing calls ---- */

/* The region that an add takes: with a fault a set has 32 places, or a region's number 8 bits. */
static uint32_t added_region(uint32_t region)
{
    if (fault(143) && region < REGION_REGIONS) {
        return region % 32;
    }
    return fault(1) ? region % 256 : region;
}

CALL(uint32_t, region_add, region_graph *g, uint32_t region)
{
    uint32_t number = __real_region_add(g, added_region(region));

    if ((fault(66) || fault(144)) && number == 0 && region == REGION_REGIONS - 1) {
        return region_remove(g, region), fault(66) ? 1 : 0;
    }
    if (fault(145) && number == 0) {
        __real_region_add(g, region + 1);
    }
    return fault(2) && number == 2 ? 3 : number;
}

/* The last region of a graph, 0 where it has none. */
static uint32_t last_region(const region_graph *g)
{
    uint32_t region = REGION_REGIONS - 1;

    while (region > 0 && (g->regions >> region & 1) == 0) {
        region--;
    }
    return region;
}

CALL(uint32_t, region_remove, region_graph *g, uint32_t region)
{
    uint32_t number = __real_region_remove(g, region);

    if (fault(3) && number == 0) {
        region_add(g, region);
    }
    if (fault(4) && number == 3) {
        __real_region_remove(g, last_region(g));
    }
    return number;
}

CALL(uint32_t, region_install_v4, region_graph *g, uint32_t region, uint32_t location, const uint32_t *packages,
     size_t package_count, const uint16_t *versions, size_t version_count, const uint32_t *services, size_t service_count)
{
    const size_t most = larger(package_count, version_count);
    uint32_t number;

    copy_columns(packages, package_count, versions, version_count, versions, version_count);
    if (fault(5)) {
        package_count %= 256;
    }
    if (fault(97)) {
        return __real_region_install_v4(g, region, location, columns.numbers, most, columns.lowest, most, services, service_count);
    }
    number =
        __real_region_install_v4(g, region, location, packages, package_count, versions, version_count, services, service_count);
    if (fault(96) && number == 0 && most > REGION_MOST_PROVIDED) {
        return region_uninstall(g, location), 7;
    }
    if (fault(98) && number == 0 && has_twice()) {
        return region_uninstall(g, location), 8;
    }
    if (fault(99) && number == 8) {
        sort_versions();
        return __real_region_install_v4(g, region, location, columns.numbers, columns.count, columns.lowest, columns.count,
                                        services, service_count);
    }
    if (fault(6) && number == 8 && !not_installed(g, location)) {
        return 9;
    }
    if (fault(7) && number == 11) {
        return 10;
    }
    if (fault(8) && number == 0 && g->bundle_count == REGION_MOST_BUNDLES) {
        return region_uninstall(g, location), 11;
    }
    if (fault(9) && number == 10 && g->bundle_count > 0) {
        g->bundle_count--;
    }
    return number;
}

CALL(uint32_t, region_uninstall, region_graph *g, uint32_t location)
{
    uint32_t number = __real_region_uninstall(g, location);

    if (fault(10)) {
        return 0;
    }
    for (size_t i = 0; fault(11) && number == 0 && i < g->connection_count; i++) {
        if (g->connections[i].bundles.count == 1 && g->connections[i].bundles.items[0] == location) {
            g->connections[i].bundles.count = 0;
        }
    }
    return number;
}

/* The number that a fault of the package part gives a connect that has another number. */
static uint32_t refused_part(const region_graph *g, uint32_t number, size_t most, size_t range_count)
{
    if (fault(100) && number == 20 && g->connection_count == REGION_MOST_CONNECTIONS) {
        return 11;
    }
    if (fault(101) && number == 8 && is_reversed(columns.count, 1)) {
        return 20;
    }
    if (number != 0) {
        return number;
    }
    if ((fault(103) && is_reversed(columns.count, 0)) || (fault(104) && is_reversed(range_count, 1))) {
        return 20;
    }
    return fault(107) && most > REGION_MOST_LISTED ? 7 : 0;
}

CALL(uint32_t, region_connect_v5, region_graph *g, uint32_t source, uint32_t target, const uint32_t *bundles, size_t bundle_count,
     uint32_t pass_packages, const uint32_t *packages, size_t package_count, const uint16_t *lowest, size_t lowest_count,
     const uint16_t *highest, size_t highest_count, uint32_t pass_services, const uint32_t *services, size_t service_count)
{
    const size_t most = larger(package_count, larger(lowest_count, highest_count));
    uint32_t number, other;

    copy_columns(packages, package_count, lowest, lowest_count, highest, highest_count);
    if (fault(12) && bundle_count == 17) {
        bundle_count = 16;
    }
    if (fault(106)) {
        columns.count = most;
    } else if (fault(102)) {
        turn_ranges();
    } else if (fault(105)) {
        drop_twice();
    }
    if (fault(102) || fault(105) || fault(106)) {
        packages = columns.numbers;
        lowest = columns.lowest;
        highest = columns.highest;
        package_count = lowest_count = highest_count = columns.count;
    }
    number = __real_region_connect_v5(g, source, target, bundles, bundle_count, pass_packages, packages, package_count, lowest,
                                      lowest_count, highest, highest_count, pass_services, services, service_count);
    other = pass_packages == REGION_PASS_ALL ? number : refused_part(g, number, most, smaller(lowest_count, highest_count));
    if (other != number) {
        return number == 0 ? region_disconnect(g, source, target) : 0, other;
    }
    for (size_t i = 0; fault(13) && number == 0 && i < bundle_count; i++) {
        if (!not_installed(g, bundles[i])) {
            return region_disconnect(g, source, target), 10;
        }
    }
    if (fault(14) && number == 0 && g->connection_count == REGION_MOST_CONNECTIONS) {
        return region_disconnect(g, source, target), 11;
    }
    return fault(15) && number == 3 && source == target ? 4 : number;
}

CALL(uint32_t, region_disconnect, region_graph *g, uint32_t source, uint32_t target)
{
    uint32_t number = __real_region_disconnect(g, source, target);

    if (fault(16) && number == 0) {
        __real_region_disconnect(g, target, source);
    }
    return fault(17) && number == 6 ? 0 : number;
}

/* ---- what stands in other regions ---- */

int64_t __real_region_route_v4(const region_graph *g, uint8_t *out, size_t out_length, uint32_t location, uint32_t kind,
                               uint32_t item, uint16_t version);

static bool holds(const region_graph *g, uint32_t region, uint32_t kind, uint32_t item, uint16_t version)
{
    uint8_t out[REGION_ROUTE_BYTES];

    for (size_t i = 0; i < g->bundle_count; i++) {
        if (g->bundles[i].region == region
            && __real_region_route_v4(g, out, sizeof out, g->bundles[i].location, kind, item, version) == 0) {
            return true;
        }
    }
    return false;
}

/* The place in the record of a bundle that is installed. */
static size_t place_of(const region_graph *g, uint32_t location)
{
    size_t place = 0;

    while (g->bundles[place].location != location) {
        place++;
    }
    return place;
}

/* Whether the bundle that stands before one in the record sees an item that is no package. */
static bool one_before_sees(const region_graph *g, uint32_t location, uint32_t kind, uint32_t item)
{
    uint8_t out[REGION_ROUTE_BYTES];
    size_t place = place_of(g, location);

    return __real_region_route_v4(g, out, sizeof out, g->bundles[place == 0 ? 0 : place - 1].location, kind, item, 0) >= 0;
}

/* The route against one connection, which leads from a holder of the item to the bundle's region. */
static int64_t route_against(const region_graph *g, uint8_t *out, uint32_t location, uint32_t kind, uint32_t item, uint16_t version)
{
    uint32_t region = g->bundles[place_of(g, location)].region;

    for (size_t i = 0; i < g->connection_count; i++) {
        if (g->connections[i].target == region && holds(g, g->connections[i].source, kind, item, version)) {
            out[0] = (uint8_t)region;
            out[1] = (uint8_t)g->connections[i].source;
            return 1;
        }
    }
    return -REGION_HIDDEN;
}

/* ---- finds and events ---- */

/* What a find makes of its answer. */
static int64_t found(int64_t count, uint32_t *out, size_t out_count, const uint32_t *candidates, size_t candidate_count)
{
    volatile uint32_t touched;

    if (fault(18) && count >= 0 && (size_t)count < out_count) {
        out[count] = 0;
    }
    if (fault(19) && count == -REGION_NO_PLACE && out_count > 0) {
        out[0] = 0;
    }
    if (fault(20)) {
        touched = candidates[candidate_count];
    }
    if (fault(21) && count >= 2 && out[0] == out[1]) {
        return memmove(out, out + 1, (size_t)(count - 1) * sizeof *out), count - 1;
    }
    (void)touched;
    return count;
}

CALL(int64_t, region_bundle_find, const region_graph *g, uint32_t *out, size_t out_count, uint32_t location,
     const uint32_t *candidates, size_t candidate_count)
{
    uint8_t route[REGION_ROUTE_BYTES];
    int64_t count = __real_region_bundle_find(g, out, out_count, location, candidates, candidate_count);

    if (fault(154) && count >= 0) {
        count = 0;
        for (size_t i = 0; i < candidate_count; i++) {
            if (__real_region_route_v4(g, route, sizeof route, location, REGION_KIND_BUNDLE, candidates[i], 0) >= 0
                || route_against(g, route, location, REGION_KIND_BUNDLE, candidates[i], 0) >= 0) {
                out[count++] = candidates[i];
            }
        }
    }
    return found(count, out, out_count, candidates, candidate_count);
}

CALL(int64_t, region_service_event, const region_graph *g, uint32_t *out, size_t out_count, const uint32_t *listeners,
     size_t listener_count, uint32_t service)
{
    uint32_t own[REGION_LONGEST_IMAGE];
    int64_t count = 0;

    if (fault(24) && listener_count > 1 && not_installed(g, listeners[listener_count - 1])) {
        listener_count--;
    }
    if (fault(155) && listener_count <= out_count
        && __real_region_service_event(g, own, REGION_LONGEST_IMAGE, listeners, listener_count, service) >= 0) {
        for (size_t i = 0; i < listener_count; i++) {
            if (one_before_sees(g, listeners[i], REGION_KIND_SERVICE, service)) {
                out[count++] = listeners[i];
            }
        }
        return count;
    }
    return __real_region_service_event(g, out, out_count, listeners, listener_count, service);
}

/* ---- resolve ---- */

/* The bundle at a location, NULL where it is not installed. */
static const struct region_bundle *bundle_at(const region_graph *g, uint32_t location)
{
    for (size_t i = 0; i < g->bundle_count; i++) {
        if (g->bundles[i].location == location) {
            return &g->bundles[i];
        }
    }
    return NULL;
}

/* A package, and whether two are the same. */
struct package {
    uint32_t number;
    uint16_t version;
};

static struct package package_at(const struct region_packages *list, size_t place)
{
    return (struct package){list->numbers[place], list->versions[place]};
}

static bool is_same(struct package a, struct package b)
{
    return (fault(78) ? a.number % 256 == b.number % 256 : a.number == b.number) && (a.version == b.version || fault(115));
}

static bool has(const struct region_packages *list, struct package package)
{
    for (size_t i = 0; i < list->count; i++) {
        if (is_same(package_at(list, i), package)) {
            return true;
        }
    }
    return false;
}

static bool passes(const struct region_package_entries *part, struct package package)
{
    if (part->count == REGION_EVERYTHING) {
        return true;
    }
    for (size_t i = 0; i < part->count; i++) {
        if (part->numbers[i] == package.number
            && (fault(116) || (part->lowest[i] <= package.version && package.version <= part->highest[i]))) {
            return true;
        }
    }
    return false;
}

static uint64_t one(uint32_t region)
{
    return (uint64_t)1 << region;
}

/* The regions with a bundle that exports a package. */
static uint64_t holders(const region_graph *g, struct package package)
{
    uint64_t found = 0;

    for (size_t i = 0; i < g->bundle_count; i++) {
        if (has(&g->bundles[i].packages, package)) {
            found |= one(g->bundles[i].region);
        }
    }
    return found;
}

/* The regions that connections which pass a package reach from a region. */
static uint64_t reached(const region_graph *g, uint32_t region, struct package package)
{
    const uint64_t ends = fault(80) ? holders(g, package) : 0;
    uint64_t found = one(region), before = 0;

    while (found != before) {
        before = found;
        for (size_t i = 0; i < g->connection_count; i++) {
            const struct region_connection *c = &g->connections[i];

            if (passes(&c->packages, package) && (found & ~ends & one(c->source)) != 0) {
                found |= one(c->target);
            }
        }
    }
    return found;
}

/* Whether a region is reached for a package of the exporter. */
static bool reached_for_any(const region_graph *g, uint32_t region, const struct region_bundle *exporter)
{
    for (size_t i = 0; i < exporter->packages.count; i++) {
        if ((reached(g, region, package_at(&exporter->packages, i)) & one(exporter->region)) != 0) {
            return true;
        }
    }
    return false;
}

static bool exports(const region_graph *g, const struct region_bundle *exporter, struct package package)
{
    if (exporter == NULL) {
        return false;
    }
    if (fault(77)) {
        return (holders(g, package) & one(exporter->region)) != 0;
    }
    return has(&exporter->packages, package);
}

static bool is_offered(const region_graph *g, const struct region_bundle *asker, uint32_t location, struct package package)
{
    const struct region_bundle *exporter = bundle_at(g, location);
    const uint64_t regions = reached(g, asker->region, package);
    const bool seen = (regions & holders(g, package)) != 0;
    uint8_t out[REGION_ROUTE_BYTES];

    if (fault(76)) {
        return seen;
    }
    if (!exports(g, exporter, package)) {
        return false;
    }
    if (fault(157)) {
        return true;
    }
    if (fault(79)) {
        return seen;
    }
    if (fault(81)) {
        return seen && reached_for_any(g, asker->region, exporter);
    }
    if (fault(82) && __real_region_route_v4(g, out, sizeof out, asker->location, REGION_KIND_BUNDLE, location, 0) < 0) {
        return false;
    }
    return (regions & one(exporter->region)) != 0;
}

/* The candidates of a resolve and its output lists. */
struct resolve {
    const uint32_t *exporters;
    const uint32_t *packages;
    const uint16_t *versions;
    size_t count;
    uint32_t *out_exporters;
    uint32_t *out_packages;
    uint16_t *out_versions;
    size_t out_exporter_count;
    size_t out_package_count;
    size_t out_version_count;
};

/* How many candidates three lists have, by the shortest but for a fault; the outputs are those of the call. */
static size_t counted(size_t exporter_count, size_t package_count, size_t version_count, const struct resolve *r)
{
    const size_t two = smaller(exporter_count, package_count);
    const size_t places = smaller(r->out_exporter_count, smaller(r->out_package_count, r->out_version_count));

    if (fault(86)) {
        return larger(exporter_count, larger(package_count, version_count));
    }
    if (fault(117)) {
        return two;
    }
    return fault(87) ? smaller(smaller(two, version_count), places) : smaller(two, version_count);
}

static bool is_place(const struct resolve *r, size_t count)
{
    return (count <= r->out_exporter_count || fault(85)) && (count <= r->out_package_count || fault(84))
        && (count <= r->out_version_count || fault(118));
}

static struct package asked(const struct resolve *r, size_t place)
{
    return (struct package){r->packages[place], r->versions[place]};
}

static bool exporters_installed(const region_graph *g, const struct resolve *r)
{
    for (size_t i = 0; i < r->count; i++) {
        if (bundle_at(g, r->exporters[i]) == NULL) {
            return false;
        }
    }
    return true;
}

static size_t count_offered(const region_graph *g, const struct region_bundle *asker, const struct resolve *r)
{
    size_t count = 0;

    for (size_t i = 0; i < r->count; i++) {
        count += is_offered(g, asker, r->exporters[i], asked(r, i));
    }
    return count;
}

static int64_t resolve_refusal(const region_graph *g, const struct region_bundle *asker, const struct resolve *r)
{
    if (fault(23) && !is_place(r, r->count)) {
        return -REGION_NO_PLACE;
    }
    if (asker == NULL || (fault(83) && !exporters_installed(g, r))) {
        return -REGION_NOT_INSTALLED;
    }
    return is_place(r, fault(22) ? count_offered(g, asker, r) : r->count) ? 0 : -REGION_NO_PLACE;
}

static void write_candidate(const struct resolve *r, size_t from, size_t to)
{
    r->out_exporters[to] = fault(89) || fault(90) ? r->packages[from] : r->exporters[from];
    r->out_packages[to] = fault(88) || fault(89) ? r->exporters[from] : r->packages[from];
    r->out_versions[to] = fault(119) ? 0 : r->versions[from];
}

static bool is_again(const struct resolve *r, size_t at, size_t written)
{
    return written > 0 && r->out_exporters[written - 1] == r->exporters[at] && r->out_packages[written - 1] == r->packages[at]
        && r->out_versions[written - 1] == r->versions[at];
}

static size_t write_offered(const region_graph *g, const struct region_bundle *asker, const struct resolve *r)
{
    size_t written = 0;

    for (size_t i = 0; i < r->count; i++) {
        if (is_offered(g, asker, r->exporters[i], asked(r, i)) && !(fault(95) && is_again(r, i, written))) {
            write_candidate(r, i, written++);
        }
    }
    if (fault(91) && written < r->out_exporter_count) {
        r->out_exporters[written] = 0;
    }
    if (fault(92) && written < r->out_package_count) {
        r->out_packages[written] = 0;
    }
    if (fault(120) && written < r->out_version_count) {
        r->out_versions[written] = 0;
    }
    return written;
}

CALL(int64_t, region_resolve_v4, const region_graph *g, uint32_t *out_exporters, size_t out_exporter_count, uint32_t *out_packages,
     size_t out_package_count, uint16_t *out_versions, size_t out_version_count, uint32_t location, const uint32_t *exporters,
     size_t exporter_count, const uint32_t *packages, size_t package_count, const uint16_t *versions, size_t version_count)
{
    const struct region_bundle *asker = bundle_at(g, location);
    struct resolve r = {exporters,          packages,          versions,         0, out_exporters, out_packages, out_versions,
                        out_exporter_count, out_package_count, out_version_count};
    int64_t refusal;

    r.count = counted(exporter_count, package_count, version_count, &r);
    refusal = resolve_refusal(g, asker, &r);
    if (fault(93) && refusal == -REGION_NO_PLACE && out_exporter_count > 0) {
        out_exporters[0] = exporters[0];
    }
    if (fault(94) && refusal == -REGION_NO_PLACE && out_package_count > 0) {
        out_packages[0] = packages[0];
    }
    if (fault(121) && refusal == -REGION_NO_PLACE && out_version_count > 0) {
        out_versions[0] = versions[0];
    }
    return refusal < 0 ? refusal : (int64_t)write_offered(g, asker, &r);
}

/* ---- routes ---- */

/* Lengths below REGION_ROUTE_BYTES that a fault takes: as many bytes as the route has, 16, or one too few. */
static bool is_room(size_t out_length)
{
    return fault(29) || (fault(67) && out_length >= 16) || (fault(68) && out_length == REGION_ROUTE_BYTES - 1);
}

/* An entry as a fault of the passing test has it for a version: it passes all, or nothing, or what it passes. */
static void alter_entry(struct region_package_entries *part, size_t place, uint16_t version)
{
    if (fault(111)) {
        part->lowest[place] = 0;
        part->highest[place] = REGION_HIGHEST_VERSION;
    }
    if ((fault(108) && part->highest[place] == version) || (fault(109) && part->lowest[place] == version)) {
        part->lowest[place] = 1;
        part->highest[place] = 0;
    }
}

/* The graph as a fault has it for a package: with other entries, or with other versions of what is exported. */
static region_graph altered(const region_graph *g, uint32_t number, uint16_t version)
{
    region_graph other = *g;

    for (size_t i = 0; fault(110) && i < other.bundle_count; i++) {
        for (size_t k = 0; k < other.bundles[i].packages.count; k++) {
            if (other.bundles[i].packages.numbers[k] == number) {
                other.bundles[i].packages.versions[k] = version;
            }
        }
    }
    for (size_t i = 0; i < other.connection_count; i++) {
        struct region_package_entries *part = &other.connections[i].packages;

        for (size_t k = 0; part->count != REGION_EVERYTHING && k < part->count; k++) {
            if (part->numbers[k] == number) {
                alter_entry(part, k, version);
            }
        }
    }
    return other;
}

/* Whether a fault looks at the version of an item that is no package. */
static bool minds_version(uint32_t kind, uint16_t version)
{
    return version != 0 && ((fault(113) && kind == REGION_KIND_SERVICE) || (fault(114) && kind == REGION_KIND_BUNDLE));
}

CALL(int64_t, region_route_v4, const region_graph *g, uint8_t *out, size_t out_length, uint32_t location, uint32_t kind,
     uint32_t item, uint16_t version)
{
    const region_graph changed = altered(g, item, version);
    uint8_t own[REGION_ROUTE_BYTES];
    region_graph other = *g;
    int64_t count, others;

    if (kind == REGION_KIND_PACKAGE) {
        g = &changed;
    }
    if (fault(112)) {
        version %= 256;
    }
    if (minds_version(kind, version)) {
        item = ~item;
    }

    if (fault(25)) {
        kind %= 256;
    }
    if (fault(26)) {
        item &= 0xFFFFFF;
    }
    count = __real_region_route_v4(g, out, out_length, location, kind, item, version);
    if (fault(27) && count >= 0 && (size_t)count + 1 < out_length) {
        out[count + 1] = 0;
    }
    if (fault(28) && count == -REGION_HIDDEN) {
        out[0] = 0;
    }
    if (fault(156) && count == -REGION_HIDDEN) {
        return route_against(g, out, location, kind, item, version);
    }
    if (count == -REGION_NO_PLACE && is_room(out_length)) {
        count = __real_region_route_v4(g, own, sizeof own, location, kind, item, version);
        if (count >= (int64_t)out_length) {
            return -REGION_NO_PLACE;
        }
        memcpy(out, own, count < 0 ? 0 : (size_t)count + 1);
    }
    /* another route: of as many connections, or a longer one */
    if (count > 0 && region_disconnect(&other, out[0], out[1]) == 0) {
        others = __real_region_route_v4(&other, own, sizeof own, location, kind, item, version);
        if ((fault(30) && others == count) || (fault(31) && others > count)) {
            return memcpy(out, own, (size_t)others + 1), others;
        }
    }
    return fault(32) && count == REGION_MOST_CONNECTIONS ? -REGION_HIDDEN : count;
}

/* ---- archives ---- */

enum { FRONT = 5 };

static uint8_t other(uint8_t version)
{
    return version == 1 ? 2 : 1;
}

/* The version that goes with the regions of a file, where version 1 has the numbers up to a last one. */
static uint8_t version_of(const uint8_t *bytes, size_t length, uint8_t last)
{
    for (size_t i = FRONT + 1; i < length && i <= (size_t)FRONT + bytes[FRONT]; i++) {
        if (bytes[i] > last) {
            return 2;
        }
    }
    return 1;
}

static bool ends_in_last_region(const uint8_t *bytes, size_t length)
{
    size_t last = (size_t)FRONT + bytes[FRONT];

    return last > FRONT && last < length && bytes[last] == REGION_REGIONS - 1;
}

/* The version that a fault of the reader expects. */
static uint8_t expected(const uint8_t *bytes, size_t length, uint8_t right)
{
    if (fault(69)) {
        return bytes[FRONT] > 16 ? 2 : 1;
    }
    if (fault(70)) {
        return version_of(bytes, length, 16);
    }
    return fault(71) && ends_in_last_region(bytes, length) ? other(bytes[0]) : right;
}

/* A front byte with which the engine accepts the file, or refuses it for its version, where the fault does so. */
static uint8_t front_of(const uint8_t *bytes, size_t length)
{
    const uint8_t front = bytes[0], right = version_of(bytes, length, 15);
    const bool known = front == 1 || front == 2;

    if ((fault(72) && known) || (fault(73) && front == 2)) {
        return right;
    }
    if (fault(74) && front == 4) {
        return 3;
    }
    if (fault(152) && known) {
        return 4;
    }
    if (!known) {
        return front;
    }
    return front == expected(bytes, length, right) ? right : other(right);
}

/* A file with another front byte. */
static const uint8_t *relabelled(const uint8_t *bytes, size_t length, uint8_t front)
{
    static uint8_t copy[GUARDED_ROOM];

    if (front == bytes[0]) {
        return bytes;
    }
    memcpy(copy, bytes, length);
    copy[0] = front;
    return copy;
}

/* The place behind the record that starts at a place of a file. */
static size_t behind(const uint8_t *file, size_t at)
{
    return at + 2 + ((size_t)file[at] << 8 | file[at + 1]);
}

/* Turns the reversed ranges of the package part that starts at a place. */
static void turn_part(uint8_t *file, size_t length, size_t at)
{
    size_t count = at < length && file[at] != REGION_EVERYTHING ? file[at] : 0;

    for (at++; count > 0 && at + 8 <= length; count--, at += 8) {
        const uint8_t lowest[2] = {file[at + 4], file[at + 5]};

        if (memcmp(lowest, file + at + 6, 2) > 0) {
            memcpy(file + at + 4, file + at + 6, 2);
            memcpy(file + at + 6, lowest, 2);
        }
    }
}

/* Turns the reversed ranges of a file of version 3, up to where it breaks its layout. */
static void turn_file(uint8_t *file, size_t length)
{
    size_t at = (size_t)FRONT + 1 + file[FRONT];
    size_t bundles = at < length ? file[at] : 0;

    for (at++; bundles > 0 && at + 1 < length; bundles--) {
        at = behind(file, at);
    }
    for (at++; at + 4 < length; at = behind(file, at)) {
        turn_part(file, length, at + 5 + (size_t)file[at + 4] * 4);
    }
}

/* Whether a graph has no version of a package but 0, and no entry but those from 0 to 65535. */
static bool is_unversioned(const region_graph *g)
{
    for (size_t i = 0; i < g->bundle_count; i++) {
        for (size_t k = 0; k < g->bundles[i].packages.count; k++) {
            if (g->bundles[i].packages.versions[k] != 0) {
                return false;
            }
        }
    }
    for (size_t i = 0; i < g->connection_count; i++) {
        const struct region_package_entries *part = &g->connections[i].packages;

        for (size_t k = 0; part->count != REGION_EVERYTHING && k < part->count; k++) {
            if (part->lowest[k] != 0 || part->highest[k] != REGION_HIGHEST_VERSION) {
                return false;
            }
        }
    }
    return true;
}

uint32_t __real_region_read(region_graph *g, const uint8_t *bytes, size_t length);

/* Whether a fault refuses a file of version 3 for its graph: one without versions, or one whose regions are those of version 1. */
static bool is_refused(const uint8_t *bytes, size_t length)
{
    static region_graph read;

    if (bytes[0] != 3 || !(fault(123) || fault(124)) || __real_region_read(&read, bytes, length) != 0) {
        return false;
    }
    return fault(123) ? is_unversioned(&read) : version_of(bytes, length, 15) == 1;
}

/* The file as a fault of the reader takes it. */
static const uint8_t *taken(const uint8_t *bytes, size_t length)
{
    static uint8_t copy[GUARDED_ROOM];
    const bool refused = length > FRONT && is_refused(bytes, length);

    if (length <= FRONT) {
        return bytes;
    }
    if (!refused && !(fault(122) && bytes[0] == 3)) {
        return relabelled(bytes, length, front_of(bytes, length));
    }
    memcpy(copy, bytes, length);
    if (refused) {
        copy[FRONT] = UINT8_MAX;
    } else {
        turn_file(copy, length);
    }
    return copy;
}

/* What a fault of the reader makes of the graph of a file of version 1 or 2. */
static void change_older(region_graph *g)
{
    for (size_t i = 0; (fault(150) || fault(153)) && i < g->bundle_count; i++) {
        for (size_t k = 0; k < g->bundles[i].packages.count; k++) {
            g->bundles[i].packages.versions[k] = fault(150) ? REGION_HIGHEST_VERSION : 1;
        }
    }
    for (size_t i = 0; fault(151) && i < g->connection_count; i++) {
        for (size_t k = 0; k < REGION_MOST_LISTED; k++) {
            g->connections[i].packages.highest[k] = 0;
        }
    }
}

static bool changes_older(const uint8_t *bytes, size_t length)
{
    return length > FRONT && bytes[0] < 3 && (fault(150) || fault(151) || fault(153));
}

/* The version that a fault of the writer puts in front. */
static uint8_t written_version(const region_graph *g, uint8_t right)
{
    return fault(125) && is_unversioned(g) ? (last_region(g) > 15 ? 2 : 1) : right;
}

CALL(uint32_t, region_read, region_graph *g, const uint8_t *bytes, size_t length)
{
    uint64_t regions = g->regions;
    uint32_t number;

    if (fault(33)) {
        length %= 65536;
    }
    number = __real_region_read(g, taken(bytes, length), length);
    if (number == 0 && changes_older(bytes, length)) {
        change_older(g);
    }
    if (fault(34) && number != 0) {
        region_empty(g);
    }
    if (fault(35) && number == 17) {
        region_add(g, REGION_REGIONS - 1);
    }
    if (fault(36) && number == 0) {
        g->regions |= regions;
    }
    if (fault(37) && number == 16) {
        return __real_region_read(g, bytes, length - 1) == 0 ? 0 : number;
    }
    return fault(38) && number == 15 && length == 5 ? 16 : number;
}

/* The answer to a query by a read and a route, where a fault changes the graph of an older file. */
static uint32_t query_changed(const uint8_t *file, size_t length, uint32_t location, uint32_t kind, uint32_t item, uint16_t version)
{
    static region_graph read;
    uint8_t route[REGION_ROUTE_BYTES];
    uint32_t number = __real_region_read(&read, file, length);
    int64_t count;

    if (number != 0) {
        return number;
    }
    change_older(&read);
    count = __real_region_route_v4(&read, route, sizeof route, location, kind, item, version);
    return count >= 0 ? REGION_SEEN : (uint32_t)-count;
}

CALL(uint32_t, region_archive_query, const uint8_t *bytes, size_t length, uint32_t location, uint32_t kind, uint32_t item,
     uint16_t version)
{
    const uint8_t *file = taken(bytes, length);
    uint32_t answer;

    if (fault(75) && length > FRONT && (bytes[0] == 1 || bytes[0] == 2)) {
        file = relabelled(bytes, length, version_of(bytes, length, 15));
    }
    if (changes_older(bytes, length)) {
        return query_changed(file, length, location, kind, item, version);
    }
    answer = __real_region_archive_query(file, length, location, fault(39) ? kind % 256 : kind, item, fault(126) ? 0 : version);
    if (fault(40) && answer == 12 && kind > 2) {
        return 13;
    }
    if (fault(41) && answer == 17 && kind > 2) {
        return 13;
    }
    return fault(42) && answer == REGION_SEEN && location == item && kind == 2 ? REGION_HIDDEN : answer;
}

CALL(int64_t, region_write, const region_graph *g, uint8_t *out, size_t out_length)
{
    int64_t length = __real_region_write(g, out, out_length);

    if (length > 0) {
        out[0] = written_version(g, out[0]);
    }
    if (fault(43) && length >= 0 && (size_t)length < out_length) {
        out[length] = 0;
    }
    if (fault(44) && length < 0 && out_length > 0) {
        out[0] = 1;
    }
    if (fault(45) && g->bundle_count == REGION_MOST_BUNDLES && length > 0) {
        out[length - 1] ^= 1;
    }
    return length;
}

/* ---- conversions ---- */

/* The graph of the file that is converted, where it is one of version 3 that is read. */
static region_graph current;

static bool is_current(const uint8_t *bytes, size_t length)
{
    return length > 0 && bytes[0] == 3 && __real_region_read(&current, bytes, length) == 0;
}

/* How many entries a package part has. */
static size_t entry_count(const struct region_package_entries *part)
{
    return part->count == REGION_EVERYTHING ? 0 : part->count;
}

/* The length of the older file of the graph, with its versions left out, where that of version 3 has so many bytes. */
static size_t older_length(size_t length)
{
    for (size_t i = 0; i < current.bundle_count; i++) {
        length -= 2 * current.bundles[i].packages.count;
    }
    for (size_t i = 0; i < current.connection_count; i++) {
        length -= 4 * entry_count(&current.connections[i].packages);
    }
    return length;
}

/* Gives the graph the versions and ranges of an older file where a fault of back does not look at them. */
static void leave_out(void)
{
    for (size_t i = 0; i < current.bundle_count; i++) {
        for (size_t k = 0; k < current.bundles[i].packages.count; k++) {
            uint16_t *version = &current.bundles[i].packages.versions[k];

            *version = (uint16_t)(fault(149) ? 0 : *version % (fault(137) ? 256 : 65536));
        }
    }
    for (size_t i = 0; i < current.connection_count; i++) {
        struct region_package_entries *part = &current.connections[i].packages;

        for (size_t k = 0; k < entry_count(part); k++) {
            const bool both = fault(149) || (fault(140) && k + 1 == entry_count(part));

            part->lowest[k] = both || fault(138) ? 0 : part->lowest[k];
            part->highest[k] = both || fault(139) ? REGION_HIGHEST_VERSION : part->highest[k];
        }
    }
}

/* Whether a fault of back finds versions in the graph: in a part that is everything, or in a bundle that exports nothing. */
static bool has_none(void)
{
    for (size_t i = 0; fault(141) && i < current.connection_count; i++) {
        if (current.connections[i].packages.count == REGION_EVERYTHING) {
            return true;
        }
    }
    for (size_t i = 0; fault(142) && i < current.bundle_count; i++) {
        if (current.bundles[i].packages.count == 0) {
            return true;
        }
    }
    return false;
}

/* Whether a file has versions where its last byte is taken away. */
static bool has_versions_before_end(const uint8_t *bytes, size_t length)
{
    static uint8_t copy[GUARDED_ROOM];

    if (length <= FRONT) {
        return false;
    }
    memcpy(copy, bytes, length - 1);
    for (size_t i = 1; i < FRONT; i++) {
        copy[i] = (uint8_t)((length - 1 - FRONT) >> (8 * (FRONT - 1 - i)));
    }
    return is_current(copy, length - 1) && !is_unversioned(&current);
}

/* The answer of a conversion that makes a file of a version which it must not admit the same file. */
static int64_t copied(const uint8_t *bytes, size_t length, uint8_t *out, size_t out_length)
{
    const uint32_t number = __real_region_read(&current, bytes, length);

    if (number != 0 || out_length < length) {
        return number != 0 ? -(int64_t)number : -REGION_NO_PLACE;
    }
    return memcpy(out, bytes, length), (int64_t)length;
}

/* Lets every entry of an image end before the highest version. */
static void narrow(uint8_t *image, size_t length)
{
    if (!is_current(image, length)) {
        return;
    }
    for (size_t i = 0; i < current.connection_count; i++) {
        for (size_t k = 0; k < entry_count(&current.connections[i].packages); k++) {
            current.connections[i].packages.highest[k]--;
        }
    }
    __real_region_write(&current, image, length);
}

CALL(int64_t, region_archive_forward, const uint8_t *bytes, size_t length, uint8_t *out, size_t out_length)
{
    const bool admitted = fault(127) && length > 0 && bytes[0] == 3;
    const size_t room = fault(136) && out_length > 0 ? out_length - 1 : out_length;
    const int64_t answer = admitted ? copied(bytes, length, out, room) : __real_region_archive_forward(bytes, length, out, room);

    if (fault(129) && answer == -REGION_WRONG_LENGTH) {
        return -REGION_BROKEN_LAYOUT;
    }
    if (fault(132) && answer == -REGION_NO_PLACE && out_length > 0) {
        out[0] = 3;
    }
    if (fault(134) && answer >= 0 && (size_t)answer < out_length) {
        out[answer] = 0;
    }
    if (fault(148) && answer >= 0) {
        narrow(out, (size_t)answer);
    }
    return answer;
}

int64_t __real_region_archive_back(const uint8_t *bytes, size_t length, uint8_t *out, size_t out_length);

/* The answer of back to a file of version 3 that is read. */
static int64_t back_current(size_t length, uint8_t *out, size_t out_length)
{
    static uint8_t image[REGION_LONGEST_IMAGE];

    if (has_none()) {
        return -REGION_HAS_VERSIONS;
    }
    leave_out();
    if (fault(130) && !is_unversioned(&current) && out_length < older_length(length)) {
        return -REGION_NO_PLACE;
    }
    return __real_region_archive_back(image, (size_t)__real_region_write(&current, image, sizeof image), out, out_length);
}

CALL(int64_t, region_archive_back, const uint8_t *bytes, size_t length, uint8_t *out, size_t out_length)
{
    const bool admitted = fault(128) && length > 0 && bytes[0] < 3;
    int64_t answer;

    if (is_current(bytes, length)) {
        answer = back_current(length, out, out_length);
    } else {
        answer = admitted ? copied(bytes, length, out, out_length) : __real_region_archive_back(bytes, length, out, out_length);
    }
    if (fault(131) && answer == -REGION_BROKEN_LAYOUT && has_versions_before_end(bytes, length)) {
        return -REGION_HAS_VERSIONS;
    }
    if (fault(133) && answer == -REGION_HAS_VERSIONS && out_length > 0) {
        out[0] = 1;
    }
    if ((fault(146) || fault(147)) && answer >= 0) {
        out[0] = fault(146) || out[FRONT] > 16 ? 2 : 1;
    }
    return fault(135) && answer >= 0 ? answer + 1 : answer;
}

/* ---- names ---- */

static uint32_t field(const uint8_t *bytes, size_t count)
{
    uint32_t value = 0;

    for (size_t i = 0; i < count; i++) {
        value = value << 8 | bytes[i];
    }
    return value;
}

static bool is_front(const uint8_t *sheet, size_t length)
{
    if (length < 5 || (sheet[0] != 1 && !fault(46))) {
        return false;
    }
    return fault(47) ? field(sheet + 1, 4) <= length - 5 : field(sheet + 1, 4) == length - 5;
}

static bool is_text(const uint8_t *bytes, size_t count)
{
    for (size_t i = 0; i < count; i++) {
        if (bytes[i] < (fault(48) ? 0x1F : 0x20) || bytes[i] > (fault(49) ? 0x7F : 0x7E)) {
            return false;
        }
    }
    return true;
}

static bool is_entry(const uint8_t *entry, size_t left)
{
    size_t size = left < 7 ? 0 : field(entry, 2);

    if (size < (fault(50) ? 5 : 6) || size > (fault(51) ? 46 : 45) || size > left - 2) {
        return false;
    }
    return entry[2] <= (fault(52) ? 4 : 3) && is_text(entry + 7, size - 5);
}

static bool ascends(const uint8_t *entry, const uint8_t *next)
{
    if (fault(53)) {
        return memcmp(entry + 2, next + 2, 5) <= 0;
    }
    if (fault(54)) {
        return memcmp(entry + 3, next + 3, 4) < 0;
    }
    return fault(55) ? entry[2] <= next[2] : memcmp(entry + 2, next + 2, 5) < 0;
}

/* The entry of a kind and number, NULL where there is none; refusal tells whether the sheet is broken. */
static const uint8_t *find_entry(const uint8_t *sheet, size_t length, uint32_t kind, uint32_t number, int64_t *refusal)
{
    const uint8_t *last = NULL, *found = NULL;

    *refusal = fault(56) && length == 5 ? -REGION_BROKEN_SHEET : -REGION_NO_ENTRY;
    for (size_t at = 5; at < length && !(fault(57) && found != NULL); at += 2 + field(sheet + at, 2)) {
        if (fault(58) && length - at == 1) {
            break;
        }
        if (!is_entry(sheet + at, length - at) || (last != NULL && !ascends(last, sheet + at))) {
            *refusal = fault(59) && found == NULL ? -REGION_NO_ENTRY : -REGION_BROKEN_SHEET;
            return NULL;
        }
        last = sheet + at;
        found = last[2] == kind && field(last + 3, 4) == number ? last : found;
    }
    return found;
}

CALL(int64_t, region_name, const uint8_t *sheet, size_t sheet_length, size_t *start, uint32_t kind, uint32_t number)
{
    int64_t refusal = -REGION_BROKEN_SHEET;
    const uint8_t *entry = NULL;
    volatile uint8_t touched;

    if (fault(60)) {
        touched = sheet[sheet_length];
        (void)touched;
    }
    if (is_front(sheet, sheet_length)) {
        entry = find_entry(sheet, sheet_length, fault(61) ? kind % 256 : kind, number, &refusal);
    }
    if (entry == NULL) {
        if (fault(62)) {
            *start = 0;
        }
        return fault(63) && refusal == -REGION_NO_ENTRY && kind > 3 ? -REGION_NOT_A_KIND : refusal;
    }
    *start = (size_t)(entry - sheet) + (fault(64) ? 6 : 7);
    return (int64_t)field(entry, 2) - (fault(65) ? 0 : 5);
}
