/* Request C-15: packages by version. What is exported and passed, the lists that go with each other, and the refusals. */
#include "candidates.h"
#include "graphs.h"
#include "host.h"
#include "images.h"

/* A route for a package on the lent record. */
static int64_t route(uint32_t location, uint32_t package, uint16_t version)
{
    return region_route_v4(graph, lent.bytes, BYTES, location, REGION_KIND_PACKAGE, package, version);
}

/* An install and a connect on the lent record, of packages alone. */
#define INSTALL(region, location, packages, versions) region_install_v4(graph, region, location, packages, versions, NONE)
#define CONNECT(source, target, packages, lowest, highest) \
    region_connect_v5(graph, source, target, NONE, false, packages, lowest, highest, false, NONE)

/* Packages ascend by number, then version; a bundle may export a number in several versions. */
static void exported(void)
{
    regions(0, 1);
    ACCEPTED(INSTALL(0, 10, LIST(1, 1, 2), VERSIONS(0, 7, 0)));
    UNCHANGED(REGION_LIST_OUT_OF_ORDER, INSTALL(0, 11, LIST(1, 1), VERSIONS(7, 7)));
    UNCHANGED(REGION_LIST_OUT_OF_ORDER, INSTALL(0, 11, LIST(1, 1), VERSIONS(7, 0)));
    UNCHANGED(REGION_LIST_OUT_OF_ORDER, INSTALL(0, 11, LIST(1, 1), VERSIONS(256, 7)));
    UNCHANGED(REGION_LIST_OUT_OF_ORDER, INSTALL(0, 11, LIST(2, 1), VERSIONS(0, 9)));
    ACCEPTED(INSTALL(0, 11, LIST(1, 2), VERSIONS(9, 0)));
    ACCEPTED(INSTALL(0, 12, LIST(1, 1), VERSIONS(0, UINT16_MAX)));
    ROUTES(route(10, 1, 0), 0);
    ROUTES(route(10, 1, 7), 0);
    ROUTES(route(10, 1, 9), 0);
    ROUTES(route(10, 1, UINT16_MAX), 0);
    UNCHANGED(-REGION_HIDDEN, route(10, 1, 8));
    UNCHANGED(-REGION_HIDDEN, route(10, 1, 263));
    UNCHANGED(-REGION_HIDDEN, route(10, 2, 7));
    ACCEPTED(region_uninstall(graph, 10));
    UNCHANGED(-REGION_HIDDEN, route(11, 1, 7));
    ROUTES(route(11, 1, 0), 0);
}

/* At most 8 packages, whatever their numbers. */
static void most_exported(void)
{
    uint16_t versions[REGION_MOST_PROVIDED + 1];
    uint32_t fives[REGION_MOST_PROVIDED + 1];
    for (uint16_t i = 0; i <= REGION_MOST_PROVIDED; i++) {
        versions[i] = i;
        fives[i] = 5;
    }
    regions(0, 1);
    UNCHANGED(REGION_LIST_TOO_LONG, region_install_v4(graph, 0, 10, fives, 9, versions, 9, NONE));
    ACCEPTED(region_install_v4(graph, 0, 10, fives, 8, versions, 8, NONE));
    ROUTES(route(10, 5, 7), 0);
    UNCHANGED(-REGION_HIDDEN, route(10, 5, 8));
}

/* The versions beside the ends of an entry, and the ends. Bundle 20 exports five of them. */
static void passed(uint16_t lowest, uint16_t highest)
{
    const uint32_t numbers[] = {5, 5, 5, 5, 5};
    uint16_t versions[5] = {(uint16_t)(lowest - 1), lowest, highest, (uint16_t)(highest + 1)};
    for (size_t i = 0; i < 4; i++) {
        const bool seen = lowest <= versions[i] && versions[i] <= highest;
        regions(0, 2);
        ACCEPTED(region_install_v4(graph, 0, 10, NO_PACKAGES, NONE));
        ACCEPTED(region_install_v4(graph, 1, 20, numbers, 1, versions + i, 1, NONE));
        ACCEPTED(region_connect_v5(graph, 0, 1, NONE, false, numbers, 1, &lowest, 1, &highest, 1, false, NONE));
        if (seen) {
            ROUTES(route(10, 5, versions[i]), 0, 1);
        } else {
            UNCHANGED(-REGION_HIDDEN, route(10, 5, versions[i]));
        }
        OFFERS_VERSIONS(10, {20, 5, versions[i], seen}, {20, 6, versions[i], false});
    }
}

static void entries(void)
{
    static const uint16_t ends[] = {0, 1, 9, 255, 256, 32767, 32768, 65534, 65535};
    for (size_t i = 0; i < sizeof ends / sizeof ends[0]; i++) {
        for (size_t k = i; k < sizeof ends / sizeof ends[0]; k++) {
            passed(ends[i], ends[k]);
        }
    }
}

/* A route is for one package from end to end: both connections must pass the version. */
static void along_a_route(void)
{
    regions(0, 3);
    ACCEPTED(region_install_v4(graph, 0, 10, NO_PACKAGES, NONE));
    ACCEPTED(INSTALL(2, 30, LIST(5, 5, 5, 5), VERSIONS(1, 4, 6, 9)));
    ACCEPTED(CONNECT(0, 1, LIST(5), VERSIONS(0), VERSIONS(6)));
    ACCEPTED(CONNECT(1, 2, LIST(5), VERSIONS(4), VERSIONS(9)));
    UNCHANGED(-REGION_HIDDEN, route(10, 5, 1));
    ROUTES(route(10, 5, 4), 0, 1, 2);
    ROUTES(route(10, 5, 6), 0, 1, 2);
    UNCHANGED(-REGION_HIDDEN, route(10, 5, 9));
    UNCHANGED(-REGION_HIDDEN, route(10, 5, 5));
    OFFERS_VERSIONS(10, {30, 5, 1, false}, {30, 5, 4, true}, {30, 5, 5, false}, {30, 5, 6, true}, {30, 5, 9, false});
    ACCEPTED(region_disconnect(graph, 0, 1));
    ACCEPTED(region_connect_v5(graph, 0, 1, NONE, true, NO_ENTRIES, false, NONE));
    ROUTES(route(10, 5, 9), 0, 1, 2);
    UNCHANGED(-REGION_HIDDEN, route(10, 5, 1));
}

/* Two holders of a number in different versions: the route ends at the one that has the version, and resolve goes by exporter. */
static void two_holders(void)
{
    regions(0, 3);
    ACCEPTED(region_install_v4(graph, 0, 10, NO_PACKAGES, NONE));
    ACCEPTED(INSTALL(1, 20, LIST(5), VERSIONS(1)));
    ACCEPTED(INSTALL(2, 30, LIST(5, 5), VERSIONS(1, 2)));
    ACCEPTED(CONNECT(0, 1, LIST(5), VERSIONS(0), VERSIONS(UINT16_MAX)));
    ACCEPTED(CONNECT(1, 2, LIST(5), VERSIONS(2), VERSIONS(2)));
    ROUTES(route(10, 5, 1), 0, 1);
    ROUTES(route(10, 5, 2), 0, 1, 2);
    UNCHANGED(-REGION_HIDDEN, route(10, 5, 0));
    OFFERS_VERSIONS(10, {20, 5, 1, true}, {20, 5, 2, false}, {30, 5, 1, false}, {30, 5, 2, true}, {30, 5, 2, true},
                    {30, 5, 0, false});
}

/* Bundles and services have no version: what is asked for one is as for 0. */
static void other_kinds(void)
{
    static const uint16_t versions[] = {0, 1, 9, 256, UINT16_MAX};
    build_diamond();
    ACCEPTED(region_connect_v5(graph, 3, 0, LIST(10), false, NO_ENTRIES, false, NONE));
    for (size_t i = 0; i < sizeof versions / sizeof versions[0]; i++) {
        const uint16_t version = versions[i];
        ROUTES(region_route_v4(graph, lent.bytes, BYTES, 10, REGION_KIND_SERVICE, 5, version), 0, 1, 3);
        UNCHANGED(-REGION_HIDDEN, region_route_v4(graph, lent.bytes, BYTES, 10, REGION_KIND_SERVICE, 6, version));
        ROUTES(region_route_v4(graph, lent.bytes, BYTES, 20, REGION_KIND_BUNDLE, 10, version), 3, 0);
        UNCHANGED(-REGION_HIDDEN, region_route_v4(graph, lent.bytes, BYTES, 10, REGION_KIND_BUNDLE, 20, version));
        UNCHANGED(-REGION_NOT_A_KIND, region_route_v4(graph, lent.bytes, BYTES, 10, 3, 5, version));
    }
}

/* Whether two installs, or two connects, of the same ends make the same graph. */
static void same_install(const uint32_t *packages, size_t package_count, const uint16_t *versions, size_t version_count,
                         size_t count)
{
    static region_graph cut;
    regions(0, 2);
    cut = *graph;
    CHECK(region_install_v4(&cut, 0, 10, packages, count, versions, count, NONE) == REGION_NOT_REFUSED);
    ACCEPTED(region_install_v4(graph, 0, 10, packages, package_count, versions, version_count, NONE));
    CHECK(same_graph(graph, &cut));
}

static void same_connect(const uint32_t *packages, size_t package_count, const uint16_t *lowest, size_t lowest_count,
                         const uint16_t *highest, size_t highest_count, size_t count)
{
    static region_graph cut;
    regions(0, 2);
    cut = *graph;
    CHECK(region_connect_v5(&cut, 0, 1, NONE, false, packages, count, lowest, count, highest, count, false, NONE)
          == REGION_NOT_REFUSED);
    ACCEPTED(region_connect_v5(graph, 0, 1, NONE, false, packages, package_count, lowest, lowest_count, highest, highest_count,
                               false, NONE));
    CHECK(same_graph(graph, &cut));
}

/* The shortest list counts, before 7, 8 and 20 are asked: what the others have behind is not looked at. */
static void shortest_list(void)
{
    uint32_t ascending[300];
    uint16_t mixed[300];
    for (uint32_t i = 0; i < 300; i++) {
        ascending[i] = i;
        mixed[i] = (uint16_t)(i % 2 == 0 ? 9 : 8);
    }
    same_install(ascending, 9, zeros, 8, 8);
    same_install(ascending, 8, zeros, 9, 8);
    same_install(ascending, 300, zeros, 3, 3);
    same_install(ascending, 3, zeros, 300, 3);
    same_install(LIST(1, 2, 1), VERSIONS(0, 0), 2);
    same_install(LIST(1), VERSIONS(7, 7), 1);
    same_install(LIST(5), NONE, 0);
    same_install(NONE, VERSIONS(5), 0);
    same_connect(ascending, 17, zeros, 16, tops, 17, 16);
    same_connect(ascending, 17, zeros, 17, tops, 16, 16);
    same_connect(ascending, 16, zeros, 17, tops, 17, 16);
    same_connect(ascending, 300, zeros, 300, tops, 2, 2);
    same_connect(ascending, 1, zeros, 300, tops, 300, 1);
    same_connect(LIST(5), VERSIONS(0, 9), VERSIONS(9, 8), 1);
    same_connect(LIST(5, 4), VERSIONS(0), VERSIONS(9, 9), 1);
    same_connect(ascending, 300, mixed + 1, 1, mixed, 300, 1);
    same_connect(LIST(5), VERSIONS(9), NONE, 0);
    same_connect(LIST(5), NONE, VERSIONS(0), 0);
    same_connect(NONE, VERSIONS(9), VERSIONS(8), 0);
}

/* One entry for a number, whatever its versions; the lowest version at most the highest. */
static void refused_entries(void)
{
    regions(0, 2);
    UNCHANGED(REGION_LIST_OUT_OF_ORDER, CONNECT(0, 1, LIST(5, 5), VERSIONS(0, 10), VERSIONS(9, 20)));
    UNCHANGED(REGION_LIST_OUT_OF_ORDER, CONNECT(0, 1, LIST(6, 5), VERSIONS(0, 0), VERSIONS(9, 9)));
    UNCHANGED(REGION_RANGE_REVERSED, CONNECT(0, 1, LIST(5), VERSIONS(9), VERSIONS(8)));
    UNCHANGED(REGION_RANGE_REVERSED, CONNECT(0, 1, LIST(5), VERSIONS(UINT16_MAX), VERSIONS(0)));
    UNCHANGED(REGION_RANGE_REVERSED, CONNECT(0, 1, LIST(5), VERSIONS(256), VERSIONS(255)));
    UNCHANGED(REGION_RANGE_REVERSED, CONNECT(0, 1, LIST(5, 6), VERSIONS(0, 1), VERSIONS(9, 0)));
    UNCHANGED(REGION_RANGE_REVERSED, CONNECT(0, 1, LIST(5, 6), VERSIONS(1, 0), VERSIONS(0, 9)));
    ACCEPTED(CONNECT(0, 1, LIST(5), VERSIONS(9), VERSIONS(9)));
    /* of a part that is "all" nothing is asked */
    ACCEPTED(region_connect_v5(graph, 1, 0, NONE, true, LIST(6, 5), VERSIONS(9, 9), VERSIONS(8, 8), false, NONE));
}

/* The place of 20 in the order: after 1, 3, 4, 5, 7 and 8, whichever list they are about, and before 11. */
static void order_of_refusals(void)
{
    fill_connections();
    ACCEPTED(region_remove(graph, 47));
    UNCHANGED(REGION_NOT_A_REGION, CONNECT(64, 4, LIST(5), VERSIONS(9), VERSIONS(8)));
    UNCHANGED(REGION_NO_SUCH_REGION, CONNECT(0, 47, LIST(5), VERSIONS(9), VERSIONS(8)));
    UNCHANGED(REGION_ENDS_EQUAL, CONNECT(4, 4, LIST(5), VERSIONS(9), VERSIONS(8)));
    UNCHANGED(REGION_CONNECTED, CONNECT(48, 49, LIST(5), VERSIONS(9), VERSIONS(8)));
    UNCHANGED(REGION_LIST_TOO_LONG, region_connect_v5(graph, 0, 4, NONE, false, LIST(5), VERSIONS(9), VERSIONS(8), false,
                                                      LIST(1, 2, 3, 4, 5, 6, 7, 8, 9, 10, 11, 12, 13, 14, 15, 16, 17)));
    UNCHANGED(REGION_LIST_OUT_OF_ORDER, CONNECT(0, 4, LIST(6, 5), VERSIONS(9, 9), VERSIONS(8, 8)));
    UNCHANGED(REGION_LIST_OUT_OF_ORDER,
              region_connect_v5(graph, 0, 4, LIST(2, 1), false, LIST(5), VERSIONS(9), VERSIONS(8), false, NONE));
    UNCHANGED(REGION_LIST_OUT_OF_ORDER,
              region_connect_v5(graph, 0, 4, NONE, false, LIST(5), VERSIONS(9), VERSIONS(8), false, LIST(2, 1)));
    UNCHANGED(REGION_RANGE_REVERSED, CONNECT(0, 4, LIST(5), VERSIONS(9), VERSIONS(8)));
    UNCHANGED(REGION_FULL, CONNECT(0, 4, LIST(5), VERSIONS(8), VERSIONS(9)));
    UNCHANGED(REGION_FULL, region_connect_v5(graph, 0, 4, NONE, true, LIST(5), VERSIONS(9), VERSIONS(8), false, NONE));
}

/* A version that is too large for C's type is cut silently, as the header says: 65536 + 7 is 7. */
static void cut_by_c(void)
{
    const uint32_t large = UINT32_C(65536) + 7;
    regions(0, 1);
    ACCEPTED(INSTALL(0, 10, LIST(1), VERSIONS((uint16_t)large)));
    ROUTES(route(10, 1, (uint16_t)large), 0);
    ROUTES(route(10, 1, 7), 0);
    UNCHANGED(-REGION_HIDDEN, route(10, 1, 0));
}

/* The graph of versions.archive by its calls. */
static void example(void)
{
    regions(0, 3);
    ACCEPTED(region_install_v4(graph, 0, 10, NO_PACKAGES, NONE));
    ACCEPTED(region_install_v4(graph, 1, 20, PACKAGES(1), NONE));
    ACCEPTED(region_install_v4(graph, 2, 30, LIST(1, 1, 2), VERSIONS(0, 7, 3), LIST(5)));
    ACCEPTED(region_connect_v5(graph, 0, 1, NONE, false, LIST(1, 2), VERSIONS(0, 0), VERSIONS(65535, 2), true, NONE));
    ACCEPTED(region_connect_v5(graph, 1, 2, LIST(30), false, LIST(1, 2), VERSIONS(5, 3), VERSIONS(9, 3), false, LIST(5)));
    CHECK(same_image(image_of(graph), load("versions.archive")));
    ROUTES(route(10, 1, 0), 0, 1);
    ROUTES(route(10, 1, 7), 0, 1, 2);
    OFFERS_VERSIONS(10, {20, 1, 0, true}, {30, 1, 0, false}, {30, 1, 7, true}, {30, 2, 3, false}, {20, 1, 7, false});
    OFFERS_VERSIONS(20, {30, 1, 0, false}, {30, 1, 7, true}, {30, 2, 3, true}, {20, 1, 0, true});
}

void test_versions(void)
{
    exported();
    most_exported();
    entries();
    along_a_route();
    two_holders();
    other_kinds();
    shortest_list();
    refused_entries();
    order_of_refusals();
    cut_by_c();
    example();
}
