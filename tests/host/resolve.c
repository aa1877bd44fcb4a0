/* Request C-14: the candidates, exporters with packages of version 0, that a bundle is offered; every refusal, and the lengths of the
   lists. versions.c has other versions. */
#include "candidates.h"
#include "graphs.h"
#include "host.h"

/* A connection that passes these packages and nothing else. */
#define PASSES(source, target, ...) \
    ACCEPTED(region_connect_v5(graph, source, target, NONE, false, ENTRIES(__VA_ARGS__), false, NONE))

/* A bundle that exports these packages. */
#define EXPORTS(region, location, ...) ACCEPTED(region_install_v4(graph, region, location, PACKAGES(__VA_ARGS__), NONE))

/* Whether an output list has these three numbers. */
static bool has(const uint32_t *list, uint32_t first, uint32_t second, uint32_t third)
{
    return list[0] == first && list[1] == second && list[2] == third;
}

/* Cases G1 and G2, with outputs of three places that have a 7 each; in G2 there is an exporter more than there are packages. */
static void cases_g1_and_g2(void)
{
    uint32_t from[3] = {7, 7, 7};
    uint32_t packages[3] = {7, 7, 7};
    uint16_t versions[3] = {7, 7, 7};
    build_g();
    CHECK(region_resolve_v4(graph, from, 3, packages, 3, versions, 3, 10, LIST(30, 30, 30), PACKAGES(1, 2, 3)) == 1);
    CHECK(has(from, 30, 7, 7) && has(packages, 1, 7, 7) && versions[0] == 0 && versions[1] == 7 && versions[2] == 7);
    from[0] = 7;
    packages[0] = 7;
    versions[0] = 7;
    CHECK(region_resolve_v4(graph, from, 3, packages, 3, versions, 3, 20, LIST(30, 30, 30, 30), PACKAGES(1, 2, 3)) == 2);
    CHECK(has(from, 30, 30, 7) && has(packages, 1, 3, 7) && versions[0] == 0 && versions[1] == 0 && versions[2] == 7);
    OFFERS(10, {30, 1, true}, {30, 2, false}, {30, 3, false});
    OFFERS(20, {30, 1, true}, {30, 2, false}, {30, 3, true});
    OFFERS(30, {30, 1, true}, {30, 2, true}, {30, 3, true}, {20, 1, false});
}

/* Bundle 10 is offered package 1 of bundle 30 over region 1, where bundle 20 exports it too. The route call ends there. */
static void past_a_holder(void)
{
    build_g();
    OFFERS(10, {20, 1, true}, {30, 1, true}, {10, 1, false});
    ROUTES(region_route_v4(graph, lent.bytes, BYTES, 10, REGION_KIND_PACKAGE, 1, 0), 0, 1);
    ACCEPTED(region_uninstall(graph, 20));
    OFFERS(10, {20, 1, false}, {30, 1, true});
    ROUTES(region_route_v4(graph, lent.bytes, BYTES, 10, REGION_KIND_PACKAGE, 1, 0), 0, 1, 2);
    ACCEPTED(region_disconnect(graph, 1, 2));
    OFFERS(10, {20, 1, false}, {30, 1, false});
}

/* The request's case: package 1 is exported in region 1, which bundle 10 sees, and in region 9, to which it is not connected. */
static void two_exporters(void)
{
    regions(0, 10);
    ACCEPTED(region_install_v4(graph, 0, 10, NO_PACKAGES, NONE));
    EXPORTS(1, 20, 1);
    EXPORTS(9, 90, 1);
    PASSES(0, 1, 1);
    OFFERS(10, {20, 1, true}, {90, 1, false}, {20, 1, true});
    PASSES(9, 0, 1);
    OFFERS(10, {20, 1, true}, {90, 1, false});
    OFFERS(90, {20, 1, true}, {90, 1, true}, {10, 1, false});
}

/* An exporter that is not installed; one without the package, alone and where another bundle of its region exports it. */
static void other_exporters(void)
{
    regions(0, 3);
    ACCEPTED(region_install_v4(graph, 0, 10, NO_PACKAGES, NONE));
    EXPORTS(1, 20, 1);
    EXPORTS(1, 21, 2);
    ACCEPTED(region_install_v4(graph, 1, 22, NO_PACKAGES, LIST(1)));
    EXPORTS(2, 30, 2);
    PASSES(0, 1, 1);
    ACCEPTED(region_connect_v5(graph, 0, 2, NONE, true, NO_ENTRIES, true, NONE));
    OFFERS(10, {77, 1, false}, {21, 1, false}, {22, 1, false}, {30, 1, false}, {1, 20, false}, {20, 20, false}, {1, 1, false});
    OFFERS(10, {20, 1, true}, {21, 2, false}, {30, 2, true}, {20, 2, false});
    ACCEPTED(region_uninstall(graph, 20));
    OFFERS(10, {20, 1, false}, {30, 2, true});
    EXPORTS(2, 20, 3);
    OFFERS(10, {20, 1, false}, {20, 3, true});
}

/* The bundle itself, and another of its region, need no connection; the kinds are apart. */
static void own_region(void)
{
    regions(0, 2);
    ACCEPTED(region_install_v4(graph, 0, 10, PACKAGES(1), LIST(2)));
    EXPORTS(0, 11, 5);
    EXPORTS(1, 20, 1, 5);
    OFFERS(10, {10, 1, true}, {11, 5, true}, {20, 1, false}, {20, 5, false}, {10, 2, false}, {10, 10, false}, {11, 1, false});
    OFFERS(20, {20, 1, true}, {20, 5, true}, {10, 1, false}, {11, 5, false});
    OFFERS(10, {10, 1, true});
}

/* The package is seen by one route and the exporter's region is reached for another package; the exporter is seen as a bundle and
   by its services, and is not for the package. A route is for one package from end to end. */
static void judged_together(void)
{
    regions(0, 4);
    ACCEPTED(region_install_v4(graph, 0, 10, NO_PACKAGES, NONE));
    EXPORTS(1, 20, 1);
    EXPORTS(2, 30, 1, 2);
    ACCEPTED(region_install_v4(graph, 3, 40, PACKAGES(1, 3), LIST(1)));
    PASSES(0, 1, 1);
    PASSES(0, 2, 2);
    ACCEPTED(region_connect_v5(graph, 2, 3, LIST(40), false, ENTRIES(1), true, NONE));
    ACCEPTED(region_connect_v5(graph, 0, 3, LIST(40), false, ENTRIES(3), true, NONE));
    OFFERS(10, {20, 1, true}, {30, 1, false}, {30, 2, true}, {20, 2, false}, {40, 1, false}, {40, 3, true});
    OFFERS(30, {30, 1, true}, {40, 1, true}, {40, 3, false}, {20, 1, false});
    KEEPS(region_bundle_find(graph, lent.places, PLACES, 10, LIST(10, 20, 30, 40)), 10, 40);
}

/* Connections that pass all packages, alone and before one that passes some; numbers that differ by whole 256 and 65536. */
static void all_packages(void)
{
    regions(0, 4);
    ACCEPTED(region_install_v4(graph, 0, 10, NO_PACKAGES, NONE));
    EXPORTS(1, 20, 0, 1, 257, UINT32_MAX);
    EXPORTS(2, 30, 1, 257, 65537);
    EXPORTS(3, 40, 1, 257, 513);
    ACCEPTED(region_connect_v5(graph, 0, 1, NONE, true, NO_ENTRIES, false, NONE));
    ACCEPTED(region_connect_v5(graph, 1, 2, NONE, true, NO_ENTRIES, false, NONE));
    PASSES(2, 3, 257);
    OFFERS(10, {20, 0, true}, {20, 1, true}, {20, 257, true}, {20, UINT32_MAX, true}, {20, 2, false}, {20, 65537, false});
    OFFERS(10, {30, 1, true}, {30, 257, true}, {30, 65537, true}, {30, 513, false}, {30, 0, false}, {30, UINT32_MAX, false});
    OFFERS(10, {40, 257, true}, {40, 1, false}, {40, 513, false}, {40, 65537, false}, {296, 257, false});
    OFFERS(40, {40, 1, true}, {30, 1, false}, {20, 1, false});
}

/* A cycle, and the locations and packages with the least and the greatest number. */
static void cycle(void)
{
    regions(61, 64);
    EXPORTS(61, 0, 0, UINT32_MAX);
    EXPORTS(62, UINT32_MAX, 0, UINT32_MAX);
    EXPORTS(63, 7, 0);
    PASSES(61, 62, 0, UINT32_MAX);
    PASSES(62, 63, 0);
    PASSES(63, 61, 0);
    OFFERS(0, {0, 0, true}, {UINT32_MAX, 0, true}, {7, 0, true}, {0, UINT32_MAX, true}, {UINT32_MAX, UINT32_MAX, true});
    OFFERS(UINT32_MAX, {0, 0, true}, {UINT32_MAX, 0, true}, {7, 0, true}, {0, UINT32_MAX, false}, {UINT32_MAX, UINT32_MAX, true});
    OFFERS(7, {0, 0, true}, {UINT32_MAX, 0, true}, {7, 0, true}, {0, UINT32_MAX, false}, {UINT32_MAX, UINT32_MAX, false});
}

/* As many connections as there can be, one behind the other; then with one of them missing. */
static void longest_route(void)
{
    const uint32_t last = REGION_REGIONS - 1;
    const uint32_t first = last - REGION_MOST_CONNECTIONS;
    regions(0, REGION_REGIONS);
    ACCEPTED(region_install_v4(graph, first, 10, NO_PACKAGES, NONE));
    EXPORTS(last, 20, 5, 6);
    EXPORTS(first + 1, 30, 5, 6);
    for (uint32_t region = first; region < last; region++) {
        PASSES(region, region + 1, 5);
    }
    OFFERS(10, {20, 5, true}, {30, 5, true}, {20, 6, false}, {30, 6, false});
    ACCEPTED(region_disconnect(graph, 38, 39));
    OFFERS(10, {20, 5, false}, {30, 5, true});
}

/* Order and repetitions: all beginnings of a list. Twelve candidates that are kept are 12, and are not refusal 12. */
static void order(void)
{
    build_g();
    OFFERS(20, {30, 3, true}, {20, 1, true}, {30, 3, true}, {30, 2, false}, {30, 1, true}, {20, 1, true}, {20, 3, false});
    for (size_t count = 0; count <= 12; count++) {
        start_candidates();
        for (size_t i = 0; i < count; i++) {
            add_candidate(i % 2 == 0 ? 30 : 20, 1, true);
        }
        check_resolve(10, __FILE__, __LINE__, "the beginning of twelve candidates");
    }
}

/* The elements of the lists of resolve, in and out. */
struct lengths {
    size_t exporters;
    size_t packages;
    size_t versions;
    size_t out_exporters;
    size_t out_packages;
    size_t out_versions;
};

/* Lists of such lengths, with so many candidates. Every candidate is offered, also those that memory behind the shorter lists would
   give. */
static void counted(size_t count, struct lengths n)
{
    static const uint32_t exporters[] = {30, 20, 30, 30, 20, 30};
    static const uint32_t packages[] = {1, 1, 3, 1, 1, 3};
    expect_same();
    expect_numbers(exporters, count);
    expect_others(packages, count);
    expect_versions(zeros, count);
    WRITES(count, region_resolve_v4(graph, lent.places, n.out_exporters, lent.others, n.out_packages, lent.versions, n.out_versions,
                                    20, exporters, n.exporters, packages, n.packages, zeros, n.versions));
}

/* The shortest input list counts the candidates, whatever the others have behind them. */
static void lengths(void)
{
    build_g();
    for (size_t count = 0; count <= 6; count++) {
        for (size_t other = count; other <= 6; other++) {
            counted(count, (struct lengths){count, other, other, count, count, count});
            counted(count, (struct lengths){other, count, other, count, count, count});
            counted(count, (struct lengths){other, other, count, count, count, count});
            counted(count, (struct lengths){count, count, other, PLACES, count, count});
            counted(count, (struct lengths){count, other, count, count, PLACES, count});
            counted(count, (struct lengths){other, count, count, count, count, PLACES});
        }
    }
    expect_same();
    expect_numbers(LIST(30, 30));
    expect_others(LIST(1, 3));
    expect_versions(zeros, 2);
    WRITES(2, region_resolve_v4(graph, lent.places, 2, lent.others, 2, lent.versions, 2, 20, LIST(30, 30, 30, 20, 30), LIST(1, 3),
                                VERSIONS(0, 0, 7)));
}

/* A resolve of bundle 10, or of another, for so many candidates, all (30, 1, 0) or those of an exporter that is none; to output lists
   with so many places. */
static int64_t resolve(uint32_t location, uint32_t exporter, size_t count, size_t exporters, size_t packages, size_t versions)
{
    const uint32_t from[] = {exporter, exporter, exporter, exporter, exporter};
    const uint32_t ones[] = {1, 1, 1, 1, 1};
    return region_resolve_v4(graph, lent.places, exporters, lent.others, packages, lent.versions, versions, location, from, count,
                             ones, count, zeros, count);
}

/* Question 14 asks every output list, and none is written where one is too short. */
static void refused_places(void)
{
    build_g();
    for (size_t count = 1; count <= 5; count++) {
        for (size_t places = 0; places < count; places++) {
            UNCHANGED(-REGION_NO_PLACE, resolve(10, 30, count, places, count, count));
            UNCHANGED(-REGION_NO_PLACE, resolve(10, 30, count, count, places, count));
            UNCHANGED(-REGION_NO_PLACE, resolve(10, 30, count, count, count, places));
            UNCHANGED(-REGION_NO_PLACE, resolve(10, 30, count, places, places, PLACES));
            UNCHANGED(-REGION_NO_PLACE, resolve(10, 30, count, places, places, places));
        }
    }
    /* The candidates are counted, and not those that are kept; nor the places of the lists together. */
    UNCHANGED(-REGION_NO_PLACE, resolve(10, 77, 2, PLACES, 1, PLACES));
    UNCHANGED(-REGION_NO_PLACE, resolve(10, 77, 2, 1, PLACES, PLACES));
    UNCHANGED(-REGION_NO_PLACE, resolve(10, 77, 2, PLACES, PLACES, 1));
    UNCHANGED(0, resolve(10, 77, 2, 2, 2, 2));
}

/* Question 12 is of the bundle that asks, and comes first. */
static void refused_bundles(void)
{
    build_g();
    UNCHANGED(-REGION_NOT_INSTALLED, resolve(11, 30, 1, 1, 1, 1));
    UNCHANGED(-REGION_NOT_INSTALLED, resolve(11, 30, 1, 0, 1, 1));
    UNCHANGED(-REGION_NOT_INSTALLED, resolve(11, 30, 1, 1, 0, 1));
    UNCHANGED(-REGION_NOT_INSTALLED, resolve(11, 30, 4, 4, 4, 1));
    UNCHANGED(-REGION_NOT_INSTALLED, region_resolve_v4(graph, NONE, NONE, NONE, 11, NONE, NO_PACKAGES));
    ACCEPTED(region_uninstall(graph, 10));
    UNCHANGED(-REGION_NOT_INSTALLED, resolve(10, 30, 1, 1, 1, 1));
}

void test_resolve(void)
{
    cases_g1_and_g2();
    past_a_holder();
    two_exporters();
    other_exporters();
    own_region();
    judged_together();
    all_packages();
    cycle();
    longest_route();
    order();
    lengths();
    refused_places();
    refused_bundles();
}
