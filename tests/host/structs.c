/* The calls that take lists as structs: they hand on what the structs have. */
#include "graphs.h"
#include "host.h"
#include "images.h"

/* Graph G by the structs has the bytes of graph G by the library's own calls. */
static void graph_by_structs(void)
{
    static region_graph record;
    const uint32_t one[] = {1}, all[] = {1, 2, 3}, first[] = {1, 2}, second[] = {1, 3};
    const region_provides none = {0};
    const region_provides little = {.packages = one, .versions = zeros, .package_count = 1};
    const region_provides much = {.packages = all, .versions = zeros, .package_count = 3};
    const region_filter passes_first = {.packages = first, .lowest = zeros, .highest = tops, .package_count = 2};
    const region_filter passes_second = {.packages = second, .lowest = zeros, .highest = tops, .package_count = 2};
    region_empty(&record);
    CHECK(region_add(&record, 0) == REGION_NOT_REFUSED);
    CHECK(region_add(&record, 1) == REGION_NOT_REFUSED);
    CHECK(region_add(&record, 2) == REGION_NOT_REFUSED);
    CHECK(region_install(&record, 0, 10, &none) == REGION_NOT_REFUSED);
    CHECK(region_install(&record, 1, 20, &little) == REGION_NOT_REFUSED);
    CHECK(region_install(&record, 2, 30, &much) == REGION_NOT_REFUSED);
    CHECK(region_connect(&record, 0, 1, &passes_first) == REGION_NOT_REFUSED);
    CHECK(region_connect(&record, 1, 2, &passes_second) == REGION_NOT_REFUSED);
    build_g();
    CHECK(same_graph(&record, graph));
    lend();
    build_g();
    ROUTES(region_route(graph, lent.bytes, REGION_ROUTE_BYTES, 10, REGION_KIND_PACKAGE, 1, 0), 0, 1);
    UNCHANGED(-REGION_HIDDEN, region_route(graph, lent.bytes, REGION_ROUTE_BYTES, 10, REGION_KIND_PACKAGE, 3, 0));
}

/* Each list of a struct is the one that is meant, and is refused as the library refuses it. */
static void each_list(void)
{
    static const uint32_t two[] = {2, 2}, seven[] = {7};
    static const uint16_t five[] = {5}, six[] = {6};
    regions(0, 2);
    const region_provides services = {.services = seven, .service_count = 1};
    const region_provides repeated = {.services = two, .service_count = 2};
    const region_provides repeated_packages = {.packages = two, .versions = zeros, .package_count = 2};
    ACCEPTED(region_install(graph, 1, 20, &services));
    UNCHANGED(REGION_LIST_OUT_OF_ORDER, region_install(graph, 1, 21, &repeated));
    UNCHANGED(REGION_LIST_OUT_OF_ORDER, region_install(graph, 1, 21, &repeated_packages));
    const region_filter reversed = {.packages = seven, .lowest = six, .highest = five, .package_count = 1};
    UNCHANGED(REGION_RANGE_REVERSED, region_connect(graph, 0, 1, &reversed));
    const region_filter whole = {
        .bundles = two,
        .bundle_count = 1,
        .packages = seven,
        .lowest = five,
        .highest = six,
        .package_count = 1,
        .pass_services = REGION_PASS_ALL,
        .services = two,
        .service_count = 2,
    };
    ACCEPTED(region_connect(graph, 0, 1, &whole));
    const region_connection expected = {
        .source = 0,
        .target = 1,
        .bundles = {.count = 1, .items = {2}},
        .packages = {.count = 1, .numbers = {7}, .lowest = {5}, .highest = {6}},
        .services = {.count = REGION_EVERYTHING},
    };
    expect_same();
    expect_connection(&expected);
    WRITES(1, region_connection_at(graph, &lent.connection, 0));
}

/* The candidates and the lists for them go to the library's three lists each. */
static void candidates_by_structs(void)
{
    static const uint32_t exporters[] = {30, 20, 30}, packages[] = {1, 3, 3};
    const region_candidates candidates = {.exporters = exporters, .packages = packages, .versions = zeros, .count = 3};
    const region_offers out = {.exporters = lent.places, .packages = lent.others, .versions = lent.versions, .count = 3};
    const region_offers too_few = {.exporters = lent.places, .packages = lent.others, .versions = lent.versions, .count = 2};
    build_g();
    expect_same();
    expect_numbers((const uint32_t[]){30, 30}, 2);
    expect_others((const uint32_t[]){1, 3}, 2);
    expect_versions(zeros, 2);
    WRITES(2, region_resolve(graph, &out, 20, &candidates));
    UNCHANGED(-REGION_NOT_INSTALLED, region_resolve(graph, &out, 21, &candidates));
    UNCHANGED(-REGION_NO_PLACE, region_resolve(graph, &too_few, 20, &candidates));
}

void test_structs(void)
{
    graph_by_structs();
    each_list();
    candidates_by_structs();
}
