/* The route call and four of the five hooks: document 01's cases, what is kept, and every refusal. resolve.c has resolve. */
#include "graphs.h"
#include "host.h"

/* A route call on the lent record, with all the bytes that are lent. */
static int64_t route(uint32_t location, uint32_t kind, uint32_t item)
{
    return region_route_v4(graph, lent.bytes, BYTES, location, kind, item, 0);
}

static void cases_g3_to_g6(void)
{
    build_g();
    ROUTES(route(10, REGION_KIND_PACKAGE, 1), 0, 1);
    UNCHANGED(-REGION_HIDDEN, route(10, REGION_KIND_PACKAGE, 3));
    UNCHANGED(-REGION_HIDDEN, route(20, REGION_KIND_BUNDLE, 30));
    ROUTES(route(10, REGION_KIND_BUNDLE, 10), 0);
}

static void case_g7(void)
{
    build_cycle();
    UNCHANGED(-REGION_HIDDEN, route(10, REGION_KIND_SERVICE, 77));
    UNCHANGED(-REGION_HIDDEN, route(20, REGION_KIND_SERVICE, 77));
    UNCHANGED(0, region_service_find(graph, lent.places, PLACES, 10, LIST(77, 77)));
    UNCHANGED(0, region_service_event(graph, lent.places, PLACES, LIST(10, 20), 77));
}

static void case_g8(void)
{
    build_diamond();
    ROUTES(route(10, REGION_KIND_SERVICE, 5), 0, 1, 3);
    KEEPS(region_service_find(graph, lent.places, PLACES, 10, LIST(5, 6, 5)), 5, 5);
    KEEPS(region_service_event(graph, lent.places, PLACES, LIST(20, 10, 10, 20), 5), 20, 10, 10, 20);
}

/* The front decides between two routes; the holder's own route has no connection. */
static void ties(void)
{
    static const uint8_t ends[][6] = {{0, 1, 2, 3, 4, 5}, {15, 16, 31, 32, 62, 63}, {63, 30, 47, 17, 48, 0}};
    for (size_t i = 0; i < sizeof ends / sizeof ends[0]; i++) {
        build_tie(ends[i]);
        ROUTES(route(10, REGION_KIND_SERVICE, 5), ends[i][0], ends[i][1], ends[i][4], ends[i][5]);
        ROUTES(route(20, REGION_KIND_SERVICE, 5), ends[i][5]);
    }
}

/* The longest route has 48 connections, from region 15 to region 63, in a buffer of 64 bytes: the last 15 keep their values. */
static void longest_route(void)
{
    uint8_t visited[49];
    for (uint8_t i = 0; i < sizeof visited; i++) {
        visited[i] = (uint8_t)(15 + i);
    }
    build_chain();
    expect_same();
    expect_bytes(visited, sizeof visited);
    WRITES(48, region_route_v4(graph, lent.bytes, 64, 10, REGION_KIND_SERVICE, 5, 0));
    UNCHANGED(-REGION_NO_PLACE, region_route_v4(graph, lent.bytes, 63, 10, REGION_KIND_SERVICE, 5, 0));
    UNCHANGED(-REGION_NO_PLACE, region_route_v4(graph, lent.bytes, 49, 10, REGION_KIND_SERVICE, 5, 0));
    KEEPS(region_service_find(graph, lent.places, PLACES, 10, LIST(5, 6, 5)), 5, 5);
    KEEPS(region_service_event(graph, lent.places, PLACES, LIST(20, 10, 10, 20), 5), 20, 10, 10, 20);
    ACCEPTED(region_disconnect(graph, 38, 39));
    UNCHANGED(-REGION_HIDDEN, region_route_v4(graph, lent.bytes, 64, 10, REGION_KIND_SERVICE, 5, 0));
    KEEPS(region_service_event(graph, lent.places, PLACES, LIST(20, 10, 10, 20), 5), 20, 20);
}

/* Order and repetitions are kept; what nobody holds is unseen; the kinds are apart. */
static void kept(void)
{
    build_g();
    KEEPS(region_bundle_find(graph, lent.places, PLACES, 20, LIST(30, 20, 77, 20)), 20, 20);
    UNCHANGED(0, region_service_find(graph, lent.places, PLACES, 20, LIST(1, 2, 3)));
    KEEPS(region_bundle_event(graph, lent.places, PLACES, LIST(30, 10, 20, 30), 30), 30, 30);
    UNCHANGED(0, region_bundle_event(graph, lent.places, PLACES, LIST(30, 10, 20, 30), 77));
    UNCHANGED(0, region_service_event(graph, lent.places, PLACES, LIST(30, 10), 1));
    ROUTES(route(20, REGION_KIND_PACKAGE, 3), 1, 2);
    UNCHANGED(-REGION_HIDDEN, route(20, REGION_KIND_BUNDLE, 3));
    UNCHANGED(-REGION_HIDDEN, route(20, REGION_KIND_SERVICE, 3));
}

/* A bundle part lets the bundle through, and the event reaches those that see it. */
static void bundles_pass(void)
{
    build_g();
    ACCEPTED(region_connect_v5(graph, 2, 1, LIST(20), false, NO_ENTRIES, false, NONE));
    ROUTES(route(30, REGION_KIND_BUNDLE, 20), 2, 1);
    KEEPS(region_bundle_find(graph, lent.places, PLACES, 30, LIST(10, 20, 30)), 20, 30);
    KEEPS(region_bundle_event(graph, lent.places, PLACES, LIST(10, 20, 30), 20), 20, 30);
}

static void refused_routes(void)
{
    build_g();
    UNCHANGED(-REGION_NOT_INSTALLED, route(11, REGION_KIND_PACKAGE, 1));
    UNCHANGED(-REGION_NOT_INSTALLED, route(11, 3, 1));
    UNCHANGED(-REGION_NOT_A_KIND, route(10, 3, 1));
    UNCHANGED(-REGION_NOT_A_KIND, route(10, UINT32_MAX, 1));
    UNCHANGED(-REGION_NO_PLACE, region_route_v4(graph, lent.bytes, 63, 10, REGION_KIND_PACKAGE, 1, 0));
    UNCHANGED(-REGION_NO_PLACE, region_route_v4(graph, lent.bytes, 63, 10, REGION_KIND_PACKAGE, 3, 0));
    UNCHANGED(-REGION_NO_PLACE, region_route_v4(graph, lent.bytes, 63, 10, REGION_KIND_BUNDLE, 10, 0));
    UNCHANGED(-REGION_NO_PLACE, region_route_v4(graph, lent.bytes, 16, 10, REGION_KIND_BUNDLE, 10, 0));
    UNCHANGED(-REGION_NO_PLACE, region_route_v4(graph, lent.bytes, 0, 10, REGION_KIND_BUNDLE, 10, 0));
    ROUTES(region_route_v4(graph, lent.bytes, 64, 10, REGION_KIND_BUNDLE, 10, 0), 0);
    UNCHANGED(-REGION_NOT_A_KIND, region_route_v4(graph, lent.bytes, 63, 10, 3, 1, 0));
    UNCHANGED(-REGION_NOT_INSTALLED, region_route_v4(graph, lent.bytes, 63, 11, 3, 1, 0));
}

/* Bundle 10 publishes service 10, so that both finds see item 10. */
static void build_tens(void)
{
    regions(0, 1);
    ACCEPTED(region_install_v4(graph, 0, 10, NO_PACKAGES, LIST(10)));
}

static void refused_finds(find_call *find)
{
    KEEPS(find(graph, lent.places, 2, 10, LIST(10, 1)), 10);
    KEEPS(find(graph, lent.places, 2, 10, LIST(10, 10)), 10, 10);
    UNCHANGED(-REGION_NOT_INSTALLED, find(graph, lent.places, PLACES, 11, LIST(10, 1)));
    UNCHANGED(-REGION_NOT_INSTALLED, find(graph, lent.places, 1, 11, LIST(10, 1)));
    UNCHANGED(-REGION_NO_PLACE, find(graph, lent.places, 1, 10, LIST(10, 1)));
    UNCHANGED(-REGION_NO_PLACE, find(graph, lent.places, 1, 10, LIST(1, 1)));
    UNCHANGED(-REGION_NO_PLACE, find(graph, lent.places, 0, 10, LIST(10)));
}

static void refused_events(event_call *event)
{
    KEEPS(event(graph, lent.places, 2, LIST(10, 10), 10), 10, 10);
    UNCHANGED(0, event(graph, lent.places, 2, LIST(10, 10), 1));
    UNCHANGED(-REGION_NOT_INSTALLED, event(graph, lent.places, PLACES, LIST(11, 10, 10), 10));
    UNCHANGED(-REGION_NOT_INSTALLED, event(graph, lent.places, PLACES, LIST(10, 11, 10), 10));
    UNCHANGED(-REGION_NOT_INSTALLED, event(graph, lent.places, PLACES, LIST(10, 10, 11), 1));
    UNCHANGED(-REGION_NOT_INSTALLED, event(graph, lent.places, 2, LIST(10, 10, 11), 10));
    UNCHANGED(-REGION_NO_PLACE, event(graph, lent.places, 2, LIST(10, 10, 10), 10));
    UNCHANGED(-REGION_NO_PLACE, event(graph, lent.places, 0, LIST(10), 1));
}

void test_queries(void)
{
    cases_g3_to_g6();
    case_g7();
    case_g8();
    ties();
    longest_route();
    kept();
    bundles_pass();
    refused_routes();
    build_tens();
    refused_finds(region_bundle_find);
    refused_finds(region_service_find);
    refused_events(region_bundle_event);
    refused_events(region_service_event);
}
