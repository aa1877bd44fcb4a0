/* Region numbers up to the last one. */
#include "candidates.h"
#include "graphs.h"
#include "host.h"
#include "images.h"

/* The record's image, and nothing after it. */
static void expect_image(const uint8_t *bytes, size_t length)
{
    expect_same();
    expect_bytes(bytes, length);
    WRITES(length, region_write(graph, lent.bytes, BYTES));
}

/* A region alone. */
static void alone(uint8_t region)
{
    const uint8_t image[] = {3, 0, 0, 0, 4, 1, region, 0, 0};
    lend();
    ACCEPTED(region_add(graph, region));
    UNCHANGED(REGION_USED, region_add(graph, region));
    expect_image(image, sizeof image);
    ACCEPTED(region_install_v4(graph, region, 10, NO_PACKAGES, NONE));
    ACCEPTED(region_remove(graph, region));
    UNCHANGED(REGION_NO_SUCH_REGION, region_remove(graph, region));
    UNCHANGED(REGION_NOT_INSTALLED, region_uninstall(graph, 10));
    CHECK(same_image(image_of(graph), as_version_3(load("empty.archive"))));
}

/* Every query of bundle 10 sees over the connection to bundle 20, and no query sees the other way. */
static void seen_over(uint8_t source, uint8_t target)
{
    ROUTES(region_route_v4(graph, lent.bytes, REGION_ROUTE_BYTES, 10, REGION_KIND_BUNDLE, 20, 0), source, target);
    ROUTES(region_route_v4(graph, lent.bytes, REGION_ROUTE_BYTES, 10, REGION_KIND_PACKAGE, 2, 0), source, target);
    ROUTES(region_route_v4(graph, lent.bytes, REGION_ROUTE_BYTES, 10, REGION_KIND_SERVICE, 6, 0), source, target);
    ROUTES(region_route_v4(graph, lent.bytes, REGION_ROUTE_BYTES, 20, REGION_KIND_SERVICE, 6, 0), target);
    UNCHANGED(-REGION_HIDDEN, region_route_v4(graph, lent.bytes, REGION_ROUTE_BYTES, 20, REGION_KIND_BUNDLE, 10, 0));
    KEEPS(region_bundle_find(graph, lent.places, PLACES, 10, LIST(20, 10, 30)), 20, 10);
    OFFERS(10, {20, 2, true}, {10, 1, true}, {20, 3, false});
    OFFERS(20, {20, 2, true}, {10, 1, false});
    KEEPS(region_service_find(graph, lent.places, PLACES, 10, LIST(6, 5, 7)), 6, 5);
    KEEPS(region_bundle_event(graph, lent.places, PLACES, LIST(20, 10, 20), 20), 20, 10, 20);
    KEEPS(region_service_event(graph, lent.places, PLACES, LIST(20, 10, 20), 6), 20, 10, 20);
    KEEPS(region_service_event(graph, lent.places, PLACES, LIST(20, 10, 20), 5), 10);
}

/* Two regions with a bundle each, and a connection that passes what the second has. */
static void pair(uint8_t source, uint8_t target)
{
    lend();
    ACCEPTED(region_add(graph, source));
    ACCEPTED(region_add(graph, target));
    ACCEPTED(region_install_v4(graph, source, 10, PACKAGES(1), LIST(5)));
    ACCEPTED(region_install_v4(graph, target, 20, PACKAGES(2), LIST(6)));
    ACCEPTED(region_connect_v5(graph, source, target, LIST(20), false, ENTRIES(2), false, LIST(6)));
    UNCHANGED(REGION_CONNECTED, region_connect_v5(graph, source, target, NONE, false, NO_ENTRIES, false, NONE));
    UNCHANGED(REGION_NOT_CONNECTED, region_disconnect(graph, target, source));
    UNCHANGED(REGION_ENDS_EQUAL, region_disconnect(graph, target, target));
    seen_over(source, target);
    ACCEPTED(region_disconnect(graph, source, target));
    UNCHANGED(REGION_NOT_CONNECTED, region_disconnect(graph, source, target));
    UNCHANGED(-REGION_HIDDEN, region_route_v4(graph, lent.bytes, REGION_ROUTE_BYTES, 10, REGION_KIND_BUNDLE, 20, 0));
    KEEPS(region_service_event(graph, lent.places, PLACES, LIST(20, 10, 20), 6), 20, 20);
}

/* Every number, with its neighbour and with one that is far from it. */
static void every_region(void)
{
    for (uint8_t region = 0; region < REGION_REGIONS; region++) {
        alone(region);
        pair(region, (uint8_t)((region + 1) % REGION_REGIONS));
        pair(region, (uint8_t)(REGION_REGIONS - 1 - region));
    }
}

/* Regions 62 and 63 connected both ways beside region 15, until the last of the two is removed. */
static void last_two(void)
{
    const uint8_t both[] = {3, 0, 0, 0, 20, 3, 15, 62, 63, 0, 2, 0, 5, 62, 63, 0, 0, 0, 0, 5, 63, 62, 0, 0, 0};
    const uint8_t one[] = {3, 0, 0, 0, 5, 2, 15, 62, 0, 0};
    const uint8_t none[] = {3, 0, 0, 0, 4, 1, 15, 0, 0};
    regions(15, 16);
    expect_image(none, sizeof none);
    ACCEPTED(region_add(graph, 63));
    ACCEPTED(region_add(graph, 62));
    ACCEPTED(region_connect_v5(graph, 63, 62, NONE, false, NO_ENTRIES, false, NONE));
    ACCEPTED(region_connect_v5(graph, 62, 63, NONE, false, NO_ENTRIES, false, NONE));
    expect_image(both, sizeof both);
    ACCEPTED(region_remove(graph, 63));
    expect_image(one, sizeof one);
    UNCHANGED(REGION_NO_SUCH_REGION, region_disconnect(graph, 62, 63));
    ACCEPTED(region_remove(graph, 62));
    expect_image(none, sizeof none);
}

/* G has its image again when a region that it had besides is removed. */
static void g_and_last(void)
{
    build_g();
    ACCEPTED(region_add(graph, 63));
    ACCEPTED(region_connect_v5(graph, 63, 2, NONE, true, NO_ENTRIES, true, NONE));
    struct image more = image_of(graph);
    CHECK(more.length == 108 + 1 + 7);
    ACCEPTED(region_remove(graph, 63));
    CHECK(same_image(image_of(graph), load("g-version-3.archive")));
}

/* The graph of plates.archive by its calls. */
static void plates(void)
{
    lend();
    ACCEPTED(region_add(graph, 63));
    ACCEPTED(region_add(graph, 16));
    ACCEPTED(region_add(graph, 0));
    ACCEPTED(region_install_v4(graph, 63, 30, PACKAGES(2, 3), LIST(5)));
    ACCEPTED(region_install_v4(graph, 16, 20, PACKAGES(1), NONE));
    ACCEPTED(region_install_v4(graph, 0, 10, NO_PACKAGES, NONE));
    ACCEPTED(region_connect_v5(graph, 16, 63, LIST(30), false, ENTRIES(2, 3), true, NONE));
    ACCEPTED(region_connect_v5(graph, 0, 16, NONE, false, ENTRIES(1, 2), false, NONE));
    CHECK(same_image(image_of(graph), as_version_3(load("plates.archive"))));
    ROUTES(region_route_v4(graph, lent.bytes, REGION_ROUTE_BYTES, 10, REGION_KIND_PACKAGE, 2, 0), 0, 16, 63);
    UNCHANGED(-REGION_HIDDEN, region_route_v4(graph, lent.bytes, REGION_ROUTE_BYTES, 10, REGION_KIND_SERVICE, 5, 0));
}

void test_regions(void)
{
    every_region();
    last_two();
    g_and_last();
    plates();
}
