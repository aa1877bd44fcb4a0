/* What accepted changing calls do to the graph. */
#include "candidates.h"
#include "graphs.h"
#include "host.h"
#include "images.h"

/* G by its calls in another order has the same image, which is the file's of version 3. */
static void order_of_calls(void)
{
    build_g();
    CHECK(same_image(image_of(graph), load("g-version-3.archive")));
    lend();
    ACCEPTED(region_add(graph, 2));
    ACCEPTED(region_install_v4(graph, 2, 30, PACKAGES(1, 2, 3), NONE));
    ACCEPTED(region_add(graph, 1));
    ACCEPTED(region_connect_v5(graph, 1, 2, NONE, false, ENTRIES(1, 3), false, NONE));
    ACCEPTED(region_add(graph, 0));
    ACCEPTED(region_connect_v5(graph, 0, 1, NONE, false, ENTRIES(1, 2), false, NONE));
    ACCEPTED(region_install_v4(graph, 1, 20, PACKAGES(1), NONE));
    ACCEPTED(region_install_v4(graph, 0, 10, NO_PACKAGES, NONE));
    CHECK(same_image(image_of(graph), load("g-version-3.archive")));
}

/* A region leaves with its bundles and its connections, and comes back with none. */
static void removed(void)
{
    static region_graph left;
    region_empty(&left);
    CHECK(region_add(&left, 0) == REGION_NOT_REFUSED);
    CHECK(region_add(&left, 2) == REGION_NOT_REFUSED);
    CHECK(region_install_v4(&left, 0, 10, NO_PACKAGES, NONE) == REGION_NOT_REFUSED);
    CHECK(region_install_v4(&left, 2, 30, PACKAGES(1, 2, 3), NONE) == REGION_NOT_REFUSED);
    build_g();
    ACCEPTED(region_remove(graph, 1));
    CHECK(same_graph(graph, &left));
    ACCEPTED(region_add(graph, 1));
    UNCHANGED(REGION_NOT_INSTALLED, region_uninstall(graph, 20));
    UNCHANGED(REGION_NOT_CONNECTED, region_disconnect(graph, 0, 1));
    UNCHANGED(REGION_NOT_CONNECTED, region_disconnect(graph, 1, 2));
}

/* What was taken out can be put back, and the graph is the same. */
static void put_back(void)
{
    build_g();
    ACCEPTED(region_uninstall(graph, 20));
    UNCHANGED(REGION_NOT_INSTALLED, region_uninstall(graph, 20));
    ACCEPTED(region_install_v4(graph, 1, 20, PACKAGES(1), NONE));
    ACCEPTED(region_disconnect(graph, 0, 1));
    UNCHANGED(REGION_NOT_CONNECTED, region_disconnect(graph, 0, 1));
    ACCEPTED(region_connect_v5(graph, 0, 1, NONE, false, ENTRIES(1, 2), false, NONE));
    CHECK(same_image(image_of(graph), load("g-version-3.archive")));
}

/* Where a part is "all", the list beside it is not asked about and not kept. Each flag counts for its own part. */
static void all_of_a_kind(void)
{
    const uint32_t descending[REGION_MOST_LISTED + 1] = {9, 8};
    static region_graph other;
    regions(0, 2);
    other = *graph;
    ACCEPTED(region_connect_v5(graph, 0, 1, NONE, true, descending, REGION_MOST_LISTED + 1, zeros, REGION_MOST_LISTED + 1, tops,
                               REGION_MOST_LISTED + 1, false, LIST(5)));
    ACCEPTED(region_connect_v5(graph, 1, 0, NONE, false, ENTRIES(5), true, descending, REGION_MOST_LISTED + 1));
    CHECK(region_connect_v5(&other, 0, 1, NONE, true, NO_ENTRIES, false, LIST(5)) == REGION_NOT_REFUSED);
    CHECK(region_connect_v5(&other, 1, 0, NONE, false, ENTRIES(5), true, NONE) == REGION_NOT_REFUSED);
    CHECK(same_graph(graph, &other));
    ACCEPTED(region_install_v4(graph, 0, 10, NO_PACKAGES, NONE));
    ACCEPTED(region_install_v4(graph, 1, 20, PACKAGES(5, 6), LIST(5, 6)));
    OFFERS(10, {20, 5, true}, {20, 6, true});
    KEEPS(region_service_find(graph, lent.places, PLACES, 10, LIST(5, 6)), 5);
}

/* Lists at their limits, with the least and the greatest number. */
static void longest_lists(void)
{
    uint32_t listed[REGION_MOST_LISTED];
    for (uint32_t i = 0; i < REGION_MOST_LISTED; i++) {
        listed[i] = i + 1 < REGION_MOST_LISTED ? i : UINT32_MAX;
    }
    regions(0, 2);
    ACCEPTED(region_install_v4(graph, 0, UINT32_MAX, listed, REGION_MOST_PROVIDED, zeros, REGION_MOST_PROVIDED, listed,
                               REGION_MOST_PROVIDED));
    ACCEPTED(region_install_v4(graph, 1, 0, PACKAGES(UINT32_MAX), LIST(UINT32_MAX)));
    ACCEPTED(region_connect_v5(graph, 0, 1, listed, REGION_MOST_LISTED, false, listed, REGION_MOST_LISTED, zeros,
                               REGION_MOST_LISTED, tops, REGION_MOST_LISTED, false, listed, REGION_MOST_LISTED));
    KEEPS(region_bundle_find(graph, lent.places, PLACES, UINT32_MAX, LIST(UINT32_MAX, 0, 1)), UINT32_MAX, 0);
    OFFERS(UINT32_MAX, {0, UINT32_MAX, true}, {UINT32_MAX, 7, true}, {UINT32_MAX, 8, false}, {UINT32_MAX, UINT32_MAX, false});
    KEEPS(region_service_find(graph, lent.places, PLACES, UINT32_MAX, LIST(UINT32_MAX, 7, 8)), UINT32_MAX, 7);
}

/* Case G9: the bundle part may name a bundle of the source when the connection is made, but not when the bundle is installed. */
static void case_g9(void)
{
    regions(1, 3);
    ACCEPTED(region_install_v4(graph, 1, 20, NO_PACKAGES, NONE));
    ACCEPTED(region_connect_v5(graph, 1, 2, LIST(20), false, NO_ENTRIES, false, NONE));
    ACCEPTED(region_uninstall(graph, 20));
    UNCHANGED(10, region_install_v4(graph, 1, 20, NO_PACKAGES, NONE));
    ACCEPTED(region_install_v4(graph, 2, 20, NO_PACKAGES, NONE));
}

static void case_g10(void)
{
    lend();
    ACCEPTED(region_add(graph, 63));
    UNCHANGED(1, region_add(graph, 64));
}

void test_changes(void)
{
    order_of_calls();
    removed();
    put_back();
    all_of_a_kind();
    longest_lists();
    case_g9();
    case_g10();
}
