/* What C may hand in as a list or a buffer: NULL where it has no elements, lists that overlap, lists of any length. */
#include "candidates.h"
#include "graphs.h"
#include "host.h"
#include "images.h"

static void null_lists_of_changes(void)
{
    regions(0, 2);
    ACCEPTED(region_install_v4(graph, 0, 10, NONE, NONE, LIST(1)));
    ACCEPTED(region_install_v4(graph, 0, 20, PACKAGES(1), NONE));
    ACCEPTED(region_install_v4(graph, 1, 30, NONE, NONE, NONE));
    ACCEPTED(region_install_v4(graph, 1, 40, LIST(1), NONE, NONE));
    ACCEPTED(region_install_v4(graph, 1, 50, NONE, VERSIONS(1), NONE));
    ACCEPTED(region_connect_v5(graph, 0, 1, NONE, false, NONE, NONE, NONE, false, NONE));
    ACCEPTED(region_connect_v5(graph, 1, 0, NONE, true, NONE, NONE, NONE, true, NONE));
    ACCEPTED(region_disconnect(graph, 0, 1));
    ACCEPTED(region_connect_v5(graph, 0, 1, NONE, false, LIST(1), VERSIONS(1), NONE, false, NONE));
    ACCEPTED(region_disconnect(graph, 0, 1));
    ACCEPTED(region_connect_v5(graph, 0, 1, NONE, false, NONE, VERSIONS(1), VERSIONS(0), false, NONE));
    UNCHANGED(REGION_NOT_AN_ARCHIVE, region_read(graph, NULL, 0));
    UNCHANGED(REGION_NOT_AN_ARCHIVE, region_archive_query(NULL, 0, 10, 0, 10, 0));
}

static void null_find(find_call *find)
{
    UNCHANGED(0, find(graph, NULL, 0, 10, NULL, 0));
    UNCHANGED(0, find(graph, lent.places, PLACES, 10, NULL, 0));
    UNCHANGED(-REGION_NO_PLACE, find(graph, NULL, 0, 10, LIST(10)));
    UNCHANGED(-REGION_NOT_INSTALLED, find(graph, NULL, 0, 11, NULL, 0));
}

/* The lists of resolve, alone and with others. */
static void null_lists_of_resolve(void)
{
    UNCHANGED(0, region_resolve_v4(graph, NONE, NONE, NONE, 10, NONE, NONE, NONE));
    UNCHANGED(0, region_resolve_v4(graph, lent.places, 4, lent.others, 4, lent.versions, 4, 10, NONE, NONE, NONE));
    UNCHANGED(0, region_resolve_v4(graph, lent.places, 4, lent.others, 4, lent.versions, 4, 10, NONE, PACKAGES(1, 2, 3, 4)));
    UNCHANGED(0, region_resolve_v4(graph, lent.places, 4, lent.others, 4, lent.versions, 4, 10, LIST(30, 30, 30, 30), NONE,
                                   VERSIONS(0, 0, 0, 0)));
    UNCHANGED(0, region_resolve_v4(graph, lent.places, 4, lent.others, 4, lent.versions, 4, 10, LIST(30, 30, 30, 30),
                                   LIST(1, 2, 3, 4), NONE));
    UNCHANGED(0, region_resolve_v4(graph, NONE, NONE, NONE, 10, LIST(30), NONE, NONE));
    UNCHANGED(0, region_resolve_v4(graph, NONE, NONE, NONE, 10, LIST(30), LIST(1), NONE));
    UNCHANGED(-REGION_NOT_INSTALLED, region_resolve_v4(graph, NONE, NONE, NONE, 11, NONE, NONE, NONE));
}

/* So its output lists. */
static void null_outputs_of_resolve(void)
{
    UNCHANGED(0, region_resolve_v4(graph, NONE, lent.others, 4, lent.versions, 4, 10, NONE, PACKAGES(1)));
    UNCHANGED(0, region_resolve_v4(graph, lent.places, 4, NONE, lent.versions, 4, 10, NONE, PACKAGES(1)));
    UNCHANGED(0, region_resolve_v4(graph, lent.places, 4, lent.others, 4, NONE, 10, NONE, PACKAGES(1)));
    UNCHANGED(-REGION_NO_PLACE, region_resolve_v4(graph, NONE, lent.others, 4, lent.versions, 4, 10, LIST(30), PACKAGES(1)));
    UNCHANGED(-REGION_NO_PLACE, region_resolve_v4(graph, lent.places, 4, NONE, lent.versions, 4, 10, LIST(30), PACKAGES(1)));
    UNCHANGED(-REGION_NO_PLACE, region_resolve_v4(graph, lent.places, 4, lent.others, 4, NONE, 10, LIST(30), PACKAGES(1)));
    UNCHANGED(-REGION_NO_PLACE, region_resolve_v4(graph, NONE, NONE, NONE, 10, LIST(30, 30, 30, 30), PACKAGES(1, 1, 1, 1)));
}

static void null_event(event_call *event)
{
    UNCHANGED(0, event(graph, NULL, 0, NULL, 0, 10));
    UNCHANGED(0, event(graph, lent.places, PLACES, NULL, 0, 10));
    UNCHANGED(-REGION_NO_PLACE, event(graph, NULL, 0, LIST(10), 10));
}

static void null_buffers(void)
{
    build_g();
    UNCHANGED(-REGION_NO_PLACE, region_write(graph, NULL, 0));
    UNCHANGED(-REGION_NO_PLACE, region_route_v4(graph, NULL, 0, 10, REGION_KIND_BUNDLE, 10, 0));
    null_find(region_bundle_find);
    null_lists_of_resolve();
    null_outputs_of_resolve();
    null_find(region_service_find);
    null_event(region_bundle_event);
    null_event(region_service_event);
}

/* Input lists that overlap give what equal lists in memory of their own give. */
static void overlapping(void)
{
    const uint32_t list[] = {1, 2, 3, 4};
    static region_graph apart;
    region_empty(&apart);
    CHECK(region_add(&apart, 0) == REGION_NOT_REFUSED);
    CHECK(region_add(&apart, 1) == REGION_NOT_REFUSED);
    CHECK(region_install_v4(&apart, 0, 10, PACKAGES(1, 2, 3, 4), LIST(1, 2, 3, 4)) == REGION_NOT_REFUSED);
    CHECK(region_install_v4(&apart, 0, 20, PACKAGES(1, 2, 3), LIST(2, 3, 4)) == REGION_NOT_REFUSED);
    CHECK(region_connect_v5(&apart, 0, 1, LIST(1, 2), false, ENTRIES(1, 2, 3), false, LIST(3, 4)) == REGION_NOT_REFUSED);
    regions(0, 2);
    ACCEPTED(region_install_v4(graph, 0, 10, list, 4, zeros, 4, list, 4));
    ACCEPTED(region_install_v4(graph, 0, 20, list, 3, zeros, 3, list + 1, 3));
    ACCEPTED(region_connect_v5(graph, 0, 1, list, 2, false, list, 3, zeros, 3, tops, 3, false, list + 2, 2));
    CHECK(same_graph(graph, &apart));
}

/* One list of versions as those of packages, and as the lowest and the highest. */
static void overlapping_versions(void)
{
    const uint16_t versions[] = {3, 4, 5};
    static region_graph apart;
    regions(0, 2);
    apart = *graph;
    CHECK(region_install_v4(&apart, 0, 10, LIST(1, 1, 1), VERSIONS(3, 4, 5), NONE) == REGION_NOT_REFUSED);
    CHECK(region_connect_v5(&apart, 0, 1, NONE, false, LIST(1, 2), VERSIONS(3, 4), VERSIONS(3, 4), false, NONE)
          == REGION_NOT_REFUSED);
    CHECK(region_connect_v5(&apart, 1, 0, NONE, false, LIST(1, 2), VERSIONS(3, 4), VERSIONS(4, 5), false, NONE)
          == REGION_NOT_REFUSED);
    ACCEPTED(region_install_v4(graph, 0, 10, LIST(1, 1, 1), versions, 3, NONE));
    ACCEPTED(region_connect_v5(graph, 0, 1, NONE, false, LIST(1, 2), versions, 2, versions, 2, false, NONE));
    ACCEPTED(region_connect_v5(graph, 1, 0, NONE, false, LIST(1, 2), versions, 2, versions + 1, 2, false, NONE));
    CHECK(same_graph(graph, &apart));
}

/* So with the input lists of resolve: one that is both the exporters and the packages, and two that share numbers. */
static void overlapping_candidates(void)
{
    const uint32_t both[] = {1, 1, 2, 2, 1};
    regions(0, 1);
    ACCEPTED(region_install_v4(graph, 0, 1, PACKAGES(1, 2), NONE));
    expect_same();
    expect_numbers(LIST(1, 1, 1));
    expect_others(LIST(1, 1, 1));
    expect_versions(zeros, 3);
    WRITES(3, region_resolve_v4(graph, lent.places, PLACES, lent.others, PLACES, lent.versions, PLACES, 1, both, 5, both, 5, zeros,
                                5));
    for (size_t count = 2; count <= 4; count++) {
        expect_same();
        expect_numbers(LIST(1, 1));
        expect_others(LIST(1, 2));
        expect_versions(zeros, 2);
        WRITES(2, region_resolve_v4(graph, lent.places, PLACES, lent.others, PLACES, lent.versions, PLACES, 1, both, count,
                                    both + 1, count, zeros, count));
    }
}

/* Twelve candidates kept are 12, and are not refusal 12. */
static void twelve(void)
{
    build_g();
    KEEPS(region_bundle_find(graph, lent.places, PLACES, 10, LIST(10, 10, 10, 10, 10, 10, 10, 10, 10, 10, 10, 10)), 10, 10, 10, 10,
          10, 10, 10, 10, 10, 10, 10, 10);
    KEEPS(region_bundle_event(graph, lent.places, PLACES, LIST(10, 10, 10, 10, 10, 10, 10, 10, 10, 10, 10, 10), 10), 10, 10, 10, 10,
          10, 10, 10, 10, 10, 10, 10, 10);
    UNCHANGED(-12, region_bundle_find(graph, lent.places, PLACES, 11, LIST(10)));
    UNCHANGED(-12, region_bundle_event(graph, lent.places, PLACES, LIST(11), 10));
}

/* So many candidates, every third one offered, of two exporters in turn. */
static void many(size_t count)
{
    start_candidates();
    for (uint32_t i = 0; i < count; i++) {
        bool offered = i % 3 == 0;
        add_candidate(i % 2 == 0 ? 20 : 30, offered ? 1 : 100 + i, offered);
    }
    build_g();
    check_resolve(10, __FILE__, __LINE__, "many candidates");
}

/* As many services as the buffer has places, every third one seen. */
static void many_services(void)
{
    static uint32_t candidates[PLACES];
    static uint32_t seen[PLACES];
    size_t count = 0;
    for (uint32_t i = 0; i < PLACES; i++) {
        candidates[i] = i % 3 == 0 ? 5 : 100 + i;
        if (candidates[i] == 5) {
            seen[count++] = 5;
        }
    }
    build_diamond();
    expect_same();
    expect_numbers(seen, count);
    WRITES(count, region_service_find(graph, lent.places, PLACES, 10, candidates, PLACES));
}

void test_lists(void)
{
    null_lists_of_changes();
    null_buffers();
    overlapping();
    overlapping_versions();
    overlapping_candidates();
    twelve();
    many(PLACES);
    many(1000);
    many_services();
}
