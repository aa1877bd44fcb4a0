/* Request C-12: two graphs that agree on a set of regions that no connection leads out of. The six queries of the bundles of the set
   are put to both: the numbers are equal, and so is every byte of the buffers. What is lent ends at a page that faults. */
#include "edge.h"
#include "graphs.h"
#include "host.h"

#include <string.h>

enum {
    SIDES = 2,
    MOST_NUMBERS = 16,
    LAST = REGION_REGIONS - 1, /* the last region */
    ROW = LAST - 7,            /* the first of the last eight */
    OTHER_VERSION = 9          /* a version of no package, which the filters may pass */
};

/* The version in which the graphs of the row have a package; in G and its neighbours all have 0. */
static uint16_t version_of(uint32_t number)
{
    return number == 8 ? 500 : 0;
}

/* The two graphs: the record, its bytes before the queries, the end of the buffer, and those of two more for resolve. */
static struct side {
    region_graph *record;
    region_graph before;
    uint8_t *end;
    uint8_t *other_end;
    uint8_t *version_end;
} sides[SIDES];

/* The end of the lists that are handed in, and of two more for resolve. */
static uint8_t *list_end;
static uint8_t *other_list_end;
static uint8_t *version_list_end;

/* A find or an event: the other is NULL. Both take a number, which is the asker or the item, and a list. */
struct hook {
    find_call *find;
    event_call *event;
};

static const struct hook finds[] = {{region_bundle_find, NULL}, {region_service_find, NULL}};
static const struct hook events[] = {{NULL, region_bundle_event}, {NULL, region_service_event}};

/* A buffer of so many bytes. It has the pattern, as what lend fills has, and so has all memory before it, and before the other
   ends. */
static void *buffer(const struct side *side, size_t length)
{
    memset(side->end - ROOM, lent.before[0], ROOM);
    memset(side->other_end - ROOM, lent.before[0], ROOM);
    memset(side->version_end - ROOM, lent.before[0], ROOM);
    return side->end - length;
}

/* Whether both sides gave the same number and have the same bytes. No record may have changed. */
static bool alike(const int64_t *answers)
{
    for (size_t i = 0; i < SIDES; i++) {
        CHECK(memcmp(sides[i].record, &sides[i].before, sizeof sides[i].before) == 0);
    }
    return answers[0] == answers[1] && memcmp(sides[0].end - ROOM, sides[1].end - ROOM, ROOM) == 0
        && memcmp(sides[0].other_end - ROOM, sides[1].other_end - ROOM, ROOM) == 0
        && memcmp(sides[0].version_end - ROOM, sides[1].version_end - ROOM, ROOM) == 0;
}

/* A find or an event on both sides, which is refused only where it has too few places. */
static bool hook_alike(struct hook hook, size_t places, uint32_t number, const uint32_t *numbers, size_t count)
{
    const uint32_t *list = numbers_at(list_end, numbers, count);
    int64_t answers[SIDES];
    for (size_t i = 0; i < SIDES; i++) {
        const region_graph *record = sides[i].record;
        uint32_t *out = buffer(&sides[i], places * sizeof *out);
        answers[i] = hook.find != NULL ? hook.find(record, out, places, number, list, count)
                                       : hook.event(record, out, places, list, count, number);
        CHECK(places < count ? answers[i] == -REGION_NO_PLACE : answers[i] >= 0);
    }
    return alike(answers);
}

/* The places of the output lists of resolve. */
struct places {
    size_t exporters;
    size_t packages;
    size_t versions;
};

/* A resolve on both sides, which is refused only where an output list has too few places. The candidates have the number's own
   version in turn with another. */
static bool resolve_alike(struct places places, uint32_t asker, const uint32_t *from, const uint32_t *numbers, size_t count)
{
    uint16_t versions[MOST_NUMBERS];
    for (size_t i = 0; i < count; i++) {
        versions[i] = i % 3 == 2 ? OTHER_VERSION : version_of(numbers[i]);
    }
    const uint32_t *exporters = numbers_at(list_end, from, count);
    const uint32_t *packages = numbers_at(other_list_end, numbers, count);
    const uint16_t *asked = versions_at(version_list_end, versions, count);
    const bool room = places.exporters >= count && places.packages >= count && places.versions >= count;
    int64_t answers[SIDES];
    for (size_t i = 0; i < SIDES; i++) {
        uint32_t *out = buffer(&sides[i], places.exporters * sizeof *out);
        uint32_t *other = (uint32_t *)(void *)sides[i].other_end - places.packages;
        uint16_t *of = (uint16_t *)(void *)sides[i].version_end - places.versions;
        answers[i] = region_resolve_v4(sides[i].record, out, places.exporters, other, places.packages, of, places.versions, asker,
                                       exporters, count, packages, count, asked, count);
        CHECK(room ? answers[i] >= 0 : answers[i] == -REGION_NO_PLACE);
    }
    return alike(answers);
}

/* A route on both sides, which is refused only where the kind is none, or it has too few bytes. */
static bool route_alike(size_t length, uint32_t asker, uint32_t kind, uint32_t item, uint16_t version)
{
    bool is_kind = kind <= REGION_KIND_SERVICE;
    int64_t answers[SIDES];
    for (size_t i = 0; i < SIDES; i++) {
        answers[i] = region_route_v4(sides[i].record, buffer(&sides[i], length), length, asker, kind, item, version);
        CHECK((answers[i] == -REGION_NOT_A_KIND) == !is_kind);
        CHECK((answers[i] == -REGION_NO_PLACE) == (is_kind && length < REGION_ROUTE_BYTES));
        CHECK(answers[i] != -REGION_NOT_INSTALLED);
    }
    return alike(answers);
}

/* With more places than the list has numbers, as many, fewer, none; and with an empty list. */
static void hook_queries(struct hook hook, uint32_t number, const uint32_t *numbers, size_t count)
{
    CHECK(hook_alike(hook, count + 1, number, numbers, count));
    CHECK(hook_alike(hook, count, number, numbers, count));
    CHECK(hook_alike(hook, count - 1, number, numbers, count));
    CHECK(hook_alike(hook, 0, number, numbers, count));
    CHECK(hook_alike(hook, 0, number, numbers, 0));
}

/* All numbers of one exporter, and each of them alone; with as many places as there are candidates, more, fewer, none. */
static void resolve_queries(uint32_t asker, uint32_t exporter, const uint32_t *numbers, size_t count)
{
    uint32_t exporters[MOST_NUMBERS];
    for (size_t i = 0; i < count; i++) {
        exporters[i] = exporter;
        CHECK(resolve_alike((struct places){1, 1, 1}, asker, &exporters[i], &numbers[i], 1));
    }
    CHECK(resolve_alike((struct places){count, count + 1, count}, asker, exporters, numbers, count));
    CHECK(resolve_alike((struct places){count + 1, count, count + 2}, asker, exporters, numbers, count));
    CHECK(resolve_alike((struct places){count - 1, count, count}, asker, exporters, numbers, count));
    CHECK(resolve_alike((struct places){count, count - 1, count}, asker, exporters, numbers, count));
    CHECK(resolve_alike((struct places){count, count, count - 1}, asker, exporters, numbers, count));
    CHECK(resolve_alike((struct places){0, 0, 0}, asker, exporters, numbers, count));
    CHECK(resolve_alike((struct places){0, 0, 0}, asker, exporters, numbers, 0));
}

/* Of every kind, and of one that is none: with more bytes than a route needs, as many, fewer, none. */
static void route_queries(uint32_t asker, uint32_t item)
{
    for (uint32_t kind = REGION_KIND_BUNDLE; kind <= REGION_KIND_REGION; kind++) {
        CHECK(route_alike(REGION_ROUTE_BYTES + 1, asker, kind, item, version_of(item)));
        CHECK(route_alike(REGION_ROUTE_BYTES, asker, kind, item, OTHER_VERSION));
        CHECK(route_alike(REGION_ROUTE_BYTES, asker, kind, item, 0));
        CHECK(route_alike(REGION_ROUTE_BYTES - 1, asker, kind, item, version_of(item)));
        CHECK(route_alike(0, asker, kind, item, version_of(item)));
    }
    CHECK(route_alike(REGION_ROUTE_BYTES, asker, UINT32_MAX, item, 0));
}

static void keep_records(void)
{
    for (size_t i = 0; i < SIDES; i++) {
        memcpy(&sides[i].before, sides[i].record, sizeof sides[i].before);
    }
}

/* The six queries of bundles of the set: each asks for all numbers, as exporters too, and all listen to each number. There are
   MOST_NUMBERS at most. */
static void queries(const uint32_t *bundles, size_t bundle_count, const uint32_t *numbers, size_t count)
{
    const bool fits = count <= MOST_NUMBERS;
    CHECK(fits);
    if (!fits) {
        return;
    }
    keep_records();
    for (size_t i = 0; i < bundle_count; i++) {
        for (size_t k = 0; k < sizeof finds / sizeof finds[0]; k++) {
            hook_queries(finds[k], bundles[i], numbers, count);
        }
        for (size_t k = 0; k < count; k++) {
            resolve_queries(bundles[i], numbers[k], numbers, count);
            route_queries(bundles[i], numbers[k]);
        }
    }
    for (size_t i = 0; i < count; i++) {
        for (size_t k = 0; k < sizeof events / sizeof events[0]; k++) {
            hook_queries(events[k], numbers[i], bundles, bundle_count);
        }
    }
}

/* Agrees with G on the regions 1 and 2: bundle 10 is in region 3, which has a connection to region 1, and there is no region 0. */
static void put_neighbours(region_graph *record)
{
    region_empty(record);
    CHECK(region_add(record, 1) == REGION_NOT_REFUSED);
    CHECK(region_add(record, 2) == REGION_NOT_REFUSED);
    CHECK(region_add(record, 3) == REGION_NOT_REFUSED);
    CHECK(region_install_v4(record, 3, 10, PACKAGES(1, 2, 3), LIST(7)) == REGION_NOT_REFUSED);
    CHECK(region_install_v4(record, 1, 20, PACKAGES(1), NONE) == REGION_NOT_REFUSED);
    CHECK(region_install_v4(record, 2, 30, PACKAGES(1, 2, 3), NONE) == REGION_NOT_REFUSED);
    CHECK(region_connect_v5(record, 1, 2, NONE, false, ENTRIES(1, 3), false, NONE) == REGION_NOT_REFUSED);
    CHECK(region_connect_v5(record, 3, 1, LIST(20), true, NO_ENTRIES, true, NONE) == REGION_NOT_REFUSED);
}

static void g_and_neighbours(void)
{
    put_g(sides[0].record);
    put_neighbours(sides[1].record);
    queries(LIST(30, 20, 20), LIST(1, 2, 3, 7, 10, 20, 30, 77));
}

static void add_regions(region_graph *record, uint32_t from, uint32_t below)
{
    for (uint32_t region = from; region < below; region++) {
        CHECK(region_add(record, region) == REGION_NOT_REFUSED);
    }
}

/* In the last eight regions: bundle 10 in the first, bundle 20 in the last, and a connection from each to the next. */
static void put_row(region_graph *record)
{
    CHECK(region_install_v4(record, ROW, 10, NO_PACKAGES, LIST(6)) == REGION_NOT_REFUSED);
    CHECK(region_install_v4(record, LAST, 20, LIST(8), VERSIONS(500), LIST(5)) == REGION_NOT_REFUSED);
    for (uint32_t region = ROW; region < LAST; region++) {
        CHECK(region_connect_v5(record, region, region + 1, LIST(20), false, LIST(8), VERSIONS(0), VERSIONS(500), true, NONE)
              == REGION_NOT_REFUSED);
    }
}

/* In the other regions: as many bundles and connections as the row leaves places for, all connections but one into the row. */
static void put_others(region_graph *record)
{
    for (uint32_t i = 0; i < REGION_MOST_BUNDLES - 2; i++) {
        CHECK(region_install_v4(record, i % ROW, 2 * i + 1, LIST(8, 8, 9), VERSIONS(0, 500, 0), LIST(4, 5)) == REGION_NOT_REFUSED);
    }
    for (uint32_t i = 0; i < REGION_MOST_CONNECTIONS - 8; i++) {
        CHECK(region_connect_v5(record, i, ROW + i % 8, LIST(10, 20), true, NO_ENTRIES, true, NONE) == REGION_NOT_REFUSED);
    }
    CHECK(region_connect_v5(record, 0, 1, LIST(10, 20), true, NO_ENTRIES, true, NONE) == REGION_NOT_REFUSED);
}

/* The row with one other bundle, and the row in a record with no place left, where the others were put before it. */
static void few_and_many(void)
{
    region_empty(sides[0].record);
    add_regions(sides[0].record, ROW - 1, REGION_REGIONS);
    put_row(sides[0].record);
    CHECK(region_install_v4(sides[0].record, ROW - 1, 11, NO_PACKAGES, LIST(7)) == REGION_NOT_REFUSED);
    region_empty(sides[1].record);
    add_regions(sides[1].record, 0, REGION_REGIONS);
    put_others(sides[1].record);
    put_row(sides[1].record);
    CHECK(region_install_v4(sides[1].record, 0, 1000, NO_PACKAGES, NONE) == REGION_FULL);
    CHECK(region_connect_v5(sides[1].record, 1, 0, NONE, false, NO_ENTRIES, false, NONE) == REGION_FULL);
    queries(LIST(10, 20, 10), LIST(1, 4, 5, 6, 7, 8, 9, 10, 11, 20, 77));
}

/* G and its neighbours with a connection from 1 to 3, which leads out of the set: the answers differ. In G region 3 is empty. */
static void led_out(void)
{
    put_g(sides[0].record);
    CHECK(region_add(sides[0].record, 3) == REGION_NOT_REFUSED);
    put_neighbours(sides[1].record);
    for (size_t i = 0; i < SIDES; i++) {
        CHECK(region_connect_v5(sides[i].record, 1, 3, LIST(10), true, NO_ENTRIES, true, NONE) == REGION_NOT_REFUSED);
    }
    keep_records();
    CHECK(!hook_alike(finds[0], 3, 20, LIST(10, 20, 30)));
    CHECK(!hook_alike(finds[1], 3, 20, LIST(7)));
    CHECK(!resolve_alike((struct places){1, 1, 1}, 20, (const uint32_t[]){10}, LIST(2)));
    CHECK(!resolve_alike((struct places){4, 4, 4}, 20, (const uint32_t[]){10, 10, 30, 10}, LIST(1, 2, 3, 3)));
    CHECK(!hook_alike(events[0], 3, 10, LIST(20, 30, 20)));
    CHECK(!hook_alike(events[1], 3, 7, LIST(20, 30)));
    CHECK(!route_alike(REGION_ROUTE_BYTES, 20, REGION_KIND_PACKAGE, 2, 0));
}

void test_isolation(void)
{
    uint8_t *records[SIDES];
    lend();
    for (size_t i = 0; i < SIDES; i++) {
        records[i] = edge();
        sides[i].record = record_at(records[i]);
        sides[i].end = edge();
        sides[i].other_end = edge();
        sides[i].version_end = edge();
    }
    list_end = edge();
    other_list_end = edge();
    version_list_end = edge();
    g_and_neighbours();
    few_and_many();
    led_out();
    for (size_t i = 0; i < SIDES; i++) {
        release(records[i]);
        release(sides[i].end);
        release(sides[i].other_end);
        release(sides[i].version_end);
    }
    release(list_end);
    release(other_list_end);
    release(version_list_end);
}
