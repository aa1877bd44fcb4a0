/* The record as memory: its size, its alignment, copies of it; and the version of the interface, which its size and the lengths of
   buffers go with. */
#include "graphs.h"
#include "host.h"
#include "images.h"

#include <string.h>

/* A record inside a larger block. */
struct block {
    uint8_t before[GUARD];
    region_graph graph;
    uint8_t after[GUARD];
};

static bool all_are(const uint8_t *bytes, size_t count, uint8_t value)
{
    for (size_t i = 0; i < count; i++) {
        if (bytes[i] != value) {
            return false;
        }
    }
    return true;
}

/* Makes the record of a block empty, over a pattern. The record's first and last byte are written, no byte around it is. */
static void empty_over(struct block *block, uint8_t pattern)
{
    memset(block, pattern, sizeof *block);
    region_empty(&block->graph);
    const uint8_t *record = (const uint8_t *)&block->graph;
    CHECK(all_are(block->before, GUARD, pattern));
    CHECK(record[0] != pattern);
    CHECK(record[sizeof block->graph - 1] != pattern);
    CHECK(all_are(block->after, GUARD, pattern));
}

/* An empty record is the same over any memory. */
static void size(void)
{
    static struct block a;
    static struct block b;
    empty_over(&a, 0x5A);
    empty_over(&b, 0xA5);
    CHECK(image_of(&a.graph).length == 8);
    CHECK(same_graph(&a.graph, &b.graph));
}

/* The library has the interface of the header. The table has the bytes of the record, of a route's buffer and of the longest image at
   each version, from 1 on, and only grows: where one of them is another, so is the version. Version 3 has the bytes of version 2,
   and resolve with other arguments; version 4 has versions of packages; version 5 has its bytes, and connect with other arguments. */
static void version(void)
{
    static const struct {
        size_t record;
        size_t route;
        size_t image;
    } bytes[] = {{16408, 16, 14248}, {16408, 64, 14296}, {16408, 64, 14296}, {20504, 64, 18392}, {20504, 64, 18392}};
    const size_t versions = sizeof bytes / sizeof bytes[0];
    CHECK(region_library_matches());
    CHECK(region_interface_version() == WIMBORU_VERSION);
    CHECK(region_record_size() == sizeof(region_graph));
    CHECK(WIMBORU_VERSION == versions);
    CHECK(region_record_size() == bytes[versions - 1].record);
    CHECK(REGION_ROUTE_BYTES == bytes[versions - 1].route);
    CHECK(REGION_LONGEST_IMAGE == bytes[versions - 1].image);
}

/* A record at each alignment that its type allows: at 8, and at no more than 8. */
static void alignment(void)
{
    static alignas(64) uint8_t memory[64 + sizeof(region_graph)];
    CHECK(alignof(region_graph) == 8);
    for (size_t offset = 0; offset < 64; offset += 8) {
        region_graph *record = (region_graph *)(void *)(memory + offset);
        put_g(record);
        CHECK(same_image(image_of(record), load("g-version-3.archive")));
        lend();
        ROUTES(region_route_v4(record, lent.bytes, REGION_ROUTE_BYTES, 20, REGION_KIND_PACKAGE, 3, 0), 1, 2);
    }
}

/* A copy is a record of its own. */
static void copy(void)
{
    build_g();
    region_graph other = *graph;
    CHECK(same_graph(&other, graph));
    UNCHANGED(REGION_NOT_REFUSED, region_remove(&other, 1));
    UNCHANGED(-REGION_NOT_INSTALLED, region_bundle_find(&other, lent.places, PLACES, 20, LIST(20)));
    KEEPS(region_bundle_find(graph, lent.places, PLACES, 20, LIST(20)), 20);
}

/* A copy has the regions up to the last one. */
static void copy_of_chain(void)
{
    build_chain();
    region_graph other = *graph;
    CHECK(same_graph(&other, graph));
    UNCHANGED(REGION_NOT_REFUSED, region_remove(&other, 63));
    UNCHANGED(-REGION_HIDDEN, region_route_v4(&other, lent.bytes, REGION_ROUTE_BYTES, 10, REGION_KIND_SERVICE, 5, 0));
    KEEPS(region_service_find(graph, lent.places, PLACES, 10, LIST(5)), 5);
    UNCHANGED(REGION_NOT_REFUSED, region_add(&other, 63));
    UNCHANGED(REGION_USED, region_add(graph, 63));
}

void test_record(void)
{
    size();
    version();
    alignment();
    copy();
    copy_of_chain();
}
