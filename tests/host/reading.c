/* What a record holds, read by the calls: regions, bundles, connections, the region of a location, the length of the image. */
#include "graphs.h"
#include "host.h"
#include "images.h"

#include <string.h>

/* A bundle and a connection as they are read: every place that is not named is 0. */
static const region_bundle bundle_30 = {
    .location = 30,
    .region = 2,
    .packages = {.count = 3, .numbers = {1, 2, 3}, .versions = {0, 0, 0}},
};

static const region_connection from_1_to_2 = {
    .source = 1,
    .target = 2,
    .packages = {.count = 2, .numbers = {1, 3}, .lowest = {0, 0}, .highest = {REGION_HIGHEST_VERSION, REGION_HIGHEST_VERSION}},
};

/* Reads that find something: the struct becomes it, and nothing else changes. */
static void reads_bundle(size_t index, const region_bundle *bundle)
{
    expect_same();
    expect_bundle(bundle);
    WRITES(1, region_bundle_at(graph, &lent.bundle, index));
}

static void reads_connection(size_t index, const region_connection *connection)
{
    expect_same();
    expect_connection(connection);
    WRITES(1, region_connection_at(graph, &lent.connection, index));
}

/* From an index on there is nothing: the struct keeps its value. */
static void nothing_from(size_t bundles, size_t connections)
{
    CHECK(region_bundle_count(graph) == bundles);
    CHECK(region_connection_count(graph) == connections);
    const size_t past[] = {0, 1, 64, 65, UINT32_MAX, (size_t)UINT32_MAX + 1, SIZE_MAX - 1000};
    for (size_t i = 0; i < sizeof past / sizeof past[0]; i++) {
        UNCHANGED(0, region_bundle_at(graph, &lent.bundle, bundles + past[i]));
        UNCHANGED(0, region_connection_at(graph, &lent.connection, connections + past[i]));
    }
}

static void nothing_read(void)
{
    lend();
    CHECK(region_set(graph) == 0);
    nothing_from(0, 0);
    UNCHANGED(-REGION_NOT_INSTALLED, region_of(graph, 0));
    CHECK(region_image_length(graph) == 8);
}

static void graph_read(void)
{
    build_g();
    CHECK(region_set(graph) == 7);
    const region_bundle bundle_10 = {.location = 10};
    reads_bundle(0, &bundle_10);
    reads_bundle(2, &bundle_30);
    reads_connection(1, &from_1_to_2);
    nothing_from(3, 2);
    UNCHANGED(0, region_of(graph, 10));
    UNCHANGED(1, region_of(graph, 20));
    UNCHANGED(2, region_of(graph, 30));
    UNCHANGED(-REGION_NOT_INSTALLED, region_of(graph, 11));
    UNCHANGED(-REGION_NOT_INSTALLED, region_of(graph, UINT32_MAX));
}

/* The regions at both ends of the set, and bundles with the greatest numbers. */
static void ends_read(void)
{
    lend();
    ACCEPTED(region_add(graph, 63));
    ACCEPTED(region_add(graph, 0));
    ACCEPTED(region_install_v4(graph, 63, UINT32_MAX, LIST(UINT32_MAX), VERSIONS(UINT16_MAX), LIST(0, UINT32_MAX)));
    ACCEPTED(region_connect_v5(graph, 63, 0, LIST(7), 1, NO_ENTRIES, 0, LIST(8, 9)));
    ACCEPTED(region_connect_v5(graph, 0, 63, NONE, 0, LIST(4), VERSIONS(5), VERSIONS(6), 1, NONE));
    CHECK(region_set(graph) == (UINT64_C(1) << 63 | 1));
    const region_bundle last = {
        .location = UINT32_MAX,
        .region = 63,
        .packages = {.count = 1, .numbers = {UINT32_MAX}, .versions = {UINT16_MAX}},
        .services = {.count = 2, .items = {0, UINT32_MAX}},
    };
    const region_connection from_63 = {
        .source = 63,
        .target = 0,
        .bundles = {.count = 1, .items = {7}},
        .packages = {.count = REGION_EVERYTHING},
        .services = {.count = 2, .items = {8, 9}},
    };
    const region_connection from_0 = {
        .source = 0,
        .target = 63,
        .packages = {.count = 1, .numbers = {4}, .lowest = {5}, .highest = {6}},
        .services = {.count = REGION_EVERYTHING},
    };
    reads_bundle(0, &last);
    reads_connection(0, &from_0);
    reads_connection(1, &from_63);
    nothing_from(1, 2);
    UNCHANGED(63, region_of(graph, UINT32_MAX));
}

/* Makes a record from what is read of the lent one, by the calls alone, from the last bundle and connection to the first. */
static void rebuild(region_graph *record)
{
    region_bundle bundle;
    region_connection connection;
    region_empty(record);
    for (uint32_t region = 0; region < REGION_REGIONS; region++) {
        if (region_set(graph) >> region & 1) {
            CHECK(region_add(record, region) == REGION_NOT_REFUSED);
        }
    }
    for (size_t i = region_bundle_count(graph); i > 0; i--) {
        CHECK(region_bundle_at(graph, &bundle, i - 1) == 1);
        CHECK(region_of(graph, bundle.location) == (int64_t)bundle.region);
        const region_provides provides = region_provides_of(&bundle);
        CHECK(region_install(record, bundle.region, bundle.location, &provides) == REGION_NOT_REFUSED);
    }
    for (size_t i = region_connection_count(graph); i > 0; i--) {
        CHECK(region_connection_at(graph, &connection, i - 1) == 1);
        const region_filter filter = region_filter_of(&connection);
        CHECK(region_connect(record, connection.source, connection.target, &filter) == REGION_NOT_REFUSED);
    }
}

/* What is read of a record is all that it holds: the record that is made of it has the same bytes, and so has the image. */
static void rebuilt(struct image archive)
{
    static region_graph record;
    lend();
    ACCEPTED(region_read(graph, archive.bytes, archive.length));
    memset(&record, 0x33, sizeof record);
    rebuild(&record);
    CHECK(memcmp(&record, graph, sizeof record) == 0);
    CHECK(region_image_length(graph) == image_of(graph).length);
    CHECK(same_image(image_of(graph), image_of(&record)));
}

static void archives_rebuilt(void)
{
    rebuilt(load("empty.archive"));
    rebuilt(load("g.archive"));
    rebuilt(load("cyclic.archive"));
    rebuilt(load("plates.archive"));
    rebuilt(load("versions.archive"));
    rebuilt(load("longest.archive"));
    rebuilt(longest_of_version_2());
    CHECK(region_image_length(graph) == REGION_LONGEST_IMAGE);
}

/* Two records hold the same graph exactly where their bytes are the same, whatever was changed before. */
static void bytes_compared(void)
{
    static region_graph other;
    build_g();
    put_g(&other);
    CHECK(memcmp(graph, &other, sizeof other) == 0);
    CHECK(region_uninstall(&other, 10) == REGION_NOT_REFUSED);
    CHECK(memcmp(graph, &other, sizeof other) != 0);
    CHECK(region_install_v4(&other, 0, 10, NO_PACKAGES, NONE) == REGION_NOT_REFUSED);
    CHECK(memcmp(graph, &other, sizeof other) == 0);
    CHECK(region_disconnect(&other, 0, 1) == REGION_NOT_REFUSED);
    CHECK(memcmp(graph, &other, sizeof other) != 0);
}

void test_reading(void)
{
    nothing_read();
    graph_read();
    ends_read();
    archives_rebuilt();
    bytes_compared();
}
