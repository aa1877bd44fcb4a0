/* Archives: files read and written, queried, and refused. */
#include "graphs.h"
#include "host.h"
#include "images.h"
#include "made.h"

#include <string.h>

/* Reads a file over G; the record is written as an image, in a buffer of just its length, and longer ones keep their later bytes.
   One byte less is refused. */
static void written_as(struct image file, struct image image)
{
    const struct image before = file;
    build_g();
    ACCEPTED(region_read(graph, file.bytes, file.length));
    expect_same();
    expect_bytes(image.bytes, image.length);
    WRITES(image.length, region_write(graph, lent.bytes, image.length));
    lend();
    ACCEPTED(region_read(graph, file.bytes, file.length));
    UNCHANGED(-REGION_NO_PLACE, region_write(graph, lent.bytes, image.length - 1));
    UNCHANGED(-REGION_NO_PLACE, region_write(graph, lent.bytes, 0));
    expect_same();
    expect_bytes(image.bytes, image.length);
    WRITES(image.length, region_write(graph, lent.bytes, BYTES));
    CHECK(same_image(file, before));
}

/* A file of version 3, which is an image. */
static void round_trip(struct image file, size_t length)
{
    CHECK(file.bytes[0] == 3 && file.length == length);
    written_as(file, file);
}

/* An older file, which is written as version 3 with so many bytes. */
static void forward(struct image file, size_t length, size_t written)
{
    const struct image image = as_version_3(file);
    CHECK(file.bytes[0] < 3 && file.length == length && image.length == written);
    written_as(file, image);
    round_trip(image, written);
}

/* A file that is refused leaves the record; a query of it gives the same number, before the bundle and the kind are asked about. */
static void refused(uint32_t number, const uint8_t *bytes, size_t length)
{
    UNCHANGED(number, region_read(graph, bytes, length));
    UNCHANGED(number, region_archive_query(bytes, length, 10, REGION_KIND_BUNDLE, 10, 0));
    UNCHANGED(number, region_archive_query(bytes, length, 11, 3, 10, 7));
}

static void refused_file(uint32_t number, const char *name)
{
    struct image file = load(name);
    refused(number, file.bytes, file.length);
}

/* Every beginning of a file, and the file with a byte after it, are no archive. */
static void refused_beginnings(struct image file)
{
    for (size_t length = 0; length < file.length; length++) {
        refused(length < 5 ? REGION_NOT_AN_ARCHIVE : REGION_WRONG_LENGTH, file.bytes, length);
    }
    refused(REGION_WRONG_LENGTH, file.bytes, file.length + 1);
    file.bytes[4]++;
    refused(REGION_BROKEN_LAYOUT, file.bytes, file.length + 1);
}

/* G's file with one byte changed: the first place is asked about before the length, and this before the rest. */
static void refused_bytes(void)
{
    struct image file = load("g.archive");
    file.bytes[83] = 255;
    ACCEPTED(region_read(graph, file.bytes, file.length));
    build_g();
    file.bytes[58] = 255;
    refused(REGION_BROKEN_LAYOUT, file.bytes, file.length);
    file.bytes[1] = 1;
    refused(REGION_WRONG_LENGTH, file.bytes, file.length);
    file.bytes[0] = 0;
    refused(REGION_NOT_AN_ARCHIVE, file.bytes, file.length);
}

/* A file with packages and any other first byte: another version breaks the layout, what is none is refused before all else. */
static void refused_versions(struct image file)
{
    const uint8_t own = file.bytes[0];
    for (unsigned version = 0; version <= UINT8_MAX; version++) {
        file.bytes[0] = (uint8_t)version;
        if (version != own) {
            refused(version >= 1 && version <= 3 ? REGION_BROKEN_LAYOUT : REGION_NOT_AN_ARCHIVE, file.bytes, file.length);
        }
    }
}

/* Regions of bundles and ends of connections that are none of the file's regions, which are 0, 16 and 63. */
static void refused_places(void)
{
    static const size_t places[] = {16, 25, 38, 56, 57, 71, 72};
    static const uint8_t numbers[] = {1, 15, 17, 62, 64, 64 + 16, 64 + 63, 128, UINT8_MAX};
    for (size_t i = 0; i < sizeof places / sizeof places[0]; i++) {
        for (size_t k = 0; k < sizeof numbers / sizeof numbers[0]; k++) {
            struct image file = load("plates.archive");
            file.bytes[places[i]] = numbers[k];
            refused(REGION_BROKEN_LAYOUT, file.bytes, file.length);
        }
    }
}

/* Ends of connections that are regions of the file: the two ends of one are equal, or two connections have the same ends. */
static void refused_ends(void)
{
    static const uint8_t ends[][4] = {{0, 0, 16, 63},  {16, 16, 16, 63}, {0, 16, 16, 16},
                                      {0, 16, 63, 63}, {0, 16, 0, 16},   {16, 63, 0, 16}};
    for (size_t i = 0; i < sizeof ends / sizeof ends[0]; i++) {
        struct image file = load("plates.archive");
        memcpy(file.bytes + 56, ends[i], 2);
        memcpy(file.bytes + 71, ends[i] + 2, 2);
        refused(REGION_BROKEN_LAYOUT, file.bytes, file.length);
    }
}

/* The numbers decide on an older version, and not how many they are. Version 3 is for all. */
static void accepted_regions(void)
{
    static const struct {
        uint8_t version;
        uint8_t numbers[2];
    } files[] = {{1, {0, 15}}, {1, {14, 15}}, {2, {0, 16}}, {2, {0, 63}}, {2, {15, 16}}, {2, {62, 63}}};
    for (size_t i = 0; i < sizeof files / sizeof files[0]; i++) {
        forward(regions_alone(files[i].version, files[i].numbers, 2), 10, 10);
        forward(regions_alone(files[i].version, files[i].numbers + 1, 1), 9, 9);
        round_trip(regions_alone(3, files[i].numbers, 2), 10);
        round_trip(regions_alone(3, files[i].numbers + 1, 1), 9);
    }
}

/* A version that the numbers do not have, numbers that no region has, and numbers out of order. */
static void refused_regions(void)
{
    static const struct {
        uint8_t version;
        size_t count;
        uint8_t numbers[2];
    } files[] = {
        {1, 1, {16}},     {1, 1, {63}},     {1, 2, {0, 16}},  {1, 2, {15, 63}},                                  /* not version 1 */
        {2, 0, {0}},      {2, 1, {0}},      {2, 1, {15}},     {2, 2, {0, 15}},                                   /* not version 2 */
        {1, 1, {64}},     {2, 1, {64}},     {2, 1, {80}},     {2, 1, {255}},    {3, 1, {64}},     {3, 1, {255}}, /* no region's */
        {2, 2, {63, 64}}, {2, 2, {63, 80}}, {2, 2, {63, 63}}, {2, 2, {63, 62}}, {2, 2, {16, 15}}, {3, 2, {63, 64}},
        {3, 2, {15, 15}}, {3, 2, {16, 15}}, {3, 2, {1, 0}},
    };
    for (size_t i = 0; i < sizeof files / sizeof files[0]; i++) {
        struct image file = regions_alone(files[i].version, files[i].numbers, files[i].count);
        refused(REGION_BROKEN_LAYOUT, file.bytes, file.length);
    }
}

/* Regions 0, 1 and so on: 16 of them are the last of version 1, 64 the last that there are. */
static void counted_regions(void)
{
    uint8_t numbers[UINT8_MAX];
    for (uint8_t count = 0; count < UINT8_MAX; count++) {
        numbers[count] = count;
        struct image older = regions_alone(count < 16 ? 1 : 2, numbers, count + 1U);
        struct image file = regions_alone(3, numbers, count + 1U);
        if (count < REGION_REGIONS) {
            forward(older, count + 9U, count + 9U);
            round_trip(file, count + 9U);
        } else {
            refused(REGION_BROKEN_LAYOUT, older.bytes, older.length);
            refused(REGION_BROKEN_LAYOUT, file.bytes, file.length);
        }
    }
}

/* The files of the examples. A version 3 is accepted whatever the region numbers are, and where no package has a version. */
static void read_and_written(void)
{
    static const uint8_t front[] = {3, 0, 0, 0, 0x67, 3, 0, 1, 2, 3, 0, 7, 0, 0, 0, 0x0A};
    struct image g = load("g-version-3.archive");
    CHECK(memcmp(g.bytes, front, sizeof front) == 0 && same_image(as_version_3(load("g.archive")), g));
    forward(load("g.archive"), 84, 108);
    forward(load("cyclic.archive"), 50, 50);
    forward(load("empty.archive"), 8, 8);
    forward(load("plates.archive"), 88, 110);
    forward(load("longest.archive"), 14248, 18344);
    forward(longest_of_version_2(), 14296, 18392);
    round_trip(g, 108);
    round_trip(load("versions.archive"), 120);
    struct image longest = longest_image();
    CHECK(longest.bytes[1] == 0 && longest.bytes[2] == 0 && longest.bytes[3] == 0x47 && longest.bytes[4] == 0xD3);
    round_trip(longest, REGION_LONGEST_IMAGE);
}

/* versions.archive with some of its bytes changed. Its packages are (1, 0), (1, 7), (2, 3) from byte 42 on, its second package part
   has the entries (1, 5 to 9), (2, 3 to 3) from byte 99 on. */
static void changed_versions(uint32_t number, size_t place, const uint8_t *bytes, size_t count)
{
    struct image file = load("versions.archive");
    memcpy(file.bytes + place, bytes, count);
    if (number != REGION_NOT_REFUSED) {
        refused(number, file.bytes, file.length);
        return;
    }
    ACCEPTED(region_read(graph, file.bytes, file.length));
    CHECK(same_image(image_of(graph), file));
    build_g();
}

#define CHANGED(number, place, ...) changed_versions((number), (place), (const uint8_t[]){__VA_ARGS__}, COUNT(__VA_ARGS__))

/* Packages ascend by number, then version; entries by number alone, and the lowest version is at most the highest. */
static void order_of_versions(void)
{
    build_g();
    CHANGED(REGION_NOT_REFUSED, 46, 0, 6);        /* (1, 6), (1, 7) */
    CHANGED(REGION_BROKEN_LAYOUT, 46, 0, 7);      /* (1, 7), (1, 7) */
    CHANGED(REGION_BROKEN_LAYOUT, 46, 0, 8);      /* (1, 8), (1, 7) */
    CHANGED(REGION_BROKEN_LAYOUT, 46, 1, 0);      /* (1, 256), (1, 7) */
    CHANGED(REGION_NOT_REFUSED, 52, 0xFF, 0xFF);  /* (1, 65535), (2, 3) */
    CHANGED(REGION_BROKEN_LAYOUT, 51, 3);         /* (3, 7), (2, 3) */
    CHANGED(REGION_NOT_REFUSED, 57, 1, 0, 8);     /* (1, 7), (1, 8) */
    CHANGED(REGION_NOT_REFUSED, 103, 0, 9);       /* 9 to 9 */
    CHANGED(REGION_BROKEN_LAYOUT, 103, 0, 10);    /* 10 to 9 */
    CHANGED(REGION_BROKEN_LAYOUT, 103, 1, 0);     /* 256 to 9 */
    CHANGED(REGION_NOT_REFUSED, 103, 1, 0, 1, 0); /* 256 to 256 */
    CHANGED(REGION_NOT_REFUSED, 103, 0, 0, 0xFF, 0xFF);
    CHANGED(REGION_BROKEN_LAYOUT, 103, 0xFF, 0xFF, 0, 0);
    CHANGED(REGION_BROKEN_LAYOUT, 110, 1, 0, 10, 0, 20); /* (1, 5 to 9), (1, 10 to 20) */
    CHANGED(REGION_BROKEN_LAYOUT, 102, 2);               /* (2, 5 to 9), (2, 3 to 3) */
    CHANGED(REGION_BROKEN_LAYOUT, 102, 3);               /* (3, 5 to 9), (2, 3 to 3) */
    CHANGED(REGION_BROKEN_LAYOUT, 111, 0, 4);            /* 4 to 3, in the last entry */
}

/* An archive query for version 0, and its answer. */
struct asked {
    uint32_t location;
    uint32_t kind;
    uint32_t item;
    uint32_t answer;
};

/* A package of another version than 0 is in no older file; other kinds have no versions. */
static uint32_t versioned(struct asked asked)
{
    return asked.kind == REGION_KIND_PACKAGE && asked.answer == REGION_SEEN ? REGION_HIDDEN : asked.answer;
}

/* The queries of a file without versions, and of the same graph as version 3. */
static void query(struct image file, const struct asked *asked, size_t count)
{
    const struct image files[] = {file, as_version_3(file)};
    for (size_t i = 0; i < 2 * count; i++) {
        const struct image *f = &files[i / count];
        const struct asked a = asked[i % count];
        CHECK(region_archive_query(f->bytes, f->length, a.location, a.kind, a.item, 0) == a.answer);
        CHECK(region_archive_query(f->bytes, f->length, a.location, a.kind, a.item, 1) == versioned(a));
        CHECK(region_archive_query(f->bytes, f->length, a.location, a.kind, a.item, UINT16_MAX) == versioned(a));
    }
}

static void query_g(void)
{
    static const struct asked asked[] = {
        {10, REGION_KIND_PACKAGE, 1, REGION_SEEN},
        {10, REGION_KIND_PACKAGE, 3, REGION_HIDDEN},
        {20, REGION_KIND_PACKAGE, 3, REGION_SEEN},
        {20, REGION_KIND_BUNDLE, 30, REGION_HIDDEN},
        {10, REGION_KIND_BUNDLE, 10, REGION_SEEN},
        {11, REGION_KIND_PACKAGE, 1, REGION_NOT_INSTALLED},
        {10, 3, 1, REGION_NOT_A_KIND},
        {11, 3, 1, REGION_NOT_INSTALLED},
        {10, UINT32_MAX, 1, REGION_NOT_A_KIND},
    };
    query(load("g.archive"), asked, sizeof asked / sizeof asked[0]);
}

static void query_plates(void)
{
    static const struct asked asked[] = {
        {10, REGION_KIND_PACKAGE, 2, REGION_SEEN},
        {10, REGION_KIND_PACKAGE, 3, REGION_HIDDEN},
        {10, REGION_KIND_SERVICE, 5, REGION_HIDDEN},
        {20, REGION_KIND_SERVICE, 5, REGION_SEEN},
        {20, REGION_KIND_BUNDLE, 30, REGION_SEEN},
        {30, REGION_KIND_BUNDLE, 20, REGION_HIDDEN},
        {11, 3, 1, REGION_NOT_INSTALLED},
        {30, 3, 1, REGION_NOT_A_KIND},
    };
    query(load("plates.archive"), asked, sizeof asked / sizeof asked[0]);
}

/* The longest file of a version: its bundles and connections are those of the others, with other region numbers. */
static void query_longest(struct image longest)
{
    CHECK(region_archive_query(longest.bytes, longest.length, 1000, REGION_KIND_PACKAGE, 8, 0) == REGION_SEEN);
    CHECK(region_archive_query(longest.bytes, longest.length, 1000, REGION_KIND_PACKAGE, 16, 0) == REGION_HIDDEN);
    CHECK(region_archive_query(longest.bytes, longest.length, 1000, REGION_KIND_BUNDLE, 1015, 0) == REGION_SEEN);
    CHECK(region_archive_query(longest.bytes, longest.length, 1000, REGION_KIND_BUNDLE, 1017, 0) == REGION_HIDDEN);
    CHECK(region_archive_query(longest.bytes, longest.length, 1063, REGION_KIND_BUNDLE, 1063, 0) == REGION_SEEN);
    CHECK(region_archive_query(longest.bytes, longest.length, 1064, REGION_KIND_BUNDLE, 1063, 0) == REGION_NOT_INSTALLED);
}

static void query_versions(void)
{
    static const struct {
        uint32_t location;
        uint32_t item;
        uint16_t version;
        uint32_t answer;
    } asked[] = {
        {10, 1, 0, REGION_SEEN},
        {10, 1, 7, REGION_SEEN},
        {10, 1, 8, REGION_HIDDEN},
        {10, 2, 3, REGION_HIDDEN},
        {20, 1, 0, REGION_SEEN},
        {20, 1, 7, REGION_SEEN},
        {20, 2, 3, REGION_SEEN},
        {20, 2, 2, REGION_HIDDEN},
        {20, 2, 0, REGION_HIDDEN},
        {30, 2, 3, REGION_SEEN},
        {30, 2, UINT16_MAX, REGION_HIDDEN},
        {30, 1, 263, REGION_HIDDEN},
        {11, 1, 7, REGION_NOT_INSTALLED},
    };
    struct image file = load("versions.archive");
    for (size_t i = 0; i < sizeof asked / sizeof asked[0]; i++) {
        CHECK(region_archive_query(file.bytes, file.length, asked[i].location, REGION_KIND_PACKAGE, asked[i].item, asked[i].version)
              == asked[i].answer);
    }
    CHECK(region_archive_query(file.bytes, file.length, 20, REGION_KIND_BUNDLE, 30, 9) == REGION_SEEN);
    CHECK(region_archive_query(file.bytes, file.length, 10, REGION_KIND_SERVICE, 5, 9) == REGION_SEEN);
    CHECK(region_archive_query(file.bytes, file.length, 10, 3, 5, 9) == REGION_NOT_A_KIND);
}

static void query_others(void)
{
    struct image cyclic = load("cyclic.archive");
    CHECK(region_archive_query(cyclic.bytes, cyclic.length, 10, REGION_KIND_SERVICE, 77, 0) == REGION_HIDDEN);
    CHECK(region_archive_query(cyclic.bytes, cyclic.length, 20, REGION_KIND_BUNDLE, 20, 0) == REGION_SEEN);
    struct image empty = load("empty.archive");
    CHECK(region_archive_query(empty.bytes, empty.length, 10, REGION_KIND_BUNDLE, 10, 0) == REGION_NOT_INSTALLED);
}

/* An archive query says what the route call says of the record that the file is read into. */
static void query_as_routes_of(struct image file, uint16_t version)
{
    for (uint32_t location = 10; location <= 31; location++) {
        for (uint32_t kind = 0; kind <= 3; kind++) {
            for (uint32_t item = 0; item <= 30; item++) {
                int64_t answer = region_route_v4(graph, lent.bytes, REGION_ROUTE_BYTES, location, kind, item, version);
                int64_t asked = region_archive_query(file.bytes, file.length, location, kind, item, version);
                CHECK(asked == (answer < 0 ? -answer : REGION_SEEN));
            }
        }
    }
}

static void query_as_routes(struct image file)
{
    static const uint16_t versions[] = {0, 3, 7};
    lend();
    ACCEPTED(region_read(graph, file.bytes, file.length));
    for (size_t i = 0; i < sizeof versions / sizeof versions[0]; i++) {
        query_as_routes_of(file, versions[i]);
    }
}

/* Files that are refused, whatever the record holds. */
static void refused_files(void)
{
    refused_file(REGION_NOT_AN_ARCHIVE, "refused-15.archive");
    refused_file(REGION_WRONG_LENGTH, "refused-16.archive");
    refused_file(REGION_BROKEN_LAYOUT, "refused-17.archive");
    refused_file(REGION_BROKEN_LAYOUT, "refused-17-version.archive");
    refused_file(REGION_BROKEN_LAYOUT, "refused-17-range.archive");
    refused_beginnings(load("g.archive"));
    refused_beginnings(load("plates.archive"));
    refused_beginnings(load("versions.archive"));
    refused_places();
    refused_ends();
    refused_regions();
    refused_versions(load("g.archive"));
    refused_versions(load("plates.archive"));
    refused_versions(load("g-version-3.archive"));
    refused_versions(load("versions.archive"));
}

void test_archives(void)
{
    read_and_written();
    accepted_regions();
    counted_regions();
    order_of_versions();
    build_g();
    refused_files();
    refused_bytes();
    struct image plates = load("plates.archive");
    ACCEPTED(region_read(graph, plates.bytes, plates.length));
    refused_files();
    query_g();
    query_plates();
    query_versions();
    query_others();
    query_longest(load("longest.archive"));
    query_longest(longest_of_version_2());
    query_longest(longest_image());
    query_as_routes(load("g.archive"));
    query_as_routes(load("plates.archive"));
    query_as_routes(load("versions.archive"));
}
