/* Request C-16: archives of version 1 or 2 made archives of version 3, and these made older ones. */
#include "edge.h"
#include "graphs.h"
#include "host.h"
#include "images.h"
#include "made.h"

#include <string.h>

enum {
    SEEDS = 400,
    MOST_VERSIONS = REGION_MOST_BUNDLES * REGION_MOST_PROVIDED + REGION_MOST_CONNECTIONS * REGION_MOST_LISTED * 2,
};

/* A file whose bytes stand here. */
#define BYTES_OF(...) ((struct image){COUNT(__VA_ARGS__), {__VA_ARGS__}})

/* A file that becomes another one, in a buffer of just its length and in longer ones, which keep their later bytes. One byte less
   is refused, and so is no byte. The file that is given keeps its bytes. */
static void converted(conversion_call *call, struct image from, struct image to)
{
    const struct image before = from;
    const size_t lengths[] = {to.length, to.length + 1, BYTES};
    for (size_t i = 0; i < sizeof lengths / sizeof lengths[0]; i++) {
        expect_same();
        expect_bytes(to.bytes, to.length);
        WRITES(to.length, call(from.bytes, from.length, lent.bytes, lengths[i]));
    }
    UNCHANGED(-REGION_NO_PLACE, call(from.bytes, from.length, lent.bytes, to.length - 1));
    UNCHANGED(-REGION_NO_PLACE, call(from.bytes, from.length, lent.bytes, 0));
    UNCHANGED(-REGION_NO_PLACE, call(from.bytes, from.length, NULL, 0));
    CHECK(same_image(from, before));
}

/* A file that is refused leaves every byte of the buffer. The number is the same where the buffer has no byte, as 14 comes last. */
static void refused(conversion_call *call, int64_t number, struct image file)
{
    const struct image before = file;
    UNCHANGED(-number, call(file.bytes, file.length, lent.bytes, BYTES));
    UNCHANGED(-number, call(file.bytes, file.length, lent.bytes, 0));
    UNCHANGED(-number, call(file.bytes, file.length, NULL, 0));
    CHECK(same_image(file, before));
}

/* What a call makes of a file. */
static struct image by(conversion_call *call, struct image file)
{
    struct image image = {0};
    const int64_t length = call(file.bytes, file.length, image.bytes, sizeof image.bytes);
    CHECK(length > 0);
    image.length = length > 0 ? (size_t)length : 0;
    return image;
}

/* The record that a file is read into, over the same memory for each. */
static region_graph record_of(struct image file)
{
    lend();
    ACCEPTED(region_read(graph, file.bytes, file.length));
    return *graph;
}

/* Both calls, one after the other, give the first bytes. All files are read into equal records, whose image is of version 3. */
static void there_and_back(struct image older, struct image latest)
{
    const struct image forth = by(region_archive_forward, older);
    const struct image back = by(region_archive_back, latest);
    CHECK(same_image(by(region_archive_back, forth), older));
    CHECK(same_image(by(region_archive_forward, back), latest));
    const region_graph record = record_of(older);
    const region_graph record_forth = record_of(forth);
    const region_graph record_back = record_of(back);
    CHECK(memcmp(&record_forth, &record, sizeof record) == 0);
    CHECK(memcmp(&record_back, &record, sizeof record) == 0);
    CHECK(same_image(image_of(&record), forth));
}

/* The two files of a graph without versions: each becomes the other one, and is none that the other call admits. */
static void both_ways(struct image older, struct image latest)
{
    build_g();
    CHECK((older.bytes[0] == 1 || older.bytes[0] == 2) && latest.bytes[0] == 3);
    converted(region_archive_forward, older, latest);
    converted(region_archive_back, latest, older);
    refused(region_archive_forward, REGION_NOT_AN_ARCHIVE, latest);
    refused(region_archive_back, REGION_NOT_AN_ARCHIVE, older);
    there_and_back(older, latest);
}

/* An older file, and the lengths of both. */
static void with_lengths(struct image older, size_t length, size_t latest_length)
{
    const struct image latest = as_version_3(older);
    CHECK(older.length == length && latest.length == latest_length);
    both_ways(older, latest);
}

/* Files whose bytes stand here. The third is of regions 0 and 1, bundle 5 with package 9 in region 1, and a connection that passes
   package 9. In the last three a connection passes all packages, all services, or nothing. */
static void worked_bytes(void)
{
    both_ways(BYTES_OF(1, 0, 0, 0, 3, 0, 0, 0), BYTES_OF(3, 0, 0, 0, 3, 0, 0, 0));
    both_ways(BYTES_OF(2, 0, 0, 0, 4, 1, 63, 0, 0), BYTES_OF(3, 0, 0, 0, 4, 1, 63, 0, 0));
    both_ways(BYTES_OF(1, 0, 0, 0, 29, 2, 0, 1, 1, 0, 11, 0, 0, 0, 5, 1, 1, 0, 0, 0, 9, 0, /* the bundle */
                       1, 0, 9, 0, 1, 0, 1, 0, 0, 0, 9, 0),
              BYTES_OF(3, 0, 0, 0, 35, 2, 0, 1, 1, 0, 13, 0, 0, 0, 5, 1, 1, 0, 0, 0, 9, 0, 0, 0, /* with version 0 */
                       1, 0, 13, 0, 1, 0, 1, 0, 0, 0, 9, 0, 0, 255, 255, 0));
    both_ways(BYTES_OF(1, 0, 0, 0, 12, 2, 0, 1, 0, 1, 0, 5, 0, 1, 0, 255, 0),
              BYTES_OF(3, 0, 0, 0, 12, 2, 0, 1, 0, 1, 0, 5, 0, 1, 0, 255, 0));
    both_ways(BYTES_OF(1, 0, 0, 0, 12, 2, 0, 1, 0, 1, 0, 5, 0, 1, 0, 0, 255),
              BYTES_OF(3, 0, 0, 0, 12, 2, 0, 1, 0, 1, 0, 5, 0, 1, 0, 0, 255));
    both_ways(BYTES_OF(2, 0, 0, 0, 12, 2, 0, 16, 0, 1, 0, 5, 16, 0, 0, 0, 0),
              BYTES_OF(3, 0, 0, 0, 12, 2, 0, 16, 0, 1, 0, 5, 16, 0, 0, 0, 0));
}

/* The files of the examples, and the longest of each version. */
static void worked_files(void)
{
    static const uint8_t front[] = {3, 0, 0, 0, 0x67};
    const struct image g = load("g-version-3.archive");
    CHECK(memcmp(g.bytes, front, sizeof front) == 0);
    both_ways(load("g.archive"), g);
    with_lengths(load("g.archive"), 84, 108);
    with_lengths(load("plates.archive"), 88, 110);
    with_lengths(load("cyclic.archive"), 50, 50);
    with_lengths(load("empty.archive"), 8, 8);
    with_lengths(load("longest.archive"), 14248, 18344);
    with_lengths(longest_of_version_2(), 14296, REGION_LONGEST_IMAGE);
}

/* Each region alone, and all up to it: the numbers decide on version 1 or 2. The other of the two is refused. */
static void regions_both_ways(void)
{
    uint8_t numbers[REGION_REGIONS + 1];
    for (uint8_t region = 0; region < REGION_REGIONS; region++) {
        const uint8_t version = region < 16 ? 1 : 2;
        numbers[region] = region;
        both_ways(regions_alone(version, &region, 1), regions_alone(3, &region, 1));
        both_ways(regions_alone(version, numbers, region + 1U), regions_alone(3, numbers, region + 1U));
        refused(region_archive_forward, REGION_BROKEN_LAYOUT, regions_alone(3 - version, &region, 1));
        refused(region_archive_forward, REGION_BROKEN_LAYOUT, regions_alone(3 - version, numbers, region + 1U));
    }
    numbers[REGION_REGIONS] = REGION_REGIONS;
    refused(region_archive_forward, REGION_BROKEN_LAYOUT, regions_alone(2, numbers, 0));
    refused(region_archive_forward, REGION_BROKEN_LAYOUT, regions_alone(2, numbers, sizeof numbers));
    refused(region_archive_back, REGION_BROKEN_LAYOUT, regions_alone(3, numbers, sizeof numbers));
}

/* A walk through a file of version 3: its place, and the places of the versions before it. */
struct walk {
    const uint8_t *bytes;
    size_t at;
    size_t count;
    size_t places[MOST_VERSIONS];
};

/* Goes past a list, with so many versions behind each number, or past a part that is everything. */
static void pass_list(struct walk *walk, size_t versions)
{
    const uint8_t listed = walk->bytes[walk->at++];
    for (uint8_t left = listed == REGION_EVERYTHING ? 0 : listed; left > 0; left--) {
        walk->at += 4;
        for (size_t i = 0; i < versions; i++) {
            walk->places[walk->count++] = walk->at;
            walk->at += 2;
        }
    }
}

/* Notes the place of each version of a package, and of the lowest and the highest version of each entry. */
static void walk_through(struct walk *walk, const struct image *file)
{
    *walk = (struct walk){.bytes = file->bytes, .at = 6U + file->bytes[5]};
    for (uint8_t left = walk->bytes[walk->at++]; left > 0; left--) {
        walk->at += 2 + 4 + 1;
        pass_list(walk, 1);
        pass_list(walk, 0);
    }
    for (uint8_t left = walk->bytes[walk->at++]; left > 0; left--) {
        walk->at += 2 + 1 + 1;
        pass_list(walk, 0);
        pass_list(walk, 2);
        pass_list(walk, 0);
    }
    CHECK(walk->at == file->length);
}

/* A file of version 3 without versions, and one of its versions changed: by 1, by 256, and to the one that is furthest from it. The
   file is an archive, and does not go back. */
static void changed_version(struct image file, size_t place)
{
    static const uint8_t changes[][2] = {{0, 1}, {1, 0}, {0xFF, 0xFF}};
    const uint8_t version[] = {file.bytes[place], file.bytes[place + 1]};
    for (size_t i = 0; i < sizeof changes / sizeof changes[0]; i++) {
        file.bytes[place] = version[0] ^ changes[i][0];
        file.bytes[place + 1] = version[1] ^ changes[i][1];
        refused(region_archive_back, REGION_HAS_VERSIONS, file);
        ACCEPTED(region_read(graph, file.bytes, file.length));
    }
}

/* A file of version 3 without versions, and each of its versions changed alone. Tells how many there are. */
static size_t changed_versions(struct image file)
{
    static struct walk walk;
    walk_through(&walk, &file);
    for (size_t i = 0; i < walk.count; i++) {
        changed_version(file, walk.places[i]);
    }
    return walk.count;
}

/* Graphs with versions. In the last one a connection passes all packages, and bundle 5 has package 9 with version 1. */
static void with_versions(void)
{
    build_g();
    refused(region_archive_back, REGION_HAS_VERSIONS, load("versions.archive"));
    CHECK(changed_versions(load("g-version-3.archive")) == 12);
    CHECK(changed_versions(as_version_3(load("plates.archive"))) == 11);
    CHECK(changed_versions(longest_image()) == MOST_VERSIONS);
    refused(region_archive_back, REGION_HAS_VERSIONS,
            BYTES_OF(3, 0, 0, 0, 27, 2, 0, 1, 1, 0, 13, 0, 0, 0, 5, 1, 1, 0, 0, 0, 9, 0, 1, 0, 1, 0, 5, 0, 1, 0, 255, 0));
}

/* Every first byte that a call does not admit. */
static void other_versions(void)
{
    struct image older = load("g.archive");
    struct image latest = load("g-version-3.archive");
    for (unsigned version = 0; version <= UINT8_MAX; version++) {
        older.bytes[0] = latest.bytes[0] = (uint8_t)version;
        if (version != 1 && version != 2) {
            refused(region_archive_forward, REGION_NOT_AN_ARCHIVE, older);
        }
        if (version != 3) {
            refused(region_archive_back, REGION_NOT_AN_ARCHIVE, latest);
        }
    }
}

/* Faults of G, in the order of their questions: the length, too many bundles, and, in version 3, a version of a package. */
static const struct {
    size_t place;
    uint8_t byte;
    int64_t number;
} faults[] = {{1, 1, REGION_WRONG_LENGTH}, {9, 65, REGION_BROKEN_LAYOUT}, {31, 1, REGION_HAS_VERSIONS}};

/* A file of G with every set of so many faults: the number is that of the first. With a version that the call does not admit it is
   15. */
static void sets_of_faults(conversion_call *call, struct image g, unsigned count, uint8_t other_version)
{
    for (unsigned set = 1; set < 1U << count; set++) {
        struct image file = g;
        int64_t number = 0;
        for (unsigned i = count; i > 0; i--) {
            if (set >> (i - 1) & 1) {
                file.bytes[faults[i - 1].place] = faults[i - 1].byte;
                number = faults[i - 1].number;
            }
        }
        refused(call, number, file);
        file.bytes[0] = other_version;
        refused(call, REGION_NOT_AN_ARCHIVE, file);
    }
}

static void order_of_questions(void)
{
    static const uint8_t not_older[] = {0, 3, 4, UINT8_MAX};
    static const uint8_t not_latest[] = {0, 1, 2, 4, UINT8_MAX};
    build_g();
    for (size_t i = 0; i < sizeof not_older; i++) {
        sets_of_faults(region_archive_forward, load("g.archive"), 2, not_older[i]);
    }
    for (size_t i = 0; i < sizeof not_latest; i++) {
        sets_of_faults(region_archive_back, load("g-version-3.archive"), 3, not_latest[i]);
    }
}

/* Versions that a call admits, and whose layout is another. */
static void other_layouts(void)
{
    struct image g = load("g.archive");
    struct image plates = load("plates.archive");
    struct image latest = load("g-version-3.archive");
    build_g();
    g.bytes[0] = 2;
    refused(region_archive_forward, REGION_BROKEN_LAYOUT, g);
    g.bytes[0] = 3;
    refused(region_archive_back, REGION_BROKEN_LAYOUT, g);
    plates.bytes[0] = 1;
    refused(region_archive_forward, REGION_BROKEN_LAYOUT, plates);
    plates.bytes[0] = 3;
    refused(region_archive_back, REGION_BROKEN_LAYOUT, plates);
    for (uint8_t version = 1; version <= 2; version++) {
        latest.bytes[0] = version;
        refused(region_archive_forward, REGION_BROKEN_LAYOUT, latest);
    }
}

static void refused_files(void)
{
    refused(region_archive_forward, REGION_NOT_AN_ARCHIVE, load("refused-15.archive"));
    refused(region_archive_forward, REGION_WRONG_LENGTH, load("refused-16.archive"));
    refused(region_archive_forward, REGION_BROKEN_LAYOUT, load("refused-17.archive"));
    refused(region_archive_forward, REGION_BROKEN_LAYOUT, load("refused-17-version.archive"));
    refused(region_archive_forward, REGION_NOT_AN_ARCHIVE, load("refused-17-range.archive"));
    refused(region_archive_back, REGION_NOT_AN_ARCHIVE, load("refused-15.archive"));
    refused(region_archive_back, REGION_NOT_AN_ARCHIVE, load("refused-16.archive"));
    refused(region_archive_back, REGION_NOT_AN_ARCHIVE, load("refused-17.archive"));
    refused(region_archive_back, REGION_NOT_AN_ARCHIVE, load("refused-17-version.archive"));
    refused(region_archive_back, REGION_BROKEN_LAYOUT, load("refused-17-range.archive"));
}

/* Every beginning of a file, also with the length that goes with it, and the file with a byte behind it; and no bytes, which may be
   NULL. */
static void beginnings(conversion_call *call, struct image file)
{
    const size_t length = file.length;
    build_g();
    for (file.length = 0; file.length < length; file.length++) {
        refused(call, file.length < 5 ? REGION_NOT_AN_ARCHIVE : REGION_WRONG_LENGTH, file);
    }
    file.length = length + 1;
    refused(call, REGION_WRONG_LENGTH, file);
    file.bytes[4]++;
    refused(call, REGION_BROKEN_LAYOUT, file);
    for (file.length = 5; file.length < length; file.length++) {
        file.bytes[4] = (uint8_t)(file.length - 5);
        refused(call, REGION_BROKEN_LAYOUT, file);
    }
    UNCHANGED(-REGION_NOT_AN_ARCHIVE, call(NULL, 0, lent.bytes, BYTES));
    UNCHANGED(-REGION_NOT_AN_ARCHIVE, call(NULL, 0, NULL, 0));
}

/* What a call writes at an edge: these bytes and none before them, or no byte. */
static void written_at(uint8_t *out, const struct image *to, size_t length, int64_t answer, int64_t expected)
{
    const uint8_t pattern = lent.before[0];
    const uint8_t *start = out - length;
    CHECK(answer == expected);
    CHECK(expected < 0 || memcmp(start, to->bytes, length) == 0);
    CHECK(start[-1] == pattern);
    for (size_t i = 0; expected < 0 && i < length; i++) {
        CHECK(start[i] == pattern);
    }
    memset(out - ROOM, pattern, ROOM);
}

/* A file, which becomes another one, and every beginning of it with the length that goes with it, at an edge; and buffers of just
   the length, of one byte less, and of none, at another one. */
static void at_edges(uint8_t *in, uint8_t *out, conversion_call *call, struct image from, const struct image *to)
{
    const size_t whole = from.length;
    const uint8_t *bytes = bytes_at(in, from.bytes, whole);
    memset(out - ROOM, lent.before[0], ROOM);
    written_at(out, to, to->length, call(bytes, whole, out - to->length, to->length), (int64_t)to->length);
    written_at(out, to, to->length - 1, call(bytes, whole, out - to->length + 1, to->length - 1), -REGION_NO_PLACE);
    written_at(out, to, 0, call(bytes, whole, out, 0), -REGION_NO_PLACE);
    for (size_t length = 0; length < whole; length++) {
        if (length >= 5) {
            from.bytes[3] = (uint8_t)((length - 5) / 256);
            from.bytes[4] = (uint8_t)((length - 5) % 256);
        }
        bytes = bytes_at(in, from.bytes, length);
        CHECK(call(bytes, length, out - to->length, to->length) == (length < 5 ? -REGION_NOT_AN_ARCHIVE : -REGION_BROKEN_LAYOUT));
    }
    written_at(out, to, 0, call(in, 0, out, 0), -REGION_NOT_AN_ARCHIVE);
}

static void both_at_edges(uint8_t *in, uint8_t *out, struct image older)
{
    const struct image latest = as_version_3(older);
    at_edges(in, out, region_archive_forward, older, &latest);
    at_edges(in, out, region_archive_back, latest, &older);
}

static void edges(void)
{
    uint8_t *in = edge();
    uint8_t *out = edge();
    lend();
    both_at_edges(in, out, load("empty.archive"));
    both_at_edges(in, out, load("g.archive"));
    both_at_edges(in, out, load("plates.archive"));
    both_at_edges(in, out, longest_of_version_2());
    release(in);
    release(out);
}

/* Archives by the generator, and each of their versions changed alone in every sixteenth. There are many of both versions. */
static void generated(void)
{
    size_t of_version_1 = 0;
    size_t versions = 0;
    for (uint32_t seed = 1; seed <= SEEDS; seed++) {
        const struct image older = made_older(seed);
        const struct image latest = as_version_3(older);
        both_ways(older, latest);
        of_version_1 += older.bytes[0] == 1;
        if (seed % 16 == 0) {
            versions += changed_versions(latest);
        }
    }
    CHECK(of_version_1 >= SEEDS / 4 && of_version_1 <= SEEDS * 3 / 4 && versions >= SEEDS);
}

void test_conversions(void)
{
    worked_bytes();
    worked_files();
    regions_both_ways();
    with_versions();
    other_versions();
    order_of_questions();
    other_layouts();
    refused_files();
    beginnings(region_archive_forward, load("g.archive"));
    beginnings(region_archive_forward, load("plates.archive"));
    beginnings(region_archive_back, load("g-version-3.archive"));
    beginnings(region_archive_back, load("versions.archive"));
    edges();
    generated();
}
