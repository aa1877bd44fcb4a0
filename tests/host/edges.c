/* Calls on memory that ends where a page that faults begins. */
#include "edge.h"
#include "graphs.h"
#include "host.h"
#include "images.h"
#include "sheets.h"

#include <string.h>

static void changes_at(uint8_t *a, uint8_t *b)
{
    region_graph *record = record_at(a);
    put_g(record);
    const uint32_t *two = numbers_at(b, LIST(1, 2));
    CHECK(region_install_v4(record, 0, 40, two, 2, zeros, 2, two, 2) == REGION_NOT_REFUSED);
    CHECK(region_connect_v5(record, 2, 0, two, 2, false, two, 2, zeros, 2, tops, 2, false, two, 2) == REGION_NOT_REFUSED);
    const uint32_t *wrong = numbers_at(b, LIST(1, 2, 2));
    CHECK(region_install_v4(record, 0, 41, wrong, 3, zeros, 3, wrong, 3) == REGION_LIST_OUT_OF_ORDER);
    CHECK(region_disconnect(record, 2, 0) == REGION_NOT_REFUSED);
    CHECK(region_uninstall(record, 40) == REGION_NOT_REFUSED);
    CHECK(same_image(image_of(record), load("g-version-3.archive")));
}

static void queries_at(uint8_t *a, uint8_t *b, uint8_t *c)
{
    region_graph *record = record_at(a);
    put_g(record);
    const uint32_t *candidates = numbers_at(b, LIST(1, 2, 3));
    uint32_t *kept = numbers_at(c, LIST(0, 0, 0));
    CHECK(region_bundle_find(record, kept, 3, 20, candidates, 3) == 0);
    CHECK(region_service_find(record, kept, 3, 20, candidates, 3) == 0);
    const uint32_t *listeners = numbers_at(b, LIST(10, 20, 30));
    CHECK(region_bundle_event(record, kept, 3, listeners, 3, 20) == 1 && kept[0] == 20);
    CHECK(region_service_event(record, kept, 3, listeners, 3, 20) == 0);
    CHECK(region_route_v4(record, c - REGION_ROUTE_BYTES, REGION_ROUTE_BYTES, 10, REGION_KIND_PACKAGE, 1, 0) == 1);
    CHECK(region_write(record, c - 108, 108) == 108);
}

/* Packages and entries whose lists end at edges of their own. A list may be longer than there are packages: the shortest counts. */
static void install_at(region_graph *record, uint8_t *const *ends, size_t count, const size_t *longer)
{
    static const uint32_t numbers[] = {1, 1, 2, 0, 0};
    static const uint16_t versions[] = {0, 7, UINT16_MAX, 0, 0};
    const uint32_t *packages = numbers_at(ends[0], numbers, count + longer[0]);
    const uint16_t *of = versions_at(ends[1], versions, count + longer[1]);
    CHECK(region_install_v4(record, 0, 40, packages, count + longer[0], of, count + longer[1], NONE) == REGION_NOT_REFUSED);
    CHECK(region_uninstall(record, 40) == REGION_NOT_REFUSED);
}

static void connect_at(region_graph *record, uint8_t *const *ends, size_t count, const size_t *longer)
{
    static const uint32_t numbers[] = {1, 2, UINT32_MAX, 0, 0};
    static const uint16_t versions[] = {0, 7, UINT16_MAX, 9, 9};
    static const uint16_t less[] = {0, 7, UINT16_MAX, 8, 8};
    const uint32_t *packages = numbers_at(ends[0], numbers, count + longer[0]);
    const uint16_t *lowest = versions_at(ends[1], versions, count + longer[1]);
    const uint16_t *highest = versions_at(ends[2], less, count + longer[2]);
    CHECK(region_connect_v5(record, 2, 0, NONE, false, packages, count + longer[0], lowest, count + longer[1], highest,
                            count + longer[2], false, NONE)
          == REGION_NOT_REFUSED);
    CHECK(region_disconnect(record, 2, 0) == REGION_NOT_REFUSED);
    CHECK(region_connect_v5(record, 2, 0, NONE, true, packages, count + longer[0], lowest, count + longer[1], highest,
                            count + longer[2], false, NONE)
          == REGION_NOT_REFUSED);
    CHECK(region_disconnect(record, 2, 0) == REGION_NOT_REFUSED);
}

static void packages_at_edges(uint8_t *a)
{
    static const size_t longer[][3] = {{0, 0, 0}, {2, 0, 0}, {0, 2, 0}, {2, 2, 0}, {0, 2, 2}, {2, 0, 2}, {0, 0, 2}};
    uint8_t *ends[] = {edge(), edge(), edge()};
    region_graph *record = record_at(a);
    put_g(record);
    for (size_t count = 0; count <= 3; count++) {
        for (size_t i = 0; i < sizeof longer / sizeof longer[0]; i++) {
            if (longer[i][0] == 0 || longer[i][1] == 0) {
                install_at(record, ends, count, longer[i]);
            }
            connect_at(record, ends, count, longer[i]);
        }
    }
    CHECK(same_image(image_of(record), load("g-version-3.archive")));
    for (size_t i = 0; i < sizeof ends / sizeof ends[0]; i++) {
        release(ends[i]);
    }
}

/* The edges of resolve: its record, and its three lists in and out. */
struct resolve_edges {
    uint8_t *record;
    uint8_t *exporters;
    uint8_t *packages;
    uint8_t *versions;
    uint8_t *out_exporters;
    uint8_t *out_packages;
    uint8_t *out_versions;
};

enum { LISTS = 6, MOST = 8 };

/* Bundle 20 of G is offered the candidates but those with package 2, or with version 7. Each list, in and out, may be longer than
   there are candidates. */
static void resolve_at(const struct resolve_edges *ends, size_t count, const size_t *longer)
{
    static const uint32_t exporters[MOST] = {30, 30, 30, 20, 30, 30, 30, 30};
    static const uint32_t packages[MOST] = {1, 2, 3, 1, 2, 3, 1, 2};
    static const uint16_t versions[MOST] = {0, 0, 0, 7, 0, 0, 0, 0};
    static const uint32_t sevens[MOST] = {7, 7, 7, 7, 7, 7, 7, 7};
    static const uint16_t nines[MOST] = {9, 9, 9, 9, 9, 9, 9, 9};
    const uint32_t *in = numbers_at(ends->exporters, exporters, count + longer[0]);
    const uint32_t *numbers = numbers_at(ends->packages, packages, count + longer[1]);
    const uint16_t *asked = versions_at(ends->versions, versions, count + longer[2]);
    uint32_t *from = numbers_at(ends->out_exporters, sevens, count + longer[3]);
    uint32_t *kept = numbers_at(ends->out_packages, sevens, count + longer[4]);
    uint16_t *of = versions_at(ends->out_versions, nines, count + longer[5]);
    int64_t answer =
        region_resolve_v4(record_at(ends->record), from, count + longer[3], kept, count + longer[4], of, count + longer[5], 20, in,
                          count + longer[0], numbers, count + longer[1], asked, count + longer[2]);
    size_t n = 0;
    for (size_t i = 0; i < count; i++) {
        if (packages[i] != 2 && versions[i] != 7) {
            CHECK(from[n] == exporters[i] && kept[n] == packages[i] && of[n] == versions[i]);
            n++;
        }
    }
    CHECK(answer == (int64_t)n);
    CHECK(memcmp(from + n, sevens, (count + longer[3] - n) * sizeof *from) == 0);
    CHECK(memcmp(kept + n, sevens, (count + longer[4] - n) * sizeof *kept) == 0);
    CHECK(memcmp(of + n, nines, (count + longer[5] - n) * sizeof *of) == 0);
}

/* Output lists of which some have a place less than there are candidates. */
static void refused_resolve_at(const struct resolve_edges *ends, size_t count, size_t less_exporters, size_t less_packages,
                               size_t less_versions)
{
    static const uint32_t thirties[MOST] = {30, 30, 30, 30, 30, 30, 30, 30};
    static const uint32_t ones[MOST] = {1, 1, 1, 1, 1, 1, 1, 1};
    static const uint16_t nines[MOST] = {9, 9, 9, 9, 9, 9, 9, 9};
    const uint32_t *exporters = numbers_at(ends->exporters, thirties, count);
    const uint32_t *packages = numbers_at(ends->packages, ones, count);
    const uint16_t *versions = versions_at(ends->versions, zeros, count);
    uint32_t *from = numbers_at(ends->out_exporters, ones, count - less_exporters);
    uint32_t *kept = numbers_at(ends->out_packages, thirties, count - less_packages);
    uint16_t *of = versions_at(ends->out_versions, nines, count - less_versions);
    CHECK(region_resolve_v4(record_at(ends->record), from, count - less_exporters, kept, count - less_packages, of,
                            count - less_versions, 20, exporters, count, packages, count, versions, count)
          == -REGION_NO_PLACE);
    CHECK(memcmp(from, ones, (count - less_exporters) * sizeof *from) == 0);
    CHECK(memcmp(kept, thirties, (count - less_packages) * sizeof *kept) == 0);
    CHECK(memcmp(of, nines, (count - less_versions) * sizeof *of) == 0);
}

static void resolves_at(const struct resolve_edges *ends)
{
    static const size_t longer[][LISTS] = {
        {0}, {3}, {0, 3}, {0, 0, 3}, {0, 0, 0, 1}, {0, 0, 0, 0, 1}, {0, 0, 0, 0, 0, 1}, {2, 0, 3, 0, 2}, {0, 2, 2, 1, 0, 2}};
    put_g(record_at(ends->record));
    for (size_t count = 0; count <= 5; count++) {
        for (size_t i = 0; i < sizeof longer / sizeof longer[0]; i++) {
            resolve_at(ends, count, longer[i]);
        }
    }
    for (size_t count = 1; count <= 6; count++) {
        refused_resolve_at(ends, count, 1, 0, 0);
        refused_resolve_at(ends, count, 0, 1, 0);
        refused_resolve_at(ends, count, 0, 0, 1);
        refused_resolve_at(ends, count, 1, 1, 1);
    }
    CHECK(same_image(image_of(record_at(ends->record)), load("g-version-3.archive")));
}

static void resolves_at_edges(void)
{
    const struct resolve_edges ends = {edge(), edge(), edge(), edge(), edge(), edge(), edge()};
    resolves_at(&ends);
    release(ends.record);
    release(ends.exporters);
    release(ends.packages);
    release(ends.versions);
    release(ends.out_exporters);
    release(ends.out_packages);
    release(ends.out_versions);
}

/* The longest route, in a buffer of just the length that it needs, and of one byte less. */
static void longest_route_at(uint8_t *a, uint8_t *c)
{
    region_graph *record = record_at(a);
    build_chain();
    *record = *graph;
    memset(c - REGION_ROUTE_BYTES, 99, REGION_ROUTE_BYTES);
    uint8_t *out = c - REGION_ROUTE_BYTES + 1;
    CHECK(region_route_v4(record, out, REGION_ROUTE_BYTES - 1, 10, REGION_KIND_SERVICE, 5, 0) == -REGION_NO_PLACE);
    for (size_t i = 0; i < REGION_ROUTE_BYTES - 1; i++) {
        CHECK(out[i] == 99);
    }
    out = c - REGION_ROUTE_BYTES;
    CHECK(region_route_v4(record, out, REGION_ROUTE_BYTES, 10, REGION_KIND_SERVICE, 5, 0) == 48);
    for (size_t i = 0; i < REGION_ROUTE_BYTES; i++) {
        CHECK(out[i] == (i <= 48 ? 15 + i : 99));
    }
}

/* The longest image, read, and written to a buffer of just its length, and of one byte less. */
static void longest_image_at(uint8_t *a, uint8_t *b, uint8_t *c)
{
    region_graph *record = record_at(a);
    const struct image longest = longest_image();
    const uint8_t *bytes = bytes_at(b, longest.bytes, longest.length);
    region_empty(record);
    CHECK(region_read(record, bytes, longest.length) == REGION_NOT_REFUSED);
    CHECK(region_archive_query(bytes, longest.length, 1000, REGION_KIND_PACKAGE, 8, 0) == REGION_SEEN);
    memset(c - longest.length, 99, longest.length);
    CHECK(region_write(record, c - longest.length + 1, longest.length - 1) == -REGION_NO_PLACE);
    CHECK(c[-1] == 99 && memcmp(c - longest.length, c - longest.length + 1, longest.length - 1) == 0);
    CHECK(region_write(record, c - longest.length, longest.length) == REGION_LONGEST_IMAGE);
    CHECK(memcmp(c - longest.length, bytes, longest.length) == 0);
}

/* The file, and every beginning of it. */
static void archives_at(uint8_t *a, uint8_t *b, struct image file)
{
    region_graph *record = record_at(a);
    region_empty(record);
    for (size_t length = 0; length <= file.length; length++) {
        const uint8_t *bytes = bytes_at(b, file.bytes, length);
        bool whole = length == file.length;
        CHECK((region_read(record, bytes, length) == REGION_NOT_REFUSED) == whole);
        CHECK((region_archive_query(bytes, length, 10, REGION_KIND_PACKAGE, 1, 0) == REGION_SEEN) == whole);
    }
    /* Beginnings whose length field is right break the layout at their end. */
    for (size_t length = 5; length < file.length; length++) {
        file.bytes[4] = (uint8_t)(length - 5);
        CHECK(region_read(record, bytes_at(b, file.bytes, length), length) == REGION_BROKEN_LAYOUT);
    }
}

/* A sheet, and every beginning of it, also with the length that goes with it; the start of a name is at an edge too. */
static void names_at(uint8_t *a, uint8_t *b, struct sheet sheet)
{
    size_t *start = (size_t *)(void *)(a - sizeof *start);
    *start = 99;
    for (size_t length = 0; length < sheet.length; length++) {
        const uint8_t *bytes = bytes_at(b, sheet.bytes, length);
        CHECK(region_name(bytes, length, start, REGION_KIND_REGION, 0) == -REGION_BROKEN_SHEET && *start == 99);
    }
    for (size_t length = FRONT; length <= sheet.length; length++) {
        set_length(&sheet, (uint32_t)(length - FRONT));
        const uint8_t *bytes = bytes_at(b, sheet.bytes, length);
        struct found plain = plain_lookup(bytes, length, REGION_KIND_REGION, 0);
        CHECK(region_name(bytes, length, start, REGION_KIND_REGION, 0) == plain.answer);
        CHECK(*start == (plain.answer > 0 ? plain.start : 99));
    }
}

void test_edges(void)
{
    uint8_t *a = edge();
    uint8_t *b = edge();
    uint8_t *c = edge();
    changes_at(a, b);
    packages_at_edges(a);
    queries_at(a, b, c);
    resolves_at_edges();
    longest_route_at(a, c);
    longest_image_at(a, b, c);
    archives_at(a, b, load("g.archive"));
    archives_at(a, b, load("plates.archive"));
    archives_at(a, b, load("g-version-3.archive"));
    archives_at(a, b, load("versions.archive"));
    names_at(a, b, deck_sheet());
    names_at(a, b, small_sheet());
    release(a);
    release(b);
    release(c);
}
