/*
 * The stack that calls need. Each call of the header is made on a stack of its own that is filled with a pattern, and the lowest byte
 * that changed says how much of it was used. Nothing is subtracted: the frame that makes the call is counted, too.
 *
 * usage: stack FILE...    each file is taken as an archive, and as a name sheet
 *
 * Prints a line for each call, and one for each figure of the header with what a call that it is for used at most. A figure is right
 * where
 *   - it is no less than that use and SPARE (measure.c) bytes more, which are for the loader: in a host that does not look up all names
 *     at its start the loader looks up memcpy when that is first called, on the stack of the thread that calls it;
 *   - it is no more than twice that use rounded up to a multiple of STEP.
 * So a call that comes to need more is found, and so is a figure that asks for memory without need. Where all figures are right, each
 * call is made once more, on a stack that has the bytes of its figure, and HOST more for the frame that makes the call, with memory
 * behind it that faults: this finds a call that reads below all that it writes.
 *
 * The program is linked with -z now, which keeps the loader off the stacks. It is not for the sanitizers: the library would call their
 * memcpy and memset, which need some 2 KB more, and they do not fully support stacks that a program makes.
 *
 * Exit status 0 where all figures are right, and each call was both accepted and, where it can be, refused; 1 where not.
 */
#include "measure.h"

#include <stdio.h>

#define ABSENT UINT32_C(4000000000) /* a location, a package and a service that no graph has */

/* The calls on the record start. */

static void measure_held(void)
{
    const size_t indexes[] = {0, 1, 47, 48, 63, 64, SIZE_MAX};
    measure(OF_region_empty);
    measure(OF_region_set);
    measure(OF_region_bundle_count);
    measure(OF_region_connection_count);
    measure(OF_region_image_length);
    for (size_t i = 0; i < sizeof indexes / sizeof indexes[0]; i++) {
        given.index = indexes[i];
        measure(OF_region_bundle_at);
        measure(OF_region_connection_at);
    }
    for (out.length = 0; out.length <= REGION_LONGEST_IMAGE; out.length += REGION_LONGEST_IMAGE / 8) {
        measure(OF_region_write);
    }
}

/* Lists that are as long as a call takes, and one longer; the others are out of order, or have a range that is reversed. */
static const uint32_t ascending[] = {1, 2, 3, 4, 5, 6, 7, 8, 9, 10, 11, 12, 13, 14, 15, 16, 17};
static const uint32_t descending[] = {3, 2, 1};
static const uint16_t zeros[REGION_MOST_LISTED + 1];
static const uint16_t tops[] = {65535, 65535, 65535, 65535, 65535, 65535, 65535, 65535, 65535,
                                65535, 65535, 65535, 65535, 65535, 65535, 65535, 65535};

static void measure_installs(void)
{
    const region_provides tried[] = {
        {0},
        {ascending, zeros, REGION_MOST_PROVIDED, ascending, REGION_MOST_PROVIDED},
        {ascending, zeros, REGION_MOST_PROVIDED + 1, ascending, REGION_MOST_PROVIDED},
        {ascending, zeros, REGION_MOST_PROVIDED, ascending, REGION_MOST_PROVIDED + 1},
        {descending, zeros, 3, ascending, 3},
        {ascending, zeros, 3, descending, 3},
    };
    const uint32_t tried_locations[] = {10, 16, 1000, 1031, 1063, ABSENT};
    for (size_t i = 0; i < sizeof tried_locations / sizeof tried_locations[0]; i++) {
        given.location = tried_locations[i];
        measure(OF_region_uninstall);
        for (size_t j = 0; j < sizeof tried / sizeof tried[0]; j++) {
            given.provides = tried[j];
            measure(OF_region_install);
        }
    }
}

static void measure_connects(void)
{
    const enum region_pass listed = REGION_PASS_LISTED;
    const enum region_pass all = REGION_PASS_ALL;
    const size_t most = REGION_MOST_LISTED;
    const region_filter tried[] = {
        {0},
        {ascending, most, listed, ascending, zeros, tops, most, listed, ascending, most},
        {ascending, most, all, NULL, NULL, NULL, 0, all, NULL, 0},
        {ascending, most + 1, listed, ascending, zeros, tops, most, listed, ascending, most},
        {ascending, most, listed, ascending, zeros, tops, most + 1, listed, ascending, most},
        {ascending, most, listed, ascending, zeros, tops, most, listed, ascending, most + 1},
        {descending, 3, listed, NULL, NULL, NULL, 0, listed, NULL, 0},
        {NULL, 0, listed, descending, zeros, tops, 3, listed, NULL, 0},
        {NULL, 0, listed, NULL, NULL, NULL, 0, listed, descending, 3},
        {NULL, 0, listed, ascending, tops, zeros, most, listed, NULL, 0},
    };
    for (size_t i = 0; i < sizeof tried / sizeof tried[0]; i++) {
        given.filter = tried[i];
        measure(OF_region_connect);
    }
}

static void measure_changes(void)
{
    const uint32_t regions[] = {0, 1, 2, 30, 47, 63, 64, UINT32_MAX};
    const size_t count = sizeof regions / sizeof regions[0];
    for (size_t i = 0; i < count; i++) {
        given.region = regions[i];
        measure(OF_region_add);
        measure(OF_region_remove);
        measure_installs();
        for (size_t j = 0; j < count; j++) {
            given.other = regions[j];
            measure(OF_region_disconnect);
            measure_connects();
        }
    }
}

/* Makes the lists what the bundles of the record are and provide, over and over; each fifth package and service nobody has. */
static void list_provided(void)
{
    const size_t bundles = region_bundle_count(&given.start);
    for (size_t i = 0; i < MOST; i++) {
        region_bundle bundle = {0};
        const bool there = region_bundle_at(&given.start, &bundle, bundles == 0 ? 0 : i % bundles) == 1;
        const size_t place = i % REGION_MOST_PROVIDED;
        given.locations[i] = there ? bundle.location : ABSENT;
        given.packages[i] = i % 5 == 4 ? ABSENT : bundle.packages.numbers[place];
        given.versions[i] = bundle.packages.versions[place];
        given.services[i] = i % 5 == 4 ? ABSENT : bundle.services.items[place];
    }
}

/* The hooks, with a place for each element of their lists, and with one place less. */
static void measure_hooks(void)
{
    const size_t counts[] = {0, 1, 3, 4, 1000, MOST};
    for (size_t i = 0; i < sizeof counts / sizeof counts[0]; i++) {
        given.count = counts[i];
        for (size_t lacking = 0; lacking <= 1 && lacking <= given.count; lacking++) {
            out.places = given.count - lacking;
            measure(OF_region_bundle_find);
            measure(OF_region_service_find);
            measure(OF_region_resolve);
            measure(OF_region_bundle_event);
            measure(OF_region_service_event);
        }
    }
}

static void measure_routes(void)
{
    for (given.kind = REGION_KIND_BUNDLE; given.kind <= REGION_KIND_REGION; given.kind++) {
        out.length = REGION_ROUTE_BYTES;
        measure(OF_region_route);
        out.length = REGION_ROUTE_BYTES - 1;
        measure(OF_region_route);
    }
}

/* Queries of the first bundle, of some others and of none: they ask for, and hear of, what the last bundle is and provides. */
static void measure_queries(void)
{
    const size_t bundles = region_bundle_count(&given.start);
    const size_t askers[] = {0, 1, bundles / 2, bundles};
    for (size_t i = 0; i < sizeof askers / sizeof askers[0]; i++) {
        region_bundle asker = {0};
        region_bundle last = {0};
        const bool there =
            region_bundle_at(&given.start, &asker, askers[i]) == 1 && region_bundle_at(&given.start, &last, bundles - 1) == 1;
        list_provided();
        given.location = there ? asker.location : ABSENT;
        given.locations[0] = given.location;
        given.version = last.packages.versions[0];
        measure(OF_region_of);
        const uint32_t items[] = {last.location, last.packages.numbers[0], last.services.items[0], ABSENT};
        for (size_t j = 0; j < sizeof items / sizeof items[0]; j++) {
            given.item = items[j];
            measure_routes();
        }
        given.item = i % 2 == 0 ? last.location : last.services.items[0];
        measure_hooks();
    }
}

static void measure_record(void)
{
    measure_held();
    measure_changes();
    measure_queries();
}

/* The calls on the bytes. */

static void measure_archive(void)
{
    const uint32_t numbers[] = {0, 1, 9, 10, 30, 1000, 1063, ABSENT};
    const size_t count = sizeof numbers / sizeof numbers[0];
    measure(OF_region_read);
    for (out.length = 0; out.length <= REGION_LONGEST_IMAGE; out.length += REGION_LONGEST_IMAGE / 8) {
        measure(OF_region_archive_forward);
        measure(OF_region_archive_back);
    }
    for (size_t i = 0; i < 4 * count * count; i++) {
        given.kind = (uint32_t)(i % 4);
        given.location = numbers[i / 4 % count];
        given.item = numbers[i / 4 / count];
        given.version = 0;
        measure(OF_region_archive_query);
        measure(OF_region_name);
    }
}

/* The bytes as they are, with another last one, and without the last one. */
static void measure_bytes(void)
{
    measure_archive();
    if (given.length > 0) {
        given.bytes[given.length - 1] ^= 0xFF;
        measure_archive();
        given.length--;
        measure_archive();
    }
}

static void measure_file(const char *path)
{
    FILE *file = fopen(path, "rb");
    if (file == NULL) {
        fail(path, "does not open");
        return;
    }
    given.length = fread(given.bytes, 1, FILE_BYTES, file);
    fclose(file);
    if (region_read(&given.start, given.bytes, given.length) == REGION_NOT_REFUSED) {
        measure_record();
    }
    measure_bytes();
}

/* The image of the record, and the older archive of its graph, where there is one. */
static void measure_image(void)
{
    int64_t length = region_write(&given.start, given.bytes, FILE_BYTES);
    given.length = length > 0 ? (size_t)length : 0;
    measure_bytes();
    length = region_write(&given.start, out.bytes, REGION_LONGEST_IMAGE);
    length = region_archive_back(out.bytes, length > 0 ? (size_t)length : 0, given.bytes, FILE_BYTES);
    given.length = length > 0 ? (size_t)length : 0;
    measure_bytes();
}

/* The graphs, each made in the record start. */

static void need(bool holds, const char *what)
{
    if (!holds) {
        fail(what, "the graph is not made");
    }
}

static void make_regions(void)
{
    region_empty(&given.start);
    for (uint32_t region = 0; region < REGION_REGIONS; region++) {
        need(region_add(&given.start, region) == REGION_NOT_REFUSED, "region_add");
    }
}

/* Regions in a row, one more than there may be connections, with a bundle in each. The first bundle sees what the last provides. */
static void make_row(void)
{
    const region_filter filter = {.pass_packages = REGION_PASS_ALL, .pass_services = REGION_PASS_ALL};
    const region_provides none = {0};
    const region_provides provides = {ascending, zeros, 1, ascending, 1};
    make_regions();
    for (uint32_t region = 0; region <= REGION_MOST_CONNECTIONS; region++) {
        const region_provides *its = region == REGION_MOST_CONNECTIONS ? &provides : &none;
        need(region_install(&given.start, region, 1000 + region, its) == REGION_NOT_REFUSED, "region_install");
    }
    for (uint32_t region = 0; region < REGION_MOST_CONNECTIONS; region++) {
        need(region_connect(&given.start, region, region + 1, &filter) == REGION_NOT_REFUSED, "region_connect");
    }
}

/* Seven regions, each connected with each other one: 42 connections, which pass everything. */
static void make_mesh(void)
{
    const region_filter filter = {.pass_packages = REGION_PASS_ALL, .pass_services = REGION_PASS_ALL};
    const region_provides provides = {ascending, zeros, 8, ascending, 8};
    make_regions();
    for (uint32_t i = 0; i < 49; i++) {
        if (i / 7 == i % 7) {
            need(region_install(&given.start, i / 7, 1000 + i, &provides) == REGION_NOT_REFUSED, "region_install");
        } else {
            need(region_connect(&given.start, i / 7, i % 7, &filter) == REGION_NOT_REFUSED, "region_connect");
        }
    }
}

/* As much as a record holds: every region, with a bundle in each that provides as much as it may; as many connections as there may
   be, in a row, with full lists. The first bundle sees the one at the row's end, and what it provides. Packages have the version, and
   entries run from it on: with 0 the graph has an older archive, too. */
static void make_fullest(uint16_t version)
{
    const uint32_t last = REGION_MOST_CONNECTIONS;
    uint32_t passed[REGION_MOST_LISTED];
    uint16_t lowest[REGION_MOST_LISTED];
    for (uint32_t i = 0; i < REGION_MOST_LISTED; i++) {
        passed[i] = 1000 + last + i;
        lowest[i] = version;
    }
    const region_filter filter = {
        .bundles = passed,
        .bundle_count = REGION_MOST_LISTED,
        .packages = ascending,
        .lowest = lowest,
        .highest = tops,
        .package_count = REGION_MOST_LISTED,
        .services = ascending,
        .service_count = REGION_MOST_LISTED,
    };
    make_regions();
    for (uint32_t region = 0; region < REGION_MOST_BUNDLES; region++) {
        const uint32_t *its = region < last ? ascending : ascending + 8;
        const region_provides provides = {its, lowest, REGION_MOST_PROVIDED, its, REGION_MOST_PROVIDED};
        need(region_install(&given.start, region, 1000 + region, &provides) == REGION_NOT_REFUSED, "region_install");
    }
    for (uint32_t region = 0; region < last; region++) {
        need(region_connect(&given.start, region, region + 1, &filter) == REGION_NOT_REFUSED, "region_connect");
    }
    need(region_image_length(&given.start) == REGION_LONGEST_IMAGE, "the longest image");
}

/* Every call, on every graph, and on every file. Graph G is one of the files. */
static void measure_everything(int count, char **files)
{
    void (*const makers[])(void) = {make_regions, make_row, make_mesh};
    measure(OF_region_interface_version);
    measure(OF_region_record_size);
    region_empty(&given.start);
    measure_record();
    for (size_t i = 0; i < sizeof makers / sizeof makers[0]; i++) {
        makers[i]();
        measure_record();
        measure_image();
    }
    for (uint16_t version = 0; version <= 1; version++) {
        make_fullest(version);
        measure_record();
        measure_image();
    }
    for (int i = 0; i < count; i++) {
        measure_file(files[i]);
    }
}

int main(int argc, char **argv)
{
    prepare();
    measure_everything(argc - 1, argv + 1);
    if (!report()) {
        return 1;
    }
    confine();
    measure_everything(argc - 1, argv + 1);
    puts("every call works on a stack of its figure");
    return 0;
}
