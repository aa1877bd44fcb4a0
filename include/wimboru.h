/*
 * The region graph for a host in C: regions, bundles, filtered connections, routes, hooks, archives and name sheets. For C++
 * there is also wimboru.hpp, which stands on this header.
 *
 * The graph
 *   A region is a number below REGION_REGIONS. A bundle has a location, which is its number; it stands in one region, exports
 *   packages and publishes services. A connection leads from one region to another: the first imports from the second what the
 *   connection's filter passes. A bundle sees what its own region holds, and what routes over connections bring there: on a route
 *   for an item each connection's filter passes the item, and the last region holds it.
 *
 * The record
 *   A host lends a record (region_graph) to each call. A record starts with region_empty, whatever its memory held before; no
 *   other call may be given a record that did not. From then on only the calls below write it. It has no pointers and no padding:
 *   a copy of a record is a record of its own, and two records hold the same graph exactly where memcmp of their bytes gives 0.
 *   Each graph has one image (region_write): two graphs are the same exactly where their images are.
 *
 * Lists and buffers
 *   A list or a buffer is a pointer and the count of its elements. Where the count is 0 the pointer may be NULL. The pointer of a
 *   record, of a struct, and of a single number that is written, may not. Input lists are only read, and may overlap one another.
 *   What is written may overlap nothing else: no input list, no record and no other output. So to shrink a list in place, a host
 *   hands a copy of it to the find, the event or the resolve, and the list as its output. A record that is changed may overlap no
 *   input list.
 *
 * Packages
 *   A package is a number with a version of 16 bits, and two are the same where both are. A package entry of a filter is a number
 *   with a lowest and a highest version, both included. The parts of a package, an entry or a candidate stand at equal places of
 *   lists of their own. The highest version is 65535 (REGION_HIGHEST_VERSION). C cuts a larger argument to its lowest 16 bits,
 *   silently: 65536 is then version 0.
 *
 * Answers
 *   A changing call returns 0, or the number of a refusal (REGION_NOT_A_REGION and on). A query returns what it is asked for, 0
 *   or more, or minus the number of a refusal; region_route also -101 where the item is hidden, which is no refusal.
 *   region_refused and region_is_hidden tell these apart. region_archive_query returns 100, 101 or the number of a refusal. A
 *   call puts questions in the order in which its comment lists their numbers, each of all that it is about, both regions, every
 *   list or every listener, before the next. The first that is answered no refuses the call. A refused call changes no byte of a
 *   buffer, of a struct or of a number, and the record holds the graph that it held. region_refusal_text has a sentence for each
 *   number.
 *
 * Threads and signals
 *   Calls keep nothing outside the record and the buffers, allocate no memory and make no system call. While a call changes a
 *   record, no other thread may use that record. Any number of threads may query a record that nobody changes. A signal handler
 *   may make any call on a record and buffers that the code it interrupts does not use; a call that is interrupted goes on
 *   afterwards.
 *
 * Stack
 *   A thread needs stack for the calls that it makes: REGION_STACK_QUERY, REGION_STACK_CHANGE or REGION_STACK_ARCHIVE bytes, as
 *   the section of the call says, beside what the host itself needs; a signal handler that makes calls on the same stack needs
 *   its bytes beside those of the call that it interrupts. Some 4 KiB of each figure are for the dynamic loader, which may look
 *   up memcpy in the first call.
 *
 * Versions
 *   WIMBORU_VERSION is raised whenever a host must be compiled anew. A host that was compiled with the header of another version
 *   does not link: the library's names of region_empty and of calls whose arguments changed end in a version. A single file of a
 *   host that makes none of these calls does link; all files of a host are to be compiled with one header. Where the library is
 *   loaded at run time, region_library_matches tells. An archive that a version of the library accepted is accepted by every later
 *   one, and means the same graph.
 */
#ifndef WIMBORU_H
#define WIMBORU_H

#ifdef __cplusplus
#if __cplusplus < 201103L
#error "wimboru.h needs C++11 or later: compile with -std=c++11 or a later one"
#endif
#elif !defined(__STDC_VERSION__) || __STDC_VERSION__ < 201112L
#error "wimboru.h needs C11 or later: compile with -std=c11 or a later one"
#endif

#include <assert.h>
#include <stdbool.h>
#include <stddef.h>
#include <stdint.h>
#ifndef __cplusplus
#include <stdalign.h>
#endif

/* An answer that may be a refusal must not be left unread; no call throws. */
#if defined(__cplusplus) && __cplusplus >= 201703L
#define REGION_ANSWER [[nodiscard]]
#elif defined(__GNUC__)
#define REGION_ANSWER __attribute__((warn_unused_result))
#else
#define REGION_ANSWER
#endif
#ifdef __cplusplus
#define REGION_NOEXCEPT noexcept
#else
#define REGION_NOEXCEPT
#endif

#ifdef __cplusplus
extern "C" {
#endif

/* The version of this interface: of the record, of the calls' arguments, of the lengths of buffers and of the figures for the
   stack. */
#define WIMBORU_VERSION 5

/* refusals: begin (made from tools/refusals.txt by tools/words) */
/* Why a call is refused: the question that was answered no has the number. A changing call returns it, a query returns it below
   zero, as in -REGION_NOT_INSTALLED. */
enum {
    REGION_NOT_REFUSED = 0,
    REGION_NOT_A_REGION = 1,      /* a region number is above 63 */
    REGION_USED = 2,              /* the region is in the graph already */
    REGION_NO_SUCH_REGION = 3,    /* a region is not in the graph */
    REGION_ENDS_EQUAL = 4,        /* both ends of the connection are the same region */
    REGION_CONNECTED = 5,         /* there is a connection between these regions, in this direction, already */
    REGION_NOT_CONNECTED = 6,     /* there is no connection between these regions, in this direction */
    REGION_LIST_TOO_LONG = 7,     /* a list has more elements than its limit */
    REGION_LIST_OUT_OF_ORDER = 8, /* a list is not strictly ascending */
    REGION_INSTALLED = 9,         /* a bundle is installed at the location already, in this region or another */
    REGION_FILTERED = 10,         /* a connection leaving the region names the location in its bundle part */
    REGION_FULL = 11,             /* there are 64 bundles, or 48 connections, already */
    REGION_NOT_INSTALLED = 12,    /* the bundle, or a listener, is not installed */
    REGION_NOT_A_KIND = 13,       /* the kind is above 2 */
    REGION_NO_PLACE = 14,         /* an output buffer is too short */
    REGION_NOT_AN_ARCHIVE = 15,   /* there are fewer than 5 bytes, or the first is no version that the call admits */
    REGION_WRONG_LENGTH = 16,     /* the length field is not the count of bytes after it */
    REGION_BROKEN_LAYOUT = 17,    /* the bytes after the length are not the layout of an archive of its version, to the end */
    REGION_BROKEN_SHEET = 18,     /* the bytes are not a name sheet's layout, from the first to the last */
    REGION_NO_ENTRY = 19,         /* the sheet has no entry of the kind and number */
    REGION_RANGE_REVERSED = 20,   /* the lowest version of a package entry is above its highest */
    REGION_HAS_VERSIONS = 21,     /* a package has a version other than 0, or a package entry does not run from 0 to 65535 */
};

/* The sentence of each of these numbers, in constant memory. */
static inline const char *region_refusal_text(uint32_t number) REGION_NOEXCEPT
{
    static const char *const sentences[] = {
        "not refused",
        "a region number is above 63",
        "the region is in the graph already",
        "a region is not in the graph",
        "both ends of the connection are the same region",
        "there is a connection between these regions, in this direction, already",
        "there is no connection between these regions, in this direction",
        "a list has more elements than its limit",
        "a list is not strictly ascending",
        "a bundle is installed at the location already, in this region or another",
        "a connection leaving the region names the location in its bundle part",
        "there are 64 bundles, or 48 connections, already",
        "the bundle, or a listener, is not installed",
        "the kind is above 2",
        "an output buffer is too short",
        "there are fewer than 5 bytes, or the first is no version that the call admits",
        "the length field is not the count of bytes after it",
        "the bytes after the length are not the layout of an archive of its version, to the end",
        "the bytes are not a name sheet's layout, from the first to the last",
        "the sheet has no entry of the kind and number",
        "the lowest version of a package entry is above its highest",
        "a package has a version other than 0, or a package entry does not run from 0 to 65535",
    };
    return number < sizeof sentences / sizeof sentences[0] ? sentences[number] : "no number of a refusal";
}
/* refusals: end */

/* What an item may be: region_archive_query gives these as they are, region_route gives -REGION_HIDDEN. */
enum {
    REGION_SEEN = 100,
    REGION_HIDDEN = 101,
};

/* Of a query's answer: the number of the refusal, or 0 where it is none. */
static inline uint32_t region_refused(int64_t answer) REGION_NOEXCEPT
{
    return answer < 0 && answer != -REGION_HIDDEN ? (uint32_t)-answer : (uint32_t)REGION_NOT_REFUSED;
}

/* Of the answer of region_route: whether the item is hidden. */
static inline bool region_is_hidden(int64_t answer) REGION_NOEXCEPT
{
    return answer == -REGION_HIDDEN;
}

/* The kinds of items. */
enum {
    REGION_KIND_BUNDLE = 0,
    REGION_KIND_PACKAGE = 1,
    REGION_KIND_SERVICE = 2,
    REGION_KIND_REGION = 3, /* in a name sheet alone: a route and an archive query refuse it with 13 */
};

/* The limits. */
enum {
    REGION_REGIONS = 64, /* region numbers are below this */
    REGION_MOST_BUNDLES = 64,
    REGION_MOST_CONNECTIONS = 48,
    REGION_MOST_PROVIDED = 8,       /* packages, and services, of one bundle */
    REGION_MOST_LISTED = 16,        /* numbers, or package entries, in one part of a filter */
    REGION_HIGHEST_VERSION = 65535, /* of a package; the lowest is 0 */
    REGION_EVERYTHING = 255,        /* the count of a part that passes everything, in a struct that is read and in an archive */
    REGION_ROUTE_BYTES = 64,        /* the buffer that a route needs, however short the route is */
    REGION_LONGEST_IMAGE = 18392,   /* bytes; a buffer of this length takes the image of any graph */
    REGION_LONGEST_NAME = 40,       /* bytes of a name, which has at least 1 */
    REGION_STACK_QUERY = 49152,     /* the stack that is enough for any query */
    REGION_STACK_CHANGE = 16384,    /* for any changing call but region_read, and for region_name */
    REGION_STACK_ARCHIVE = 114688,  /* for region_read and the calls on an archive */
    REGION_STACK_BYTES = 114688,    /* for any call */
};

/*
 * What a record holds, as region_bundle_at and region_connection_at write it. The first `count` places of the arrays are used,
 * and the others are 0.
 */

/* The bundle part of a filter, or its service part. A service part that passes everything has the count REGION_EVERYTHING. */
struct region_numbers {
    size_t count;
    uint32_t items[REGION_MOST_LISTED];
};

struct region_provided {
    size_t count;
    uint32_t items[REGION_MOST_PROVIDED];
};

struct region_packages {
    size_t count;
    uint32_t numbers[REGION_MOST_PROVIDED];
    uint16_t versions[REGION_MOST_PROVIDED];
};

/* The package part of a filter. One that passes everything has the count REGION_EVERYTHING. */
struct region_package_entries {
    size_t count;
    uint32_t numbers[REGION_MOST_LISTED];
    uint16_t lowest[REGION_MOST_LISTED];
    uint16_t highest[REGION_MOST_LISTED];
};

typedef struct region_bundle {
    uint32_t location;
    uint32_t region;
    struct region_packages packages;
    struct region_provided services;
} region_bundle;

/* The region source imports from the region target what the three parts pass. */
typedef struct region_connection {
    uint32_t source;
    uint32_t target;
    struct region_numbers bundles;
    struct region_package_entries packages;
    struct region_numbers services;
} region_connection;

/* The record. Its members are here for its size and alignment: a host reads them by the calls below, and does not write them. */
typedef struct region_graph {
    uint64_t regions;
    size_t bundle_count;
    region_bundle bundles[REGION_MOST_BUNDLES];
    size_t connection_count;
    region_connection connections[REGION_MOST_CONNECTIONS];
} region_graph;

static_assert(sizeof(size_t) == 8, "the calls take lengths of 8 bytes");
static_assert(sizeof(region_bundle) == 104, "the size of a bundle");
static_assert(sizeof(region_connection) == 288, "the size of a connection");
static_assert(sizeof(region_graph) == 20504, "the size of the record");
static_assert(alignof(region_graph) == 8, "the alignment of the record");

/*
 * Lists that a host lends to a call, as structs: pointers into the host's memory, and counts. A struct whose bytes are all 0, as
 * {0} makes it in C and {} in C++, has empty lists.
 */

/* What a bundle provides. Packages ascend strictly by number, then version, and services by number. */
typedef struct region_provides {
    const uint32_t *packages;
    const uint16_t *versions; /* as many as packages */
    size_t package_count;
    const uint32_t *services;
    size_t service_count;
} region_provides;

/* What a part of a filter passes: what its lists have, or everything. Every number but 1 stands for the lists. */
enum region_pass
#ifdef __cplusplus
    : uint32_t
#endif
{
    REGION_PASS_LISTED = 0,
    REGION_PASS_ALL = 1,
};

/* What a connection passes: the bundles at the locations listed, the packages that an entry passes, and the services listed; or
   all packages, or all services. An entry passes the packages of its number from its lowest to its highest version. Each list has
   strictly ascending numbers: there is one entry for a number. Where a part passes all, its lists are not looked at. */
typedef struct region_filter {
    const uint32_t *bundles;
    size_t bundle_count;
    enum region_pass pass_packages;
    const uint32_t *packages;
    const uint16_t *lowest;  /* as many as packages */
    const uint16_t *highest; /* as many as packages */
    size_t package_count;
    enum region_pass pass_services;
    const uint32_t *services;
    size_t service_count;
} region_filter;

/* Candidates of region_resolve, each an exporter, the location of a bundle, with a package. All lists have count elements. */
typedef struct region_candidates {
    const uint32_t *exporters;
    const uint32_t *packages;
    const uint16_t *versions;
    size_t count;
} region_candidates;

/* The lists to which region_resolve writes candidates. Each has count places. */
typedef struct region_offers {
    uint32_t *exporters;
    uint32_t *packages;
    uint16_t *versions;
    size_t count;
} region_offers;

/* What a bundle that was read provides, and what a connection that was read passes: lists in the struct's own memory. */
static inline region_provides region_provides_of(const region_bundle *bundle) REGION_NOEXCEPT
{
    region_provides provides;
    provides.packages = bundle->packages.numbers;
    provides.versions = bundle->packages.versions;
    provides.package_count = bundle->packages.count;
    provides.services = bundle->services.items;
    provides.service_count = bundle->services.count;
    return provides;
}

static inline region_filter region_filter_of(const region_connection *connection) REGION_NOEXCEPT
{
    region_filter filter;
    filter.bundles = connection->bundles.items;
    filter.bundle_count = connection->bundles.count;
    const bool all_packages = connection->packages.count == REGION_EVERYTHING;
    const bool all_services = connection->services.count == REGION_EVERYTHING;
    filter.pass_packages = all_packages ? REGION_PASS_ALL : REGION_PASS_LISTED;
    filter.packages = connection->packages.numbers;
    filter.lowest = connection->packages.lowest;
    filter.highest = connection->packages.highest;
    filter.package_count = all_packages ? 0 : connection->packages.count;
    filter.pass_services = all_services ? REGION_PASS_ALL : REGION_PASS_LISTED;
    filter.services = connection->services.items;
    filter.service_count = all_services ? 0 : connection->services.count;
    return filter;
}

/* The declarations are laid out by hand: a list and its count stand in one line. */
/* clang-format off */

/*
 * The library's names of calls that are made by the inline functions below. A host in C makes those instead; bindings of other
 * languages may need these. Here every list has its own count. Where the parts of packages, entries or candidates have different
 * counts, the shortest list counts them, and what the others have behind it is not looked at. A pass is 1 for everything, and
 * every other number is for the list.
 */
void region_empty_v5(region_graph *graph) REGION_NOEXCEPT;
REGION_ANSWER uint32_t region_install_v4(region_graph *graph, uint32_t region, uint32_t location,
                                         const uint32_t *packages, size_t package_count,
                                         const uint16_t *versions, size_t version_count,
                                         const uint32_t *services, size_t service_count) REGION_NOEXCEPT;
REGION_ANSWER uint32_t region_connect_v5(region_graph *graph, uint32_t importing, uint32_t imported,
                                         const uint32_t *bundles, size_t bundle_count,
                                         uint32_t pass_packages, const uint32_t *packages, size_t package_count,
                                         const uint16_t *lowest, size_t lowest_count,
                                         const uint16_t *highest, size_t highest_count,
                                         uint32_t pass_services, const uint32_t *services, size_t service_count) REGION_NOEXCEPT;
REGION_ANSWER int64_t region_route_v4(const region_graph *graph, uint8_t *out, size_t out_length,
                                      uint32_t location, uint32_t kind, uint32_t item, uint16_t version) REGION_NOEXCEPT;
REGION_ANSWER int64_t region_resolve_v4(const region_graph *graph, uint32_t *out_exporters, size_t out_exporter_count,
                                        uint32_t *out_packages, size_t out_package_count,
                                        uint16_t *out_versions, size_t out_version_count, uint32_t location,
                                        const uint32_t *exporters, size_t exporter_count,
                                        const uint32_t *packages, size_t package_count,
                                        const uint16_t *versions, size_t version_count) REGION_NOEXCEPT;

/*
 * The library's version, and the bytes of its record (they need next to no stack).
 */
REGION_ANSWER uint32_t region_interface_version(void) REGION_NOEXCEPT;
REGION_ANSWER size_t region_record_size(void) REGION_NOEXCEPT;

/* Whether the library has the interface of this header. A host that loads the library at run time asks before any other call: a
   record of another size would be read and written outside its memory. */
REGION_ANSWER static inline bool region_library_matches(void) REGION_NOEXCEPT
{
    return region_interface_version() == WIMBORU_VERSION && region_record_size() == sizeof(region_graph);
}

/*
 * Calls that change the record (REGION_STACK_CHANGE; region_read REGION_STACK_ARCHIVE). Each returns 0 where it is accepted, else
 * the number of the question that was answered no; the record then holds the graph that it held.
 */

/* Makes the record the graph with nothing in it. The record's memory may hold anything before. */
static inline void region_empty(region_graph *graph) REGION_NOEXCEPT
{
    region_empty_v5(graph);
}

/* Adds a region. Refused with 1, 2. */
REGION_ANSWER uint32_t region_add(region_graph *graph, uint32_t region) REGION_NOEXCEPT;

/* Removes a region, with its bundles and every connection from or to it. Refused with 1, 3. */
REGION_ANSWER uint32_t region_remove(region_graph *graph, uint32_t region) REGION_NOEXCEPT;

/* Installs a bundle in a region. It provides at most 8 packages and at most 8 services. Refused with 1, 3; with 7 and 8 for a
   list of provides; with 9; with 10 where a connection by which the region imports names the location in its filter's bundles;
   with 11. */
REGION_ANSWER static inline uint32_t region_install(region_graph *graph, uint32_t region, uint32_t location,
                                                    const region_provides *provides) REGION_NOEXCEPT
{
    return region_install_v4(graph, region, location, provides->packages, provides->package_count,
                             provides->versions, provides->package_count, provides->services, provides->service_count);
}

/* Uninstalls the bundle at a location. Filters that name it do not change: where one of a connection by which its own region
   imports does, the bundle cannot be installed there again (10) until that connection is gone. Refused with 12. */
REGION_ANSWER uint32_t region_uninstall(region_graph *graph, uint32_t location) REGION_NOEXCEPT;

/* Connects two regions: the region importing imports from the region imported what the filter passes. Packages and services move
   from imported to importing; as a region_connection, importing is its source. A list has at most 16 elements. The filter may
   name bundles that are not installed, and bundles of importing itself: such a bundle stays where it is, but once it is
   uninstalled it cannot be installed in importing again (10). Refused with 1, 3, 4, 5; with 7 and 8 for a list of the filter, and
   20 for an entry; with 11. */
REGION_ANSWER static inline uint32_t region_connect(region_graph *graph, uint32_t importing, uint32_t imported,
                                                    const region_filter *filter) REGION_NOEXCEPT
{
    return region_connect_v5(graph, importing, imported, filter->bundles, filter->bundle_count,
                             (uint32_t)filter->pass_packages, filter->packages, filter->package_count,
                             filter->lowest, filter->package_count, filter->highest, filter->package_count,
                             (uint32_t)filter->pass_services, filter->services, filter->service_count);
}

/* Removes the connection by which importing imports from imported. Refused with 1, 3, 4, 6. */
REGION_ANSWER uint32_t region_disconnect(region_graph *graph, uint32_t importing, uint32_t imported) REGION_NOEXCEPT;

/* Makes the record the graph of an archive, of version 1, 2 or 3. In a file of version 1 or 2 every package has version 0, and
   every package entry runs from 0 to 65535; version 1 with a region number above 15 is refused with 17, and so is version 2
   without one. Refused with 15, 16, 17; the record then holds the graph that it held. */
REGION_ANSWER uint32_t region_read(region_graph *graph, const uint8_t *bytes, size_t length) REGION_NOEXCEPT;

/*
 * What a record holds (REGION_STACK_QUERY).
 */

/* The regions: bit r of the number, from the lowest on, is 1 exactly where region r is in the graph. */
REGION_ANSWER uint64_t region_set(const region_graph *graph) REGION_NOEXCEPT;

/* How many bundles, and how many connections, there are. */
REGION_ANSWER size_t region_bundle_count(const region_graph *graph) REGION_NOEXCEPT;
REGION_ANSWER size_t region_connection_count(const region_graph *graph) REGION_NOEXCEPT;

/* The bundle and the connection of an index, from 0 on, in ascending order of location, or of source, then target. Each writes
   *out and returns 1; where the index is not below the count it returns 0, and *out keeps its value. */
REGION_ANSWER int64_t region_bundle_at(const region_graph *graph, region_bundle *out, size_t index) REGION_NOEXCEPT;
REGION_ANSWER int64_t region_connection_at(const region_graph *graph, region_connection *out, size_t index) REGION_NOEXCEPT;

/* The region in which a bundle is installed. Refused with 12 (it returns -12). */
REGION_ANSWER int64_t region_of(const region_graph *graph, uint32_t location) REGION_NOEXCEPT;

/* How many bytes region_write writes. */
REGION_ANSWER size_t region_image_length(const region_graph *graph) REGION_NOEXCEPT;

/*
 * Queries (REGION_STACK_QUERY). Each returns a count, 0 or more, or minus the number of the question that was answered no. What it
 * writes stands at the start of the output buffers, which come right after the record; later places keep their values. Where the
 * answer is below zero every place keeps its value.
 */

/* Writes the image of the graph, an archive of version 3, and returns its length. Refused with 14 where the buffer is shorter
   than the image. */
REGION_ANSWER int64_t region_write(const region_graph *graph, uint8_t *out, size_t out_length) REGION_NOEXCEPT;

/* Writes the route by which the bundle at a location sees an item, and returns the route's count of connections. The buffer then
   starts with the regions of the route, one byte each, which are one more than the count: where a bundle in region 0 sees a
   package by a connection from 0 to 1 and one from 1 to 2, the answer is 2, and the bytes are 0, 1, 2; for an item of its own
   region the answer is 0, and the byte is 0. The route is the one with fewest connections; among those, the one whose region
   number is smaller where two first differ. The version is that of a package, and is not looked at for the other kinds. Returns
   -101 (-REGION_HIDDEN) where there is no route. Refused with 12, 13, 14; 14 where the buffer has fewer than 64 bytes. */
REGION_ANSWER static inline int64_t region_route(const region_graph *graph, uint8_t *out, size_t out_length,
                                                 uint32_t location, uint32_t kind, uint32_t item, uint16_t version) REGION_NOEXCEPT
{
    return region_route_v4(graph, out, out_length, location, kind, item, version);
}

/* Finds: write the candidates that the bundle at a location sees, in the order given, repetitions kept, and return how many. A
   candidate that nobody holds is not seen. Refused with 12, 14; 14 where the buffer has fewer places than there are candidates.
   The candidates are locations of bundles, or services. */
REGION_ANSWER int64_t region_bundle_find(const region_graph *graph, uint32_t *out, size_t out_count,
                                         uint32_t location, const uint32_t *candidates, size_t candidate_count) REGION_NOEXCEPT;
REGION_ANSWER int64_t region_service_find(const region_graph *graph, uint32_t *out, size_t out_count,
                                          uint32_t location, const uint32_t *candidates, size_t candidate_count) REGION_NOEXCEPT;

/* Resolve: writes, in the order given, repetitions kept, the candidates whose exporter is installed and exports the package
   itself, where a route for the package leads from the region of the bundle at the location to the exporter's; returns how many.
   Other exporters of the package may stand on the way, and the bundle need not see the exporter as a bundle. Which packages a
   bundle sees is asked by candidates of all bundles and their packages (region_bundle_at). Refused with 12, 14; 14 where out has
   fewer places than there are candidates, and then no list is written. */
REGION_ANSWER static inline int64_t region_resolve(const region_graph *graph, const region_offers *out, uint32_t location,
                                                   const region_candidates *candidates) REGION_NOEXCEPT
{
    return region_resolve_v4(graph, out->exporters, out->count, out->packages, out->count, out->versions, out->count, location,
                             candidates->exporters, candidates->count, candidates->packages, candidates->count,
                             candidates->versions, candidates->count);
}

/* Events: write the listeners (locations of bundles) that see a bundle or a service, in the order given, repetitions kept, and
   return how many. An item that nobody holds reaches no listener. Refused with 12 where one of the listeners is not installed,
   which region_of tells before, with 14 where the buffer has fewer places than there are listeners. Who is to hear that a bundle
   is uninstalled is asked before region_uninstall. */
REGION_ANSWER int64_t region_bundle_event(const region_graph *graph, uint32_t *out, size_t out_count,
                                          const uint32_t *listeners, size_t listener_count, uint32_t bundle) REGION_NOEXCEPT;
REGION_ANSWER int64_t region_service_event(const region_graph *graph, uint32_t *out, size_t out_count,
                                           const uint32_t *listeners, size_t listener_count, uint32_t service) REGION_NOEXCEPT;

/*
 * Calls on an archive (REGION_STACK_ARCHIVE); no record is needed.
 */

/* Whether the bundle at a location sees an item in the graph of an archive. The version is that of a package, and is not looked
   at for the other kinds. Returns 100 (REGION_SEEN), 101 (REGION_HIDDEN), or the number of the question that was answered no: 15,
   16, 17, 12, 13, in this order. */
REGION_ANSWER uint32_t region_archive_query(const uint8_t *bytes, size_t length,
                                            uint32_t location, uint32_t kind, uint32_t item, uint16_t version) REGION_NOEXCEPT;

/* Conversions: each writes an archive that means the same graph at the start of the buffer out, and returns its length, or minus
   the number of the question that was answered no; later bytes, and where it is refused all, keep their values. A buffer of
   REGION_LONGEST_IMAGE bytes takes any archive. Each gives back the bytes that the other one was given.
   region_archive_forward admits versions 1 and 2, and makes version 3: packages get version 0, package entries run from 0 to
   65535. Refused with 15, 16, 17, 14.
   region_archive_back admits version 3, and makes version 1 where all regions are at most 15, else version 2. It is refused with
   21 where a package has a version other than 0, or a package entry does not run from 0 to 65535; a package part that is
   everything has no entries. Refused with 15, 16, 17, 21, 14. */
REGION_ANSWER int64_t region_archive_forward(const uint8_t *bytes, size_t length, uint8_t *out, size_t out_length) REGION_NOEXCEPT;
REGION_ANSWER int64_t region_archive_back(const uint8_t *bytes, size_t length, uint8_t *out, size_t out_length) REGION_NOEXCEPT;

/* Finds the name of a kind and number in a name sheet (REGION_STACK_CHANGE); no record is needed. Returns the name's length, 1 to
   40, and writes to start the place of its first byte: the name is the bytes from sheet + *start on, in the host's own memory.
   They are hex 20 to 7E. They are no string of C: what follows them need not be a zero byte. Refused with 18, 19 (it returns -18,
   -19); *start then keeps its value. The whole sheet is judged, also behind the entry. A sheet of no bytes, which may be NULL, is
   refused with 18. A kind above 3 has no entry. */
REGION_ANSWER int64_t region_name(const uint8_t *sheet, size_t sheet_length, size_t *start,
                                  uint32_t kind, uint32_t number) REGION_NOEXCEPT;

/* clang-format on */

#ifdef __cplusplus
}
#endif

#endif
