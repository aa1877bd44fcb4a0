/*
 * The region graph for a host in C: regions, bundles, filtered connections, routes, hooks, archives and name sheets.
 * "Document 01" and "document 02" are the papers of those names in README.md; the questions by which calls refuse are those of
 * document 01 and those that the requests of document 02 add.
 *
 * The record
 *   A host lends a record (region_graph) to each call. A record starts with region_empty, whatever its memory held before; no
 *   other call may be given a record that did not. From then on only the calls below write it. It has no pointers: a copy of a
 *   record is a record of its own.
 *
 * Lists and buffers
 *   A list or a buffer is a pointer and the count of its elements. Where the count is 0 the pointer may be NULL. The pointer of
 *   a record, and that of a single number that is written, may not. Input lists are only read, and may overlap one another. A
 *   buffer or a number that is written may overlap nothing else: no input list, no record and no other output. A record that is
 *   changed may overlap no input list. A flag is 0 or 1, as C's bool has it.
 *
 * Threads
 *   Calls keep nothing outside the record and the buffers. While a call changes a record, no other thread may use that record.
 *   Any number of threads may query a record that nobody changes.
 *
 * Packages
 *   A package is a number with a version of 16 bits, and two are the same where both are. A package entry of a filter is a number
 *   with a lowest and a highest version, both included. Numbers and versions stand at equal places of lists of their own: the
 *   shortest list counts the packages or entries, and what the others have behind them is not looked at. The highest version is
 *   65535 (REGION_HIGHEST_VERSION). C cuts a larger argument to its lowest 16 bits, silently: 65536 is then version 0.
 *
 * Stack
 *   No call allocates memory. A thread that makes calls needs REGION_STACK_BYTES of stack for them; region_read and
 *   archive_back take the most.
 *
 * Answers
 *   Questions are put in the order in which a call's comment lists their numbers. The first that is answered no refuses the call.
 *   A refused call changes no byte of a buffer and no number, and the record holds the graph that it held.
 */
#ifndef WIMBORU_H
#define WIMBORU_H

#include <assert.h>
#include <stdbool.h>
#include <stddef.h>
#include <stdint.h>
#ifndef __cplusplus
#include <stdalign.h>
#endif

#ifdef __cplusplus
extern "C" {
#endif

/* The version of this interface. It is raised whenever a host must be compiled anew: where the record, a call's arguments, or the
   length of a buffer that this header gives, changes. A call whose name ends in _v and a number has its arguments since that
   version; a host that was compiled for others does not link. */
#define WIMBORU_VERSION 4

/* What a changing call returns: 0, or the number of the question that was answered no. A query returns the same numbers below
   zero, as in -REGION_NOT_INSTALLED. */
enum {
    REGION_NOT_REFUSED = 0,
    REGION_NOT_A_REGION = 1,      /* a region number is above 63 */
    REGION_USED = 2,              /* the region is in the graph already */
    REGION_NO_SUCH_REGION = 3,    /* a region is not in the graph */
    REGION_ENDS_EQUAL = 4,        /* source and target are the same region */
    REGION_CONNECTED = 5,         /* there is a connection from source to target already */
    REGION_NOT_CONNECTED = 6,     /* there is no connection from source to target */
    REGION_LIST_TOO_LONG = 7,     /* a list has more elements than its limit */
    REGION_LIST_OUT_OF_ORDER = 8, /* a list is not strictly ascending */
    REGION_INSTALLED = 9,         /* the location is installed already, in this region or another */
    REGION_FILTERED = 10,         /* a connection that leaves the region names the location in its bundle part */
    REGION_FULL = 11,             /* there are 64 bundles, or 48 connections, already */
    REGION_NOT_INSTALLED = 12,    /* the bundle, or a listener, is not installed */
    REGION_NOT_A_KIND = 13,       /* the kind is above 2 */
    REGION_NO_PLACE = 14,         /* an output buffer is too short */
    REGION_NOT_AN_ARCHIVE = 15,   /* there are fewer than 5 bytes, or the first is no version that the call admits */
    REGION_WRONG_LENGTH = 16,     /* the length field is not the count of bytes after it */
    REGION_BROKEN_LAYOUT = 17,    /* the bytes after the length are not the layout of an archive of its version, to the end */
    REGION_BROKEN_SHEET = 18,     /* the bytes are not a name sheet's layout, from the first to the last */
    REGION_NO_ENTRY = 19,         /* the sheet has no entry of the kind and number */
    REGION_RANGE_REVERSED = 20,   /* the lowest version of a package entry is above its highest */
    REGION_HAS_VERSIONS = 21,     /* a package has a version other than 0, or a package entry does not run from 0 to 65535 */
};

/* What an item may be: archive_query_v4 gives these as they are, region_route_v4 gives -REGION_HIDDEN. */
enum {
    REGION_SEEN = 100,
    REGION_HIDDEN = 101,
};

/* The kinds of items. */
enum {
    REGION_KIND_BUNDLE = 0,
    REGION_KIND_PACKAGE = 1,
    REGION_KIND_SERVICE = 2,
    REGION_KIND_REGION = 3, /* in a name sheet alone: a route and an archive query refuse it with 13 */
};

/* The limits. */
enum {
    REGION_REGIONS = 64, /* region numbers are below this */
    REGION_MOST_BUNDLES = 64,
    REGION_MOST_CONNECTIONS = 48,
    REGION_MOST_PROVIDED = 8,       /* packages, and services, of one bundle */
    REGION_MOST_LISTED = 16,        /* numbers, or package entries, in one part of a filter */
    REGION_HIGHEST_VERSION = 65535, /* of a package; the lowest is 0 */
    REGION_EVERYTHING = 255,        /* the count of a part that is everything, in the record and in an archive */
    REGION_ROUTE_BYTES = 64,        /* the buffer that a route needs, however short the route is */
    REGION_LONGEST_IMAGE = 18392,   /* bytes; a buffer of this length takes the image of any graph */
    REGION_LONGEST_NAME = 40,       /* bytes of a name, which has at least 1 */
    REGION_STACK_BYTES = 524288,    /* the stack that is enough for any call */
};

/* The record. Its members are here for its size and alignment alone: a host neither reads nor writes them. */
struct region_numbers {
    size_t count;
    uint32_t items[REGION_MOST_LISTED];
};

struct region_provided {
    size_t count;
    uint32_t items[REGION_MOST_PROVIDED];
};

struct region_packages {
    size_t count;
    uint32_t numbers[REGION_MOST_PROVIDED];
    uint16_t versions[REGION_MOST_PROVIDED];
};

struct region_package_entries {
    size_t count;
    uint32_t numbers[REGION_MOST_LISTED];
    uint16_t lowest[REGION_MOST_LISTED];
    uint16_t highest[REGION_MOST_LISTED];
};

struct region_bundle {
    uint32_t location;
    uint32_t region;
    struct region_packages packages;
    struct region_provided services;
};

struct region_connection {
    uint32_t source;
    uint32_t target;
    struct region_numbers bundles;
    struct region_package_entries packages;
    struct region_numbers services;
};

struct region_graph {
    uint64_t regions;
    size_t bundle_count;
    struct region_bundle bundles[REGION_MOST_BUNDLES];
    size_t connection_count;
    struct region_connection connections[REGION_MOST_CONNECTIONS];
};

typedef struct region_graph region_graph;

static_assert(sizeof(size_t) == 8, "the calls take lengths of 8 bytes");
static_assert(sizeof(bool) == 1, "the calls take flags of one byte");
static_assert(sizeof(region_graph) == 20504, "the size of the record");
static_assert(alignof(region_graph) == 8, "the alignment of the record");

/* The version of the interface that the library has, and the bytes of its record. */
uint32_t region_interface_version(void);
size_t region_record_size(void);

/* Whether the library has the interface of this header. A host that may have been compiled with another header asks before any
   other call: a record of another size would be read and written outside its memory, and a buffer of REGION_ROUTE_BYTES may be too
   short for a route. */
static inline bool region_library_matches(void)
{
    return region_interface_version() == WIMBORU_VERSION && region_record_size() == sizeof(region_graph);
}

/* The declarations are laid out by hand: a list, its count and its flag stand in one line. */
/* clang-format off */

/*
 * Calls that change the record. Each returns 0 where it is accepted, else the number of the question that was answered no; the
 * record then holds the graph that it held.
 */

/* Makes the record the graph with nothing in it. The record's memory may hold anything before. */
void region_empty(region_graph *graph);

/* Adds a region. Refused with 1, 2. */
uint32_t region_add(region_graph *graph, uint32_t region);

/* Removes a region, with its bundles and every connection from or to it. Refused with 1, 3. */
uint32_t region_remove(region_graph *graph, uint32_t region);

/* Installs a bundle in a region. It provides at most 8 packages and at most 8 services. Packages ascend strictly by number, then
   version, and services by number. Refused with 1, 3, 7, 8, 9, 10, 11. */
uint32_t region_install_v4(region_graph *graph, uint32_t region, uint32_t location,
                           const uint32_t *packages, size_t package_count,
                           const uint16_t *versions, size_t version_count,
                           const uint32_t *services, size_t service_count);

/* Uninstalls the bundle at a location. Filters that name it do not change. Refused with 12. */
uint32_t region_uninstall(region_graph *graph, uint32_t location);

/* Connects source to target: source imports from target what the filter passes, which is the bundles at the locations listed,
   the packages that an entry passes and the services listed, or all packages, or all services. An entry passes the packages of its
   number from its lowest to its highest version. Each list has at most 16 elements, with strictly ascending numbers: there is one
   entry for a number. Where all_packages is true the three lists of packages are not asked about and not kept, and so with
   all_services: NULL and 0 will do. Refused with 1, 3, 4, 5, 7, 8, 20, 11. */
uint32_t region_connect_v4(region_graph *graph, uint32_t source, uint32_t target,
                           const uint32_t *bundles, size_t bundle_count,
                           bool all_packages, const uint32_t *packages, size_t package_count,
                           const uint16_t *lowest, size_t lowest_count,
                           const uint16_t *highest, size_t highest_count,
                           bool all_services, const uint32_t *services, size_t service_count);

/* Removes the connection from source to target. Refused with 1, 3, 4, 6. */
uint32_t region_disconnect(region_graph *graph, uint32_t source, uint32_t target);

/* Makes the record the graph of an archive, of version 1, 2 or 3. In a file of version 1 or 2 every package has version 0, and every
   package entry runs from 0 to 65535; version 1 with a region number above 15 is refused with 17, and so is version 2 without one.
   Refused with 15, 16, 17. */
uint32_t region_read(region_graph *graph, const uint8_t *bytes, size_t length);

/*
 * Queries. Each returns a count, 0 or more, or a number below zero: minus the number of the question that was answered no. What
 * it writes stands at the start of the output buffers, which come right after the record: three in region_resolve_v4, else one;
 * later places keep their values. Where the answer is below zero every place keeps its value.
 */

/* Writes the image of the graph, an archive of version 3, and returns its length. Each graph has one image. Refused with 14 where
   the buffer is shorter than the image. */
int64_t region_write(const region_graph *graph, uint8_t *out, size_t out_length);

/* Writes the route by which the bundle at a location sees an item, and returns the route's count of connections. The buffer then
   starts with the regions of the route, one byte each, which are one more than the count. The route is the one with fewest
   connections; among those, the one whose region number is smaller where two first differ. The version is that of a package, and
   is not looked at for the other kinds. Returns -101 (-REGION_HIDDEN) where there is no route. Refused with 12, 13, 14; 14 where
   the buffer has fewer than 64 bytes. */
int64_t region_route_v4(const region_graph *graph, uint8_t *out, size_t out_length,
                        uint32_t location, uint32_t kind, uint32_t item, uint16_t version);

/* Finds: write the candidates that the bundle at a location sees, in the order given, repetitions kept, and return how many. A
   candidate that nobody holds is not seen. Refused with 12, 14; 14 where the buffer has fewer places than there are candidates.
   The candidates are locations of bundles, or services. */
int64_t region_bundle_find(const region_graph *graph, uint32_t *out, size_t out_count,
                           uint32_t location, const uint32_t *candidates, size_t candidate_count);
int64_t region_service_find(const region_graph *graph, uint32_t *out, size_t out_count,
                            uint32_t location, const uint32_t *candidates, size_t candidate_count);

/* Resolve: a candidate is an exporter, the location of a bundle, with a package, which is a number and a version. The three parts of
   a candidate stand at equal places of three lists; the shortest list counts the candidates, and what the others have behind them
   is not looked at. Writes, in the order given, repetitions kept, the candidates whose exporter is installed and exports the
   package itself, where a route for the package leads from the region of the bundle at the location to the exporter's; returns how
   many. Other exporters of the package may stand on the way, and the bundle need not see the exporter as a bundle. The parts go to
   three output lists, at equal places. Refused with 12, 14; 14 where an output list has fewer places than there are candidates, and
   then no list is written. */
int64_t region_resolve_v4(const region_graph *graph, uint32_t *out_exporters, size_t out_exporter_count,
                          uint32_t *out_packages, size_t out_package_count,
                          uint16_t *out_versions, size_t out_version_count, uint32_t location,
                          const uint32_t *exporters, size_t exporter_count,
                          const uint32_t *packages, size_t package_count,
                          const uint16_t *versions, size_t version_count);

/* Events: write the listeners (locations of bundles) that see a bundle or a service, in the order given, repetitions kept, and
   return how many. An item that nobody holds reaches no listener. Refused with 12 where a listener is not installed, with 14
   where the buffer has fewer places than there are listeners. */
int64_t region_bundle_event(const region_graph *graph, uint32_t *out, size_t out_count,
                            const uint32_t *listeners, size_t listener_count, uint32_t bundle);
int64_t region_service_event(const region_graph *graph, uint32_t *out, size_t out_count,
                             const uint32_t *listeners, size_t listener_count, uint32_t service);

/* Whether the bundle at a location sees an item in the graph of an archive; no record is needed. The version is that of a package,
   and is not looked at for the other kinds. Returns 100 (REGION_SEEN), 101 (REGION_HIDDEN), or the number of the question that was
   answered no: 15, 16, 17, 12, 13, in this order. */
uint32_t archive_query_v4(const uint8_t *bytes, size_t length, uint32_t location, uint32_t kind, uint32_t item, uint16_t version);

/* Conversions of an archive; no record is needed. Each writes an archive that means the same graph at the start of the buffer out,
   and returns its length, or minus the number of the question that was answered no; later bytes, and where it is refused all, keep
   their values. A buffer of REGION_LONGEST_IMAGE bytes takes any archive. Each gives back the bytes that the other one was given.
   archive_forward admits versions 1 and 2, and makes version 3: packages get version 0, package entries run from 0 to 65535. Refused
   with 15, 16, 17, 14.
   archive_back admits version 3, and makes version 1 where all regions are at most 15, else version 2. It is refused with 21 where a
   package has a version other than 0, or a package entry does not run from 0 to 65535; a package part that is everything has no
   entries. Refused with 15, 16, 17, 21, 14. */
int64_t archive_forward(const uint8_t *bytes, size_t length, uint8_t *out, size_t out_length);
int64_t archive_back(const uint8_t *bytes, size_t length, uint8_t *out, size_t out_length);

/* Finds the name of a kind and number in a name sheet; no record is needed. Returns the name's length, 1 to 40, and writes to start
   the place of its first byte: the name is the bytes from sheet + *start on, in the host's own memory. They are hex 20 to 7E. They
   are no string of C: what follows them need not be a zero byte. Refused with 18, 19 (it returns -18, -19); *start then keeps its
   value. The whole sheet is judged, also behind the entry. A sheet of no bytes, which may be NULL, is refused with 18. A kind above
   3 has no entry. */
int64_t region_name(const uint8_t *sheet, size_t sheet_length, size_t *start, uint32_t kind, uint32_t number);

/* clang-format on */

#ifdef __cplusplus
}
#endif

#endif
