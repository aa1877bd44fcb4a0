/* Calls on stacks of their own: what they are given, and how much of the stack they use. */
#ifndef MEASURE_H
#define MEASURE_H

#include "wimboru.h"

enum {
    MOST = 4096, /* candidates, and listeners */
    FILE_BYTES = 1 << 16,
};

/* What the calls are given, and where they write. The record is a copy of start before each call. */
extern struct given {
    region_graph start;
    region_graph graph;
    uint32_t region;
    uint32_t other;
    uint32_t location;
    uint32_t kind;
    uint32_t item;
    uint16_t version;
    region_provides provides;
    region_filter filter;
    size_t index;
    size_t count; /* of candidates, or listeners */
    uint32_t locations[MOST];
    uint32_t services[MOST];
    uint32_t packages[MOST];
    uint16_t versions[MOST];
    size_t length;
    uint8_t bytes[FILE_BYTES];
} given;

extern struct out {
    size_t places; /* of the lists */
    uint32_t numbers[MOST];
    uint32_t packages[MOST];
    uint16_t versions[MOST];
    size_t length; /* of the bytes */
    uint8_t bytes[REGION_LONGEST_IMAGE];
    region_bundle bundle;
    region_connection connection;
    size_t start;
} out;

/* Each call of the header: its figure, as the comment of its section there says; which of its answers are refusals; the call, with
   what it is given. */
#define CALLS(CALL) \
    CALL(region_interface_version, ANY, NEVER, region_interface_version()) \
    CALL(region_record_size, ANY, NEVER, region_record_size()) \
    CALL(region_empty, CHANGE, NEVER, (region_empty(&given.graph), 0)) \
    CALL(region_add, CHANGE, NUMBER, region_add(&given.graph, given.region)) \
    CALL(region_remove, CHANGE, NUMBER, region_remove(&given.graph, given.region)) \
    CALL(region_install, CHANGE, NUMBER, region_install(&given.graph, given.region, given.location, &given.provides)) \
    CALL(region_uninstall, CHANGE, NUMBER, region_uninstall(&given.graph, given.location)) \
    CALL(region_connect, CHANGE, NUMBER, region_connect(&given.graph, given.region, given.other, &given.filter)) \
    CALL(region_disconnect, CHANGE, NUMBER, region_disconnect(&given.graph, given.region, given.other)) \
    CALL(region_name, CHANGE, BELOW_ZERO, region_name(given.bytes, given.length, &out.start, given.kind, given.item)) \
    CALL(region_set, QUERY, NEVER, region_set(&given.graph)) \
    CALL(region_bundle_count, QUERY, NEVER, region_bundle_count(&given.graph)) \
    CALL(region_connection_count, QUERY, NEVER, region_connection_count(&given.graph)) \
    CALL(region_bundle_at, QUERY, ZERO, region_bundle_at(&given.graph, &out.bundle, given.index)) \
    CALL(region_connection_at, QUERY, ZERO, region_connection_at(&given.graph, &out.connection, given.index)) \
    CALL(region_of, QUERY, BELOW_ZERO, region_of(&given.graph, given.location)) \
    CALL(region_image_length, QUERY, NEVER, region_image_length(&given.graph)) \
    CALL(region_write, QUERY, BELOW_ZERO, region_write(&given.graph, out.bytes, out.length)) \
    CALL(region_route, QUERY, BELOW_ZERO, \
         region_route(&given.graph, out.bytes, out.length, given.location, given.kind, given.item, given.version)) \
    CALL(region_bundle_find, QUERY, BELOW_ZERO, \
         region_bundle_find(&given.graph, out.numbers, out.places, given.location, given.locations, given.count)) \
    CALL(region_service_find, QUERY, BELOW_ZERO, \
         region_service_find(&given.graph, out.numbers, out.places, given.location, given.services, given.count)) \
    CALL(region_resolve, QUERY, BELOW_ZERO, resolve()) \
    CALL(region_bundle_event, QUERY, BELOW_ZERO, \
         region_bundle_event(&given.graph, out.numbers, out.places, given.locations, given.count, given.item)) \
    CALL(region_service_event, QUERY, BELOW_ZERO, \
         region_service_event(&given.graph, out.numbers, out.places, given.locations, given.count, given.item)) \
    CALL(region_read, ARCHIVE, NUMBER, region_read(&given.graph, given.bytes, given.length)) \
    CALL(region_archive_query, ARCHIVE, BELOW_SEEN, \
         region_archive_query(given.bytes, given.length, given.location, given.kind, given.item, given.version)) \
    CALL(region_archive_forward, ARCHIVE, BELOW_ZERO, region_archive_forward(given.bytes, given.length, out.bytes, out.length)) \
    CALL(region_archive_back, ARCHIVE, BELOW_ZERO, region_archive_back(given.bytes, given.length, out.bytes, out.length))

#define AS_NAME(name, figure, refusal, call) OF_##name,
enum call { CALLS(AS_NAME) COUNT_OF_CALLS };

/* Makes the stacks. It comes before all else. */
void prepare(void);

/* Makes a call, and notes its answer and how much stack it used. After confine it only makes the call, on a stack that has no more
   bytes than the call's figure, but for the frame that makes it. A call that touches the memory behind its stack ends the program. */
void measure(enum call call);
void confine(void);

/* Counts a failure, and says it. */
void fail(const char *name, const char *words);

/* Prints what was measured and what is wrong with it, and tells whether nothing failed. */
bool report(void);

#endif
