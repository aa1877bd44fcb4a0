/* Fuzzes the archive reader, the archive query, the conversions and the lookup of names (libFuzzer). Each input is a file, which is
   read as an archive and as a name sheet. It ends the program where

   - a refused read changes a byte of the record; an accepted one of version 3 does not write back the very bytes of the file; or
     one of an older version does not write them with the versions that it gives packages and entries, or this is not read as the
     same record;
   - the query's number is not the one that the read and the route call give together;
   - a conversion answers otherwise than the file's version, the read and the versions of the record say together; a refused one, or
     one with a byte too little room, changes the buffer; or an accepted one changes a byte behind the new file, writes a file that
     is not read as the same record, or one of which the other conversion does not make the first file;
   - a refused lookup changes the start, or a found name is not one of the sheet's, or two lookups judge one sheet otherwise;
   - anything outside a lent block is touched, or a sanitizer finds a fault on this side.

   The library has no counters of its own, so the fuzzer is guided by what is seen from outside: the number of the read, the
   last byte that the reader touched before it refused (its place and its size), and the bytes of an accepted file (the same);
   and so for the lookup. The last byte touched is found by reading the file again with its end in memory that cannot be
   touched: the readers leave at the first byte that breaks the layout (a wrong version after the regions), so an input that gets
   further, or breaks otherwise, than all before it is kept and changed further. Most changed inputs get the length that goes with
   them, and version 3 or the older one that goes with their regions, since the readers refuse the others at once; some get the
   other older version. */
#define _DEFAULT_SOURCE
#include <setjmp.h>
#include <signal.h>
#include <stdint.h>
#include <stdio.h>
#include <stdlib.h>
#include <string.h>

#include "guarded.h"
#include "wimboru.h"

enum { PLACES = 4096, SIZES = 8, FILLED_BYTE = 0xA5 };

/* What libFuzzer takes as new, by the number of the read, or of a lookup that finds nothing. */
__attribute__((section("__libfuzzer_extra_counters"))) static uint8_t counters[REGION_NO_ENTRY + 1][PLACES][SIZES];

static struct guarded archive, written, converted, returned, record_room, again_room, start_room;
static region_graph *record;
static region_graph before;

static sigjmp_buf probe;
static volatile sig_atomic_t probing;
static struct sigaction other_faults;

static void fault(int signal_number, siginfo_t *info, void *context)
{
    const unsigned char *at = info->si_addr;

    if (probing && at >= archive.past && at < archive.past + GUARDED_ROOM) {
        siglongjmp(probe, 1);
    }
    other_faults.sa_sigaction(signal_number, info, context);
}

static void require(bool held, const char *what)
{
    if (!held) {
        fprintf(stderr, "fuzz: %s\n", what);
        abort();
    }
}

/* A graph that a refused read must leave as it is. */
static void make_record(void)
{
    static const uint32_t numbers[] = {1, 2, 3};
    static const uint16_t versions[] = {7, 0, 65535};

    record = guarded_high(record_room, sizeof *record);
    region_empty(record);
    require(region_add(record, 0) == 0 && region_add(record, 63) == 0, "add");
    require(region_install_v4(record, 63, 10, numbers, 3, versions, 3, numbers, 2) == 0, "install");
    require(region_connect_v5(record, 0, 63, numbers, 3, false, numbers, 1, versions, 1, versions, 1, true, NULL, 0) == 0,
            "connect");
    memcpy(&before, record, sizeof before);
}

static void make_all(void)
{
    struct sigaction action;

    archive = guarded_make();
    written = guarded_make();
    converted = guarded_make();
    returned = guarded_make();
    record_room = guarded_make();
    again_room = guarded_make();
    start_room = guarded_make();
    make_record();
    memset(&action, 0, sizeof action);
    action.sa_sigaction = fault;
    action.sa_flags = SA_SIGINFO | SA_NODEFER;
    require(sigaction(SIGSEGV, &action, &other_faults) == 0, "sigaction");
}

typedef void reader(const uint8_t *file, size_t size);

/* What a reader that is looked at for the bytes it touches answered. */
static int64_t probed;

static void read_archive(const uint8_t *file, size_t size)
{
    static region_graph scratch;

    scratch = before;
    probed = region_read(&scratch, file, size);
}

/* No entry has the kind, so the whole sheet is read. */
static void read_sheet(const uint8_t *file, size_t size)
{
    size_t start;

    probed = region_name(file, size, &start, UINT32_MAX, 0);
}

/* Does a reader touch the byte at a place, or one after it? */
static bool touches(reader *read, const uint8_t *data, size_t size, size_t place)
{
    uint8_t *start = archive.past - place;

    memcpy(start, data, place);
    probing = 1;
    if (sigsetjmp(probe, 1) != 0) {
        probing = 0;
        return true;
    }
    read(start, size);
    probing = 0;
    return false;
}

/* How many bytes a reader touches. */
static size_t depth(reader *read, const uint8_t *data, size_t size)
{
    size_t low = 0, high = size;

    while (low < high) {
        size_t middle = low + (high - low) / 2;

        if (touches(read, data, size, middle)) {
            low = middle + 1;
        } else {
            high = middle;
        }
    }
    return low;
}

/* Bytes by the limits of lists, of the regions of each version and of bundles: how many of these are below one. */
static size_t size_of(uint8_t byte)
{
    static const uint8_t limits[SIZES - 1] = {0, 8, 15, 16, 63, 64, 254};
    size_t size = 0;

    while (size < SIZES - 1 && limits[size] < byte) {
        size++;
    }
    return size;
}

/* Counts the bytes of a whole file, or the last byte that was touched. */
static void count(reader *read, const uint8_t *data, size_t size, uint32_t number, bool whole)
{
    size_t past = whole ? size : depth(read, data, size);
    size_t from = whole || past == 0 ? 0 : past - 1;

    for (size_t i = from; i < past && i < PLACES; i++) {
        counters[number][i][size_of(data[i])] = 1;
    }
}

/* Whether the record has a package of another version than 0, or an entry that does not run from 0 to 65535. */
static bool has_versions(void)
{
    for (size_t i = 0; i < record->bundle_count; i++) {
        for (size_t k = 0; k < record->bundles[i].packages.count; k++) {
            if (record->bundles[i].packages.versions[k] != 0) {
                return true;
            }
        }
    }
    for (size_t i = 0; i < record->connection_count; i++) {
        const struct region_package_entries *part = &record->connections[i].packages;

        for (size_t k = 0; part->count != REGION_EVERYTHING && k < part->count; k++) {
            if (part->lowest[k] != 0 || part->highest[k] != REGION_HIGHEST_VERSION) {
                return true;
            }
        }
    }
    return false;
}

/* The bytes of versions in the image of the record, which an older file has not. */
static size_t version_bytes(void)
{
    size_t bytes = 0;

    for (size_t i = 0; i < record->bundle_count; i++) {
        bytes += 2 * record->bundles[i].packages.count;
    }
    for (size_t i = 0; i < record->connection_count; i++) {
        const size_t count = record->connections[i].packages.count;

        bytes += count == REGION_EVERYTHING ? 0 : 4 * count;
    }
    return bytes;
}

/* Whether an image is read as the record. */
static void check_same(const uint8_t *image, size_t length)
{
    region_graph *again = guarded_high(again_room, sizeof *again);

    memcpy(again, &before, sizeof before);
    require(region_read(again, image, length) == 0, "the image is not read");
    require(memcmp(again, record, sizeof *again) == 0, "the image is read as another record");
}

static void check_read(const uint8_t *file, size_t size, uint32_t number)
{
    uint8_t *image = guarded_high(written, REGION_LONGEST_IMAGE);
    size_t length;

    require(number <= REGION_BROKEN_LAYOUT, "a number of no question");
    if (number != 0) {
        require(memcmp(record, &before, sizeof before) == 0, "a refused read changed the record");
        return;
    }
    require(file[0] == 3 || !has_versions(), "a version in an older file");
    length = size + (file[0] == 3 ? 0 : version_bytes());
    require(region_write(record, image, REGION_LONGEST_IMAGE) == (int64_t)length, "the length of the image");
    require(image[0] == 3, "the version of the image");
    require(file[0] < 3 || memcmp(image, file, size) == 0, "the image is not the file");
    check_same(image, length);
}

typedef int64_t convert_call(const uint8_t *, size_t, uint8_t *, size_t);

/* A conversion, the other one, and the versions that it admits. */
struct conversion {
    convert_call *call;
    convert_call *other;
    uint8_t oldest;
    uint8_t latest;
};

static const struct conversion conversions[] = {{region_archive_forward, region_archive_back, 1, 2},
                                                {region_archive_back, region_archive_forward, 3, 3}};

/* The number with which a conversion must be refused where there is room, by that of the read. */
static uint32_t refusal_of(const struct conversion *c, const uint8_t *file, size_t size, uint32_t number)
{
    if (size == 0 || file[0] < c->oldest || file[0] > c->latest) {
        return REGION_NOT_AN_ARCHIVE;
    }
    if (number == 0 && c->latest == 3 && has_versions()) {
        return REGION_HAS_VERSIONS;
    }
    return number;
}

/* A buffer of so many bytes for a conversion. */
static uint8_t *filled(struct guarded room, size_t count)
{
    return memset(guarded_high(room, count), FILLED_BYTE, count);
}

/* Whether bytes have the value of a buffer before a conversion: the first has it, and each later one that of the one before it. */
static bool is_filled(const uint8_t *bytes, size_t count)
{
    return count == 0 || (bytes[0] == FILLED_BYTE && memcmp(bytes, bytes + 1, count - 1) == 0);
}

/* What a conversion has written: the same in a buffer of its length and not in a shorter one, and the other conversion's file. */
static void check_converted(const struct conversion *c, const uint8_t *file, size_t size, const uint8_t *image, size_t length)
{
    uint8_t *exact = filled(converted, length), *shorter = filled(returned, length - 1), *first;

    require(c->call(file, size, shorter, length - 1) == -REGION_NO_PLACE, "a conversion with a byte too little room");
    require(is_filled(shorter, length - 1), "a conversion with a byte too little room changed the buffer");
    require(c->call(file, size, exact, length) == (int64_t)length, "a conversion with just enough room");
    require(memcmp(exact, image, length) == 0, "a conversion writes otherwise where there is more room");
    check_same(exact, length);
    first = filled(returned, size);
    require(c->other(exact, length, first, size) == (int64_t)size, "the other conversion of a new file");
    require(memcmp(first, file, size) == 0, "the other conversion does not give the first file");
}

static void check_conversion(const struct conversion *c, const uint8_t *file, size_t size, uint32_t number)
{
    const uint32_t refusal = refusal_of(c, file, size, number);
    uint8_t *image = filled(written, REGION_LONGEST_IMAGE);
    const int64_t answer = c->call(file, size, image, REGION_LONGEST_IMAGE);
    size_t length;

    if (refusal != 0) {
        require(answer == -(int64_t)refusal, "a conversion is not refused as it must be");
        require(is_filled(image, REGION_LONGEST_IMAGE), "a refused conversion changed the buffer");
        require(c->call(file, size, image, 0) == answer, "a conversion is refused otherwise where there is no room");
        return;
    }
    length = c->latest == 3 ? size - version_bytes() : size + version_bytes();
    require(answer == (int64_t)length, "the length of a new file");
    require(is_filled(image + length, REGION_LONGEST_IMAGE - length), "a conversion changed a byte behind the new file");
    check_converted(c, file, size, image, length);
}

static uint32_t word(const uint8_t *file, size_t size, size_t at)
{
    uint32_t value = 0;

    for (size_t i = at; i < at + 4; i++) {
        value = value << 8 | (i < size ? file[i] : 0u);
    }
    return value;
}

/* The query against read and route, for the numbers that stand at two places of the file. */
static void check_query(const uint8_t *file, size_t size, uint32_t number, size_t at)
{
    uint8_t regions[REGION_ROUTE_BYTES];
    uint32_t location = word(file, size, at), item = word(file, size, at + 6), kind = (uint32_t)(at % 4);
    uint16_t version = (uint16_t)(at % 3 == 0 ? 0 : word(file, size, at + 8));
    uint32_t answer = region_archive_query(file, size, location, kind, item, version);
    int64_t routed;

    if (number != 0) {
        require(answer == number, "the query's refusal is not the read's");
        return;
    }
    routed = region_route_v4(record, regions, sizeof regions, location, kind, item, version);
    require(routed >= 0 ? answer == REGION_SEEN : answer == (uint32_t)-routed, "the query's answer is not the route's");
}

static bool is_name(const uint8_t *bytes, size_t count)
{
    for (size_t i = 0; i < count; i++) {
        if (bytes[i] < 0x20 || bytes[i] > 0x7E) {
            return false;
        }
    }
    return count >= 1 && count <= REGION_LONGEST_NAME;
}

/* The lookup of a kind and number, by the number for a lookup of no entry in the same sheet. */
static void check_lookup(const uint8_t *file, size_t size, uint32_t judged, uint32_t kind, uint32_t number)
{
    size_t *start = guarded_high(start_room, sizeof *start);
    int64_t length;

    *start = SIZE_MAX;
    length = region_name(file, size, start, kind, number);
    if (length < 0) {
        require(*start == SIZE_MAX, "a refused lookup changed the start");
        require(length == -(int64_t)judged, "two lookups judge one sheet otherwise");
        return;
    }
    require(judged == REGION_NO_ENTRY, "a name in a sheet that is broken");
    require(*start >= 12 && *start < size && (size_t)length <= size - *start, "a name that is not in the sheet");
    require(is_name(file + *start, (size_t)length), "a name that is none");
    require(file[*start - 5] == kind && word(file, size, *start - 4) == number, "the name of another entry");
}

/* What the lookup says of the sheet, and lookups of what stands at places of the file. */
static uint32_t check_sheet(const uint8_t *file, size_t size)
{
    size_t start = SIZE_MAX;
    uint32_t judged = (uint32_t)-region_name(file, size, &start, UINT32_MAX, 0);

    require(start == SIZE_MAX, "a lookup of no entry changed the start");
    require(judged == REGION_BROKEN_SHEET || judged == REGION_NO_ENTRY, "a number that is not the lookup's");
    for (size_t at = 7; at < size; at += judged == REGION_NO_ENTRY ? 1 : size / 4 + 1) {
        check_lookup(file, size, judged, file[at], word(file, size, at + 1));
    }
    return judged;
}

/* The older version that goes with the regions of a file of at least 5 bytes. */
static uint8_t version_of(const uint8_t *data, size_t size)
{
    for (size_t i = 6; i < size && i < 6u + data[5]; i++) {
        if (data[i] > 15) {
            return 2;
        }
    }
    return 1;
}

size_t LLVMFuzzerMutate(uint8_t *data, size_t size, size_t most);
size_t LLVMFuzzerCustomMutator(uint8_t *data, size_t size, size_t most, unsigned seed);
int LLVMFuzzerTestOneInput(const uint8_t *data, size_t size);

size_t LLVMFuzzerCustomMutator(uint8_t *data, size_t size, size_t most, unsigned seed)
{
    size_t changed = LLVMFuzzerMutate(data, size, most);

    if (changed >= 5 && seed % 8 != 0) {
        data[0] = version_of(data, changed);
        if (seed % 8 == 1) {
            data[0] = (uint8_t)(3 - data[0]);
        } else if (seed % 8 > 3) {
            data[0] = 3;
        }
        for (int i = 0; i < 4; i++) {
            data[1 + i] = (uint8_t)((changed - 5) >> (24 - 8 * i));
        }
    }
    return changed;
}

int LLVMFuzzerTestOneInput(const uint8_t *data, size_t size)
{
    static bool made;
    uint8_t *file;
    uint32_t number, judged;

    if (!made) {
        make_all();
    }
    made = true;
    memcpy(record, &before, sizeof before);
    file = guarded_high(archive, size);
    memcpy(file, data, size);
    number = region_read(record, file, size);
    check_read(file, size, number);
    for (size_t at = size % 7; at < size; at += size / 12 + 1) {
        check_query(file, size, number, at);
    }
    for (size_t i = 0; i < sizeof conversions / sizeof conversions[0]; i++) {
        check_conversion(&conversions[i], file, size, number);
    }
    judged = check_sheet(file, size);
    count(read_archive, data, size, number, number == 0);
    count(read_sheet, data, size, judged, judged == REGION_NO_ENTRY);
    return 0;
}
