/* Runs call scripts on the engine through its C interface: a line in, the answer out, both in the language that
   oracle/oracle2.py describes, at the level that cases.py names. It compares nothing.

       driver [LISTING]     LISTING is the listing program, which answers the line `list`

   The record, the lists and the buffers stand between pages that cannot be touched, so that a read or a write outside
   them ends the program. Blocks end at such a page on even lines and begin at one on odd lines. */
#define _POSIX_C_SOURCE 200809L
#include <errno.h>
#include <inttypes.h>
#include <stdio.h>
#include <stdlib.h>
#include <string.h>
#include <sys/wait.h>
#include <unistd.h>

#include "guarded.h"
#include "wimboru.h"

enum { FILLED_BYTE = 0xA5, FILLED_VERSION = 0xBE00, MOST_ARGUMENTS = 7 };
static const uint32_t FILLED_PLACE = 0xDEAD0000u;

/* One block of memory for each use in a call. */
enum { RECORD, FIRST, SECOND, THIRD, FOURTH, FIFTH, OUTPUT, OTHER_OUTPUT, VERSION_OUTPUT, ARCHIVE, SHEET, ROOMS };

struct list {
    const uint32_t *items;
    size_t count;
    bool all;
};

struct versions {
    const uint16_t *items;
    size_t count;
};

struct file {
    const uint8_t *bytes;
    size_t length;
};

static struct guarded rooms[ROOMS];
static region_graph *graph;
static struct file archive; /* the archive bytes that stand, in their room */
static struct file sheet;   /* and so those of the name sheet */
static const char *listing;
static unsigned long line_number;

static void stop(const char *why, const char *text)
{
    fflush(stdout);
    fprintf(stderr, "driver: line %lu: %s: %.60s\n", line_number, why, text);
    exit(2);
}

static void *block(int room, size_t size)
{
    return line_number % 2 == 0 ? guarded_high(rooms[room], size) : guarded_low(rooms[room], size);
}

/* ---- what a line has ---- */

static uint32_t number(const char *text, char **end)
{
    unsigned long value;

    errno = 0;
    value = strtoul(text, end, 10);
    if (text[0] < '0' || text[0] > '9' || errno != 0 || value > UINT32_MAX) {
        stop("not a number", text);
    }
    return (uint32_t)value;
}

static uint32_t whole_number(const char *text)
{
    char *end;
    uint32_t value = number(text, &end);

    if (*end != '\0') {
        stop("not a number", text);
    }
    return value;
}

static uint16_t version(uint32_t value)
{
    if (value > REGION_HIGHEST_VERSION) {
        stop("not a version", "");
    }
    return (uint16_t)value;
}

static bool is_all(const char *text)
{
    return strcmp(text, "*") == 0;
}

/* How many elements a list has; the sign "all" stands for a list that has none. */
static size_t count_of(const char *text)
{
    size_t count = 1;

    if (is_all(text) || strcmp(text, "-") == 0) {
        return 0;
    }
    for (size_t i = 0; text[i] != '\0'; i++) {
        count += text[i] == ',';
    }
    return count;
}

/* The first element of a list that has so many more, which are left. */
static uint32_t next(const char **text, size_t more)
{
    char *rest;
    uint32_t value = number(*text, &rest);

    if (*rest != (more > 0 ? ',' : '\0')) {
        stop("not a list", *text);
    }
    *text = rest + 1;
    return value;
}

static struct list list(const char *text, int room)
{
    const size_t count = count_of(text);
    uint32_t *items = block(room, count * sizeof *items);
    struct list result = {items, count, is_all(text)};

    for (size_t i = 0; i < count; i++) {
        items[i] = next(&text, count - i - 1);
    }
    return result;
}

static struct versions versions(const char *text, int room)
{
    const size_t count = count_of(text);
    uint16_t *items = block(room, count * sizeof *items);
    struct versions result = {items, count};

    for (size_t i = 0; i < count; i++) {
        items[i] = version(next(&text, count - i - 1));
    }
    return result;
}

static unsigned digit(const char *text)
{
    static const char digits[] = "0123456789abcdef";
    const char *at = *text == '\0' ? NULL : strchr(digits, *text);

    if (at == NULL) {
        stop("not a digit of base 16", text);
    }
    return (unsigned)(at - digits);
}

static struct file file(const char *text, int room)
{
    size_t length = strcmp(text, "-") == 0 ? 0 : strlen(text) / 2;
    uint8_t *bytes = block(room, length);
    struct file result = {bytes, length};

    if (length > 0 && strlen(text) % 2 != 0) {
        stop("half a byte", text);
    }
    for (size_t i = 0; i < length; i++) {
        bytes[i] = (uint8_t)(digit(text + 2 * i) << 4 | digit(text + 2 * i + 1));
    }
    return result;
}

/* ---- buffers, filled as the oracle's language says ---- */

static uint8_t *byte_buffer(size_t length)
{
    uint8_t *out = block(OUTPUT, length);

    memset(out, FILLED_BYTE, length);
    return out;
}

static uint32_t *place_buffer(uint32_t count, int room)
{
    uint32_t *out = block(room, count * sizeof *out);

    for (uint32_t i = 0; i < count; i++) {
        out[i] = FILLED_PLACE + i;
    }
    return out;
}

static uint16_t *version_buffer(uint32_t count)
{
    uint16_t *out = block(VERSION_OUTPUT, count * sizeof *out);

    for (uint32_t i = 0; i < count; i++) {
        out[i] = (uint16_t)(FILLED_VERSION + i);
    }
    return out;
}

/* ---- answers ---- */

static void print_number(uint32_t answer)
{
    printf("%" PRIu32 "\n", answer);
}

static void print_result(int64_t result)
{
    if (result >= 0) {
        printf("0 %" PRId64 " ", result);
    } else if (result == -REGION_HIDDEN) {
        printf("0 hidden ");
    } else {
        printf("%" PRId64 " - ", -result);
    }
}

static void print_bytes(const uint8_t *bytes, size_t length)
{
    for (size_t i = 0; i < length; i++) {
        printf("%02x", bytes[i]);
    }
    puts(length == 0 ? "-" : "");
}

static void print_places(const uint32_t *places, size_t count, char after)
{
    for (size_t i = 0; i < count; i++) {
        printf(i == 0 ? "%" PRIu32 : ",%" PRIu32, places[i]);
    }
    printf(count == 0 ? "-%c" : "%c", after);
}

static void print_versions(const uint16_t *places, size_t count)
{
    for (size_t i = 0; i < count; i++) {
        printf(i == 0 ? "%" PRIu16 : ",%" PRIu16, places[i]);
    }
    puts(count == 0 ? "-" : "");
}

/* ---- the lines ---- */

static void lent(char **a)
{
    struct file f = file(a[0], FIRST);

    print_number(region_read(graph, f.bytes, f.length));
}

static void start(char **a)
{
    region_empty(graph);
    if (strcmp(a[0], "empty") == 0) {
        print_number(0);
    } else {
        lent(a);
    }
}

static void add(char **a)
{
    print_number(region_add(graph, whole_number(a[0])));
}

static void remove_region(char **a)
{
    print_number(region_remove(graph, whole_number(a[0])));
}

static void install(char **a)
{
    struct list packages = list(a[2], FIRST), services = list(a[4], SECOND);
    struct versions of = versions(a[3], THIRD);

    print_number(region_install_v4(graph, whole_number(a[0]), whole_number(a[1]), packages.items, packages.count, of.items,
                                   of.count, services.items, services.count));
}

static void uninstall(char **a)
{
    print_number(region_uninstall(graph, whole_number(a[0])));
}

static void connect(char **a)
{
    struct list bundles = list(a[2], FIRST), packages = list(a[3], SECOND), services = list(a[6], THIRD);
    struct versions lowest = versions(a[4], FOURTH), highest = versions(a[5], FIFTH);

    print_number(region_connect_v5(graph, whole_number(a[0]), whole_number(a[1]), bundles.items, bundles.count, packages.all,
                                   packages.items, packages.count, lowest.items, lowest.count, highest.items, highest.count,
                                   services.all, services.items, services.count));
}

static void disconnect(char **a)
{
    print_number(region_disconnect(graph, whole_number(a[0]), whole_number(a[1])));
}

typedef int64_t find_call(const region_graph *, uint32_t *, size_t, uint32_t, const uint32_t *, size_t);
typedef int64_t event_call(const region_graph *, uint32_t *, size_t, const uint32_t *, size_t, uint32_t);

static void find(find_call *call, char **a)
{
    uint32_t count = whole_number(a[1]);
    uint32_t *out = place_buffer(count, OUTPUT);
    struct list candidates = list(a[2], FIRST);

    print_result(call(graph, out, count, whole_number(a[0]), candidates.items, candidates.count));
    print_places(out, count, '\n');
}

static void event(event_call *call, char **a)
{
    uint32_t count = whole_number(a[0]);
    uint32_t *out = place_buffer(count, OUTPUT);
    struct list listeners = list(a[2], FIRST);

    print_result(call(graph, out, count, listeners.items, listeners.count, whole_number(a[1])));
    print_places(out, count, '\n');
}

static void bundle_find(char **a)
{
    find(region_bundle_find, a);
}

/* A count of places for each output list, then a list for each part of the candidates. */
static void resolve(char **a)
{
    struct list counts = list(a[1], FOURTH), exporters = list(a[2], FIRST), packages = list(a[3], SECOND);
    struct versions of = versions(a[4], THIRD);
    uint32_t *out_exporters, *out_packages;
    uint16_t *out_versions;

    if (counts.count != 3) {
        stop("not three counts of places", a[1]);
    }
    out_exporters = place_buffer(counts.items[0], OUTPUT);
    out_packages = place_buffer(counts.items[1], OTHER_OUTPUT);
    out_versions = version_buffer(counts.items[2]);
    print_result(region_resolve_v4(graph, out_exporters, counts.items[0], out_packages, counts.items[1], out_versions,
                                   counts.items[2], whole_number(a[0]), exporters.items, exporters.count, packages.items,
                                   packages.count, of.items, of.count));
    print_places(out_exporters, counts.items[0], ' ');
    print_places(out_packages, counts.items[1], ' ');
    print_versions(out_versions, counts.items[2]);
}

static void service_find(char **a)
{
    find(region_service_find, a);
}

static void bundle_event(char **a)
{
    event(region_bundle_event, a);
}

static void service_event(char **a)
{
    event(region_service_event, a);
}

static void route(char **a)
{
    uint32_t length = whole_number(a[4]);
    uint8_t *out = byte_buffer(length);

    print_result(region_route_v4(graph, out, length, whole_number(a[0]), whole_number(a[1]), whole_number(a[2]),
                                 version(whole_number(a[3]))));
    print_bytes(out, length);
}

static void write_image(char **a)
{
    uint32_t length = whole_number(a[0]);
    uint8_t *out = byte_buffer(length);

    print_result(region_write(graph, out, length));
    print_bytes(out, length);
}

static void image(char **a)
{
    uint8_t *out = byte_buffer(REGION_LONGEST_IMAGE);
    int64_t length = region_write(graph, out, REGION_LONGEST_IMAGE);

    (void)a;
    if (length < 0) {
        printf("refused %" PRId64 "\n", -length);
    } else {
        print_bytes(out, (size_t)length);
    }
}

static void keep_archive(char **a)
{
    archive = file(a[0], ARCHIVE);
    print_number(0);
}

/* A copy of the bytes that stand, at the edge that the line has. */
static struct file copy(struct file f)
{
    return (struct file){memcpy(block(FIRST, f.length), f.bytes, f.length), f.length};
}

static void query(char **a)
{
    struct file f = copy(archive);

    print_number(region_archive_query(f.bytes, f.length, whole_number(a[0]), whole_number(a[1]), whole_number(a[2]),
                                      version(whole_number(a[3]))));
}

typedef int64_t convert_call(const uint8_t *, size_t, uint8_t *, size_t);

static void convert(convert_call *call, char **a)
{
    struct file f = copy(archive);
    uint32_t length = whole_number(a[0]);
    uint8_t *out = byte_buffer(length);

    print_result(call(f.bytes, f.length, out, length));
    print_bytes(out, length);
}

static void forward(char **a)
{
    convert(region_archive_forward, a);
}

static void back(char **a)
{
    convert(region_archive_back, a);
}

static void keep_sheet(char **a)
{
    sheet = file(a[0], SHEET);
    print_number(0);
}

/* A refused lookup has the start and the length 0 in the oracle's language: the start, where it keeps its value. */
static void lookup(char **a)
{
    struct file f = copy(sheet);
    size_t *start = (size_t *)(void *)byte_buffer(sizeof *start);
    const size_t before = *start;
    int64_t length = region_name(f.bytes, f.length, start, whole_number(a[0]), whole_number(a[1]));

    if (length >= 0) {
        printf("0 %zu %" PRId64 "\n", *start, length);
    } else {
        printf("%" PRId64 " %s 0\n", -length, *start == before ? "0" : "written");
    }
}

/* A file that has the archive's bytes, to be read from their start. */
static FILE *archive_file(void)
{
    FILE *result = tmpfile();

    if (result == NULL || fwrite(archive.bytes, 1, archive.length, result) != archive.length || fflush(result) != 0) {
        stop("the archive could not be put in a file", "");
    }
    rewind(result);
    return result;
}

/* Runs the listing program with standard input and output from and to files, and hands back its status. */
static int run_listing(FILE *input, FILE *output)
{
    int status = -1;
    pid_t process = fork();

    if (process == 0) {
        if (dup2(fileno(input), STDIN_FILENO) >= 0 && dup2(fileno(output), STDOUT_FILENO) >= 0) {
            execl(listing, listing, (char *)NULL);
        }
        _exit(127);
    }
    if (process < 0 || waitpid(process, &status, 0) != process) {
        stop("the listing program could not be run", listing);
    }
    return status;
}

/* Prints a text in one line: a bar for each end of line. */
static void print_text(FILE *text)
{
    bool any = false;
    int character;

    rewind(text);
    while ((character = getc(text)) != EOF) {
        putchar(character == '\n' ? '|' : character);
        any = true;
    }
    puts(any ? "" : "-");
}

static void list_archive(char **a)
{
    FILE *input = archive_file(), *output = tmpfile();
    int status;

    (void)a;
    if (listing == NULL || output == NULL) {
        stop("no listing program is named, or it has no room for its text", "");
    }
    status = run_listing(input, output);
    if (status != 0) {
        printf("status %d ", status);
    }
    print_text(output);
    fclose(input);
    fclose(output);
}

/* clang-format off */
static const struct command {
    const char *word;
    int arguments;
    void (*run)(char **arguments);
} commands[] = {
    {"start", 1, start},          {"lent", 1, lent},            {"write", 1, write_image},   {"image", 0, image},
    {"archive", 1, keep_archive}, {"query", 4, query},          {"list", 0, list_archive},
    {"forward", 1, forward},      {"back", 1, back},
    {"add", 1, add},              {"remove", 1, remove_region}, {"install", 5, install},     {"uninstall", 1, uninstall},
    {"connect", 7, connect},      {"disconnect", 2, disconnect},
    {"bfind", 3, bundle_find},    {"resolve", 5, resolve},      {"sfind", 3, service_find},
    {"bevent", 3, bundle_event},  {"sevent", 3, service_event}, {"route", 5, route},
    {"sheet", 1, keep_sheet},     {"lookup", 2, lookup},
};
/* clang-format on */

static void run_line(char *line)
{
    char *arguments[MOST_ARGUMENTS + 1];
    char *word = strtok(line, " ");
    int count = 0;

    while (count <= MOST_ARGUMENTS && (arguments[count] = strtok(NULL, " ")) != NULL) {
        count++;
    }
    for (size_t i = 0; word != NULL && i < sizeof commands / sizeof commands[0]; i++) {
        if (strcmp(commands[i].word, word) == 0 && commands[i].arguments == count) {
            commands[i].run(arguments);
            fflush(stdout);
            return;
        }
    }
    stop("not a call", word == NULL ? "" : word);
}

int main(int count, char **words)
{
    char *line = NULL;
    size_t room = 0;
    ssize_t length;

    listing = count > 1 ? words[1] : NULL;
    for (int i = 0; i < ROOMS; i++) {
        rooms[i] = guarded_make();
    }
    archive.bytes = rooms[ARCHIVE].first;
    sheet.bytes = rooms[SHEET].first;
    graph = guarded_high(rooms[RECORD], sizeof *graph);
    memset(graph, FILLED_BYTE, sizeof *graph);
    region_empty(graph);
    while ((length = getline(&line, &room, stdin)) > 0) {
        line_number++;
        if (line[length - 1] == '\n') {
            line[length - 1] = '\0';
        }
        if (line[0] != '\0' && line[0] != '#') {
            run_line(line);
        }
    }
    free(line);
    return 0;
}
