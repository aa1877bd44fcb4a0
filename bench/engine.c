/* Measures the engine's calls over the C interface. Prints a line for each: name, nanoseconds of one call, and what the call
   answered. bench/README.md says what is measured, and what the programs of the other implementations measure too. With a second
   argument it prints for each call its name and the bytes that memcpy copied in it. */
#define _POSIX_C_SOURCE 200809L
#include <stdio.h>
#include <stdlib.h>
#include <string.h>
#include <time.h>
#include "wimboru.h"

/* Short rounds, so that some of them pass without a break by the system; and the calls between two looks at the clock, where that
   many go into a round. */
enum { ROUNDS = 100, BATCH = 64 };
static const double ROUND = 2e6;

/* Graphs on which a changing call is made one after another before the opposite call is. */
enum { COPIES = 8 };

enum { LIST = 1000, HELD = 512, LISTED = 8, PROVIDED = 8 };

/* The regions of the graphs "all" and "listed"; and the first of a row of connections that ends in the last region there is. */
enum { REGIONS = 16, FIRST_OF_ROW = REGION_REGIONS - 1 - REGION_MOST_CONNECTIONS };

static const uint32_t ASKER = 2000;
/* Held in region 15, five connections away from the asker; where there are 64 regions, in region 63. */
static const uint32_t SEEN_ITEM = 511;
/* Held in region 15, and passed by every connection but those to region 15. */
static const uint32_t HIDDEN_ITEM = 504;
static const uint32_t UNHELD_ITEM = 1000;
/* Has packages 504 to 511. */
static const uint32_t EXPORTER = 2063;
/* The first of a row of packages of it that are offered in both graphs. */
static const uint32_t FIRST_OFFERED = 505;
static const uint32_t listed[LISTED] = {504, 505, 506, 507, 508, 509, 510, 511};
static const uint32_t listed_to_15[LISTED] = {505, 506, 507, 508, 509, 510, 511, 1000};

/* The version of the packages in the graph "ranges", and what its entries pass. Other packages have version 0, and other entries
   pass every version. */
enum { VERSION = 5, LOWEST = 1, HIGHEST = 9 };

/* A file in memory. */
typedef struct {
    uint8_t bytes[REGION_LONGEST_IMAGE];
    size_t length;
} file;

/* The sheet that the program makes: its entries, the bytes of a name, of an entry and of the sheet. */
enum { ENTRIES = 1000, NAME = 20, ENTRY = 7 + NAME, SHEET = 5 + ENTRIES * ENTRY };

/* What the measured calls work on. */
static region_graph graph;
static region_graph copies[COPIES];
static uint32_t candidates[LIST];
static uint32_t exporters[LIST];
static uint32_t listeners[LIST];
static uint32_t kept[LIST];
static uint32_t kept_packages[LIST];
static uint16_t kept_versions[LIST];
static uint32_t provided[PROVIDED];
static uint16_t versions[LIST];
static uint16_t lowest[LISTED];
static uint16_t highest[LISTED];
static uint32_t hidden;
static uint8_t bytes[REGION_LONGEST_IMAGE];
static file g;
static file longest;
static file longest_3;
static uint8_t new_image[REGION_LONGEST_IMAGE];
static file g_names;
static uint8_t sheet[SHEET];

/* Whether copies are counted in place of time; and the bytes that memcpy has copied, which copies.c counts. */
static bool counting;
size_t copied;

static void must(bool holds, const char *what)
{
    if (!holds) {
        fprintf(stderr, "%s\n", what);
        exit(1);
    }
}

static double now(void)
{
    struct timespec t;
    clock_gettime(CLOCK_MONOTONIC, &t);
    return (double)t.tv_sec * 1e9 + (double)t.tv_nsec;
}

static double least(double a, double b)
{
    return a < b ? a : b;
}

/* Prints what a call copied. */
static void print_copied(const char *name, const char *filters, size_t before)
{
    printf("%s%s %zu\n", name, filters, copied - before);
}

/* Prints the best average of the rounds. */
static void best(const char *name, const char *filters, int64_t (*call)(void))
{
    size_t before = copied;
    int64_t answer = call();
    if (counting) {
        print_copied(name, filters, before);
        return;
    }
    double first = now();
    must(call() == answer, "another answer");
    size_t batch = (now() - first) * BATCH > ROUND ? 1 : BATCH;
    double shortest = 1e18;
    for (int round = 0; round < ROUNDS; round++) {
        size_t calls = 0;
        double start = now();
        while (now() - start < ROUND) {
            for (size_t i = 0; i < batch; i++) {
                must(call() == answer, "another answer");
            }
            calls += batch;
        }
        shortest = least(shortest, (now() - start) / (double)calls);
    }
    printf("%s%s %.1f %lld\n", name, filters, shortest, (long long)answer);
}

/* Time for a changing call on each copy of the graph. */
static double on_copies(uint32_t (*call)(region_graph *))
{
    double start = now();
    for (size_t i = 0; i < COPIES; i++) {
        must(call(&copies[i]) == 0, "a refusal");
    }
    return now() - start;
}

/* Prints what a changing call copied. */
static void count_on(const char *name, uint32_t (*call)(region_graph *))
{
    size_t before = copied;
    must(call(&graph) == 0, "a refusal");
    print_copied(name, "", before);
}

/* Prints the best averages of a call that removes and of the one that puts back. */
static void best_pair(const char *removes, uint32_t (*down)(region_graph *), const char *puts_back, uint32_t (*up)(region_graph *))
{
    double shortest_down = 1e18, shortest_up = 1e18;
    if (counting) {
        count_on(removes, down);
        count_on(puts_back, up);
        return;
    }
    for (size_t i = 0; i < COPIES; i++) {
        copies[i] = graph;
    }
    for (int round = 0; round < ROUNDS; round++) {
        size_t calls = 0;
        double spent_down = 0, spent_up = 0;
        while (spent_down + spent_up < ROUND) {
            spent_down += on_copies(down);
            spent_up += on_copies(up);
            calls += COPIES;
        }
        shortest_down = least(shortest_down, spent_down / (double)calls);
        shortest_up = least(shortest_up, spent_up / (double)calls);
    }
    printf("%s %.1f 0\n%s %.1f 0\n", removes, shortest_down, puts_back, shortest_up);
}

/* Where a name starts and how long it is, in one number, or the refusal below zero. */
static int64_t name_in(const uint8_t *in, size_t length, uint32_t kind, uint32_t number)
{
    size_t start = 0;
    int64_t name = region_name(in, length, &start, kind, number);
    return name < 0 ? name : (int64_t)start * 100 + name;
}

/* A resolve of exporters with packages. */
static int64_t resolve(const uint32_t *from, const uint32_t *packages, size_t count)
{
    return region_resolve_v4(&graph, kept, LIST, kept_packages, LIST, kept_versions, LIST, ASKER, from, count, packages, count,
                             versions, count);
}

/* A route for a package. */
static int64_t route(uint32_t location, uint32_t package)
{
    return region_route_v4(&graph, bytes, sizeof bytes, location, REGION_KIND_PACKAGE, package, versions[0]);
}

/* A query of a file for a package of version 0. */
static int64_t query(const file *f, uint32_t location, uint32_t package)
{
    return region_archive_query(f->bytes, f->length, location, REGION_KIND_PACKAGE, package, 0);
}

/* clang-format off */
static int64_t route_seen(void) { return route(ASKER, SEEN_ITEM); }
static int64_t route_hidden(void) { return route(ASKER, hidden); }
static int64_t find_1_seen(void) { return region_service_find(&graph, kept, LIST, ASKER, &SEEN_ITEM, 1); }
static int64_t find_1_hidden(void) { return region_service_find(&graph, kept, LIST, ASKER, &hidden, 1); }
static int64_t find_1000(void) { return region_service_find(&graph, kept, LIST, ASKER, candidates, LIST); }
static int64_t resolve_1_seen(void) { return resolve(&EXPORTER, &SEEN_ITEM, 1); }
static int64_t resolve_1_hidden(void) { return resolve(&EXPORTER, &hidden, 1); }
static int64_t resolve_3(void) { return resolve(exporters + FIRST_OFFERED, candidates + FIRST_OFFERED, 3); }
static int64_t resolve_4(void) { return resolve(exporters + FIRST_OFFERED, candidates + FIRST_OFFERED, 4); }
static int64_t resolve_1000(void) { return resolve(exporters, candidates, LIST); }
static int64_t event_1000(void) { return region_service_event(&graph, kept, LIST, listeners, LIST, SEEN_ITEM); }
static int64_t route_48(void) { return route(ASKER + FIRST_OF_ROW, SEEN_ITEM); }
static uint32_t uninstall(region_graph *to) { return region_uninstall(to, ASKER + 32); }
static uint32_t install(region_graph *to) {
    return region_install_v4(to, 0, ASKER + 32, provided, PROVIDED, versions, PROVIDED, provided, PROVIDED);
}
static uint32_t disconnect(region_graph *to) { return region_disconnect(to, 7, 9); }
static uint32_t connect_listed(region_graph *to) {
    return region_connect_v5(to, 7, 9, listed, LISTED, false, listed, LISTED, lowest, LISTED, highest, LISTED, false, listed, LISTED);
}
static uint32_t remove_region(region_graph *to) { return region_remove(to, 9); }
static uint32_t add_region(region_graph *to) { return region_add(to, 9); }
static int64_t refused_add(void) { return region_add(&graph, 9); }
static int64_t refused_install(void) { return install(&graph); }
static int64_t read_longest(void) { return region_read(&graph, longest.bytes, longest.length); }
static int64_t write_longest(void) { return region_write(&graph, longest_3.bytes, sizeof longest_3.bytes); }
static int64_t read_longest_3(void) { return region_read(&graph, longest_3.bytes, longest_3.length); }
static int64_t query_g(void) { return query(&g, 10, 1); }
static int64_t query_longest(void) { return query(&longest, 1000, 600); }
static int64_t query_longest_3(void) { return query(&longest_3, 1000, 600); }
static int64_t forward_longest(void) { return region_archive_forward(longest.bytes, longest.length, new_image, sizeof new_image); }
static int64_t back_longest(void) { return region_archive_back(longest_3.bytes, longest_3.length, new_image, sizeof new_image); }
static int64_t name_g(void) { return name_in(g_names.bytes, g_names.length, REGION_KIND_REGION, 1); }
static int64_t name_first(void) { return name_in(sheet, SHEET, REGION_KIND_BUNDLE, 0); }
static int64_t name_last(void) { return name_in(sheet, SHEET, REGION_KIND_BUNDLE, ENTRIES - 1); }
static int64_t name_missing(void) { return name_in(sheet, SHEET, REGION_KIND_BUNDLE, ENTRIES); }
/* clang-format on */

/* The packages, and the services, of bundle i. */
static void provide(uint32_t i)
{
    for (uint32_t k = 0; k < PROVIDED; k++) {
        provided[k] = PROVIDED * i + k;
    }
}

/* Makes the packages that are installed and asked for from now on those of a version, and the entries those of a range. */
static void set_versions(uint16_t version, uint16_t from, uint16_t to)
{
    for (size_t i = 0; i < LIST; i++) {
        versions[i] = version;
    }
    for (size_t i = 0; i < LISTED; i++) {
        lowest[i] = from;
        highest[i] = to;
    }
}

static void connect_full(uint32_t source, uint32_t target, bool all)
{
    const uint32_t *numbers = target == 15 ? listed_to_15 : listed;
    size_t count = all ? 0 : LISTED;
    must(region_connect_v5(&graph, source, target, numbers, count, all, numbers, count, lowest, count, highest, count, all, numbers,
                           count)
             == 0,
         "connect");
}

/* Regions from 0 on, and 64 bundles in them in turn. */
static void add_regions(uint32_t count)
{
    for (uint32_t r = 0; r < count; r++) {
        must(region_add(&graph, r) == 0, "add");
    }
    for (uint32_t i = 0; i < REGION_MOST_BUNDLES; i++) {
        provide(i);
        must(region_install_v4(&graph, i % count, ASKER + i, provided, PROVIDED, versions, PROVIDED, provided, PROVIDED) == 0,
             "install");
    }
}

/* 16 regions, 64 bundles, 48 connections that pass all packages and services, or list 8 numbers in each part. */
static void full_graph(bool all)
{
    region_empty(&graph);
    add_regions(REGIONS);
    for (uint32_t r = 0; r < REGIONS; r++) {
        for (uint32_t step = 1; step <= 3; step++) {
            connect_full(r, (r + step) % REGIONS, all);
        }
    }
}

/* 64 regions with a bundle each; 48 connections, from region 15 to region 63 in a row, that pass all packages and services. */
static void row_graph(void)
{
    region_empty(&graph);
    add_regions(REGION_REGIONS);
    for (uint32_t r = FIRST_OF_ROW; r + 1 < REGION_REGIONS; r++) {
        connect_full(r, r + 1, true);
    }
}

/* Puts a number, the highest byte first. */
static void put(uint8_t *to, size_t width, uint32_t number)
{
    for (size_t i = 0; i < width; i++) {
        to[i] = (uint8_t)(number >> 8 * (width - 1 - i));
    }
}

/* Bundles 0 to 999, each with a name of 20 bytes. */
static void make_sheet(void)
{
    sheet[0] = 1;
    put(sheet + 1, 4, SHEET - 5);
    for (uint32_t i = 0; i < ENTRIES; i++) {
        uint8_t *entry = sheet + 5 + i * ENTRY;
        char name[NAME + 1];
        must(snprintf(name, sizeof name, "bundle number %06u", (unsigned)i) == NAME, "a name of another length");
        put(entry, 2, ENTRY - 2);
        entry[2] = REGION_KIND_BUNDLE;
        put(entry + 3, 4, i);
        memcpy(entry + 7, name, NAME);
    }
}

/* Routes and resolves for packages. */
static void packages(const char *filters, uint32_t hidden_item)
{
    hidden = hidden_item;
    best("route_seen", filters, route_seen);
    best("route_hidden", filters, route_hidden);
    best("resolve_1_seen", filters, resolve_1_seen);
    best("resolve_1_hidden", filters, resolve_1_hidden);
    best("resolve_3", filters, resolve_3);
    best("resolve_4", filters, resolve_4);
    best("resolve_1000", filters, resolve_1000);
}

/* Finds and events for services. */
static void services(const char *filters, uint32_t hidden_item)
{
    hidden = hidden_item;
    best("find_1_seen", filters, find_1_seen);
    best("find_1_hidden", filters, find_1_hidden);
    best("find_1000", filters, find_1000);
    best("event_1000", filters, event_1000);
}

/* The longest archive of version 1, and the same graph as version 3. */
static void archives(void)
{
    best("read_longest", "", read_longest);
    best("write_longest", "", write_longest);
    longest_3.length = (size_t)write_longest();
    best("read_longest_3", "", read_longest_3);
    best("query_g", "", query_g);
    best("query_longest", "", query_longest);
    best("query_longest_3", "", query_longest_3);
    best("forward_longest", "", forward_longest);
    best("back_longest", "", back_longest);
}

static void take(file *f, const char *folder, const char *name)
{
    char path[4096];
    must(snprintf(path, sizeof path, "%s/%s", folder, name) < (int)sizeof path, "the path is too long");
    FILE *stream = fopen(path, "rb");
    must(stream != NULL, path);
    f->length = fread(f->bytes, 1, sizeof f->bytes, stream);
    fclose(stream);
}

int main(int count, char **arguments)
{
    must(count == 2 || count == 3, "usage: engine EXAMPLES [copies]");
    counting = count == 3;
    take(&g, arguments[1], "g.archive");
    take(&longest, arguments[1], "longest.archive");
    take(&g_names, arguments[1], "g.names");
    make_sheet();
    for (uint32_t i = 0; i < LIST; i++) {
        candidates[i] = i % HELD;
        exporters[i] = ASKER + candidates[i] / PROVIDED;
        listeners[i] = ASKER + i % REGION_MOST_BUNDLES;
    }
    set_versions(0, 0, REGION_HIGHEST_VERSION);
    full_graph(true);
    packages("_all", UNHELD_ITEM);
    services("_all", UNHELD_ITEM);
    full_graph(false);
    packages("_listed", HIDDEN_ITEM);
    services("_listed", HIDDEN_ITEM);
    provide(32);
    best("refused_add", "", refused_add);
    best("refused_install", "", refused_install);
    best_pair("uninstall", uninstall, "install", install);
    best_pair("disconnect", disconnect, "connect", connect_listed);
    best_pair("remove", remove_region, "add", add_region);
    archives();
    set_versions(VERSION, LOWEST, HIGHEST);
    full_graph(false);
    packages("_ranges", HIDDEN_ITEM);
    set_versions(0, 0, REGION_HIGHEST_VERSION);
    row_graph();
    best("route_48", "", route_48);
    best("name_g", "", name_g);
    best("name_1000_first", "", name_first);
    best("name_1000_last", "", name_last);
    best("name_1000_missing", "", name_missing);
    return 0;
}
