/*
 * An OSGi framework in C that calls the region graph from its five hooks: bundle find, service find, resolver, bundle event and
 * service event. examples/host.c is a smaller host.
 *
 *     cc -std=c11 -I include examples/osgi.c target/staticlib/libregion_host.a -o osgi && ./osgi
 *
 * OSGi gives a hook a collection, and the hook takes out what is not to be seen. The output of a call may not overlap its candidates,
 * so each hook copies its collection to a scratch list, and the call writes into the collection what is left. The scratch list has a
 * fixed length and stands on the stack: no memory is allocated.
 */
#include "wimboru.h"
#include <stdio.h>

/* Regions; and bundles (their locations), packages and services, whose numbers differ here so that one table has all names. */
enum { KERNEL, METHODS, CORRECTIONS };
enum { DECK_DRIVER, ASPIRATE, DISPENSE, MIX, WATER, GLYCEROL, DECK, LIQUID_TABLE, ARM, VOLUME_CORRECTION, CALIBRATION };

static const char *const region_names[] = {"kernel", "methods", "corrections"};
static const char *const item_names[] = {"deck driver",  "aspirate", "dispense",          "mix",        "water", "glycerol", "deck",
                                         "liquid table", "arm",      "volume correction", "calibration"};

/* The name of a number; an archive may bring one that has none. */
#define NAME(names, number) ((number) < sizeof(names) / sizeof(names)[0] ? (names)[number] : "?")

/* A version of OSGi as a number of 16 bits: its major and its minor part, each below 256. */
#define VERSION(major, minor) ((major)*256 + (minor))

/* No collection is longer: so many packages, and services, a graph has at most. */
enum { MOST = REGION_MOST_BUNDLES * REGION_MOST_PROVIDED };

/* Bundles, services or listeners; a listener is a bundle. */
typedef struct collection {
    size_t count;
    uint32_t items[MOST];
} collection;

/* Exported packages, as capabilities of their exporters. The parts of one stand at equal places. */
typedef struct capabilities {
    size_t count;
    uint32_t exporters[MOST];
    uint32_t packages[MOST];
    uint16_t versions[MOST];
} capabilities;

/* The regions, the table of installed bundles, the registry of services, and the exported packages. */
typedef struct framework {
    region_graph graph;
    collection bundles;
    collection services;
    capabilities exports;
} framework;

/* Whether a call was accepted; where not, says why. */
static bool accepted(const char *call, uint32_t refusal)
{
    if (refusal != REGION_NOT_REFUSED) {
        printf("%s is refused: %s\n", call, region_refusal_text(refusal));
    }
    return refusal == REGION_NOT_REFUSED;
}

/* The count of a collection after a hook. A refusal empties it, since to show too much is the dangerous side: a bundle that does not
   see what it needs stops a run, but one that sees what it must not see may be wired to the wrong package. */
static size_t left_by(const char *hook, int64_t answer)
{
    return accepted(hook, region_refused(answer)) && answer >= 0 ? (size_t)answer : 0;
}

/* The five hooks. A collection has MOST places, so that the call has one for each candidate. */

/* BundleContext.getBundles: the bundles that a bundle finds. */
static void bundle_find_hook(const framework *host, uint32_t asker, collection *bundles)
{
    const collection scratch = *bundles;
    const int64_t answer = region_bundle_find(&host->graph, bundles->items, MOST, asker, scratch.items, scratch.count);
    bundles->count = left_by("bundle find", answer);
}

/* BundleContext.getServiceReferences: the services that a bundle finds. */
static void service_find_hook(const framework *host, uint32_t asker, collection *services)
{
    const collection scratch = *services;
    const int64_t answer = region_service_find(&host->graph, services->items, MOST, asker, scratch.items, scratch.count);
    services->count = left_by("service find", answer);
}

/* ResolverHook.filterMatches: the packages of exporters to which a bundle may be wired. Candidates for Require-Bundle are bundles,
   and go through the bundle find hook. */
static void resolver_hook(const framework *host, uint32_t importer, capabilities *matches)
{
    const capabilities scratch = *matches;
    const region_candidates candidates = {scratch.exporters, scratch.packages, scratch.versions, scratch.count};
    const region_offers offers = {matches->exporters, matches->packages, matches->versions, MOST};
    matches->count = left_by("resolve", region_resolve(&host->graph, &offers, importer, &candidates));
}

/* The listeners that are in a region. One that is in none hears nothing; if the call got it, it would refuse the event for all. */
static collection in_regions(const framework *host, const collection *listeners)
{
    collection placed = {0};
    for (size_t i = 0; i < listeners->count; i++) {
        if (region_refused(region_of(&host->graph, listeners->items[i])) == REGION_NOT_REFUSED) {
            placed.items[placed.count++] = listeners->items[i];
        }
    }
    return placed;
}

/* The listeners that are told of an event of a bundle. Nobody sees a bundle that is in no region: the hook is called for INSTALLED
   after region_install, and for UNINSTALLED before region_uninstall. */
static void bundle_event_hook(const framework *host, uint32_t bundle, collection *listeners)
{
    const collection scratch = in_regions(host, listeners);
    const int64_t answer = region_bundle_event(&host->graph, listeners->items, MOST, scratch.items, scratch.count, bundle);
    listeners->count = left_by("bundle event", answer);
}

/* The listeners that are told of an event of a service. */
static void service_event_hook(const framework *host, uint32_t service, collection *listeners)
{
    const collection scratch = in_regions(host, listeners);
    const int64_t answer = region_service_event(&host->graph, listeners->items, MOST, scratch.items, scratch.count, service);
    listeners->count = left_by("service event", answer);
}

/* Puts a bundle and what it provides into the framework's tables. */
static void enter(framework *host, uint32_t location, const region_provides *provides)
{
    host->bundles.items[host->bundles.count++] = location;
    for (size_t i = 0; i < provides->service_count; i++) {
        host->services.items[host->services.count++] = provides->services[i];
    }
    for (size_t i = 0; i < provides->package_count; i++) {
        const size_t place = host->exports.count++;
        host->exports.exporters[place] = location;
        host->exports.packages[place] = provides->packages[i];
        host->exports.versions[place] = provides->versions[i];
    }
}

static bool install(framework *host, uint32_t region, uint32_t location, region_provides provides)
{
    if (!accepted("install", region_install(&host->graph, region, location, &provides))) {
        return false;
    }
    enter(host, location, &provides);
    return true;
}

/* The bundles of each region, with the packages that they export and the services that they publish. */
static bool install_all(framework *host)
{
    static const uint32_t deck[] = {DECK}, tables[] = {LIQUID_TABLE, LIQUID_TABLE};
    static const uint32_t arm[] = {ARM}, correction[] = {VOLUME_CORRECTION}, calibration[] = {CALIBRATION};
    static const uint16_t first[] = {VERSION(1, 0)}, second[] = {VERSION(1, 2)}, latest[] = {VERSION(1, 5), VERSION(2, 0)};
    return install(host, KERNEL, DECK_DRIVER, (region_provides){deck, first, 1, arm, 1})
        && install(host, METHODS, ASPIRATE, (region_provides){0}) && install(host, METHODS, DISPENSE, (region_provides){0})
        && install(host, CORRECTIONS, WATER, (region_provides){tables, second, 1, correction, 1})
        && install(host, CORRECTIONS, GLYCEROL, (region_provides){tables, latest, 2, calibration, 1});
}

/* Of the corrections, methods import liquid tables with OSGi's range of versions [1.0,2.0), and one service. Of the kernel they
   import the deck driver's bundle, and all packages and services. */
static bool connect_all(framework *host)
{
    static const uint32_t tables[] = {LIQUID_TABLE}, correction[] = {VOLUME_CORRECTION}, driver[] = {DECK_DRIVER};
    static const uint16_t lowest[] = {VERSION(1, 0)}, highest[] = {VERSION(2, 0) - 1};
    region_filter corrections = {.packages = tables, .lowest = lowest, .highest = highest, .package_count = 1};
    corrections.services = correction;
    corrections.service_count = 1;
    region_filter kernel = {.pass_packages = REGION_PASS_ALL, .pass_services = REGION_PASS_ALL};
    kernel.bundles = driver;
    kernel.bundle_count = 1;
    return accepted("connect", region_connect(&host->graph, METHODS, CORRECTIONS, &corrections))
        && accepted("connect", region_connect(&host->graph, METHODS, KERNEL, &kernel));
}

static bool set_up(framework *host)
{
    region_empty(&host->graph);
    return accepted("add", region_add(&host->graph, KERNEL)) && accepted("add", region_add(&host->graph, METHODS))
        && accepted("add", region_add(&host->graph, CORRECTIONS)) && install_all(host) && connect_all(host);
}

static void print(uint32_t subject, const char *verb, const collection *objects)
{
    printf("%s %s:", NAME(item_names, subject), verb);
    for (size_t i = 0; i < objects->count; i++) {
        printf("%s %s", i == 0 ? "" : ",", NAME(item_names, objects->items[i]));
    }
    puts(objects->count == 0 ? " nothing" : "");
}

/* A bundle finds bundles and services, and is resolved. Each collection starts as all that there is. */
static void look(const framework *host, uint32_t asker)
{
    collection bundles = host->bundles;
    collection services = host->services;
    capabilities matches = host->exports;
    bundle_find_hook(host, asker, &bundles);
    print(asker, "finds bundles", &bundles);
    service_find_hook(host, asker, &services);
    print(asker, "finds services", &services);
    resolver_hook(host, asker, &matches);
    for (size_t i = 0; i < matches.count; i++) {
        printf("%s may be wired to: %s %u.%u of %s\n", NAME(item_names, asker), NAME(item_names, matches.packages[i]),
               matches.versions[i] / 256U, matches.versions[i] % 256U, NAME(item_names, matches.exporters[i]));
    }
}

/* A bundle is started, and registers a service. Every bundle listens. */
static void start(const framework *host, uint32_t bundle, uint32_t service)
{
    collection listeners = host->bundles;
    bundle_event_hook(host, bundle, &listeners);
    print(bundle, "is started; this is told to", &listeners);
    listeners = host->bundles;
    service_event_hook(host, service, &listeners);
    print(service, "is registered; this is told to", &listeners);
}

/* Makes the framework's tables anew, from what the graph holds. */
static void rebuild(framework *host)
{
    region_bundle bundle;
    region_connection connection;
    host->bundles.count = host->services.count = host->exports.count = 0;
    for (size_t i = 0; region_bundle_at(&host->graph, &bundle, i) == 1; i++) {
        const region_provides provides = region_provides_of(&bundle);
        enter(host, bundle.location, &provides);
        printf("%s is in %s\n", NAME(item_names, bundle.location), NAME(region_names, bundle.region));
    }
    for (size_t i = 0; region_connection_at(&host->graph, &connection, i) == 1; i++) {
        printf("%s imports from %s\n", NAME(region_names, connection.source), NAME(region_names, connection.target));
    }
}

/* Writes the graph as an archive, which a real framework keeps in a file, and starts again from it. Where it is refused the record
   is the empty graph, in which nobody sees anything. */
static bool restart(framework *host)
{
    static uint8_t archive[REGION_LONGEST_IMAGE];
    const size_t length = region_image_length(&host->graph);
    if (!accepted("write", region_refused(region_write(&host->graph, archive, length)))) {
        return false;
    }
    printf("\nthe framework starts again, from an archive of %zu bytes\n", length);
    region_empty(&host->graph);
    if (!accepted("read", region_read(&host->graph, archive, length))) {
        return false;
    }
    rebuild(host);
    return true;
}

int main(void)
{
    static framework host;
    const region_provides nothing = {0};
    if (!region_library_matches() || !set_up(&host)) {
        puts("the framework does not start");
        return 1;
    }
    look(&host, ASPIRATE);
    look(&host, DECK_DRIVER);
    start(&host, WATER, VOLUME_CORRECTION);
    puts("\nmix is installed in the framework, but in no region yet");
    enter(&host, MIX, &nothing);
    look(&host, MIX);
    start(&host, DECK_DRIVER, ARM);
    if (!accepted("install", region_install(&host.graph, METHODS, MIX, &nothing)) || !restart(&host)) {
        return 1;
    }
    look(&host, MIX);
    return 0;
}
