/* A filter whose pass was forced by a cast to another number than those of enum region_pass passes what is listed, and nothing
   else. Prints the checks that fail, then how many there were. */
#include "wimboru.h"

#include <stdio.h>

static const uint32_t listed[] = {1};
static const uint16_t zero[] = {0};
static unsigned checks;
static unsigned failed;

static void check(bool holds, const char *text, uint32_t pass)
{
    checks++;
    if (!holds) {
        failed++;
        printf("%s with a pass of %lu\n", text, (unsigned long)pass);
    }
}

/* Regions 0 and 1, and bundles 10 and 20 in them. Bundle 20 provides packages and services 1 and 2. */
static void make(region_graph *graph)
{
    static const uint32_t both[] = {1, 2};
    static const uint16_t versions[] = {0, 0};
    const region_provides nothing = {0}, provides = {both, versions, 2, both, 2};
    region_empty(graph);
    check(region_add(graph, 0) == 0 && region_add(graph, 1) == 0, "add", 0);
    check(region_install(graph, 0, 10, &nothing) == 0 && region_install(graph, 1, 20, &provides) == 0, "install", 0);
}

/* Whether bundle 10 sees item 2 of a kind, which is not listed. Item 1, which is, is seen. */
static bool passes_all(const region_graph *graph, uint32_t kind, uint32_t pass)
{
    uint8_t route[REGION_ROUTE_BYTES];
    check(region_route(graph, route, sizeof route, 10, kind, 1, 0) == 1, "what is listed is not seen", pass);
    const int64_t other = region_route(graph, route, sizeof route, 10, kind, 2, 0);
    check(other == 1 || region_is_hidden(other), "a route is refused", pass);
    return other == 1;
}

static void check_passes(const region_graph *graph, uint32_t packages, uint32_t services)
{
    region_connection connection;
    check(region_connection_at(graph, &connection, 0) == 1, "no connection", packages);
    check(passes_all(graph, REGION_KIND_PACKAGE, packages) == (packages == REGION_PASS_ALL), "packages", packages);
    check(passes_all(graph, REGION_KIND_SERVICE, services) == (services == REGION_PASS_ALL), "services", services);
    check(connection.packages.count == (packages == REGION_PASS_ALL ? REGION_EVERYTHING : 1), "count of packages", packages);
    check(connection.services.count == (services == REGION_PASS_ALL ? REGION_EVERYTHING : 1), "count of services", services);
}

/* Connects with two passes, by the struct and by the library's own name. */
static void connect(uint32_t packages, uint32_t services)
{
    region_graph graph;
    const region_filter filter = {
        .pass_packages = (enum region_pass)packages,
        .packages = listed,
        .lowest = zero,
        .highest = zero,
        .package_count = 1,
        .pass_services = (enum region_pass)services,
        .services = listed,
        .service_count = 1,
    };
    make(&graph);
    check(region_connect(&graph, 0, 1, &filter) == 0, "connect", packages);
    check_passes(&graph, packages, services);
    make(&graph);
    check(region_connect_v5(&graph, 0, 1, NULL, 0, packages, listed, 1, zero, 1, zero, 1, services, listed, 1) == 0, "connect",
          packages);
    check_passes(&graph, packages, services);
}

int main(void)
{
    const uint32_t pointer = (uint32_t)(uintptr_t)listed;
    const uint32_t passes[] = {0, 1, 2, 3, 255, 256, 257, 65537, 0x80000000, 0x80000001, UINT32_MAX, pointer};
    const size_t count = sizeof passes / sizeof passes[0];
    check(pointer != REGION_PASS_ALL, "the low bits of a pointer", pointer);
    for (size_t i = 0; i < count; i++) {
        for (size_t j = 0; j < count; j++) {
            connect(passes[i], passes[j]);
        }
    }
    printf("%u checks", checks);
    if (failed > 0) {
        printf(", %u failed", failed);
    }
    printf("\n");
    return failed == 0 ? 0 : 1;
}
