/*
 * A host in C: bundle 10 in region 0 sees package 1, version 7, of bundle 20 in region 1.
 */
#include <wimboru.h>
#include <stdio.h>

static region_graph graph;

/* Makes the graph; returns whether no call was refused. */
static bool make(void)
{
    static const uint32_t package[] = {1};
    static const uint16_t version[] = {7};
    const region_provides nothing = {0}, provides = {.packages = package, .versions = version, .package_count = 1};
    const region_filter filter = {.packages = package, .lowest = version, .highest = version, .package_count = 1};
    region_empty(&graph);
    return region_add(&graph, 0) == 0 && region_add(&graph, 1) == 0 && region_install(&graph, 0, 10, &nothing) == 0
        && region_install(&graph, 1, 20, &provides) == 0 && region_connect(&graph, 0, 1, &filter) == 0;
}

int main(void)
{
    uint8_t route[REGION_ROUTE_BYTES];
    if (!region_library_matches() || !make()) {
        return 1;
    }
    printf("connections to package 1: %d\n", (int)region_route(&graph, route, sizeof route, 10, REGION_KIND_PACKAGE, 1, 7));
    return 0;
}
