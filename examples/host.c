/* A host in C: the graph of examples/g.archive. Bundle 30 in region 2 exports packages 1, 2 and 3, each of version 0; region 0 imports
   from region 1 and region 1 from region 2, each some packages, of any version. Which packages of bundle 30 are bundle 10 in region 0
   and bundle 20 in region 1 offered?
       cc -std=c11 -I include examples/host.c target/staticlib/libregion_host.a -o host && ./host */
#include "wimboru.h"
#include <stdio.h>
#include <stdlib.h>

static const uint32_t packages[] = {1, 2, 3}, one_two[] = {1, 2}, one_three[] = {1, 3}, exporters[] = {30, 30, 30};
static const uint16_t lowest[] = {0, 0, 0}, highest[] = {REGION_HIGHEST_VERSION, REGION_HIGHEST_VERSION};

/* Ends the program where a call was refused. */
static void accept(uint32_t refusal)
{
    if (refusal != REGION_NOT_REFUSED) {
        fprintf(stderr, "refused: %s\n", region_refusal_text(refusal));
        exit(1);
    }
}

/* Prints the candidates, packages of bundle 30, that a bundle is offered. */
static void resolve(const region_graph *graph, uint32_t bundle)
{
    uint32_t from[3], offered[3];
    uint16_t versions[3];
    const region_candidates candidates = {.exporters = exporters, .packages = packages, .versions = lowest, .count = 3};
    const region_offers out = {.exporters = from, .packages = offered, .versions = versions, .count = 3};
    int64_t count = region_resolve(graph, &out, bundle, &candidates);
    accept(region_refused(count));
    for (int64_t i = 0; i < count; i++) {
        printf("%u is offered package %u of %u\n", (unsigned)bundle, (unsigned)offered[i], (unsigned)from[i]);
    }
}

int main(void)
{
    static region_graph graph;
    const region_provides none = {0};
    const region_provides one = {.packages = packages, .versions = lowest, .package_count = 1};
    const region_provides three = {.packages = packages, .versions = lowest, .package_count = 3};
    const region_filter of_one = {.packages = one_two, .lowest = lowest, .highest = highest, .package_count = 2};
    const region_filter of_two = {.packages = one_three, .lowest = lowest, .highest = highest, .package_count = 2};
    region_empty(&graph);
    accept(region_add(&graph, 0));
    accept(region_add(&graph, 1));
    accept(region_add(&graph, 2));
    accept(region_install(&graph, 0, 10, &none));
    accept(region_install(&graph, 1, 20, &one));
    accept(region_install(&graph, 2, 30, &three));
    accept(region_connect(&graph, 0, 1, &of_one));
    accept(region_connect(&graph, 1, 2, &of_two));
    resolve(&graph, 10);
    resolve(&graph, 20);
}
