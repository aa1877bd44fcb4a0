/* Slips in C. With SLIP=N the line that ends in "slip N" is wrong, and does not compile; without SLIP all forms are right. */
#include "wimboru.h"

#ifndef SLIP
#define SLIP 0
#endif

static const uint32_t list[] = {1};
static const uint16_t zero[] = {0};

uint32_t arguments(region_graph *graph, const region_filter *filter);
uint32_t arguments(region_graph *graph, const region_filter *filter)
{
#if SLIP == 1
    (void)filter;
    return region_connect(graph, 0, 1, list, 1, true); /* slip 1 */
#else
    return region_connect(graph, 0, 1, filter);
#endif
}

uint32_t filter_of_pointer(region_graph *graph);
uint32_t filter_of_pointer(region_graph *graph)
{
    const region_filter filter = {
        .bundles = list,
        .bundle_count = 1,
#if SLIP == 2
        .pass_packages = list, /* slip 2 */
#else
        .pass_packages = REGION_PASS_ALL,
#endif
#if SLIP == 3
        .pass_services = list, /* slip 3 */
#else
        .pass_services = REGION_PASS_LISTED,
#endif
    };
    return region_connect(graph, 0, 1, &filter);
}

uint32_t pass_of_pointer(region_graph *graph);
uint32_t pass_of_pointer(region_graph *graph)
{
#if SLIP == 4
    const uint32_t *pass = list;
#else
    const uint32_t pass = 1;
#endif
    return region_connect_v5(graph, 0, 1, list, 1, pass, list, 1, zero, 1, zero, 1, 0, list, 1); /* slip 4 */
}

uint32_t discarded(region_graph *graph);
uint32_t discarded(region_graph *graph)
{
#if SLIP == 5
    region_add(graph, 1); /* slip 5 */
    return 0;
#else
    return region_add(graph, 1);
#endif
}
