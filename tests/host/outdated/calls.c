/* A host that is compiled with the header of an earlier interface version, and makes CALL. It does not link with the library, which
   lacks the name by which this version makes a record empty, and that of CALL where its arguments have changed. */
#include "wimboru.h"

static region_graph graph;
static uint32_t out[REGION_ROUTE_BYTES];
static uint8_t bytes[REGION_ROUTE_BYTES];
static const uint32_t list[] = {1, 2, 3};
static const uint16_t versions[] = {0, 0, 0};

/* The arguments of each call. */
#define ARGUMENTS_region_add &graph, 0
#define ARGUMENTS_region_install &graph, 0, 10, list, 3, list, 3
#define ARGUMENTS_region_connect &graph, 0, 1, list, 3, false, list, 3, false, list, 3
#define ARGUMENTS_region_connect_v4 &graph, 0, 1, list, 3, false, list, 3, versions, 3, versions, 3, false, list, 3
#define ARGUMENTS_region_route &graph, bytes, REGION_ROUTE_BYTES, 10, REGION_KIND_PACKAGE, 1
#define ARGUMENTS_region_resolve &graph, out, 3, 10, list, 3
#define ARGUMENTS_region_resolve_v3 &graph, out, 3, out + 3, 3, 10, list, 3, list, 3
#define ARGUMENTS_archive_query bytes, sizeof bytes, 10, REGION_KIND_PACKAGE, 1
#define ARGUMENTS_archive_query_v4 bytes, sizeof bytes, 10, REGION_KIND_PACKAGE, 1, 0
#define ARGUMENTS_archive_forward bytes, sizeof bytes, bytes, 0
#define ARGUMENTS_archive_back bytes, sizeof bytes, bytes, 0

#define ARGUMENTS(call) ARGUMENTS_OF(call)
#define ARGUMENTS_OF(call) ARGUMENTS_##call

int main(void)
{
    region_empty(&graph);
    return CALL(ARGUMENTS(CALL)) == 0;
}
