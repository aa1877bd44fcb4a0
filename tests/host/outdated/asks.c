/* A host that is compiled with a header of one interface version, VERSION, and linked with a library of another. It makes no call on a
   record, so that it links. It asks whether the library has its interface, as the header tells it to, and is told that it has not.
   Exit status 0 where it is told so. */
#include "wimboru.h"

static_assert(WIMBORU_VERSION == VERSION, "the header of the version");
static_assert(sizeof(region_graph) == (VERSION <= 3 ? 16408 : 20504), "its record");
static_assert(REGION_ROUTE_BYTES == (VERSION == 1 ? 16 : 64), "its buffer for a route");
static_assert(REGION_LONGEST_IMAGE == (VERSION == 1 ? 14248 : VERSION <= 3 ? 14296 : 18392), "its longest image");

int main(void)
{
    return !region_library_matches() && region_interface_version() != WIMBORU_VERSION ? 0 : 1;
}
