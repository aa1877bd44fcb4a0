/* A host that is compiled with the present header. It does not link with a library of an earlier version, which lacks the name by which
   this version makes a record empty. */
#include "wimboru.h"

int main(void)
{
    static region_graph graph;
    region_empty(&graph);
    return region_add(&graph, 0) == REGION_NOT_REFUSED ? 0 : 1;
}
