/*
 * A shared library that uses the static one.
 */
#include "robot.h"
#include <wimboru.h>

int robot_bundles(void)
{
    static region_graph graph;
    const region_provides nothing = {0};
    region_empty(&graph);
    if (region_add(&graph, 0) != 0 || region_install(&graph, 0, 10, &nothing) != 0
        || region_install(&graph, 0, 20, &nothing) != 0) {
        return -1;
    }
    return (int)region_bundle_count(&graph);
}
