/* Every refusal of every changing call but the read. Where one call could be refused for several reasons, they are taken away one
   by one, so that each number shows its place in the order. */
#include "graphs.h"
#include "host.h"

enum { LONG_LIST = REGION_MOST_LISTED + 1 };

static const uint32_t ascending[LONG_LIST] = {1, 2, 3, 4, 5, 6, 7, 8, 9, 10, 11, 12, 13, 14, 15, 16, 17};
static const uint32_t descending[LONG_LIST] = {17, 16, 15, 14, 13, 12, 11, 10, 9, 8, 7, 6, 5, 4, 3, 2, 1};

static void add(void)
{
    build_g();
    UNCHANGED(REGION_USED, region_add(graph, 0));
    UNCHANGED(REGION_USED, region_add(graph, 2));
}

static void remove_region(void)
{
    build_g();
    UNCHANGED(REGION_NO_SUCH_REGION, region_remove(graph, 3));
    UNCHANGED(REGION_NO_SUCH_REGION, region_remove(graph, 63));
}

static void install_lists(void)
{
    build_g();
    UNCHANGED(REGION_LIST_TOO_LONG, region_install_v4(graph, 0, 40, ascending, 9, zeros, 9, NONE));
    UNCHANGED(REGION_LIST_TOO_LONG, region_install_v4(graph, 0, 40, NO_PACKAGES, ascending, 9));
    UNCHANGED(REGION_LIST_TOO_LONG, region_install_v4(graph, 0, 40, PACKAGES(2, 1), ascending, 9));
    UNCHANGED(REGION_LIST_OUT_OF_ORDER, region_install_v4(graph, 0, 40, PACKAGES(2, 1), NONE));
    UNCHANGED(REGION_LIST_OUT_OF_ORDER, region_install_v4(graph, 0, 40, NO_PACKAGES, LIST(2, 1)));
    UNCHANGED(REGION_LIST_OUT_OF_ORDER, region_install_v4(graph, 0, 40, PACKAGES(1, 2, 2), NONE));
    UNCHANGED(REGION_LIST_OUT_OF_ORDER, region_install_v4(graph, 0, 40, NO_PACKAGES, LIST(1, 1)));
    UNCHANGED(REGION_INSTALLED, region_install_v4(graph, 0, 10, NO_PACKAGES, NONE));
    UNCHANGED(REGION_INSTALLED, region_install_v4(graph, 0, 30, NO_PACKAGES, NONE));
}

/* 64 bundles, 20 among them; a connection from 0 names 20. */
static void build_crowd(void)
{
    regions(0, 2);
    ACCEPTED(region_install_v4(graph, 0, 20, NO_PACKAGES, NONE));
    ACCEPTED(region_connect_v5(graph, 0, 1, LIST(20), false, NO_ENTRIES, false, NONE));
    fill_bundles(1, REGION_MOST_BUNDLES - 1);
}

/* A connect and a disconnect, which are refused with the same number. */
static void refused_ends(uint32_t number, uint32_t source, uint32_t target)
{
    UNCHANGED(number, region_connect_v5(graph, source, target, descending, LONG_LIST, false, NO_ENTRIES, false, NONE));
    UNCHANGED(number, region_disconnect(graph, source, target));
}

/* A number that no region has is asked about before all else. */
static void no_region(void)
{
    static const uint32_t numbers[] = {64, 65, 66, 127, 128, 255, 256, 320, UINT32_C(1) << 31, UINT32_MAX - 63, UINT32_MAX};
    build_crowd();
    for (size_t i = 0; i < sizeof numbers / sizeof numbers[0]; i++) {
        UNCHANGED(REGION_NOT_A_REGION, region_add(graph, numbers[i]));
        UNCHANGED(REGION_NOT_A_REGION, region_remove(graph, numbers[i]));
        UNCHANGED(REGION_NOT_A_REGION, region_install_v4(graph, numbers[i], 20, descending, 9, zeros, 9, descending, 9));
        refused_ends(REGION_NOT_A_REGION, numbers[i], 1);
        refused_ends(REGION_NOT_A_REGION, 1, numbers[i]);
        refused_ends(REGION_NOT_A_REGION, numbers[i], 2);
        refused_ends(REGION_NOT_A_REGION, 2, numbers[i]);
        refused_ends(REGION_NOT_A_REGION, numbers[i], numbers[i]);
    }
}

/* Numbers that regions may have, beside those of the graph. */
static void no_such_region(void)
{
    static const uint32_t numbers[] = {2, 15, 16, 31, 32, 62, 63};
    build_crowd();
    for (size_t i = 0; i < sizeof numbers / sizeof numbers[0]; i++) {
        UNCHANGED(REGION_NO_SUCH_REGION, region_remove(graph, numbers[i]));
        UNCHANGED(REGION_NO_SUCH_REGION, region_install_v4(graph, numbers[i], 20, descending, 9, zeros, 9, descending, 9));
        refused_ends(REGION_NO_SUCH_REGION, numbers[i], 1);
        refused_ends(REGION_NO_SUCH_REGION, 1, numbers[i]);
        refused_ends(REGION_NO_SUCH_REGION, numbers[i], numbers[i]);
    }
}

static void install(void)
{
    build_crowd();
    UNCHANGED(REGION_LIST_TOO_LONG, region_install_v4(graph, 0, 20, descending, 9, zeros, 9, descending, 9));
    UNCHANGED(REGION_LIST_OUT_OF_ORDER, region_install_v4(graph, 0, 20, descending, 8, zeros, 8, descending, 8));
    UNCHANGED(REGION_INSTALLED, region_install_v4(graph, 0, 20, ascending, 8, zeros, 8, ascending, 8));
    ACCEPTED(region_uninstall(graph, 20));
    ACCEPTED(region_install_v4(graph, 1, 999, NO_PACKAGES, NONE));
    UNCHANGED(REGION_FILTERED, region_install_v4(graph, 0, 20, ascending, 8, zeros, 8, ascending, 8));
    UNCHANGED(REGION_FULL, region_install_v4(graph, 1, 20, ascending, 8, zeros, 8, ascending, 8));
    ACCEPTED(region_disconnect(graph, 0, 1));
    UNCHANGED(REGION_FULL, region_install_v4(graph, 0, 20, ascending, 8, zeros, 8, ascending, 8));
    ACCEPTED(region_uninstall(graph, 1000));
    ACCEPTED(region_install_v4(graph, 0, 20, ascending, 8, zeros, 8, ascending, 8));
}

static void uninstall(void)
{
    build_g();
    UNCHANGED(REGION_NOT_INSTALLED, region_uninstall(graph, 0));
    UNCHANGED(REGION_NOT_INSTALLED, region_uninstall(graph, 11));
    UNCHANGED(REGION_NOT_INSTALLED, region_uninstall(graph, UINT32_MAX));
}

static void connect_ends(void)
{
    build_g();
    UNCHANGED(REGION_ENDS_EQUAL, region_connect_v5(graph, 1, 1, descending, LONG_LIST, false, NO_ENTRIES, false, NONE));
    UNCHANGED(REGION_CONNECTED, region_connect_v5(graph, 0, 1, descending, LONG_LIST, false, NO_ENTRIES, false, NONE));
    UNCHANGED(REGION_CONNECTED, region_connect_v5(graph, 1, 2, NONE, true, NO_ENTRIES, true, NONE));
}

static void connect_lists(void)
{
    build_g();
    UNCHANGED(REGION_LIST_TOO_LONG, region_connect_v5(graph, 2, 0, ascending, 17, false, NO_ENTRIES, false, NONE));
    UNCHANGED(REGION_LIST_TOO_LONG, region_connect_v5(graph, 2, 0, NONE, false, ascending, 17, zeros, 17, tops, 17, false, NONE));
    UNCHANGED(REGION_LIST_TOO_LONG, region_connect_v5(graph, 2, 0, NONE, false, NO_ENTRIES, false, ascending, 17));
    UNCHANGED(REGION_LIST_TOO_LONG, region_connect_v5(graph, 2, 0, NONE, true, NO_ENTRIES, false, ascending, 17));
    UNCHANGED(REGION_LIST_TOO_LONG, region_connect_v5(graph, 2, 0, NONE, false, ascending, 17, zeros, 17, tops, 17, true, NONE));
    UNCHANGED(REGION_LIST_TOO_LONG, region_connect_v5(graph, 2, 0, LIST(2, 1), false, ENTRIES(2, 1), false, ascending, 17));
    UNCHANGED(REGION_LIST_OUT_OF_ORDER, region_connect_v5(graph, 2, 0, LIST(2, 1), false, NO_ENTRIES, false, NONE));
    UNCHANGED(REGION_LIST_OUT_OF_ORDER, region_connect_v5(graph, 2, 0, NONE, false, ENTRIES(2, 1), false, NONE));
    UNCHANGED(REGION_LIST_OUT_OF_ORDER, region_connect_v5(graph, 2, 0, NONE, false, NO_ENTRIES, false, LIST(2, 1)));
    UNCHANGED(REGION_LIST_OUT_OF_ORDER, region_connect_v5(graph, 2, 0, LIST(1, 1), true, NO_ENTRIES, true, NONE));
    UNCHANGED(REGION_LIST_OUT_OF_ORDER, region_connect_v5(graph, 2, 0, NONE, true, NO_ENTRIES, false, LIST(1, 2, 2)));
    UNCHANGED(REGION_LIST_OUT_OF_ORDER, region_connect_v5(graph, 2, 0, NONE, false, ENTRIES(1, 2, 2), true, NONE));
}

static void connect_full(void)
{
    fill_connections();
    UNCHANGED(REGION_LIST_TOO_LONG, region_connect_v5(graph, 0, 4, descending, 17, false, NO_ENTRIES, false, NONE));
    UNCHANGED(REGION_LIST_OUT_OF_ORDER, region_connect_v5(graph, 0, 4, descending, 16, false, NO_ENTRIES, false, NONE));
    UNCHANGED(REGION_FULL, region_connect_v5(graph, 0, 4, ascending, 16, false, NO_ENTRIES, false, NONE));
    ACCEPTED(region_disconnect(graph, 63, 2));
    ACCEPTED(region_connect_v5(graph, 0, 4, ascending, 16, false, NO_ENTRIES, false, NONE));
}

static void disconnect(void)
{
    build_g();
    UNCHANGED(REGION_ENDS_EQUAL, region_disconnect(graph, 0, 0));
    UNCHANGED(REGION_NOT_CONNECTED, region_disconnect(graph, 1, 0));
    UNCHANGED(REGION_NOT_CONNECTED, region_disconnect(graph, 0, 2));
}

void test_refused_changes(void)
{
    add();
    remove_region();
    no_region();
    no_such_region();
    install_lists();
    install();
    uninstall();
    connect_ends();
    connect_lists();
    connect_full();
    disconnect();
}
