#include "graphs.h"

void regions(uint32_t from, uint32_t below)
{
    lend();
    for (uint32_t region = from; region < below; region++) {
        ACCEPTED(region_add(graph, region));
    }
}

void put_g(region_graph *record)
{
    region_empty(record);
    CHECK(region_add(record, 0) == REGION_NOT_REFUSED);
    CHECK(region_add(record, 1) == REGION_NOT_REFUSED);
    CHECK(region_add(record, 2) == REGION_NOT_REFUSED);
    CHECK(region_install_v4(record, 0, 10, NO_PACKAGES, NONE) == REGION_NOT_REFUSED);
    CHECK(region_install_v4(record, 1, 20, PACKAGES(1), NONE) == REGION_NOT_REFUSED);
    CHECK(region_install_v4(record, 2, 30, PACKAGES(1, 2, 3), NONE) == REGION_NOT_REFUSED);
    CHECK(region_connect_v5(record, 0, 1, NONE, false, ENTRIES(1, 2), false, NONE) == REGION_NOT_REFUSED);
    CHECK(region_connect_v5(record, 1, 2, NONE, false, ENTRIES(1, 3), false, NONE) == REGION_NOT_REFUSED);
}

void build_g(void)
{
    lend();
    expect_same();
    put_g(graph);
    expect_record();
    check_call(true, __FILE__, __LINE__, "put_g");
}

void build_cycle(void)
{
    regions(3, 5);
    ACCEPTED(region_install_v4(graph, 3, 10, NO_PACKAGES, NONE));
    ACCEPTED(region_install_v4(graph, 4, 20, NO_PACKAGES, NONE));
    ACCEPTED(region_connect_v5(graph, 3, 4, NONE, false, NO_ENTRIES, false, LIST(77)));
    ACCEPTED(region_connect_v5(graph, 4, 3, NONE, false, NO_ENTRIES, false, LIST(77)));
}

/* A connection that passes all services. */
static void open_services(uint32_t source, uint32_t target)
{
    ACCEPTED(region_connect_v5(graph, source, target, NONE, false, NO_ENTRIES, true, NONE));
}

/* Every region, bundle 10 in one, and bundle 20, which publishes service 5, in another. */
static void asker_and_holder(uint32_t asker, uint32_t holder)
{
    regions(0, REGION_REGIONS);
    ACCEPTED(region_install_v4(graph, asker, 10, NO_PACKAGES, NONE));
    ACCEPTED(region_install_v4(graph, holder, 20, NO_PACKAGES, LIST(5)));
}

void build_diamond(void)
{
    asker_and_holder(0, 3);
    open_services(0, 1);
    open_services(0, 2);
    open_services(1, 3);
    open_services(2, 3);
}

void build_tie(const uint8_t *ends)
{
    asker_and_holder(ends[0], ends[5]);
    open_services(ends[0], ends[1]);
    open_services(ends[0], ends[2]);
    open_services(ends[1], ends[4]);
    open_services(ends[2], ends[3]);
    open_services(ends[3], ends[5]);
    open_services(ends[4], ends[5]);
}

void build_chain(void)
{
    const uint32_t last = REGION_REGIONS - 1;
    asker_and_holder(last - REGION_MOST_CONNECTIONS, last);
    for (uint32_t region = last - REGION_MOST_CONNECTIONS; region < last; region++) {
        open_services(region, region + 1);
    }
}

void fill_bundles(uint32_t region, uint32_t count)
{
    for (uint32_t i = 0; i < count; i++) {
        ACCEPTED(region_install_v4(graph, region, 1000 + i, NO_PACKAGES, NONE));
    }
}

void fill_connections(void)
{
    regions(0, REGION_REGIONS);
    for (uint32_t source = REGION_REGIONS - 16; source < REGION_REGIONS; source++) {
        for (uint32_t step = 1; step <= 3; step++) {
            ACCEPTED(region_connect_v5(graph, source, (source + step) % REGION_REGIONS, NONE, false, NO_ENTRIES, false, NONE));
        }
    }
}
