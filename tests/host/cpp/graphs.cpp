#include "check.hpp"

static const std::uint32_t one[] = {1}, one_to_three[] = {1, 2, 3}, five[] = {5}, five_six[] = {5, 6}, six[] = {6}, twenty[] = {20};
static const std::uint16_t zero[] = {0}, exported[] = {0, 0, 7}, lowest[] = {0, 0, 5}, highest[] = {65535, 0, 9};

Graph three_regions()
{
    Graph graph;
    CHECK(graph.add(Region(0)) && graph.add(Region(1)) && graph.add(Region(2)));
    CHECK(bool(graph.install(Region(0), Location(10))));
    CHECK(bool(graph.install(Region(1), Location(20), Packages(one, zero), Services(five))));
    CHECK(bool(graph.install(Region(2), Location(30), Packages(one_to_three, exported), Services(five_six))));
    CHECK(bool(graph.connect(Importing(Region(0)), Imported(Region(1)),
                             Filter{Locations(twenty), Entries(one_to_three, lowest, highest), Services(five)})));
    CHECK(bool(graph.connect(Importing(Region(1)), Imported(Region(2)), Filter{{}, all_packages, Services(six)})));
    return graph;
}

static region_filter from_one()
{
    region_filter filter{};
    filter.bundles = twenty;
    filter.bundle_count = 1;
    filter.packages = one_to_three;
    filter.lowest = lowest;
    filter.highest = highest;
    filter.package_count = 3;
    filter.services = five;
    filter.service_count = 1;
    return filter;
}

static region_filter from_two()
{
    region_filter filter{};
    filter.pass_packages = REGION_PASS_ALL;
    filter.services = six;
    filter.service_count = 1;
    return filter;
}

region_graph three_regions_in_c()
{
    region_graph record;
    region_empty(&record);
    const region_provides nothing{}, of_twenty{one, zero, 1, five, 1}, of_thirty{one_to_three, exported, 3, five_six, 2};
    const region_filter first = from_one(), second = from_two();
    CHECK(region_add(&record, 0) == 0 && region_add(&record, 1) == 0 && region_add(&record, 2) == 0);
    CHECK(region_install(&record, 0, 10, &nothing) == 0);
    CHECK(region_install(&record, 1, 20, &of_twenty) == 0);
    CHECK(region_install(&record, 2, 30, &of_thirty) == 0);
    CHECK(region_connect(&record, 0, 1, &first) == 0);
    CHECK(region_connect(&record, 1, 2, &second) == 0);
    return record;
}
