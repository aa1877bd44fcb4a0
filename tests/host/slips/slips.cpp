// Slips in C++. With SLIP=N the line that ends in "slip N" is wrong, and does not compile; without SLIP all forms are right.
#include "wimboru.hpp"

#include <vector>

#ifndef SLIP
#define SLIP 0
#endif

using namespace wimboru;

void calls_of_c(region_graph &record);
void numbers(Graph &graph);
void lists(Graph &graph, const std::vector<std::uint32_t> &memory, const std::vector<std::uint16_t> &versions);
void filters(Graph &graph, const std::vector<std::uint32_t> &memory);
void answers(Graph &graph);

void calls_of_c(region_graph &record)
{
    const std::uint32_t list[] = {1};
    const std::uint16_t zero[] = {0};
    region_filter filter{};
    filter.bundles = list;
    filter.bundle_count = 1;
#if SLIP == 1
    bool accepted = region_connect(&record, 0, 1, list, 1, true) == 0; // slip 1
#else
    bool accepted = region_connect(&record, 0, 1, &filter) == 0;
#endif
#if SLIP == 2
    filter.pass_packages = list; // slip 2
#else
    filter.pass_packages = REGION_PASS_ALL;
#endif
#if SLIP == 3
    accepted = region_connect_v5(&record, 0, 1, list, 1, list, list, 1, zero, 1, zero, 1, 0, list, 1) == 0; // slip 3
#else
    accepted = region_connect_v5(&record, 0, 1, list, 1, 0, list, 1, zero, 1, zero, 1, 0, list, 1) == 0;
#endif
#if SLIP == 4
    filter.pass_services = true; // slip 4
#else
    filter.pass_services = REGION_PASS_ALL;
#endif
    (void)accepted;
}

void numbers(Graph &graph)
{
#if SLIP == 5
    bool accepted = bool(graph.add(1)); // slip 5
#else
    bool accepted = bool(graph.add(Region(1)));
#endif
#if SLIP == 6
    accepted = bool(graph.install(Region(0), Region(10))); // slip 6
#else
    accepted = bool(graph.install(Region(0), Location(10)));
#endif
#if SLIP == 7
    accepted = bool(graph.disconnect(Imported(Region(1)), Importing(Region(0)))); // slip 7
#else
    accepted = bool(graph.disconnect(Importing(Region(0)), Imported(Region(1))));
#endif
#if SLIP == 8
    accepted = graph.route(Item(Location(30)), Location(10)).seen(); // slip 8
#else
    accepted = graph.route(Location(10), Item(Location(30))).seen();
#endif
#if SLIP == 9
    accepted = graph.route(Location(10), Package{1, 65536}).seen(); // slip 9
#else
    accepted = graph.route(Location(10), Package{1, 65535}).seen();
#endif
    (void)accepted;
}

void lists(Graph &graph, const std::vector<std::uint32_t> &memory, const std::vector<std::uint16_t> &versions)
{
    std::vector<std::uint32_t> out(memory.size());
#if SLIP == 10
    const Locations candidates(std::vector<std::uint32_t>{1, 2}); // slip 10
#else
    const Locations candidates(memory);
#endif
#if SLIP == 11
    bool accepted = bool(graph.find_bundles(Location(10), Services(memory), LocationsOut(out))); // slip 11
#else
    bool accepted = bool(graph.find_bundles(Location(10), candidates, LocationsOut(out)));
#endif
#if SLIP == 12
    const Locations two({0, 1}); // slip 12
#else
    const Locations two({memory.data(), 1});
#endif
#if SLIP == 13
    accepted = bool(graph.install(Region(0), Location(1), Packages(versions, memory))); // slip 13
#else
    accepted = bool(graph.install(Region(0), Location(1), Packages(memory, versions)));
#endif
#if SLIP == 14
    const auto regions = graph.route(Location(10), Service(1)).regions(); // slip 14
#else
    const Route route = graph.route(Location(10), Service(1));
    const auto regions = route.regions();
#endif
    (void)two, (void)accepted, (void)regions;
}

void filters(Graph &graph, const std::vector<std::uint32_t> &memory)
{
    const Importing importing(Region(0));
    const Imported imported(Region(1));
#if SLIP == 15
    const Filter filter{{}, true, {}}; // slip 15
#elif SLIP == 16
    const Filter filter{{}, 1, {}};                                    // slip 16
#elif SLIP == 17
    const Filter filter{{}, memory.data(), {}};                                           // slip 17
#elif SLIP == 18
    const Filter filter{{}, {}, true}; // slip 18
#elif SLIP == 19
    const Filter filter{{}, all_services, all_packages}; // slip 19
#elif SLIP == 20
    const Filter filter{{}, REGION_PASS_ALL, {}};                // slip 20
#elif SLIP == 21
    const Filter filter{memory, all_packages, all_services}; // slip 21
#else
    const Filter filter{Locations(memory), all_packages, all_services};
#endif
#if SLIP == 22
    bool accepted = bool(graph.connect(imported, importing, filter)); // slip 22
#elif SLIP == 23
    bool accepted = bool(graph.connect(Region(0), Region(1), filter)); // slip 23
#elif SLIP == 24
    bool accepted = bool(graph.connect(importing, imported, Locations(memory), 1, true)); // slip 24
#else
    bool accepted = bool(graph.connect(importing, imported, filter));
#endif
    (void)accepted;
}

void answers(Graph &graph)
{
#if SLIP == 25
    graph.add(Region(1)); // slip 25
#elif SLIP == 26
    graph.route(Location(10), Service(1));                             // slip 26
#elif SLIP == 27
    graph.region_of(Location(10));                                                        // slip 27
#elif SLIP == 28
    const bool seen = bool(graph.route(Location(10), Service(1))); // slip 28
#elif SLIP == 29
    const bool refused = graph.add(Region(1));           // slip 29
#elif SLIP == 30
    const std::uint32_t number = graph.add(Region(1)).refusal(); // slip 30
#else
    const bool seen = graph.route(Location(10), Service(1)).seen() && graph.region_of(Location(10));
    const Refusal refusal = graph.add(Region(1)).refusal();
    (void)seen, (void)refusal;
#endif
}
