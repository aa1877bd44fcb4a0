#include "check.hpp"

#include <numeric>

// A graph and a record, on which the same changes are made: by members, and by calls of C.
struct Both {
    Graph graph;
    region_graph record;
};

static Both empty()
{
    Both both;
    region_empty(&both.record);
    return both;
}

static Both three()
{
    return {three_regions(), three_regions_in_c()};
}

// Whether both answers are the refusal, and both graphs are the same.
static bool same(const Both &both, Refusal refusal, Answer answer, std::uint32_t number)
{
    return answer.refusal() == refusal && bool(answer) == (refusal == Refusal::not_refused)
        && number == static_cast<std::uint32_t>(refusal) && both.graph == Graph(both.record);
}

// The refusal of a member of both.graph, and of a call of C on &both.record. Where it is one, the graph is as it was.
#define CHANGES(refusal, member, call) \
    do { \
        const Graph before = both.graph; \
        const Answer answer = both.graph.member; \
        const std::uint32_t number = call; \
        CHECK(same(both, Refusal::refusal, answer, number)); \
        CHECK((both.graph == before) == (Refusal::refusal != Refusal::not_refused)); \
    } while (0)

static void test_start()
{
    const Both both = empty();
    CHECK(both.graph == Graph(both.record));
    CHECK(std::memcmp(&both.graph.record(), &both.record, sizeof both.record) == 0);
    CHECK(three().graph == Graph(three().record));
}

static void test_equality()
{
    Graph graph = three_regions();
    const Graph copy = graph;
    CHECK(copy == graph && !(copy != graph));
    CHECK(bool(graph.uninstall(Location(30))));
    CHECK(copy != graph && !(copy == graph));
    CHECK(copy == three_regions());
    graph = copy;
    CHECK(copy == graph);
    CHECK(copy != Graph());
}

static void test_accepted()
{
    Both both = three();
    CHANGES(not_refused, add(Region(63)), region_add(&both.record, 63));
    CHANGES(not_refused, disconnect(Importing(Region(0)), Imported(Region(1))), region_disconnect(&both.record, 0, 1));
    CHANGES(not_refused, uninstall(Location(10)), region_uninstall(&both.record, 10));
    CHANGES(not_refused, remove(Region(2)), region_remove(&both.record, 2));
    CHECK(both.graph.regions().bits() == ((std::uint64_t{1} << 63) | 3));
    CHECK(both.graph.bundle_count() == 1 && both.graph.connection_count() == 0);
}

// Each list of a call has its own count: the shortest counts.
static void test_counts()
{
    Both both = three();
    const Numbers two{1, 2}, three_numbers{1, 2, 3}, nine(9);
    const Versions one{4}, four{4, 5, 6, 7};
    CHANGES(not_refused, install(Region(0), Location(1), Packages(three_numbers, one), Services(two)),
            region_install_v4(&both.record, 0, 1, three_numbers.data(), 3, one.data(), 1, two.data(), 2));
    CHANGES(not_refused, install(Region(0), Location(2), Packages(nine, one)),
            region_install_v4(&both.record, 0, 2, nine.data(), 9, one.data(), 1, nullptr, 0));
    CHANGES(not_refused, connect(Importing(Region(2)), Imported(Region(0)), Filter{{}, Entries(three_numbers, four, four), {}}),
            region_connect_v5(&both.record, 2, 0, nullptr, 0, 0, three_numbers.data(), 3, four.data(), 4, four.data(), 4, 0,
                              nullptr, 0));
    CHANGES(not_refused, connect(Importing(Region(2)), Imported(Region(1)), Filter{{}, Entries(two, four, one), all_services}),
            region_connect_v5(&both.record, 2, 1, nullptr, 0, 0, two.data(), 2, four.data(), 4, one.data(), 1, 1, nullptr, 0));
    CHANGES(not_refused, connect(Importing(Region(1)), Imported(Region(0)), Filter{{}, Entries(two, one, four), {}}),
            region_connect_v5(&both.record, 1, 0, nullptr, 0, 0, two.data(), 2, one.data(), 1, four.data(), 4, 0, nullptr, 0));
    const auto bundle = both.graph.bundle(0);
    CHECK(bundle && has(bundle->packages(), Package{1, 4}) && has(bundle->services(), Service(1), Service(2)));
}

void test_changes()
{
    test_start();
    test_equality();
    test_accepted();
    test_counts();
}

static void test_refused_regions()
{
    Both both = three();
    CHANGES(not_a_region, add(Region(64)), region_add(&both.record, 64));
    CHANGES(used, add(Region(2)), region_add(&both.record, 2));
    CHANGES(not_a_region, remove(Region(64)), region_remove(&both.record, 64));
    CHANGES(no_such_region, remove(Region(3)), region_remove(&both.record, 3));
    const Importing from(Region(0));
    CHANGES(not_a_region, disconnect(from, Imported(Region(64))), region_disconnect(&both.record, 0, 64));
    CHANGES(no_such_region, disconnect(from, Imported(Region(3))), region_disconnect(&both.record, 0, 3));
    CHANGES(ends_equal, disconnect(from, Imported(Region(0))), region_disconnect(&both.record, 0, 0));
    CHANGES(not_connected, disconnect(Importing(Region(1)), Imported(Region(0))), region_disconnect(&both.record, 1, 0));
    CHANGES(not_installed, uninstall(Location(11)), region_uninstall(&both.record, 11));
}

static void test_refused_installs()
{
    Both both = three();
    const Numbers nine{1, 2, 3, 4, 5, 6, 7, 8, 9}, reversed{2, 1};
    const region_provides none{}, services{nullptr, nullptr, 0, nine.data(), 9}, order{nullptr, nullptr, 0, reversed.data(), 2};
    CHANGES(not_a_region, install(Region(64), Location(1)), region_install(&both.record, 64, 1, &none));
    CHANGES(no_such_region, install(Region(3), Location(1)), region_install(&both.record, 3, 1, &none));
    CHANGES(list_too_long, install(Region(0), Location(1), {}, Services(nine)), region_install(&both.record, 0, 1, &services));
    CHANGES(list_out_of_order, install(Region(0), Location(1), {}, Services(reversed)), region_install(&both.record, 0, 1, &order));
    CHANGES(installed, install(Region(0), Location(30)), region_install(&both.record, 0, 30, &none));
    CHANGES(not_refused, uninstall(Location(20)), region_uninstall(&both.record, 20));
    CHANGES(filtered, install(Region(0), Location(20)), region_install(&both.record, 0, 20, &none));
    for (std::uint32_t location = 100; both.graph.bundle_count() < REGION_MOST_BUNDLES; location++) {
        CHANGES(not_refused, install(Region(2), Location(location)), region_install(&both.record, 2, location, &none));
    }
    CHANGES(full, install(Region(0), Location(99)), region_install(&both.record, 0, 99, &none));
}

static void test_refused_connects()
{
    Both both = three();
    const Importing from(Region(2));
    const Imported to(Region(0));
    Numbers many(17);
    std::iota(many.begin(), many.end(), 1);
    const std::uint32_t reversed[] = {2, 1}, one[] = {1};
    const std::uint16_t two[] = {2}, three_version[] = {3};
    region_filter none{}, many_bundles{}, order{}, range{};
    many_bundles.bundles = many.data();
    many_bundles.bundle_count = many.size();
    order.services = reversed;
    order.service_count = 2;
    range.packages = one;
    range.lowest = three_version;
    range.highest = two;
    range.package_count = 1;
    CHANGES(not_a_region, connect(from, Imported(Region(64)), {}), region_connect(&both.record, 2, 64, &none));
    CHANGES(no_such_region, connect(Importing(Region(3)), to, {}), region_connect(&both.record, 3, 0, &none));
    CHANGES(ends_equal, connect(from, Imported(Region(2)), {}), region_connect(&both.record, 2, 2, &none));
    CHANGES(connected, connect(Importing(Region(0)), Imported(Region(1)), {}), region_connect(&both.record, 0, 1, &none));
    CHANGES(list_too_long, connect(from, to, Filter{Locations(many)}), region_connect(&both.record, 2, 0, &many_bundles));
    CHANGES(list_out_of_order, connect(from, to, Filter{{}, {}, Services(reversed)}), region_connect(&both.record, 2, 0, &order));
    CHANGES(range_reversed, connect(from, to, Filter{{}, Entries(one, three_version, two), {}}),
            region_connect(&both.record, 2, 0, &range));
}

static void test_too_many_connections()
{
    Both both = three();
    const region_filter none{};
    for (std::uint32_t region = 3; region < 50; region++) {
        CHANGES(not_refused, add(Region(region)), region_add(&both.record, region));
    }
    for (std::uint32_t region = 3; both.graph.connection_count() < REGION_MOST_CONNECTIONS; region++) {
        CHANGES(not_refused, connect(Importing(Region(region)), Imported(Region(0)), {}),
                region_connect(&both.record, region, 0, &none));
    }
    CHANGES(full, connect(Importing(Region(2)), Imported(Region(0)), {}), region_connect(&both.record, 2, 0, &none));
}

void test_refused_changes()
{
    test_refused_regions();
    test_refused_installs();
    test_refused_connects();
    test_too_many_connections();
}
