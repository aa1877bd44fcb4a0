#include "check.hpp"

static bool same(const Bundle &bundle, const region_bundle &in_c)
{
    const region_provides provides = region_provides_of(&in_c);
    const Packages packages({provides.packages, provides.package_count}, {provides.versions, provides.package_count});
    const Services services({provides.services, provides.service_count});
    const Packages of = bundle.packages();
    const Services published = bundle.services();
    return bundle.location() == Location(in_c.location) && bundle.region() == Region(in_c.region) && of.size() == packages.size()
        && std::equal(of.begin(), of.end(), packages.begin()) && published.size() == services.size()
        && std::equal(published.begin(), published.end(), services.begin());
}

// The bundles and connections of a graph are those that C reads; and the graph that is made of them is the same.
static void test_listed(const Graph &graph)
{
    Graph again;
    std::size_t index = 0;
    CHECK(graph.regions().bits() == region_set(&graph.record()));
    for (Region region : graph.regions()) {
        CHECK(bool(again.add(region)));
    }
    for (const Bundle &bundle : graph.bundles()) {
        region_bundle in_c{};
        CHECK(region_bundle_at(&graph.record(), &in_c, index++) == 1);
        CHECK(same(bundle, in_c));
        CHECK(graph.region_of(bundle.location()).value() == bundle.region());
        CHECK(bool(again.install(bundle.region(), bundle.location(), bundle.packages(), bundle.services())));
    }
    CHECK(index == graph.bundle_count() && index == region_bundle_count(&graph.record()));
    index = 0;
    for (const Connection &connection : graph.connections()) {
        region_connection in_c{};
        CHECK(region_connection_at(&graph.record(), &in_c, index++) == 1);
        CHECK(connection.importing().region == Region(in_c.source) && connection.imported().region == Region(in_c.target));
        CHECK(bool(again.connect(connection.importing(), connection.imported(), connection.filter())));
    }
    CHECK(index == graph.connection_count() && index == region_connection_count(&graph.record()));
    CHECK(again == graph);
}

static void test_regions()
{
    Graph graph;
    CHECK(graph.regions().size() == 0 && graph.regions().begin() == graph.regions().end());
    for (std::uint32_t region : {63u, 0u, 17u}) {
        CHECK(bool(graph.add(Region(region))));
    }
    CHECK(has(graph.regions(), Region(0), Region(17), Region(63)));
    CHECK(graph.regions().contains(Region(63)) && !graph.regions().contains(Region(62)));
    CHECK(!graph.regions().contains(Region(64)) && !graph.regions().contains(Region(127)));
    CHECK(graph.regions()[3] == Region(REGION_REGIONS));
}

static void test_bundles()
{
    const Graph graph = three_regions();
    CHECK(graph.bundle_count() == 3 && graph.bundles().size() == 3);
    const auto first = graph.bundle(0), last = graph.bundle(2);
    CHECK(first && first->location() == Location(10) && first->region() == Region(0));
    CHECK(first && has(first->packages()) && has(first->services()));
    CHECK(last && last->location() == Location(30) && last->region() == Region(2));
    CHECK(last && has(last->packages(), Package{1, 0}, Package{2, 0}, Package{3, 7}));
    CHECK(last && has(last->services(), Service(5), Service(6)));
    CHECK(!graph.bundle(3) && !graph.bundle(SIZE_MAX));
    CHECK(graph.region_of(Location(20)).value() == Region(1));
    CHECK(graph.region_of(Location(21)).refusal() == Refusal::not_installed && !graph.region_of(Location(21)));
}

static void test_connections()
{
    const Graph graph = three_regions();
    CHECK(graph.connection_count() == 2 && graph.connections().size() == 2);
    const auto first = graph.connection(0), second = graph.connection(1);
    CHECK(first && first->importing().region == Region(0) && first->imported().region == Region(1));
    CHECK(second && second->importing().region == Region(1) && second->imported().region == Region(2));
    const Filter listed = first->filter(), all = second->filter();
    CHECK(has(listed.bundles, Location(20)) && !listed.packages.all() && listed.packages.listed().size() == 3);
    const Entry entry = listed.packages.listed()[2];
    CHECK(entry.number == 3 && entry.lowest == 5 && entry.highest == 9);
    CHECK(!listed.services.all() && has(listed.services.listed(), Service(5)));
    CHECK(has(all.bundles) && all.packages.all() && all.packages.listed().size() == 0);
    CHECK(!all.services.all() && has(all.services.listed(), Service(6)));
    CHECK(!graph.connection(2) && !graph.connection(SIZE_MAX));
}

static void test_all_services()
{
    Graph graph = three_regions();
    CHECK(bool(graph.connect(Importing(Region(2)), Imported(Region(1)), Filter{{}, {}, all_services})));
    const auto last = graph.connection(2);
    CHECK(last && last->filter().services.all() && !last->filter().packages.all());
    CHECK(last && last->filter().packages.listed().size() == 0);
    test_listed(graph);
}

static void test_examples()
{
    for (const char *name :
         {"g.archive", "versions.archive", "plates.archive", "longest.archive", "empty.archive", "cyclic.archive"}) {
        Graph graph;
        const auto bytes = example(name);
        CHECK(bool(graph.read(bytes)));
        test_listed(graph);
    }
}

void test_contents()
{
    test_regions();
    test_bundles();
    test_connections();
    test_all_services();
    test_listed(Graph());
    test_listed(three_regions());
    test_examples();
}
