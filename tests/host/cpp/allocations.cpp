#include "check.hpp"

#include <sys/wait.h>
#include <unistd.h>

// Memory that every call of the test borrows.
struct Lent {
    Numbers numbers{10, 20, 30}, out = Numbers(3), others = Numbers(3);
    Versions versions{0, 0, 0}, out_versions = Versions(3);
    std::vector<std::uint8_t> archive = example("g.archive"), sheet = example("g.names"), bytes = std::vector<std::uint8_t>(20000);
};

// How many of the calls are accepted.
static int change(Graph &graph, const Lent &lent)
{
    const Filter filter{Locations(lent.numbers), Entries(lent.numbers, lent.versions, lent.versions), all_services};
    const Importing importing(Region(5));
    const Imported imported(Region(6));
    int accepted = 0;
    accepted += bool(graph.read(lent.archive));
    accepted += bool(graph.add(importing.region)) + bool(graph.add(imported.region)) + bool(graph.add(Region(99)));
    accepted += bool(graph.install(Region(5), Location(50), Packages(lent.numbers, lent.versions), Services(lent.numbers)));
    accepted += bool(graph.connect(importing, imported, filter));
    accepted += bool(graph.disconnect(importing, imported));
    accepted += bool(graph.uninstall(Location(50)));
    accepted += bool(graph.remove(Region(5)));
    return accepted;
}

// How much the calls find.
static std::size_t query(const Graph &graph, Lent &lent)
{
    const Candidates candidates(Locations(lent.numbers), Packages(lent.numbers, lent.versions));
    const CandidatesOut offers(LocationsOut(lent.out), PackagesOut(lent.others, lent.out_versions));
    const Locations locations(lent.numbers);
    std::size_t found = graph.regions().size() + graph.image_length() + graph.region_of(Location(10)).value().value;
    for (const Bundle &bundle : graph.bundles()) {
        found += bundle.packages().size() + bundle.services().size();
    }
    for (const Connection &connection : graph.connections()) {
        found += connection.filter().packages.listed().size();
    }
    found += graph.write(lent.bytes).value().size();
    found += graph.route(Location(10), Package{1, 0}).seen();
    found += graph.route(Location(10), Service(1)).hidden();
    found += graph.find_bundles(Location(10), locations, LocationsOut(lent.out)).value().size();
    found += graph.find_services(Location(10), Services(lent.numbers), ServicesOut(lent.out)).value().size();
    found += graph.resolve(Location(10), candidates, offers).value().size();
    found += graph.bundle_event(locations, Location(10), LocationsOut(lent.out)).value().size();
    found += graph.service_event(locations, Service(1), LocationsOut(lent.out)).value().size();
    found += archive_query(lent.archive, Location(10), Service(1)).hidden();
    found += archive_forward(lent.archive, lent.bytes).value().size() + bool(archive_back(lent.archive, lent.bytes));
    return found + name(lent.sheet, Region(0)).value().size() + std::strlen(text(Refusal::full)) + library_matches();
}

void test_allocations()
{
    Lent lent;
    const std::size_t before = allocations();
    Graph graph;
    const int accepted = change(graph, lent);
    const Graph copy = graph;
    const std::size_t found = query(copy, lent);
    const bool equal = copy == graph;
    CHECK(allocations() == before);
    CHECK(accepted == 8 && found > 0 && equal);
    ::operator delete(::operator new(8));
    CHECK(allocations() == before + 1);
}

// Whether a function ends its program by std::terminate.
template <class Call> static bool ends(Call call)
{
    const pid_t child = fork();
    if (child == 0) {
        std::set_terminate([] { _exit(42); });
        call();
        _exit(0);
    }
    int status = 0;
    return waitpid(child, &status, 0) == child && WIFEXITED(status) && WEXITSTATUS(status) == 42;
}

void test_ends()
{
    const Graph graph = three_regions();
    CHECK(ends([&graph] { (void)graph.region_of(Location(99)).value(); }));
    CHECK(ends([&graph] { (void)graph.bundles()[3]; }));
    CHECK(ends([&graph] { (void)graph.connections()[2]; }));
    CHECK(!ends([&graph] { (void)graph.region_of(Location(10)).value(); }));
    CHECK(!ends([&graph] { (void)graph.bundles()[2]; }));
}
