#include "check.hpp"

#include <array>

static const Numbers askers{10, 20, 30, 40}, items{0, 1, 2, 3, 4, 5, 6, 10, 20, 30, 20};

static void compare_routes(const Graph &graph, Location asker, Item item)
{
    const Route route = graph.route(asker, item);
    std::uint8_t buffer[REGION_ROUTE_BYTES];
    const std::int64_t answer =
        region_route(&graph.record(), buffer, sizeof buffer, asker.value, item.kind, item.number, item.version);
    CHECK(route.seen() == (answer >= 0) && route.hidden() == region_is_hidden(answer));
    CHECK(route.refused() == (region_refused(answer) != 0) && route.refusal() == static_cast<Refusal>(region_refused(answer)));
    CHECK(route.seen() + route.hidden() + route.refused() == 1);
    const auto regions = route.regions();
    CHECK(regions.size() == (answer < 0 ? 0 : static_cast<std::size_t>(answer) + 1));
    for (std::size_t i = 0; i < regions.size(); i++) {
        CHECK(regions[i] == Region(buffer[i]));
    }
}

static void test_routes()
{
    const Graph graph = three_regions();
    for (std::uint32_t asker : askers) {
        for (std::uint32_t item : items) {
            compare_routes(graph, Location(asker), Item(Location(item)));
            compare_routes(graph, Location(asker), Package(item, 0));
            compare_routes(graph, Location(asker), Package(item, 7));
            compare_routes(graph, Location(asker), Service(item));
        }
    }
    const Route two = graph.route(Location(10), Package{3, 7}), own = graph.route(Location(10), Item(Location(10)));
    CHECK(two.seen() && has(two.regions(), Region(0), Region(1), Region(2)));
    CHECK(own.seen() && has(own.regions(), Region(0)));
    const Route hidden = graph.route(Location(10), Service(6)), refused = graph.route(Location(11), Service(6));
    CHECK(hidden.hidden() && !hidden.refused() && !hidden.seen() && hidden.refusal() == Refusal::not_refused);
    CHECK(refused.refused() && !refused.hidden() && !refused.seen() && refused.refusal() == Refusal::not_installed);
}

// Whether a result is that of an answer of C, with the numbers that C wrote, in the memory that was lent; later places are kept.
template <class View> static bool same(const Result<View> &result, std::int64_t answer, const Numbers &out, const Numbers &in_c)
{
    if (answer < 0 || !result) {
        return !result && result.refusal() == static_cast<Refusal>(region_refused(answer)) && out == in_c;
    }
    const auto numbers = result.value().template list<0>();
    return numbers.data() == out.data() && numbers.size() == static_cast<std::size_t>(answer) && out == in_c;
}

static void compare_finds(const Graph &graph, std::uint32_t asker, std::size_t places)
{
    Numbers out(places, 77), in_c(places, 77);
    const auto bundles = graph.find_bundles(Location(asker), Locations(items), LocationsOut(out));
    CHECK(same(bundles, region_bundle_find(&graph.record(), in_c.data(), places, asker, items.data(), items.size()), out, in_c));
    const auto services = graph.find_services(Location(asker), Services(items), ServicesOut(out));
    CHECK(same(services, region_service_find(&graph.record(), in_c.data(), places, asker, items.data(), items.size()), out, in_c));
}

static void test_finds()
{
    const Graph graph = three_regions();
    for (std::uint32_t asker : askers) {
        compare_finds(graph, asker, items.size() - 1);
        compare_finds(graph, asker, items.size());
        compare_finds(graph, asker, items.size() + 3);
    }
    std::array<std::uint32_t, 11> out{};
    CHECK(has(graph.find_bundles(Location(10), Locations(items), LocationsOut(out)).value(), Location(10), Location(20),
              Location(20)));
    CHECK(has(graph.find_services(Location(20), Services(items), ServicesOut(out)).value(), Service(5), Service(6)));
    CHECK(graph.find_bundles(Location(40), Locations(items), LocationsOut(out)).refusal() == Refusal::not_installed);
    CHECK(graph.find_services(Location(10), Services(items), ServicesOut({out.data(), 10})).refusal() == Refusal::no_place);
}

static void compare_events(const Graph &graph, std::uint32_t item, const Numbers &listeners, std::size_t places)
{
    Numbers out(places, 77), in_c(places, 77);
    const auto bundle = graph.bundle_event(Locations(listeners), Location(item), LocationsOut(out));
    CHECK(same(bundle, region_bundle_event(&graph.record(), in_c.data(), places, listeners.data(), listeners.size(), item), out,
               in_c));
    const auto service = graph.service_event(Locations(listeners), Service(item), LocationsOut(out));
    CHECK(same(service, region_service_event(&graph.record(), in_c.data(), places, listeners.data(), listeners.size(), item), out,
               in_c));
}

static void test_events()
{
    const Graph graph = three_regions();
    const Numbers all{30, 20, 10, 20}, none{}, one_missing{10, 11};
    for (std::uint32_t item : items) {
        compare_events(graph, item, all, 3);
        compare_events(graph, item, all, 4);
        compare_events(graph, item, all, 9);
        compare_events(graph, item, none, 0);
        compare_events(graph, item, one_missing, 2);
    }
    std::uint32_t out[4];
    CHECK(
        has(graph.bundle_event(Locations(all), Location(20), LocationsOut(out)).value(), Location(20), Location(10), Location(20)));
    CHECK(
        has(graph.service_event(Locations(all), Service(6), LocationsOut(out)).value(), Location(30), Location(20), Location(20)));
    CHECK(graph.bundle_event(Locations(one_missing), Location(20), LocationsOut(out)).refusal() == Refusal::not_installed);
    CHECK(graph.service_event(Locations(all), Service(6), LocationsOut({out, 3})).refusal() == Refusal::no_place);
}

// The lists of candidates and outputs, each with a count of its own.
struct Offers {
    Numbers exporters, packages;
    Versions versions;
};

static const Offers offered{{30, 30, 20, 30, 30, 30}, {1, 3, 1, 3, 2, 1}, {0, 7, 0, 6, 0, 0}};

static std::int64_t resolve_in_c(const Graph &graph, std::uint32_t asker, const Offers &from, Offers &to)
{
    return region_resolve_v4(&graph.record(), to.exporters.data(), to.exporters.size(), to.packages.data(), to.packages.size(),
                             to.versions.data(), to.versions.size(), asker, from.exporters.data(), from.exporters.size(),
                             from.packages.data(), from.packages.size(), from.versions.data(), from.versions.size());
}

static Result<Candidates> resolve(const Graph &graph, std::uint32_t asker, const Offers &from, Offers &to)
{
    return graph.resolve(Location(asker), Candidates(Locations(from.exporters), Packages(from.packages, from.versions)),
                         CandidatesOut(LocationsOut(to.exporters), PackagesOut(to.packages, to.versions)));
}

static void compare_resolves(const Graph &graph, std::uint32_t asker, const Offers &from, const Offers &places)
{
    Offers out = places, in_c = places;
    const auto result = resolve(graph, asker, from, out);
    const std::int64_t answer = resolve_in_c(graph, asker, from, in_c);
    CHECK(out.exporters == in_c.exporters && out.packages == in_c.packages && out.versions == in_c.versions);
    CHECK(result.refusal() == static_cast<Refusal>(region_refused(answer)));
    CHECK(bool(result) == (answer >= 0));
    if (!result) {
        return;
    }
    CHECK(result.value().size() == static_cast<std::size_t>(answer));
    std::size_t index = 0;
    for (Candidate candidate : result.value()) {
        CHECK(candidate.exporter == Location(in_c.exporters[index]));
        CHECK(candidate.package == Package(in_c.packages[index], in_c.versions[index]));
        index++;
    }
}

static void test_resolve()
{
    const Graph graph = three_regions();
    const Offers six{Numbers(6, 77), Numbers(6, 77), Versions(6, 77)};
    for (std::uint32_t asker : askers) {
        compare_resolves(graph, asker, offered, six);
        for (std::size_t longest = 0; longest <= 8; longest++) {
            compare_resolves(graph, asker, {Numbers(longest, 30), offered.packages, offered.versions}, six);
            compare_resolves(graph, asker, {offered.exporters, Numbers(longest, 1), offered.versions}, six);
            compare_resolves(graph, asker, {offered.exporters, offered.packages, Versions(longest)}, six);
            compare_resolves(graph, asker, offered, {Numbers(longest, 77), Numbers(9, 77), Versions(9, 77)});
            compare_resolves(graph, asker, offered, {Numbers(9, 77), Numbers(longest, 77), Versions(9, 77)});
            compare_resolves(graph, asker, offered, {Numbers(9, 77), Numbers(9, 77), Versions(longest, 77)});
        }
    }
    Offers out = six;
    const auto found = resolve(graph, 10, offered, out).value();
    CHECK(found.size() == 5 && found[1].package == Package{3, 7} && found[2].exporter == Location(20));
}

void test_queries()
{
    test_routes();
    test_finds();
    test_events();
    test_resolve();
}
