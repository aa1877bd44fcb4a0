#include "check.hpp"

using Image = std::vector<std::uint8_t>;

static void test_g()
{
    const Image bytes = example("g.archive");
    Graph graph;
    CHECK(bool(graph.read(bytes)));
    CHECK(has(graph.regions(), Region(0), Region(1), Region(2)));
    CHECK(graph.bundle_count() == 3 && graph.connection_count() == 2);
    const Bundle last = graph.bundles()[2];
    CHECK(last.location() == Location(30) && last.region() == Region(2));
    CHECK(has(last.packages(), Package{1, 0}, Package{2, 0}, Package{3, 0}));
    const Connection first = graph.connections()[0];
    const auto entries = first.filter().packages.listed();
    CHECK(entries.size() == 2 && entries[0].number == 1 && entries[1].number == 2);
    CHECK(entries[1].lowest == 0 && entries[1].highest == REGION_HIGHEST_VERSION);
    CHECK(archive_query(bytes, Location(20), Package{3, 0}).seen());
    CHECK(archive_query(bytes, Location(10), Package{3, 0}).hidden());
}

static void test_versions()
{
    const Image bytes = example("versions.archive");
    Graph graph;
    CHECK(bool(graph.read(bytes)));
    const auto bundle = graph.bundle(2);
    const auto connection = graph.connection(1);
    CHECK(bundle && has(bundle->packages(), Package{1, 0}, Package{1, 7}, Package{2, 3}));
    CHECK(connection && connection->filter().packages.listed()[0].lowest == 5);
    CHECK(connection && connection->filter().packages.listed()[0].highest == 9);
    CHECK(graph.route(Location(10), Package{1, 7}).seen() && graph.route(Location(10), Package{2, 3}).hidden());
    CHECK(archive_query(bytes, Location(10), Package{1, 7}).seen());
    CHECK(archive_query(bytes, Location(10), Package{1, 8}).hidden());
    CHECK(archive_query(bytes, Location(10), Package{2, 3}).hidden());
}

static void test_write(const Graph &graph)
{
    const std::size_t length = graph.image_length();
    CHECK(length == region_image_length(&graph.record()));
    Image out(length + 5, 77), in_c(length + 5, 77);
    CHECK(region_write(&graph.record(), in_c.data(), in_c.size()) == static_cast<std::int64_t>(length));
    const auto written = graph.write(out);
    CHECK(written && written.value().data() == out.data() && written.value().size() == length && out == in_c);
    Graph again;
    CHECK(bool(again.read(written.value())) && again == graph);
    Image shorter(length - 1, 77);
    CHECK(graph.write(shorter).refusal() == Refusal::no_place && shorter == Image(length - 1, 77));
}

// A read that is refused, as the one of C, leaves the graph as it was.
static void test_refused_read(const char *name, Refusal refusal)
{
    const Image bytes = example(name);
    Graph graph = three_regions();
    region_graph record = three_regions_in_c();
    CHECK(region_read(&record, bytes.data(), bytes.size()) == static_cast<std::uint32_t>(refusal));
    CHECK(graph.read(bytes).refusal() == refusal);
    CHECK(graph == three_regions());
    const Sight sight = archive_query(bytes, Location(10), Service(1));
    CHECK(sight.refused() && !sight.hidden() && !sight.seen() && sight.refusal() == refusal);
}

static void test_sights()
{
    const Image bytes = example("g.archive");
    for (std::uint32_t asker : {10u, 20u, 30u, 40u}) {
        for (std::uint32_t item : {1u, 2u, 3u, 10u, 20u, 30u}) {
            for (Item of : {Item(Location(item)), Item(Package(item, 0)), Item(Package(item, 1)), Item(Service(item))}) {
                const Sight sight = archive_query(bytes, Location(asker), of);
                const std::uint32_t number =
                    region_archive_query(bytes.data(), bytes.size(), asker, of.kind, of.number, of.version);
                CHECK(sight.seen() == (number == REGION_SEEN) && sight.hidden() == (number == REGION_HIDDEN));
                CHECK(sight.refused() == (number < REGION_SEEN));
                CHECK(sight.refusal() == static_cast<Refusal>(sight.refused() ? number : 0));
            }
        }
    }
    CHECK(archive_query(bytes, Location(40), Service(1)).refusal() == Refusal::not_installed);
    CHECK(archive_query({}, Location(10), Service(1)).refusal() == Refusal::not_an_archive);
}

static void test_conversions()
{
    const Image old = example("g.archive"), versions = example("versions.archive");
    Image out(REGION_LONGEST_IMAGE, 77), in_c = out, back = out;
    const auto forward = archive_forward(old, out);
    const std::int64_t length = region_archive_forward(old.data(), old.size(), in_c.data(), in_c.size());
    CHECK(forward && forward.value().data() == out.data() && forward.value().size() == static_cast<std::size_t>(length));
    CHECK(out == in_c && Image(forward.value().begin(), forward.value().end()) == example("g-version-3.archive"));
    const auto again = archive_back(forward.value(), back);
    CHECK(again && Image(again.value().begin(), again.value().end()) == old);
    CHECK(archive_forward(versions, out).refusal() == Refusal::not_an_archive);
    CHECK(archive_back(versions, out).refusal() == Refusal::has_versions);
    CHECK(archive_back(old, out).refusal() == Refusal::not_an_archive);
    CHECK(archive_forward(old, {}).refusal() == Refusal::no_place);
    CHECK(archive_back(in_c, {}).refusal() == Refusal::wrong_length);
    CHECK(out == in_c);
}

void test_archives()
{
    test_g();
    test_versions();
    test_write(Graph());
    test_write(three_regions());
    test_refused_read("refused-15.archive", Refusal::not_an_archive);
    test_refused_read("refused-16.archive", Refusal::wrong_length);
    test_refused_read("refused-17.archive", Refusal::broken_layout);
    test_sights();
    test_conversions();
}

static bool found(const Image &sheet, const Result<std::string_view> &name, std::uint32_t kind, std::uint32_t number)
{
    std::size_t start = 0;
    const std::int64_t length = region_name(sheet.data(), sheet.size(), &start, kind, number);
    if (length < 0 || !name) {
        return !name && name.refusal() == static_cast<Refusal>(region_refused(length));
    }
    return name.value().size() == static_cast<std::size_t>(length)
        && static_cast<const void *>(name.value().data()) == static_cast<const void *>(sheet.data() + start);
}

void test_names()
{
    const Image sheet = example("g.names");
    CHECK(name(sheet, Region(0)).value() == "deck");
    CHECK(name(sheet, Item(Location(20))).value() == "transfer plan");
    for (std::uint32_t number = 0; number < 40; number++) {
        CHECK(found(sheet, name(sheet, Item(Location(number))), REGION_KIND_BUNDLE, number));
        CHECK(found(sheet, name(sheet, Package(number, 3)), REGION_KIND_PACKAGE, number));
        CHECK(found(sheet, name(sheet, Service(number)), REGION_KIND_SERVICE, number));
        CHECK(found(sheet, name(sheet, Region(number)), REGION_KIND_REGION, number));
    }
    CHECK(name(sheet, Service(1)).refusal() == Refusal::no_entry);
    CHECK(name(Bytes(), Region(0)).refusal() == Refusal::broken_sheet);
}
