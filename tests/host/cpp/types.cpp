#include "check.hpp"

#include <array>
#if __cplusplus >= 202002L
#include <span>
#endif

// No number becomes another unless its type is written.
static_assert(!std::is_convertible_v<std::uint32_t, Region> && std::is_constructible_v<Region, std::uint32_t>);
static_assert(!std::is_constructible_v<Region, Location> && !std::is_constructible_v<Location, Service>);
static_assert(!std::is_convertible_v<Region, std::uint32_t> && !std::is_convertible_v<Region, Importing>);
static_assert(!std::is_constructible_v<Importing, Imported> && !std::is_constructible_v<Importing, std::uint32_t>);
static_assert(!std::is_convertible_v<Location, Item> && std::is_convertible_v<Package, Item>);
static_assert(!std::is_constructible_v<Item, Region>);

// Memory with a name and spans can be lent, temporaries that own memory cannot; for writing nothing constant can.
template <class Memory> constexpr bool read_of = std::is_constructible_v<Locations, Memory>;
template <class Memory> constexpr bool written_of = std::is_constructible_v<LocationsOut, Memory>;
static_assert(read_of<Numbers &> && read_of<const Numbers &> && !read_of<Numbers> && !read_of<const Numbers>);
static_assert(read_of<std::array<std::uint32_t, 2> &> && !read_of<std::array<std::uint32_t, 2>>);
static_assert(written_of<Numbers &> && !written_of<const Numbers &> && !written_of<Numbers>);
static_assert(!read_of<Versions &> && !read_of<std::vector<bool> &> && !read_of<std::uint32_t *> && !read_of<int>);
static_assert(read_of<Span<std::uint32_t>> && read_of<Span<const std::uint32_t>> && !written_of<Span<const std::uint32_t>>);
static_assert(!std::is_convertible_v<Numbers &, Locations> && !std::is_constructible_v<Services, Locations>);
static_assert(!std::is_constructible_v<LocationsOut, ServicesOut> && !std::is_constructible_v<Span<const std::uint32_t>, int, int>);

// All is written by name.
template <class Given> constexpr bool is_part = std::is_constructible_v<Part<Entries>, Given>;
static_assert(is_part<Entries> && is_part<All<Entries>> && !is_part<All<Services>>);
static_assert(!is_part<bool> && !is_part<int> && !is_part<const std::uint32_t *> && !is_part<region_pass>);
static_assert(!std::is_convertible_v<std::nullptr_t, Part<Entries>>);

// A refusal is asked for by name where hidden is an outcome.
static_assert(std::is_constructible_v<bool, Answer> && std::is_constructible_v<bool, Result<Locations>>);
static_assert(!std::is_constructible_v<bool, Sight> && !std::is_constructible_v<bool, Route>);
static_assert(!std::is_convertible_v<Answer, bool> && !std::is_convertible_v<Refusal, std::uint32_t>);

template <class... Types> constexpr bool values = (std::is_trivially_copyable_v<Types> && ...);
static_assert(values<Region, Package, Item, Locations, Entries, Candidates, CandidatesOut, Filter, Answer, Result<Region>>);
static_assert(values<Result<Bytes>, Result<Candidates>, Result<std::string_view>, Sight, Route, Bundle, Connection, Graph>);

// Nothing throws.
static_assert(noexcept(Graph()) &&noexcept(std::declval<Graph &>() = std::declval<const Graph &>()));
template <class Member> constexpr bool never_throws = false;
template <class Value, class... Given> constexpr bool never_throws<Value (Graph::*)(Given...) noexcept> = true;
template <class Value, class... Given> constexpr bool never_throws<Value (Graph::*)(Given...) const noexcept> = true;
template <auto... members> constexpr bool none_throws = (never_throws<decltype(members)> && ...);
static_assert(none_throws<&Graph::add, &Graph::remove, &Graph::install, &Graph::uninstall, &Graph::connect, &Graph::disconnect>);
static_assert(none_throws<&Graph::read, &Graph::regions, &Graph::bundle_count, &Graph::connection_count, &Graph::bundle>);
static_assert(none_throws<&Graph::connection, &Graph::region_of, &Graph::image_length, &Graph::write, &Graph::route>);
static_assert(none_throws<&Graph::find_bundles, &Graph::find_services, &Graph::resolve, &Graph::bundle_event>);
static_assert(none_throws<&Graph::service_event>);
static_assert(noexcept(archive_query({}, Location(1), Service(1))) &&noexcept(archive_forward({}, {})));
static_assert(noexcept(archive_back({}, {})) &&noexcept(name({}, Region(1))) &&noexcept(text(Refusal::full)));

static void test_numbers()
{
    CHECK(Region(3) == Region(3) && !(Region(3) == Region(4)));
    CHECK(Region(3) != Region(4) && Region(4) != Region(3) && !(Region(3) != Region(3)));
    CHECK(Region(3) < Region(4) && !(Region(4) < Region(3)) && !(Region(3) < Region(3)));
    CHECK(Package{1, 7} == Package{1, 7} && !(Package{1, 7} == Package{1, 8}) && !(Package{1, 7} == Package{2, 7}));
    CHECK(Package{1, 7} != Package{1, 8} && !(Package{1, 7} != Package{1, 7}));
    CHECK(Package{1, 7} < Package{1, 8} && Package{1, 8} < Package{2, 7} && !(Package{2, 7} < Package{1, 8}));
    CHECK(!(Package{1, 7} < Package{1, 7}));
}

static void test_memory()
{
    Numbers vector{3, 4};
    const std::array<std::uint32_t, 2> array{5, 6};
    const std::uint32_t plain[] = {7, 8, 9};
    CHECK(has(Locations(vector), Location(3), Location(4)));
    CHECK(has(Services(array), Service(5), Service(6)));
    CHECK(has(Locations(plain), Location(7), Location(8), Location(9)));
    CHECK(has(Locations({plain, 2}), Location(7), Location(8)));
    CHECK(has(LocationsOut(vector), Location(3), Location(4)));
    CHECK(Locations(vector).list<0>().data() == vector.data());
    CHECK(Locations().size() == 0 && Locations().list<0>().data() == nullptr);
    CHECK(Locations().begin() == Locations().end());
#if __cplusplus >= 202002L
    static_assert(read_of<std::span<std::uint32_t>> && read_of<std::span<const std::uint32_t, 2>>);
    static_assert(written_of<std::span<std::uint32_t>> && !written_of<std::span<const std::uint32_t>>);
    CHECK(has(Locations(std::span(plain).last(2)), Location(8), Location(9)));
    CHECK(has(LocationsOut(std::span(vector).first(1)), Location(3)));
#endif
}

// The shortest list counts.
static void test_lists_together()
{
    const Numbers numbers{1, 2, 3};
    const Versions two{4, 5}, three{7, 8, 9};
    const Packages packages(numbers, two);
    CHECK(has(packages, Package{1, 4}, Package{2, 5}));
    CHECK(Packages(numbers, three).size() == 3);
    const Entries entries(numbers, three, two);
    CHECK(entries.size() == 2);
    CHECK(entries[1].number == 2 && entries[1].lowest == 8 && entries[1].highest == 5);
    const Candidates candidates(Locations({numbers.data(), 1}), packages);
    CHECK(candidates.size() == 1);
    CHECK(candidates[0].exporter == Location(1) && candidates[0].package == Package{1, 4});
}

static void test_refusals()
{
    for (std::uint32_t number = 0; number < 30; number++) {
        CHECK(std::strcmp(text(static_cast<Refusal>(number)), region_refusal_text(number)) == 0);
        CHECK(bool(Answer(number)) == (number == 0));
    }
    CHECK(Answer(2).refusal() == Refusal::used);
    CHECK(std::strcmp(text(Refusal::full), "there are 64 bundles, or 48 connections, already") == 0);
}

void test_types()
{
    CHECK(library_matches() == region_library_matches());
    CHECK(library_matches());
    test_numbers();
    test_memory();
    test_lists_together();
    test_refusals();
}
