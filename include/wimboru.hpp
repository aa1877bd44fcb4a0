/*
 * The region graph for a host in C++17 or later. It stands on wimboru.h, which says what each call does, by which questions it
 * refuses, and what it asks of memory, threads and stack. A function here makes the call of C that its body shows. Numbers of
 * different meaning have different types, lists are views of the caller's memory, and an answer is a refusal or a value.
 *
 * Memory
 *   Nothing here allocates or throws. A view (Span, Locations, Services, Packages, Entries, Candidates) is pointers and counts into
 *   memory of the caller, and holds as long as that memory. A Span is made of anything with data() and size(), as std::vector,
 *   std::array, an array of C or a span, or of a pointer and a count. What owns its memory has to have a name: as a temporary it
 *   does not compile, not even as an argument. What a call writes may overlap nothing that it reads. A graph is a value of
 *   sizeof(region_graph) bytes, without pointers.
 *
 * Lists that belong together
 *   The lists of Packages, Entries and Candidates may have different counts: the shortest counts, by the rule of the library.
 *
 * Answers
 *   A change gives an Answer, a query a Result: both are true where the call is accepted. A route, or a query of an archive, has
 *   three outcomes: seen, hidden, refused. It has no truth value, so that hidden is taken neither for seen nor for refused.
 */
#ifndef WIMBORU_HPP
#define WIMBORU_HPP

#if __cplusplus < 201703L
#error "wimboru.hpp needs C++17 or later: compile with -std=c++17 or a later one"
#endif

/* The inline functions of wimboru.h have the casts of C. */
#pragma GCC diagnostic push
#pragma GCC diagnostic ignored "-Wold-style-cast"
#include "wimboru.h"
#pragma GCC diagnostic pop

#include <algorithm>
#include <array>
#include <cstddef>
#include <cstdint>
#include <cstring>
#include <exception>
#include <iterator>
#include <optional>
#include <string_view>
#include <type_traits>
#include <utility>

namespace wimboru
{

/*
 * Numbers and packages.
 */

// A number of one meaning. Nothing becomes one unless its type is written, as in Region(3).
template <class Meaning> struct Number {
    std::uint32_t value;
    explicit constexpr Number(std::uint32_t number) noexcept : value(number) {}
    friend constexpr bool operator==(Number a, Number b) noexcept { return a.value == b.value; }
    friend constexpr bool operator!=(Number a, Number b) noexcept { return a.value != b.value; }
    friend constexpr bool operator<(Number a, Number b) noexcept { return a.value < b.value; }
};

using Region = Number<struct OfRegion>;
using Location = Number<struct OfLocation>; // the number of a bundle
using Service = Number<struct OfService>;

// In braces, as in Package{1, 7}, a version above 65535 does not compile.
struct Package {
    std::uint32_t number;
    std::uint16_t version;
    explicit constexpr Package(std::uint32_t n, std::uint16_t v) noexcept : number(n), version(v) {}
    friend constexpr bool operator==(Package a, Package b) noexcept { return a.number == b.number && a.version == b.version; }
    friend constexpr bool operator!=(Package a, Package b) noexcept { return !(a == b); }
    friend constexpr bool operator<(Package a, Package b) noexcept
    {
        return a.number < b.number || (a.number == b.number && a.version < b.version);
    }
};

// The ends of a connection: the region Importing imports from the region Imported.
template <class Role> struct End {
    Region region;
    explicit constexpr End(Region of) noexcept : region(of) {}
};

using Importing = End<struct OfImporting>;
using Imported = End<struct OfImported>;

// What a bundle may see. A bundle is written Item(Location(30)), so that it is not mistaken for the bundle that sees.
struct Item {
    std::uint32_t kind;
    std::uint32_t number;
    std::uint16_t version = 0;
    explicit constexpr Item(Location bundle) noexcept : kind(REGION_KIND_BUNDLE), number(bundle.value) {}
    constexpr Item(Package package) noexcept : kind(REGION_KIND_PACKAGE), number(package.number), version(package.version) {}
    constexpr Item(Service service) noexcept : kind(REGION_KIND_SERVICE), number(service.value) {}
};

/*
 * Views of the caller's memory.
 */

namespace detail
{

// Whether a type is a span: it does not own its memory.
template <class Memory, class = void> inline constexpr bool is_span = false;
template <class Memory> inline constexpr bool is_span<Memory, std::void_t<typename Memory::element_type>> = true;

// Whether the memory of a type holds such elements.
template <class Memory, class Element, class = void> inline constexpr bool has = false;
template <class Memory, class Element>
inline constexpr bool has<Memory, Element, std::void_t<decltype(*std::data(std::declval<Memory &>()))>> =
    std::is_convertible_v<std::remove_reference_t<decltype(*std::data(std::declval<Memory &>()))> (*)[], Element (*)[]>;

// Runs over what the operator[] of a view gives.
template <class View> struct Iterator {
    using iterator_category = std::input_iterator_tag;
    using value_type = decltype(std::declval<const View &>()[0]);
    using reference = value_type;
    using pointer = void;
    using difference_type = std::ptrdiff_t;
    View view;
    std::size_t index;
    value_type operator*() const noexcept { return view[index]; }
    Iterator &operator++() noexcept { return ++index, *this; }
    Iterator operator++(int) noexcept { return {view, index++}; }
    friend bool operator==(const Iterator &a, const Iterator &b) noexcept { return a.index == b.index; }
    friend bool operator!=(const Iterator &a, const Iterator &b) noexcept { return a.index != b.index; }
};

// What a view with size() and operator[] needs for a loop.
template <class View> struct Range {
    Iterator<View> begin() const noexcept { return {self(), 0}; }
    Iterator<View> end() const noexcept { return {self(), self().size()}; }
    const View &self() const noexcept { return static_cast<const View &>(*this); }
};

// One of the lists of a view, by its number.
template <std::size_t number, class List> struct Slot {
    List list{};
};
template <std::size_t number, class List> List slot(const Slot<number, List> &of) noexcept
{
    return of.list;
}

} // namespace detail

// Elements that stand one after the other.
template <class Element> class Span
{
  public:
    using element_type = Element;
    constexpr Span() noexcept = default;
    // Of memory that has a name, or of a span.
    template <class Memory, class = std::enable_if_t<
                                detail::has<Memory, Element> && (std::is_lvalue_reference_v<Memory> || detail::is_span<Memory>)>>
    constexpr Span(Memory &&memory) noexcept : data_(std::data(memory)), size_(std::size(memory))
    {
    }
    // Of a pointer and a count. The number 0 is no pointer here.
    template <class Pointed, class = std::enable_if_t<std::is_convertible_v<Pointed (*)[], Element (*)[]>>>
    constexpr Span(Pointed *data, std::size_t size) noexcept : data_(data), size_(size)
    {
    }
    constexpr Element *data() const noexcept { return data_; }
    constexpr std::size_t size() const noexcept { return size_; }
    constexpr Element &operator[](std::size_t index) const noexcept { return data_[index]; }
    constexpr Element *begin() const noexcept { return data_; }
    constexpr Element *end() const noexcept { return data_ + size_; }
    constexpr Span<const Element> first(std::size_t count) const noexcept { return {data_, count}; }

  private:
    Element *data_ = nullptr;
    std::size_t size_ = 0;
};

// Items whose parts stand at equal places of lists. It is made by its name, as in Locations(vector); without arguments it is empty.
template <class Of, class Numbers, class... Lists> class View;
template <class Of, class... Lists> using ViewOf = View<Of, std::index_sequence_for<Lists...>, Lists...>;
template <class Of, std::size_t... number, class... Lists>
class View<Of, std::index_sequence<number...>, Lists...> : public detail::Range<ViewOf<Of, Lists...>>,
                                                           detail::Slot<number, Lists>...
{
  public:
    View() noexcept = default;
    explicit View(Lists... lists) noexcept : detail::Slot<number, Lists>{lists}... {}
    std::size_t size() const noexcept { return std::min({list<number>().size()...}); }
    Of operator[](std::size_t index) const noexcept { return Of{list<number>()[index]...}; }
    // The first items, to be read.
    auto first(std::size_t count) const noexcept
    {
        return ViewOf<Of, decltype(list<number>().first(count))...>(list<number>().first(count)...);
    }
    template <std::size_t of> auto list() const noexcept { return detail::slot<of>(*this); }
};

// A package entry of a filter, and a candidate of resolve.
struct Entry {
    std::uint32_t number;
    std::uint16_t lowest;
    std::uint16_t highest;
};
struct Candidate {
    Location exporter;
    Package package;
};

// What a call reads: Packages(numbers, versions), Entries(numbers, lowest, highest), Candidates(locations, packages).
using Bytes = Span<const std::uint8_t>;
using Locations = ViewOf<Location, Span<const std::uint32_t>>;
using Services = ViewOf<Service, Span<const std::uint32_t>>;
using Packages = ViewOf<Package, Span<const std::uint32_t>, Span<const std::uint16_t>>;
using Entries = ViewOf<Entry, Span<const std::uint32_t>, Span<const std::uint16_t>, Span<const std::uint16_t>>;
using Candidates = ViewOf<Candidate, Locations, Packages>;

// What a call writes.
using BytesOut = Span<std::uint8_t>;
using LocationsOut = ViewOf<Location, Span<std::uint32_t>>;
using ServicesOut = ViewOf<Service, Span<std::uint32_t>>;
using PackagesOut = ViewOf<Package, Span<std::uint32_t>, Span<std::uint16_t>>;
using CandidatesOut = ViewOf<Candidate, LocationsOut, PackagesOut>;

// Regions in ascending order, as the bits of a number.
class Regions : public detail::Range<Regions>
{
  public:
    explicit Regions(std::uint64_t bits) noexcept : bits_(bits) {}
    std::uint64_t bits() const noexcept { return bits_; }
    bool contains(Region region) const noexcept { return region.value < REGION_REGIONS && (bits_ >> region.value & 1) == 1; }
    std::size_t size() const noexcept
    {
        std::size_t count = 0;
        for (std::uint32_t region = 0; region < REGION_REGIONS; region++) {
            count += std::size_t{contains(Region(region))};
        }
        return count;
    }
    Region operator[](std::size_t index) const noexcept
    {
        std::uint32_t region = 0;
        while (region < REGION_REGIONS && (!contains(Region(region)) || index-- > 0)) {
            region++;
        }
        return Region(region);
    }

  private:
    std::uint64_t bits_;
};

/*
 * Filters.
 */

template <class Listed> struct All {
    explicit All() = default;
};
inline constexpr All<Entries> all_packages{};
inline constexpr All<Services> all_services{};

// A part of a filter: a list, or all by name. A bool, an integer or a pointer is neither. Without an argument it passes nothing.
template <class Listed> class Part
{
  public:
    Part() noexcept = default;
    Part(Listed listed) noexcept : listed_(listed) {}
    Part(All<Listed>) noexcept : pass_(REGION_PASS_ALL) {}
    region_pass pass() const noexcept { return pass_; }
    bool all() const noexcept { return pass_ == REGION_PASS_ALL; }
    const Listed &listed() const noexcept { return listed_; }

  private:
    Listed listed_{};
    region_pass pass_ = REGION_PASS_LISTED;
};

// What a connection passes. Filter{} passes nothing.
struct Filter {
    Locations bundles{};
    Part<Entries> packages{};
    Part<Services> services{};
};

/*
 * Answers.
 */

/* refusals: begin (made from tools/refusals.txt by tools/words) */
// Why a call is refused, by the names and numbers of wimboru.h.
enum class Refusal : std::uint32_t {
    not_refused = REGION_NOT_REFUSED,
    not_a_region = REGION_NOT_A_REGION,
    used = REGION_USED,
    no_such_region = REGION_NO_SUCH_REGION,
    ends_equal = REGION_ENDS_EQUAL,
    connected = REGION_CONNECTED,
    not_connected = REGION_NOT_CONNECTED,
    list_too_long = REGION_LIST_TOO_LONG,
    list_out_of_order = REGION_LIST_OUT_OF_ORDER,
    installed = REGION_INSTALLED,
    filtered = REGION_FILTERED,
    full = REGION_FULL,
    not_installed = REGION_NOT_INSTALLED,
    not_a_kind = REGION_NOT_A_KIND,
    no_place = REGION_NO_PLACE,
    not_an_archive = REGION_NOT_AN_ARCHIVE,
    wrong_length = REGION_WRONG_LENGTH,
    broken_layout = REGION_BROKEN_LAYOUT,
    broken_sheet = REGION_BROKEN_SHEET,
    no_entry = REGION_NO_ENTRY,
    range_reversed = REGION_RANGE_REVERSED,
    has_versions = REGION_HAS_VERSIONS,
};
/* refusals: end */

inline const char *text(Refusal refusal) noexcept
{
    return region_refusal_text(static_cast<std::uint32_t>(refusal));
}

// The answer of a changing call. It is true where the call is accepted.
class [[nodiscard]] Answer
{
  public:
    explicit constexpr Answer(std::uint32_t number) noexcept : refusal_(static_cast<Refusal>(number)) {}
    explicit constexpr operator bool() const noexcept { return refusal_ == Refusal::not_refused; }
    constexpr Refusal refusal() const noexcept { return refusal_; }

  private:
    Refusal refusal_;
};

// The answer of a query: a value, or a refusal. To ask a refusal for its value ends the program, by std::terminate.
template <class Value> class [[nodiscard]] Result : public Answer
{
  public:
    constexpr Result(std::uint32_t number, std::optional<Value> value) noexcept : Answer(number), value_(value) {}
    constexpr Value value() const noexcept
    {
        if (!value_) {
            std::terminate();
        }
        return *value_;
    }

  private:
    std::optional<Value> value_;
};

namespace detail
{

// The result of an answer of C: what is made of a count, or a refusal.
template <class Make> auto result(std::int64_t answer, const Make &make) noexcept
{
    using Value = decltype(make(std::size_t{}));
    return answer < 0 ? Result<Value>(region_refused(answer), std::nullopt)
                      : Result<Value>(REGION_NOT_REFUSED, make(static_cast<std::size_t>(answer)));
}

// As many items as the answer says, at the start of the output.
template <class Out> auto written(std::int64_t answer, const Out &out) noexcept
{
    return result(answer, [&out](std::size_t count) { return out.first(count); });
}

} // namespace detail

// Whether an item is seen: exactly one of seen(), hidden() and refused() holds.
class [[nodiscard]] Sight
{
  public:
    explicit Sight(std::uint32_t number) noexcept : number_(number) {}
    bool seen() const noexcept { return number_ == REGION_SEEN; }
    bool hidden() const noexcept { return number_ == REGION_HIDDEN; }
    bool refused() const noexcept { return !seen() && !hidden(); }
    Refusal refusal() const noexcept { return refused() ? static_cast<Refusal>(number_) : Refusal::not_refused; }

  private:
    std::uint32_t number_;
};

// A route with its regions, from that of the bundle that sees to that which holds the item: one more than its connections. Where
// the item is not seen there are none.
class [[nodiscard]] Route : public Sight
{
  public:
    using Buffer = std::array<std::uint8_t, REGION_ROUTE_BYTES>;
    Route(std::int64_t answer, const Buffer &buffer) noexcept
        : Sight(answer < 0 ? static_cast<std::uint32_t>(-answer) : std::uint32_t{REGION_SEEN}), buffer_(buffer),
          size_(answer < 0 ? 0 : static_cast<std::size_t>(answer) + 1)
    {
    }
    ViewOf<Region, Bytes> regions() const &noexcept { return ViewOf<Region, Bytes>({buffer_.data(), size_}); }
    void regions() const && = delete;

  private:
    Buffer buffer_;
    std::size_t size_;
};

/*
 * What a graph holds, as copies of its own. Views point into the copy, which has to have a name.
 */

class Bundle
{
  public:
    explicit Bundle(const region_bundle &bundle) noexcept : bundle_(bundle) {}
    Location location() const noexcept { return Location(bundle_.location); }
    Region region() const noexcept { return Region(bundle_.region); }
    Packages packages() const &noexcept
    {
        return Packages(bundle_.packages.numbers, bundle_.packages.versions).first(bundle_.packages.count);
    }
    Services services() const &noexcept { return Services(bundle_.services.items).first(bundle_.services.count); }
    void packages() const && = delete;
    void services() const && = delete;

  private:
    region_bundle bundle_;
};

class Connection
{
  public:
    explicit Connection(const region_connection &connection) noexcept : connection_(connection) {}
    Importing importing() const noexcept { return Importing(Region(connection_.source)); }
    Imported imported() const noexcept { return Imported(Region(connection_.target)); }
    Filter filter() const &noexcept
    {
        const region_filter of = region_filter_of(&connection_);
        Filter filter{Locations({of.bundles, of.bundle_count}), all_packages, all_services};
        if (of.pass_packages != REGION_PASS_ALL) {
            filter.packages =
                Entries({of.packages, of.package_count}, {of.lowest, of.package_count}, {of.highest, of.package_count});
        }
        if (of.pass_services != REGION_PASS_ALL) {
            filter.services = Services({of.services, of.service_count});
        }
        return filter;
    }
    void filter() const && = delete;

  private:
    region_connection connection_;
};

// The bundles or the connections of a graph, in ascending order. It holds while the graph is there and does not change.
template <class Element, class Raw, auto count, auto write> class Held : public detail::Range<Held<Element, Raw, count, write>>
{
  public:
    explicit Held(const region_graph &record) noexcept : record_(&record) {}
    std::size_t size() const noexcept { return count(record_); }
    std::optional<Element> at(std::size_t index) const noexcept
    {
        Raw raw{};
        return write(record_, &raw, index) == 1 ? std::optional<Element>(raw) : std::nullopt;
    }
    // Where there is none, the program ends, by std::terminate.
    Element operator[](std::size_t index) const noexcept { return at(index).value(); }

  private:
    const region_graph *record_;
};

using Bundles = Held<Bundle, region_bundle, region_bundle_count, region_bundle_at>;
using Connections = Held<Connection, region_connection, region_connection_count, region_connection_at>;

/*
 * The graph: a record, which starts empty. A copy is a graph of its own.
 */
class Graph
{
  public:
    Graph() noexcept { region_empty(&record_); }

    // A copy of a record that calls of C made, and the record for calls of C that read it.
    explicit Graph(const region_graph &record) noexcept : record_(record) {}
    const region_graph &record() const &noexcept { return record_; }
    void record() const && = delete;

    // Whether two are the same graph.
    friend bool operator==(const Graph &a, const Graph &b) noexcept
    {
        return std::memcmp(&a.record_, &b.record_, sizeof a.record_) == 0;
    }
    friend bool operator!=(const Graph &a, const Graph &b) noexcept { return !(a == b); }

    // Changes. A refused one leaves the graph as it was.
    Answer add(Region region) noexcept { return Answer(region_add(&record_, region.value)); }
    Answer remove(Region region) noexcept { return Answer(region_remove(&record_, region.value)); }
    Answer install(Region region, Location location, Packages packages = {}, Services services = {}) noexcept
    {
        const auto numbers = packages.list<0>();
        const auto versions = packages.list<1>();
        const auto listed = services.list<0>();
        return Answer(region_install_v4(&record_, region.value, location.value, numbers.data(), numbers.size(), versions.data(),
                                        versions.size(), listed.data(), listed.size()));
    }
    Answer uninstall(Location location) noexcept { return Answer(region_uninstall(&record_, location.value)); }
    Answer connect(Importing importing, Imported imported, const Filter &filter) noexcept
    {
        const auto bundles = filter.bundles.list<0>();
        const auto numbers = filter.packages.listed().list<0>();
        const auto lowest = filter.packages.listed().list<1>();
        const auto highest = filter.packages.listed().list<2>();
        const auto services = filter.services.listed().list<0>();
        return Answer(region_connect_v5(&record_, importing.region.value, imported.region.value, bundles.data(), bundles.size(),
                                        filter.packages.pass(), numbers.data(), numbers.size(), lowest.data(), lowest.size(),
                                        highest.data(), highest.size(), filter.services.pass(), services.data(), services.size()));
    }
    Answer disconnect(Importing importing, Imported imported) noexcept
    {
        return Answer(region_disconnect(&record_, importing.region.value, imported.region.value));
    }
    Answer read(Bytes archive) noexcept { return Answer(region_read(&record_, archive.data(), archive.size())); }

    // What the graph holds.
    [[nodiscard]] Regions regions() const noexcept { return Regions(region_set(&record_)); }
    [[nodiscard]] Bundles bundles() const &noexcept { return Bundles(record_); }
    [[nodiscard]] Connections connections() const &noexcept { return Connections(record_); }
    void bundles() const && = delete;
    void connections() const && = delete;
    [[nodiscard]] std::size_t bundle_count() const noexcept { return bundles().size(); }
    [[nodiscard]] std::size_t connection_count() const noexcept { return connections().size(); }
    [[nodiscard]] std::optional<Bundle> bundle(std::size_t index) const noexcept { return bundles().at(index); }
    [[nodiscard]] std::optional<Connection> connection(std::size_t index) const noexcept { return connections().at(index); }
    [[nodiscard]] std::size_t image_length() const noexcept { return region_image_length(&record_); }
    Result<Region> region_of(Location location) const noexcept
    {
        return detail::result(::region_of(&record_, location.value),
                              [](std::size_t region) { return Region(static_cast<std::uint32_t>(region)); });
    }

    // Queries. The value is a view of what is written at the start of the output; a refused query writes nothing.
    Result<Bytes> write(BytesOut out) const noexcept
    {
        return detail::written(region_write(&record_, out.data(), out.size()), out);
    }
    Route route(Location location, Item item) const noexcept
    {
        Route::Buffer buffer{};
        const auto answer =
            region_route(&record_, buffer.data(), buffer.size(), location.value, item.kind, item.number, item.version);
        return Route(answer, buffer);
    }
    Result<Locations> find_bundles(Location location, Locations candidates, LocationsOut out) const noexcept
    {
        const auto from = candidates.list<0>();
        const auto to = out.list<0>();
        return detail::written(region_bundle_find(&record_, to.data(), to.size(), location.value, from.data(), from.size()), out);
    }
    Result<Services> find_services(Location location, Services candidates, ServicesOut out) const noexcept
    {
        const auto from = candidates.list<0>();
        const auto to = out.list<0>();
        return detail::written(region_service_find(&record_, to.data(), to.size(), location.value, from.data(), from.size()), out);
    }
    Result<Candidates> resolve(Location location, Candidates candidates, CandidatesOut out) const noexcept
    {
        const auto from = candidates.list<0>().list<0>();
        const auto numbers = candidates.list<1>().list<0>();
        const auto versions = candidates.list<1>().list<1>();
        const auto to = out.list<0>().list<0>();
        const auto to_numbers = out.list<1>().list<0>();
        const auto to_versions = out.list<1>().list<1>();
        return detail::written(region_resolve_v4(&record_, to.data(), to.size(), to_numbers.data(), to_numbers.size(),
                                                 to_versions.data(), to_versions.size(), location.value, from.data(), from.size(),
                                                 numbers.data(), numbers.size(), versions.data(), versions.size()),
                               out);
    }
    Result<Locations> bundle_event(Locations listeners, Location bundle, LocationsOut out) const noexcept
    {
        const auto from = listeners.list<0>();
        const auto to = out.list<0>();
        return detail::written(region_bundle_event(&record_, to.data(), to.size(), from.data(), from.size(), bundle.value), out);
    }
    Result<Locations> service_event(Locations listeners, Service service, LocationsOut out) const noexcept
    {
        const auto from = listeners.list<0>();
        const auto to = out.list<0>();
        return detail::written(region_service_event(&record_, to.data(), to.size(), from.data(), from.size(), service.value), out);
    }

  private:
    region_graph record_;
};

static_assert(std::has_unique_object_representations_v<region_graph>, "the record has no padding: memcmp compares graphs");
static_assert(std::is_trivially_copyable_v<Graph> && sizeof(Graph) == sizeof(region_graph), "a graph is its record");

/*
 * Calls without a graph.
 */

[[nodiscard]] inline bool library_matches() noexcept
{
    return region_library_matches();
}

inline Sight archive_query(Bytes archive, Location location, Item item) noexcept
{
    return Sight(region_archive_query(archive.data(), archive.size(), location.value, item.kind, item.number, item.version));
}

inline Result<Bytes> archive_forward(Bytes archive, BytesOut out) noexcept
{
    return detail::written(region_archive_forward(archive.data(), archive.size(), out.data(), out.size()), out);
}

inline Result<Bytes> archive_back(Bytes archive, BytesOut out) noexcept
{
    return detail::written(region_archive_back(archive.data(), archive.size(), out.data(), out.size()), out);
}

namespace detail
{

inline Result<std::string_view> name(Bytes sheet, std::uint32_t kind, std::uint32_t number) noexcept
{
    std::size_t start = 0;
    const auto answer = region_name(sheet.data(), sheet.size(), &start, kind, number);
    return result(
        answer, [=](std::size_t length) { return std::string_view(reinterpret_cast<const char *>(sheet.data() + start), length); });
}

} // namespace detail

// The name stands in the memory of the sheet. Packages have names by their number: the version is not looked at.
inline Result<std::string_view> name(Bytes sheet, Item item) noexcept
{
    return detail::name(sheet, item.kind, item.number);
}

inline Result<std::string_view> name(Bytes sheet, Region region) noexcept
{
    return detail::name(sheet, REGION_KIND_REGION, region.value);
}

} // namespace wimboru

#endif
