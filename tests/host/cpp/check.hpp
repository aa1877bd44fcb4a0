// Counted checks, the graph on which most of them are made, and memory that is counted. A check that holds prints nothing.
#ifndef CHECK_HPP
#define CHECK_HPP

#include "wimboru.hpp"

#include <string>
#include <vector>

using namespace wimboru;

using Numbers = std::vector<std::uint32_t>;
using Versions = std::vector<std::uint16_t>;

void check(bool holds, const char *file, int line, const char *text);

// Prints how many checks there were, and tells whether all held.
bool all_hold();

// How often operator new was called.
std::size_t allocations();

// The folder of the example archives, and the bytes of a file in it.
void set_examples(const char *folder);
std::vector<std::uint8_t> example(const char *name);

// Three regions, 0 to 2, with bundles 10, 20 and 30. Region 0 imports bundle 20, some versions of packages 1 to 3 and service 5
// from region 1; region 1 imports all packages and service 6 from region 2. The same is made by calls of C.
Graph three_regions();
region_graph three_regions_in_c();

// Whether a view has these items.
template <class View, class... Items> bool has(const View &view, Items... items)
{
    const std::vector<std::decay_t<decltype(view[0])>> expected{items...};
    return view.size() == sizeof...(items) && std::equal(view.begin(), view.end(), expected.begin());
}

void test_types();
void test_changes();
void test_refused_changes();
void test_contents();
void test_queries();
void test_archives();
void test_names();
void test_allocations();
void test_ends();

#define CHECK(...) check((__VA_ARGS__), __FILE__, __LINE__, #__VA_ARGS__)

#endif
