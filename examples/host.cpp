// A host in C++. Bundle 20 in region 1 exports package 1, and region 0 imports all packages from region 1. Does bundle 10 see it?
//     c++ -std=c++17 -I include examples/host.cpp target/staticlib/libregion_host.a -o host && ./host
#include "wimboru.hpp"
#include <cstdio>
using namespace wimboru;

int main()
{
    const std::uint32_t numbers[] = {1};
    const std::uint16_t versions[] = {7};
    Graph graph;
    const bool made = graph.add(Region(0)) && graph.add(Region(1)) && graph.install(Region(0), Location(10))
                   && graph.install(Region(1), Location(20), Packages(numbers, versions))
                   && graph.connect(Importing(Region(0)), Imported(Region(1)), Filter{{}, all_packages, {}});
    const Route route = graph.route(Location(10), Package{1, 7});
    std::puts(route.seen() ? "seen" : route.hidden() ? "hidden" : text(route.refusal()));
    return made ? 0 : 1;
}
