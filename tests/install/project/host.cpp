// A host in C++: a graph with a region, written and read again. It includes the header for C++ where there is one.
#include <wimboru.h>
#if __has_include(<wimboru.hpp>)
#include <wimboru.hpp>
#endif
#include <iostream>
#include <vector>

int main()
{
    static region_graph graph, again;
    region_empty(&graph);
    region_empty(&again);
    if (!region_library_matches() || region_add(&graph, 63) != REGION_NOT_REFUSED) {
        return 1;
    }
    std::vector<uint8_t> image(region_image_length(&graph));
    if (region_refused(region_write(&graph, image.data(), image.size())) != REGION_NOT_REFUSED
        || region_read(&again, image.data(), image.size()) != REGION_NOT_REFUSED) {
        return 1;
    }
    std::cout << "region 63 again: " << region_refusal_text(region_add(&again, 63)) << "\n";
    return 0;
}
