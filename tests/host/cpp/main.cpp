// Runs wimboru.hpp beside the calls of C. Takes the folder of the example archives. Prints the checks that fail, then how many
// there were.
#include "check.hpp"

#include <cstdio>

int main(int argc, char **argv)
{
    if (argc != 2) {
        std::fprintf(stderr, "usage: cpp EXAMPLES\n");
        return 2;
    }
    set_examples(argv[1]);
    test_types();
    test_changes();
    test_refused_changes();
    test_contents();
    test_queries();
    test_archives();
    test_names();
    test_allocations();
    test_ends();
    return all_hold() ? 0 : 1;
}
