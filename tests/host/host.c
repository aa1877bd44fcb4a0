/* Runs the C interface: the papers' cases, every refusal of every call, and what C may hand in. Takes the folder of the
   example archives. Prints the checks that fail, then how many passed. */
#include "host.h"
#include "images.h"

#include <stdio.h>

static void test_all(void)
{
    test_record();
    test_reading();
    test_structs();
    test_words();
    test_lists();
    test_changes();
    test_refused_changes();
    test_regions();
    test_queries();
    test_resolve();
    test_offers();
    test_versions();
    test_isolation();
    test_archives();
    test_conversions();
    test_names();
    test_edges();
    test_threads();
}

int main(int argc, char **argv)
{
    if (argc != 2) {
        fprintf(stderr, "usage: host EXAMPLES\n");
        return 2;
    }
    setvbuf(stdout, NULL, _IOLBF, 0); /* failed checks show even where a call ends the program */
    set_examples(argv[1]);
    /* Twice, with other bytes in what is lent: a byte that is written with the value that it had shows in one of them. */
    set_pattern(0x5A);
    test_all();
    set_pattern(0xA5);
    test_all();
    return all_passed() ? 0 : 1;
}
