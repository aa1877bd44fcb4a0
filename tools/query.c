/* Asks the archive on standard input whether the bundle at a location sees an item. Prints `seen`, `hidden`, or `refused` and the
   number. Its arguments are the location, the kind, the item and the version, which ./wimboru has found to be decimal numbers: three
   of 32 bits, the version one of 16. */
#include "input.h"
#include "wimboru.h"

#include <stdlib.h>

static void print(uint32_t answer)
{
    if (answer == REGION_SEEN) {
        puts("seen");
    } else if (answer == REGION_HIDDEN) {
        puts("hidden");
    } else {
        printf("refused %u\n", (unsigned)answer);
    }
}

int main(int argc, char **argv)
{
    if (argc != 5) {
        fprintf(stderr, "usage: query LOCATION KIND ITEM VERSION < FILE\n");
        return 2;
    }
    struct input input;
    bool whole = read_all(&input, stdin);
    if (whole) {
        print(region_archive_query(input.bytes, input.length, number(argv[1]), number(argv[2]), number(argv[3]),
                                   (uint16_t)number(argv[4])));
    } else {
        fprintf(stderr, "query: standard input could not be read\n");
    }
    free(input.bytes);
    return whole ? 0 : 3;
}
