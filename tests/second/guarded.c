#define _DEFAULT_SOURCE
#include "guarded.h"

#include <stdio.h>
#include <stdlib.h>
#include <sys/mman.h>

struct guarded guarded_make(void)
{
    unsigned char *all = mmap(NULL, 3u * GUARDED_ROOM, PROT_NONE, MAP_PRIVATE | MAP_ANONYMOUS, -1, 0);
    struct guarded room;

    if (all == MAP_FAILED || mprotect(all + GUARDED_ROOM, GUARDED_ROOM, PROT_READ | PROT_WRITE) != 0) {
        perror("guarded memory");
        exit(2);
    }
    room.first = all + GUARDED_ROOM;
    room.past = room.first + GUARDED_ROOM;
    return room;
}

static void fits(size_t size)
{
    if (size > GUARDED_ROOM) {
        fprintf(stderr, "guarded memory: a block of %zu bytes has no room\n", size);
        exit(2);
    }
}

void *guarded_low(struct guarded room, size_t size)
{
    fits(size);
    return room.first;
}

void *guarded_high(struct guarded room, size_t size)
{
    fits(size);
    return room.past - size;
}
