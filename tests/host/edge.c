#define _DEFAULT_SOURCE
#include "edge.h"
#include "check.h"

#include <string.h>
#include <sys/mman.h>
#include <unistd.h>

uint8_t *edge(void)
{
    size_t fault = (size_t)sysconf(_SC_PAGESIZE);
    uint8_t *start = mmap(NULL, ROOM + fault, PROT_READ | PROT_WRITE, MAP_PRIVATE | MAP_ANONYMOUS, -1, 0);
    CHECK(start != MAP_FAILED && mprotect(start + ROOM, fault, PROT_NONE) == 0);
    return start + ROOM;
}

void release(uint8_t *end)
{
    CHECK(munmap(end - ROOM, ROOM + (size_t)sysconf(_SC_PAGESIZE)) == 0);
}

region_graph *record_at(uint8_t *end)
{
    return (region_graph *)(void *)(end - sizeof(region_graph));
}

uint32_t *numbers_at(uint8_t *end, const uint32_t *numbers, size_t count)
{
    return memcpy(end - count * sizeof *numbers, numbers, count * sizeof *numbers);
}

uint16_t *versions_at(uint8_t *end, const uint16_t *versions, size_t count)
{
    return memcpy(end - count * sizeof *versions, versions, count * sizeof *versions);
}

uint8_t *bytes_at(uint8_t *end, const uint8_t *bytes, size_t count)
{
    return memcpy(end - count, bytes, count);
}
