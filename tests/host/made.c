#include "made.h"

#include <string.h>

enum { EARLY = 16 }; /* the regions of version 1 are below it */

struct image regions_alone(uint8_t version, const uint8_t *numbers, size_t count)
{
    const size_t rest = count + 3;
    struct image file = {5 + rest, {version, 0, 0, (uint8_t)(rest / 256), (uint8_t)(rest % 256), (uint8_t)count}};
    memcpy(file.bytes + 6, numbers, count);
    return file;
}

/* What is made so far, the state of the generator, which is never 0, and the regions. */
struct maker {
    struct image image;
    uint32_t state;
    uint32_t region_count;
    uint8_t regions[REGION_REGIONS];
};

/* The next number, below a limit of at most 24 bits. */
static uint32_t below(struct maker *maker, uint32_t limit)
{
    maker->state ^= maker->state << 13;
    maker->state ^= maker->state >> 17;
    maker->state ^= maker->state << 5;
    return (maker->state >> 8) % limit;
}

/* A count up to a limit, more often a small one. */
static uint32_t some(struct maker *maker, uint32_t most)
{
    return below(maker, below(maker, 4) == 0 ? most + 1 : 4);
}

/* What lies between two numbers of a list: little or much. */
static uint32_t step(struct maker *maker)
{
    return 1 + below(maker, below(maker, 2) == 0 ? 2 : 1 << 22);
}

static void put(struct maker *maker, size_t count, uint32_t number)
{
    for (size_t i = count; i > 0; i--) {
        maker->image.bytes[maker->image.length++] = (uint8_t)(number >> (8 * (i - 1)));
    }
}

/* Writes the count of bytes behind a place, in the 16 bits before it. */
static void put_size(struct maker *maker, size_t place)
{
    const size_t size = maker->image.length - place;
    maker->image.bytes[place - 2] = (uint8_t)(size / 256);
    maker->image.bytes[place - 1] = (uint8_t)(size % 256);
}

/* Numbers that ascend; the last may be the highest that there is. */
static void put_list(struct maker *maker, uint32_t most)
{
    const uint32_t count = some(maker, most);
    uint32_t number = below(maker, 3);
    put(maker, 1, count);
    for (uint32_t left = count; left > 0; left--) {
        put(maker, 4, left == 1 && below(maker, 8) == 0 ? UINT32_MAX : number);
        number += step(maker);
    }
}

/* A list, or everything. */
static void put_part(struct maker *maker)
{
    if (below(maker, 4) == 0) {
        put(maker, 1, REGION_EVERYTHING);
    } else {
        put_list(maker, REGION_MOST_LISTED);
    }
}

/* The version, a place for the length, and the regions: all of those below a limit, or each with a chance. */
static void put_front(struct maker *maker)
{
    const uint32_t limit = below(maker, 2) == 0 ? EARLY : REGION_REGIONS;
    const uint32_t chance = UINT32_C(1) << below(maker, 6);
    for (uint8_t region = 0; region < limit; region++) {
        if (below(maker, chance) == 0) {
            maker->regions[maker->region_count++] = region;
        }
    }
    put(maker, 1, maker->region_count > 0 && maker->regions[maker->region_count - 1] >= EARLY ? 2 : 1);
    put(maker, 4, 0);
    put(maker, 1, maker->region_count);
    for (uint32_t i = 0; i < maker->region_count; i++) {
        put(maker, 1, maker->regions[i]);
    }
}

static void put_bundles(struct maker *maker)
{
    const uint32_t count = maker->region_count == 0 ? 0 : some(maker, REGION_MOST_BUNDLES);
    uint32_t location = below(maker, 3);
    put(maker, 1, count);
    for (uint32_t i = 0; i < count; i++) {
        put(maker, 2, 0);
        const size_t place = maker->image.length;
        put(maker, 4, location);
        put(maker, 1, maker->regions[below(maker, maker->region_count)]);
        put_list(maker, REGION_MOST_PROVIDED);
        put_list(maker, REGION_MOST_PROVIDED);
        put_size(maker, place);
        location += step(maker);
    }
}

static void put_connection(struct maker *maker, uint8_t source, uint8_t target)
{
    put(maker, 2, 0);
    const size_t place = maker->image.length;
    put(maker, 1, source);
    put(maker, 1, target);
    put_list(maker, REGION_MOST_LISTED);
    put_part(maker);
    put_part(maker);
    put_size(maker, place);
}

/* Pairs of regions in their order, each with a chance, as long as there may be more. */
static void put_connections(struct maker *maker)
{
    const size_t place = maker->image.length;
    const uint32_t most = some(maker, REGION_MOST_CONNECTIONS);
    const uint32_t chance = 1 + below(maker, 8);
    put(maker, 1, 0);
    for (uint32_t i = 0; i < maker->region_count * maker->region_count; i++) {
        const uint8_t source = maker->regions[i / maker->region_count];
        const uint8_t target = maker->regions[i % maker->region_count];
        if (source != target && maker->image.bytes[place] < most && below(maker, chance) == 0) {
            maker->image.bytes[place]++;
            put_connection(maker, source, target);
        }
    }
}

struct image made_older(uint32_t seed)
{
    static struct maker maker;
    maker = (struct maker){.state = seed * UINT32_C(2654435761) | 1};
    put_front(&maker);
    put_bundles(&maker);
    put_connections(&maker);
    put_size(&maker, 5);
    return maker.image;
}
