#include "images.h"

#include <stdio.h>
#include <string.h>

static const char *examples;

void set_examples(const char *folder)
{
    examples = folder;
}

struct image load(const char *name)
{
    struct image image = {0};
    char path[4096];
    snprintf(path, sizeof path, "%s/%s", examples, name);
    FILE *file = fopen(path, "rb");
    check(file != NULL, __FILE__, __LINE__, path);
    if (file != NULL) {
        image.length = fread(image.bytes, 1, sizeof image.bytes, file);
        check(fgetc(file) == EOF, __FILE__, __LINE__, path);
        fclose(file);
    }
    return image;
}

static void put(struct image *image, const uint8_t *bytes, size_t count)
{
    memcpy(image->bytes + image->length, bytes, count);
    image->length += count;
}

/* What is left of an older file, and what is made of it so far. */
struct copied {
    const uint8_t *left;
    struct image image;
};

/* Copies bytes, and returns the first of them. */
static uint8_t copy(struct copied *copied, size_t count)
{
    const uint8_t first = copied->left[0];
    put(&copied->image, copied->left, count);
    copied->left += count;
    return first;
}

/* Copies a list, and puts bytes behind each of its numbers. */
static void copy_list(struct copied *copied, const uint8_t *behind, size_t count_behind)
{
    const uint8_t count = copy(copied, 1);
    for (uint8_t i = 0; count != REGION_EVERYTHING && i < count; i++) {
        copy(copied, 4);
        put(&copied->image, behind, count_behind);
    }
}

/* Writes a length of 16 bits at a place: that of what follows it. */
static void set_length(struct image *image, size_t place)
{
    const size_t length = image->length - place - 2;
    image->bytes[place] = (uint8_t)(length / 256);
    image->bytes[place + 1] = (uint8_t)(length % 256);
}

static void copy_bundle(struct copied *copied)
{
    static const uint8_t version[] = {0, 0};
    const size_t place = copied->image.length;
    copy(copied, 2 + 4 + 1);
    copy_list(copied, version, sizeof version);
    copy_list(copied, version, 0);
    set_length(&copied->image, place);
}

static void copy_connection(struct copied *copied)
{
    static const uint8_t range[] = {0, 0, 0xFF, 0xFF};
    const size_t place = copied->image.length;
    copy(copied, 2 + 1 + 1);
    copy_list(copied, range, 0);
    copy_list(copied, range, sizeof range);
    copy_list(copied, range, 0);
    set_length(&copied->image, place);
}

struct image as_version_3(struct image older)
{
    static struct copied copied;
    copied = (struct copied){.left = older.bytes};
    copy(&copied, 5);
    copy(&copied, copy(&copied, 1));
    for (uint8_t left = copy(&copied, 1); left > 0; left--) {
        copy_bundle(&copied);
    }
    for (uint8_t left = copy(&copied, 1); left > 0; left--) {
        copy_connection(&copied);
    }
    copied.image.bytes[0] = 3;
    set_length(&copied.image, 3);
    return copied.image;
}

struct image longest_of_version_2(void)
{
    enum { EARLY = 16, RAISED = REGION_REGIONS - EARLY, FRONT = 6, BUNDLE = 73, CONNECTION = 199, LENGTH = 14296 };
    const struct image early = load("longest.archive");
    struct image image = {LENGTH, {2, 0, 0, 0x37, 0xD3, REGION_REGIONS}};
    for (uint8_t region = 0; region < REGION_REGIONS; region++) {
        image.bytes[FRONT + region] = region;
    }
    memcpy(image.bytes + FRONT + REGION_REGIONS, early.bytes + FRONT + EARLY, LENGTH - FRONT - REGION_REGIONS);
    uint8_t *bundles = image.bytes + FRONT + REGION_REGIONS + 1;
    uint8_t *connections = bundles + REGION_MOST_BUNDLES * BUNDLE + 1;
    for (size_t i = 0; i < REGION_MOST_BUNDLES; i++) {
        bundles[i * BUNDLE + 6] += RAISED;
    }
    for (size_t i = 0; i < REGION_MOST_CONNECTIONS; i++) {
        connections[i * CONNECTION + 2] += RAISED;
        connections[i * CONNECTION + 3] += RAISED;
    }
    return image;
}

struct image longest_image(void)
{
    return as_version_3(longest_of_version_2());
}

struct image image_of(const region_graph *record)
{
    struct image image = {0};
    int64_t length = region_write(record, image.bytes, sizeof image.bytes);
    CHECK(length > 0);
    image.length = length > 0 ? (size_t)length : 0;
    return image;
}

bool same_image(struct image a, struct image b)
{
    return a.length == b.length && memcmp(a.bytes, b.bytes, a.length) == 0;
}

bool same_graph(const region_graph *a, const region_graph *b)
{
    return same_image(image_of(a), image_of(b));
}
