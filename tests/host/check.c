#include "check.h"

#include <stdio.h>
#include <string.h>

struct lent lent;
region_graph *const graph = &lent.graph;
uint16_t zeros[PLACES];
uint16_t tops[PLACES];

static struct lent expected;
static uint8_t pattern;
static unsigned long passed;
static unsigned long failed;

/* No bytes between the parts: every byte that is lent is in a part, and is compared. */
static_assert(sizeof(struct lent)
                  == 9 * GUARD + sizeof(region_graph) + sizeof(region_bundle) + sizeof(region_connection)
                         + 2 * PLACES * sizeof(uint32_t) + PLACES * sizeof(uint16_t) + BYTES + sizeof(size_t),
              "parts with gaps");

void set_pattern(uint8_t byte)
{
    pattern = byte;
    for (size_t i = 0; i < PLACES; i++) {
        zeros[i] = 0;
        tops[i] = REGION_HIGHEST_VERSION;
    }
}

void lend(void)
{
    memset(&lent, pattern, sizeof lent);
    region_empty(graph);
}

void expect_same(void)
{
    memset(lent.places, pattern, sizeof lent.places);
    memset(lent.others, pattern, sizeof lent.others);
    memset(lent.versions, pattern, sizeof lent.versions);
    memset(lent.bytes, pattern, sizeof lent.bytes);
    memset(&lent.start, pattern, sizeof lent.start);
    memset(&lent.bundle, pattern, sizeof lent.bundle);
    memset(&lent.connection, pattern, sizeof lent.connection);
    memcpy(&expected, &lent, sizeof lent);
}

void expect_numbers(const uint32_t *numbers, size_t count)
{
    memcpy(expected.places, numbers, count * sizeof *numbers);
}

void expect_others(const uint32_t *numbers, size_t count)
{
    memcpy(expected.others, numbers, count * sizeof *numbers);
}

void expect_versions(const uint16_t *versions, size_t count)
{
    memcpy(expected.versions, versions, count * sizeof *versions);
}

void expect_bytes(const uint8_t *bytes, size_t count)
{
    memcpy(expected.bytes, bytes, count);
}

void expect_start(size_t start)
{
    expected.start = start;
}

void expect_bundle(const region_bundle *bundle)
{
    memcpy(&expected.bundle, bundle, sizeof *bundle);
}

void expect_connection(const region_connection *connection)
{
    memcpy(&expected.connection, connection, sizeof *connection);
}

void expect_record(void)
{
    memcpy(&expected.graph, &lent.graph, sizeof lent.graph);
}

static void count(bool holds, const char *file, int line, const char *before, const char *text)
{
    if (holds) {
        passed++;
        return;
    }
    failed++;
    printf("%s:%d: %s%s\n", file, line, before, text);
}

void check(bool holds, const char *file, int line, const char *text)
{
    count(holds, file, line, "", text);
}

bool check_call(bool answered, const char *file, int line, const char *text)
{
    bool same = memcmp(&lent, &expected, sizeof lent) == 0;
    count(answered, file, line, "", text);
    count(same, file, line, "the record and the buffers after ", text);
    return answered && same;
}

bool all_passed(void)
{
    printf("%lu checks passed", passed);
    if (failed > 0) {
        printf(", %lu failed", failed);
    }
    printf("\n");
    return failed == 0;
}
