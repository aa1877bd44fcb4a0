/* The sentences of the refusals, and what kind of answer a number is. */
#include "graphs.h"
#include "host.h"

#include <string.h>

enum {
    LAST = REGION_HAS_VERSIONS, /* the greatest number of a refusal */
};

/* Each number has a sentence of its own; other numbers have one in common. */
static void sentences(void)
{
    const char *none = region_refusal_text(UINT32_MAX);
    CHECK(strcmp(region_refusal_text(REGION_NOT_REFUSED), "not refused") == 0);
    CHECK(strcmp(region_refusal_text(REGION_NOT_INSTALLED), "the bundle, or a listener, is not installed") == 0);
    CHECK(strcmp(region_refusal_text(REGION_HAS_VERSIONS),
                 "a package has a version other than 0, or a package entry does not run from 0 to 65535")
          == 0);
    for (uint32_t number = 0; number <= LAST; number++) {
        CHECK(strlen(region_refusal_text(number)) > 0);
        CHECK(strcmp(region_refusal_text(number), none) != 0);
        for (uint32_t other = 0; other < number; other++) {
            CHECK(strcmp(region_refusal_text(number), region_refusal_text(other)) != 0);
        }
    }
    CHECK(strcmp(region_refusal_text(LAST + 1), none) == 0);
    CHECK(strcmp(region_refusal_text(REGION_HIDDEN), none) == 0);
}

static void kinds_of_answers(void)
{
    build_g();
    const int64_t counted = region_route(graph, lent.bytes, BYTES, 10, REGION_KIND_PACKAGE, 1, 0);
    const int64_t hidden = region_route(graph, lent.bytes, BYTES, 10, REGION_KIND_PACKAGE, 3, 0);
    const int64_t refused = region_route(graph, lent.bytes, BYTES, 10, REGION_KIND_REGION, 3, 0);
    CHECK(region_refused(counted) == REGION_NOT_REFUSED && !region_is_hidden(counted));
    CHECK(region_refused(hidden) == REGION_NOT_REFUSED && region_is_hidden(hidden));
    CHECK(region_refused(refused) == REGION_NOT_A_KIND && !region_is_hidden(refused));
    CHECK(region_refused(0) == REGION_NOT_REFUSED && region_refused(101) == REGION_NOT_REFUSED);
    CHECK(!region_is_hidden(101));
}

void test_words(void)
{
    sentences();
    kinds_of_answers();
}
