/* Candidates of resolve, and checks of which of them a bundle is offered. */
#ifndef CANDIDATES_H
#define CANDIDATES_H

#include "check.h"

/* An exporter with a package, and whether the bundle that asks is offered it; and so with version 0. */
struct candidate {
    uint32_t exporter;
    uint32_t package;
    uint16_t version;
    bool offered;
};

struct unversioned {
    uint32_t exporter;
    uint32_t package;
    bool offered;
};

/* Candidates as the three lists that a call takes, which are as long. */
struct candidates {
    size_t count;
    uint32_t exporters[PLACES];
    uint32_t packages[PLACES];
    uint16_t versions[PLACES];
};

/* The candidates of a call, and those of them that it is to keep. */
extern struct candidates given;
extern struct candidates kept;

/* Makes both empty. */
void start_candidates(void);

/* Adds a candidate to the given ones, and where it is offered to the kept ones; and so with version 0. */
void add_versioned(uint32_t exporter, uint32_t package, uint16_t version, bool offered);
void add_candidate(uint32_t exporter, uint32_t package, bool offered);

/* A resolve of the given ones on the lent record: it writes the kept ones at the start of all output lists, and nothing else.
   Counts two checks, and tells whether both hold. */
bool check_resolve(uint32_t location, const char *file, int line, const char *text);

/* Resolves of candidates that are offered as they say: all in one call; each in a call of its own; and each with three behind it
   that nobody is offered. So every candidate is judged without tables, which the library makes for 4 candidates or more, and with
   them. */
void check_versions(uint32_t location, const struct candidate *candidates, size_t count, const char *file, int line,
                    const char *text);
void check_offers(uint32_t location, const struct unversioned *candidates, size_t count, const char *file, int line,
                  const char *text);

#define CANDIDATES(type, ...) \
    (const struct type[]) \
    { \
        __VA_ARGS__ \
    }
#define HOW_MANY(type, ...) sizeof CANDIDATES(type, __VA_ARGS__) / sizeof(struct type)
#define OFFERS(location, ...) \
    check_offers((location), CANDIDATES(unversioned, __VA_ARGS__), HOW_MANY(unversioned, __VA_ARGS__), __FILE__, __LINE__, \
                 #location " is offered " #__VA_ARGS__)
#define OFFERS_VERSIONS(location, ...) \
    check_versions((location), CANDIDATES(candidate, __VA_ARGS__), HOW_MANY(candidate, __VA_ARGS__), __FILE__, __LINE__, \
                   #location " is offered " #__VA_ARGS__)

#endif
