#include "candidates.h"

/* A location where no test installs a bundle, and a package that no bundle exports. */
enum { NOBODY = 2000000001, NOTHING = 2000000002 };

struct candidates given;
struct candidates kept;

static void put(struct candidates *candidates, uint32_t exporter, uint32_t package, uint16_t version)
{
    candidates->exporters[candidates->count] = exporter;
    candidates->packages[candidates->count] = package;
    candidates->versions[candidates->count] = version;
    candidates->count++;
}

void start_candidates(void)
{
    given.count = 0;
    kept.count = 0;
}

void add_versioned(uint32_t exporter, uint32_t package, uint16_t version, bool offered)
{
    put(&given, exporter, package, version);
    if (offered) {
        put(&kept, exporter, package, version);
    }
}

void add_candidate(uint32_t exporter, uint32_t package, bool offered)
{
    add_versioned(exporter, package, 0, offered);
}

bool check_resolve(uint32_t location, const char *file, int line, const char *text)
{
    expect_same();
    expect_numbers(kept.exporters, kept.count);
    expect_others(kept.packages, kept.count);
    expect_versions(kept.versions, kept.count);
    int64_t count = region_resolve_v4(graph, lent.places, PLACES, lent.others, PLACES, lent.versions, PLACES, location,
                                      given.exporters, given.count, given.packages, given.count, given.versions, given.count);
    return check_call(count == (int64_t)kept.count, file, line, text);
}

static void add(const struct candidate *candidate)
{
    add_versioned(candidate->exporter, candidate->package, candidate->version, candidate->offered);
}

void check_versions(uint32_t location, const struct candidate *candidates, size_t count, const char *file, int line,
                    const char *text)
{
    start_candidates();
    for (size_t i = 0; i < count; i++) {
        add(&candidates[i]);
    }
    check_resolve(location, file, line, text);
    for (size_t i = 0; i < count; i++) {
        start_candidates();
        add(&candidates[i]);
        check_resolve(location, file, line, text);
    }
    start_candidates();
    for (size_t i = 0; i < count; i++) {
        add(&candidates[i]);
        add_versioned(candidates[i].exporter, NOTHING, candidates[i].version, false);
        add_versioned(NOBODY, candidates[i].package, candidates[i].version, false);
        add_versioned(NOBODY, NOTHING, candidates[i].version, false);
    }
    check_resolve(location, file, line, text);
}

void check_offers(uint32_t location, const struct unversioned *candidates, size_t count, const char *file, int line,
                  const char *text)
{
    static struct candidate versioned[PLACES];
    for (size_t i = 0; i < count; i++) {
        versioned[i] = (struct candidate){candidates[i].exporter, candidates[i].package, 0, candidates[i].offered};
    }
    check_versions(location, versioned, count, file, line, text);
}
