/* Calls on threads that have no more stack than the header asks for; several threads query one record at a time. */
#include "graphs.h"
#include "host.h"
#include "images.h"

#include <pthread.h>
#include <string.h>

enum {
    THREADS = 4,
    ROUNDS = 20,
    GUARD_BYTES = 1 << 20 /* memory past the stack's end that faults, more than any frame has */
};

/* The longest image, and the older archive of its graph. */
static struct image longest;
static struct image older;

/* What a thread writes. */
static struct job {
    region_graph own;
    uint8_t written[REGION_LONGEST_IMAGE];
    bool right;
} jobs[THREADS];

/* The longest image, read into a record of the thread's own, and changes of it. */
static bool changes(region_graph *own)
{
    region_empty(own);
    return region_read(own, longest.bytes, longest.length) == REGION_NOT_REFUSED
        && region_uninstall(own, 1000) == REGION_NOT_REFUSED
        && region_install_v4(own, 0, 1, NO_PACKAGES, NONE) == REGION_NOT_REFUSED
        && region_disconnect(own, 48, 49) == REGION_NOT_REFUSED
        && region_connect_v5(own, 48, 49, NONE, true, NO_ENTRIES, true, NONE) == REGION_NOT_REFUSED
        && region_remove(own, 63) == REGION_NOT_REFUSED && region_add(own, 63) == REGION_NOT_REFUSED;
}

/* Resolve with two candidates, of which one is offered, and with four, of which two are. */
static bool resolves(void)
{
    uint32_t kept[4];
    uint32_t packages[4];
    uint16_t versions[4];
    return region_resolve_v4(graph, kept, 2, packages, 2, versions, 2, 1000, LIST(1001, 1002), PACKAGES(8, 16)) == 1
        && kept[0] == 1001 && packages[0] == 8 && versions[0] == 0
        && region_resolve_v4(graph, kept, 4, packages, 4, versions, 4, 1001, LIST(1000, 1001, 1002, 1003), PACKAGES(0, 8, 16, 16))
               == 2
        && kept[1] == 1002 && packages[1] == 16 && versions[1] == 0;
}

/* Each other query of the shared record, which holds the graph of the longest image. */
static bool queries(uint8_t *written)
{
    uint8_t route[REGION_ROUTE_BYTES];
    uint32_t kept[2];
    return region_archive_query(longest.bytes, longest.length, 1000, REGION_KIND_PACKAGE, 8, 0) == REGION_SEEN
        && region_route_v4(graph, route, sizeof route, 1000, REGION_KIND_PACKAGE, 8, 0) == 1
        && region_bundle_find(graph, kept, 2, 1000, LIST(1015, 1017)) == 1
        && region_service_find(graph, kept, 2, 1000, LIST(UINT32_MAX)) == 0
        && region_bundle_event(graph, kept, 2, LIST(1000, 1001), 1017) == 1
        && region_service_event(graph, kept, 2, LIST(1000, 1001), UINT32_MAX) == 0
        && region_write(graph, written, REGION_LONGEST_IMAGE) == REGION_LONGEST_IMAGE;
}

/* The longest image made an older archive, and the other way. */
static bool conversions(uint8_t *written)
{
    return region_archive_back(longest.bytes, longest.length, written, REGION_LONGEST_IMAGE) == (int64_t)older.length
        && memcmp(written, older.bytes, older.length) == 0
        && region_archive_forward(older.bytes, older.length, written, REGION_LONGEST_IMAGE) == REGION_LONGEST_IMAGE
        && memcmp(written, longest.bytes, longest.length) == 0;
}

static void *work(void *argument)
{
    struct job *job = argument;
    job->right = true;
    for (int round = 0; round < ROUNDS; round++) {
        job->right = job->right && changes(&job->own) && resolves() && queries(job->written) && conversions(job->written);
    }
    return NULL;
}

void test_threads(void)
{
    pthread_t threads[THREADS];
    pthread_attr_t attributes;
    longest = longest_image();
    older = longest_of_version_2();
    lend();
    ACCEPTED(region_read(graph, longest.bytes, longest.length));
    CHECK(pthread_attr_init(&attributes) == 0);
    CHECK(pthread_attr_setguardsize(&attributes, GUARD_BYTES) == 0);
    CHECK(pthread_attr_setstacksize(&attributes, REGION_STACK_BYTES) == 0);
    expect_same();
    for (int i = 0; i < THREADS; i++) {
        CHECK(pthread_create(&threads[i], &attributes, work, &jobs[i]) == 0);
    }
    for (int i = 0; i < THREADS; i++) {
        CHECK(pthread_join(threads[i], NULL) == 0);
        check_call(jobs[i].right, __FILE__, __LINE__, "the calls of a thread");
    }
    pthread_attr_destroy(&attributes);
}
