#define _DEFAULT_SOURCE
#include "measure.h"

#include <signal.h>
#include <stdio.h>
#include <stdlib.h>
#include <string.h>
#include <sys/mman.h>
#include <ucontext.h>
#include <unistd.h>

enum {
    SPARE = 4096,      /* what a figure has beside the use of a call, for the loader */
    STEP = 16384,      /* a figure is at most twice the use, rounded up to a multiple of this */
    HOST = 512,        /* what the frame that makes a call may use */
    ROOM = 1 << 19,    /* of a stack to measure on: more than any call uses */
    BARRIER = 1 << 20, /* memory behind a stack that faults: more than any frame has */
    BLOCK = 4096,
};

struct given given;
struct out out;

static int64_t resolve(void)
{
    const region_candidates candidates = {given.locations, given.packages, given.versions, given.count};
    const region_offers offers = {out.numbers, out.packages, out.versions, out.places};
    return region_resolve(&given.graph, &offers, given.location, &candidates);
}

/* The figures; and what an answer is where it is a refusal, or an index that is not there. */
enum figure { QUERY, CHANGE, ARCHIVE, ANY, COUNT_OF_FIGURES };
enum refusal { NEVER, NUMBER, ZERO, BELOW_ZERO, BELOW_SEEN };

#define AS_FUNCTION(name, figure, refusal, call) \
    static int64_t make_##name(void) \
    { \
        return (int64_t)(call); \
    }
CALLS(AS_FUNCTION)

typedef int64_t made(void);

#define AS_ROW(name, figure, refusal, call) {#name, figure, refusal, make_##name, 0, 0, 0},
static struct {
    const char *name;
    enum figure figure;
    enum refusal refusal;
    made *make;
    size_t used; /* bytes, at most */
    unsigned long accepted;
    unsigned long refused;
} calls[] = {CALLS(AS_ROW)};

static struct {
    const char *name;
    size_t bytes;
    size_t used; /* by a call that it is for, at most */
} figures[COUNT_OF_FIGURES] = {
    {"REGION_STACK_QUERY", REGION_STACK_QUERY, 0},
    {"REGION_STACK_CHANGE", REGION_STACK_CHANGE, 0},
    {"REGION_STACK_ARCHIVE", REGION_STACK_ARCHIVE, 0},
    {"REGION_STACK_BYTES", REGION_STACK_BYTES, 0},
};

static unsigned long failed;

void fail(const char *name, const char *words)
{
    printf("FAILED %s: %s\n", name, words);
    failed++;
}

/* A stack whose bytes are the pattern where no call has run on it since. */
struct stack {
    uint8_t *end; /* the lowest byte: memory before it faults */
    size_t size;
    uint8_t pattern;
};

static struct stack new_stack(size_t size, uint8_t pattern)
{
    uint8_t *memory = mmap(NULL, BARRIER + size, PROT_READ | PROT_WRITE, MAP_PRIVATE | MAP_ANONYMOUS, -1, 0);
    if (memory == MAP_FAILED || mprotect(memory, BARRIER, PROT_NONE) != 0) {
        perror("stack");
        exit(1);
    }
    memset(memory + BARRIER, pattern, size);
    return (struct stack){memory + BARRIER, size, pattern};
}

/* Two to measure on, since a call may write bytes that one of the patterns has; and one for each figure, with as many bytes. */
static struct stack wide[2];
static struct stack narrow[COUNT_OF_FIGURES];
static bool measuring = true;

/* The call that runs, and its answer. */
static volatile enum call running;
static int64_t answer;

static void on_stack(void)
{
    answer = calls[running].make();
}

/* Makes a call on a stack. */
static void run(const struct stack *stack, enum call call)
{
    static ucontext_t outside;
    static ucontext_t inside;
    memcpy(&given.graph, &given.start, sizeof given.graph);
    running = call;
    if (getcontext(&inside) != 0) {
        exit(1);
    }
    inside.uc_stack.ss_sp = stack->end;
    inside.uc_stack.ss_size = stack->size;
    inside.uc_link = &outside;
    makecontext(&inside, on_stack, 0);
    if (swapcontext(&outside, &inside) != 0) {
        exit(1);
    }
}

/* The bytes of a stack from the lowest that changed on. They get the pattern again. */
static size_t used(const struct stack *stack)
{
    uint8_t block[BLOCK];
    size_t kept = 0;
    memset(block, stack->pattern, BLOCK);
    while (kept + BLOCK <= stack->size && memcmp(stack->end + kept, block, BLOCK) == 0) {
        kept += BLOCK;
    }
    while (kept < stack->size && stack->end[kept] == stack->pattern) {
        kept++;
    }
    memset(stack->end + kept, stack->pattern, stack->size - kept);
    return stack->size - kept;
}

static bool is_refused(enum refusal refusal)
{
    switch (refusal) {
    case NUMBER:
        return answer != REGION_NOT_REFUSED;
    case ZERO:
        return answer == 0;
    case BELOW_ZERO:
        return region_refused(answer) != REGION_NOT_REFUSED;
    case BELOW_SEEN:
        return answer < REGION_SEEN;
    default:
        return false;
    }
}

void measure(enum call call)
{
    if (!measuring) {
        run(&narrow[calls[call].figure], call);
        return;
    }
    for (size_t i = 0; i < 2; i++) {
        run(&wide[i], call);
        const size_t bytes = used(&wide[i]);
        calls[call].used = bytes > calls[call].used ? bytes : calls[call].used;
    }
    if (is_refused(calls[call].refusal)) {
        calls[call].refused++;
    } else {
        calls[call].accepted++;
    }
}

static void report_calls(void)
{
    printf("%-25s %7s %9s %9s\n", "call", "bytes", "accepted", "refused");
    for (size_t i = 0; i < COUNT_OF_CALLS; i++) {
        const enum figure figure = calls[i].figure;
        printf("%-25s %7zu %9lu %9lu\n", calls[i].name, calls[i].used, calls[i].accepted, calls[i].refused);
        figures[figure].used = calls[i].used > figures[figure].used ? calls[i].used : figures[figure].used;
        figures[ANY].used = calls[i].used > figures[ANY].used ? calls[i].used : figures[ANY].used;
        if (calls[i].accepted == 0 || (calls[i].refused == 0 && calls[i].refusal != NEVER)) {
            fail(calls[i].name, "not both accepted and refused");
        }
    }
}

static void report_figures(void)
{
    printf("%-25s %7s %9s\n", "figure", "used", "figure");
    for (size_t i = 0; i < COUNT_OF_FIGURES; i++) {
        const size_t most = 2 * ((figures[i].used + STEP - 1) / STEP * STEP);
        printf("%-25s %7zu %9zu\n", figures[i].name, figures[i].used, figures[i].bytes);
        if (figures[i].used + SPARE > figures[i].bytes) {
            fail(figures[i].name, "too small");
        } else if (figures[i].bytes > most) {
            fail(figures[i].name, "too large");
        }
    }
}

/* Says which call touched the memory behind its stack. This runs on a stack of its own. */
static void on_fault(int signal_number)
{
    static const char words[] = ": touched the memory behind its stack\n";
    const char *name = calls[running].name;
    (void)signal_number;
    if (write(STDOUT_FILENO, "FAILED ", 7) < 0 || write(STDOUT_FILENO, name, strlen(name)) < 0
        || write(STDOUT_FILENO, words, sizeof words - 1) < 0) {
        _exit(2);
    }
    _exit(1);
}

static void catch_faults(void)
{
    static uint8_t memory[1 << 16];
    const stack_t own = {.ss_sp = memory, .ss_size = sizeof memory};
    struct sigaction action = {.sa_handler = on_fault, .sa_flags = SA_ONSTACK};
    if (sigaltstack(&own, NULL) != 0 || sigaction(SIGSEGV, &action, NULL) != 0) {
        perror("stack");
        exit(1);
    }
}

void prepare(void)
{
    for (size_t i = 0; i < 2; i++) {
        wide[i] = new_stack(ROOM, i == 0 ? 0x5A : 0xA5);
    }
    for (size_t i = 0; i < COUNT_OF_FIGURES; i++) {
        narrow[i] = new_stack(figures[i].bytes + HOST, 0);
    }
    catch_faults();
}

void confine(void)
{
    measuring = false;
}

bool report(void)
{
    report_calls();
    report_figures();
    fflush(stdout); /* before what on_fault may write */
    return failed == 0;
}
