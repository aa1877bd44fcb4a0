/* Counted checks, and the memory that is lent to the calls. A check that holds prints nothing. */
#ifndef CHECK_H
#define CHECK_H

#include "wimboru.h"

/* The calls that share their arguments: the two finds, the two events, the two conversions. */
typedef int64_t find_call(const region_graph *, uint32_t *, size_t, uint32_t, const uint32_t *, size_t);
typedef int64_t event_call(const region_graph *, uint32_t *, size_t, const uint32_t *, size_t, uint32_t);
typedef int64_t conversion_call(const uint8_t *, size_t, uint8_t *, size_t);

enum {
    GUARD = 64,
    PLACES = 1024,
    BYTES = REGION_LONGEST_IMAGE + 8,
};

/* Everything that is lent to a call for writing, with guard bytes around each part. */
struct lent {
    uint8_t before[GUARD];
    region_graph graph;
    uint8_t between[GUARD];
    uint32_t places[PLACES];
    uint8_t beside[GUARD];
    uint32_t others[PLACES]; /* the second output list of resolve */
    uint8_t behind[GUARD];
    uint16_t versions[PLACES]; /* its third output list */
    uint8_t beneath[GUARD];
    uint8_t bytes[BYTES];
    uint8_t beyond[GUARD];
    size_t start;
    uint8_t beside_bundle[GUARD];
    region_bundle bundle;
    uint8_t beside_connection[GUARD];
    region_connection connection;
    uint8_t after[GUARD];
};

extern struct lent lent;

/* The record that is lent, as most calls take it. */
extern region_graph *const graph;

/* Lists of as many versions as any test needs: all 0, and all the highest. */
extern uint16_t zeros[PLACES];
extern uint16_t tops[PLACES];

/* Fills what is lent with a pattern, and makes the record empty. */
void lend(void);

/* What lend fills with. It comes before all else, and makes the lists of versions. */
void set_pattern(uint8_t byte);

/* Fills the buffers, the structs and the start with the pattern, then says what is to be lent after a call: what is lent now, but for
   numbers or bytes at the start of a buffer, the start of a name, or a struct. */
void expect_same(void);
void expect_numbers(const uint32_t *numbers, size_t count);
void expect_others(const uint32_t *numbers, size_t count);
void expect_versions(const uint16_t *versions, size_t count);
void expect_bytes(const uint8_t *bytes, size_t count);
void expect_start(size_t start);
void expect_bundle(const region_bundle *bundle);
void expect_connection(const region_connection *connection);

/* Counts a check; prints its place and text where it does not hold. */
void check(bool holds, const char *file, int line, const char *text);

/* Counts two checks of a call: its answer, and that everything that is lent is as expected. Tells whether both hold. */
bool check_call(bool answered, const char *file, int line, const char *text);

/* Makes the record as it is the expected one. */
void expect_record(void);

/* Prints how many checks passed and failed, and tells whether all passed. */
bool all_passed(void);

#define CHECK(expression) check((expression), __FILE__, __LINE__, #expression)

/* A list of numbers as the two arguments that a call takes. */
#define COUNT(...) (sizeof((uint32_t[]){__VA_ARGS__}) / sizeof(uint32_t))
#define LIST(...) (const uint32_t[]){__VA_ARGS__}, COUNT(__VA_ARGS__)
#define NONE NULL, 0
#define VERSIONS(...) (const uint16_t[]){__VA_ARGS__}, COUNT(__VA_ARGS__)

/* Packages of version 0 as the four arguments that a call takes, and entries that pass every version as the six. */
#define PACKAGES(...) LIST(__VA_ARGS__), zeros, COUNT(__VA_ARGS__)
#define ENTRIES(...) LIST(__VA_ARGS__), zeros, COUNT(__VA_ARGS__), tops, COUNT(__VA_ARGS__)
#define NO_PACKAGES NONE, NONE
#define NO_ENTRIES NONE, NONE, NONE

/* A call with its answer, which changes no byte of the record or of a buffer. */
#define UNCHANGED(answer, call) \
    do { \
        expect_same(); \
        check_call((call) == (answer), __FILE__, __LINE__, #call " == " #answer); \
    } while (0)

/* A query that returns a count, after which the buffers are as expect_numbers or expect_bytes said. */
#define WRITES(count, call) check_call((call) == (int64_t)(count), __FILE__, __LINE__, #call " == " #count)

/* A find or an event that writes these numbers at the start of the places, and nothing else. */
#define KEEPS(call, ...) \
    do { \
        expect_same(); \
        expect_numbers(LIST(__VA_ARGS__)); \
        check_call((call) == (int64_t)COUNT(__VA_ARGS__), __FILE__, __LINE__, #call " keeps " #__VA_ARGS__); \
    } while (0)

/* A route call that writes these regions at the start of the bytes, and nothing else. */
#define ROUTES(call, ...) \
    do { \
        expect_same(); \
        expect_bytes((const uint8_t[]){__VA_ARGS__}, COUNT(__VA_ARGS__)); \
        check_call((call) == (int64_t)COUNT(__VA_ARGS__) - 1, __FILE__, __LINE__, #call " gives " #__VA_ARGS__); \
    } while (0)

/* A lookup that finds a name of a length, and writes its place to the start, and nothing else. */
#define NAMES(place, length, call) \
    do { \
        expect_same(); \
        expect_start(place); \
        check_call((call) == (int64_t)(length), __FILE__, __LINE__, #call " finds " #place ", " #length); \
    } while (0)

/* A changing call that is accepted and changes nothing but the record. */
#define ACCEPTED(call) \
    do { \
        expect_same(); \
        bool accepted = (call) == REGION_NOT_REFUSED; \
        expect_record(); \
        check_call(accepted, __FILE__, __LINE__, #call " accepted"); \
    } while (0)

#endif
