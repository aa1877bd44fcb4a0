/* Name sheets that the tests make, and a plain reader of them to compare with. */
#ifndef SHEETS_H
#define SHEETS_H

#include "check.h"

enum {
    FRONT = 5,       /* bytes of the version and the length */
    BEFORE_NAME = 7, /* bytes of an entry before its name */
    SHEET_BYTES = 8192,
};

struct sheet {
    size_t length;
    uint8_t bytes[SHEET_BYTES];
};

/* What a lookup answers: the name's length and the place of its first byte, or minus the number of a refusal and place 0. */
struct found {
    int64_t answer;
    size_t start;
};

/* The sheet with no entries. */
struct sheet no_entries(void);

/* Adds bytes, or an entry, at the end of a sheet; the length field counts them. */
void put_bytes(struct sheet *sheet, const uint8_t *bytes, size_t count);
void put_entry(struct sheet *sheet, uint8_t kind, uint32_t number, const char *name, size_t name_length);

/* An entry with a name that is a text. */
void put_name(struct sheet *sheet, uint8_t kind, uint32_t number, const char *name);

/* The sheet with the name `deck` of region 0; and one with names of every kind. */
struct sheet deck_sheet(void);
struct sheet small_sheet(void);

/* Makes the length field a number. */
void set_length(struct sheet *sheet, uint32_t length);

/* The lookup by a reader that is written from the request: first the whole sheet, then the entry. */
struct found plain_lookup(const uint8_t *sheet, size_t length, uint32_t kind, uint32_t number);

#endif
