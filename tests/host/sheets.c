#include "sheets.h"

#include <string.h>

static void put_number(uint8_t *bytes, size_t count, uint32_t number)
{
    for (size_t i = 0; i < count; i++) {
        bytes[i] = (uint8_t)(number >> (8 * (count - 1 - i)));
    }
}

static uint32_t number_of(const uint8_t *bytes, size_t count)
{
    uint32_t number = 0;
    for (size_t i = 0; i < count; i++) {
        number = number * 256 + bytes[i];
    }
    return number;
}

void set_length(struct sheet *sheet, uint32_t length)
{
    put_number(sheet->bytes + 1, 4, length);
}

struct sheet no_entries(void)
{
    struct sheet sheet = {FRONT, {1}};
    return sheet;
}

void put_bytes(struct sheet *sheet, const uint8_t *bytes, size_t count)
{
    CHECK(sheet->length + count <= SHEET_BYTES);
    memcpy(sheet->bytes + sheet->length, bytes, count);
    sheet->length += count;
    set_length(sheet, (uint32_t)(sheet->length - FRONT));
}

void put_entry(struct sheet *sheet, uint8_t kind, uint32_t number, const char *name, size_t name_length)
{
    uint8_t front[BEFORE_NAME];
    put_number(front, 2, (uint32_t)(BEFORE_NAME - 2 + name_length));
    put_number(front + 2, 1, kind);
    put_number(front + 3, 4, number);
    put_bytes(sheet, front, sizeof front);
    put_bytes(sheet, (const uint8_t *)name, name_length);
}

void put_name(struct sheet *sheet, uint8_t kind, uint32_t number, const char *name)
{
    put_entry(sheet, kind, number, name, strlen(name));
}

struct sheet deck_sheet(void)
{
    struct sheet sheet = no_entries();
    put_name(&sheet, REGION_KIND_REGION, 0, "deck");
    return sheet;
}

struct sheet small_sheet(void)
{
    struct sheet sheet = no_entries();
    put_name(&sheet, REGION_KIND_BUNDLE, 10, "arm");
    put_name(&sheet, REGION_KIND_BUNDLE, 258, "~");
    put_name(&sheet, REGION_KIND_PACKAGE, 1, "plate ");
    put_name(&sheet, REGION_KIND_SERVICE, UINT32_MAX, " ");
    put_name(&sheet, REGION_KIND_REGION, 0, "deck");
    return sheet;
}

static bool printable(const uint8_t *bytes, size_t count)
{
    for (size_t i = 0; i < count; i++) {
        if (bytes[i] < 0x20 || bytes[i] > 0x7E) {
            return false;
        }
    }
    return true;
}

/* The count of bytes of the entry that starts with these, or 0 where they start with none. */
static size_t entry_bytes(const uint8_t *bytes, size_t left)
{
    if (left < BEFORE_NAME) {
        return 0;
    }
    size_t size = number_of(bytes, 2);
    bool fits = size >= 6 && size <= 45 && size <= left - 2;
    return fits && bytes[2] <= 3 && printable(bytes + BEFORE_NAME, size - 5) ? 2 + size : 0;
}

/* Entries ascend by their kind and number, which are the bytes from the third to the seventh. */
static bool before(const uint8_t *entry, const uint8_t *next)
{
    return memcmp(entry + 2, next + 2, 5) < 0;
}

static bool is_sheet(const uint8_t *sheet, size_t length)
{
    if (length < FRONT || sheet[0] != 1 || number_of(sheet + 1, 4) != length - FRONT) {
        return false;
    }
    const uint8_t *last = NULL;
    for (size_t at = FRONT; at < length;) {
        size_t count = entry_bytes(sheet + at, length - at);
        if (count == 0 || (last != NULL && !before(last, sheet + at))) {
            return false;
        }
        last = sheet + at;
        at += count;
    }
    return true;
}

struct found plain_lookup(const uint8_t *sheet, size_t length, uint32_t kind, uint32_t number)
{
    if (!is_sheet(sheet, length)) {
        return (struct found){-REGION_BROKEN_SHEET, 0};
    }
    for (size_t at = FRONT; at < length; at += 2 + number_of(sheet + at, 2)) {
        if (sheet[at + 2] == kind && number_of(sheet + at + 3, 4) == number) {
            return (struct found){number_of(sheet + at, 2) - INT64_C(5), at + BEFORE_NAME};
        }
    }
    return (struct found){-REGION_NO_ENTRY, 0};
}
