/* Names: the cases of request C-11, what is no sheet, and lookups beside those of a plain reader. */
#include "graphs.h"
#include "host.h"
#include "sheets.h"

#include <string.h>

static int64_t lookup(const struct sheet *sheet, uint32_t kind, uint32_t number)
{
    return region_name(sheet->bytes, sheet->length, &lent.start, kind, number);
}

/* A lookup answers what the plain reader's does, and writes the start exactly where it finds the name. */
static void agrees(const struct sheet *sheet, uint32_t kind, uint32_t number)
{
    struct found plain = plain_lookup(sheet->bytes, sheet->length, kind, number);
    expect_same();
    if (plain.answer > 0) {
        expect_start(plain.start);
    }
    check_call(lookup(sheet, kind, number) == plain.answer, __FILE__, __LINE__, "a lookup, as the plain reader has it");
}

/* What is no sheet is refused with 18, whatever is asked for. */
static void broken(struct sheet sheet)
{
    UNCHANGED(-REGION_BROKEN_SHEET, lookup(&sheet, REGION_KIND_REGION, 0));
    UNCHANGED(-REGION_BROKEN_SHEET, lookup(&sheet, REGION_KIND_REGION, 1));
    UNCHANGED(-REGION_BROKEN_SHEET, lookup(&sheet, REGION_KIND_BUNDLE, 9));
    UNCHANGED(-REGION_BROKEN_SHEET, lookup(&sheet, 4, 0));
    UNCHANGED(-REGION_BROKEN_SHEET, lookup(&sheet, UINT32_MAX, UINT32_MAX));
}

static void whole_sheets(void)
{
    static const uint8_t deck[] = {1, 0, 0, 0, 0x0B, 0, 9, 3, 0, 0, 0, 0, 0x64, 0x65, 0x63, 0x6B};
    struct sheet sheet = no_entries();
    for (uint32_t kind = 0; kind <= 4; kind++) {
        UNCHANGED(-REGION_NO_ENTRY, lookup(&sheet, kind, 0));
        UNCHANGED(-REGION_NO_ENTRY, lookup(&sheet, kind, UINT32_MAX));
    }
    sheet = deck_sheet();
    CHECK(sheet.length == sizeof deck && memcmp(sheet.bytes, deck, sizeof deck) == 0);
    NAMES(12, 4, region_name(deck, sizeof deck, &lent.start, REGION_KIND_REGION, 0));
    CHECK(memcmp(deck + lent.start, "deck", 4) == 0);
    UNCHANGED(-REGION_NO_ENTRY, region_name(deck, sizeof deck, &lent.start, REGION_KIND_REGION, 1));
    UNCHANGED(-REGION_NO_ENTRY, region_name(deck, sizeof deck, &lent.start, 4, 0));
}

/* The sheet of region 0 with one byte changed, by its place. */
static void broken_deck(size_t place, uint8_t byte)
{
    struct sheet sheet = deck_sheet();
    sheet.bytes[place] = byte;
    broken(sheet);
}

static void broken_sheets(void)
{
    broken_deck(4, 0x0C);
    broken_deck(7, 4);
    broken_deck(12, 0x1F);
    broken_deck(15, 0x7F);
    struct sheet more = deck_sheet();
    more.length++;
    broken(more);
    struct sheet twice = deck_sheet();
    put_name(&twice, REGION_KIND_REGION, 0, "deck");
    broken(twice);
    struct sheet fallen = no_entries();
    put_name(&fallen, REGION_KIND_PACKAGE, 5, "five");
    put_name(&fallen, REGION_KIND_BUNDLE, 9, "nine");
    broken(fallen);
}

/* No bytes; the first is not 1; the length is another. */
static void fronts(void)
{
    UNCHANGED(-REGION_BROKEN_SHEET, region_name(NULL, 0, &lent.start, REGION_KIND_REGION, 0));
    UNCHANGED(-REGION_BROKEN_SHEET, region_name(NULL, 0, &lent.start, UINT32_MAX, UINT32_MAX));
    for (unsigned version = 0; version <= 255; version++) {
        if (version != 1) {
            broken_deck(0, (uint8_t)version);
        }
    }
    static const uint32_t lengths[] = {0, 10, 12, 15, 16, 11 + 256, 11 + 65536, 11 + (1u << 31), UINT32_MAX};
    struct sheet sheet = deck_sheet();
    for (size_t i = 0; i < sizeof lengths / sizeof lengths[0]; i++) {
        set_length(&sheet, lengths[i]);
        broken(sheet);
    }
}

/* Every beginning of a sheet, with its own length and with the one that goes with it. */
static void beginnings(void)
{
    struct sheet sheet = small_sheet();
    size_t whole = sheet.length;
    for (sheet.length = 0; sheet.length < whole; sheet.length++) {
        broken(sheet);
    }
    for (sheet.length = FRONT; sheet.length <= whole; sheet.length++) {
        set_length(&sheet, (uint32_t)(sheet.length - FRONT));
        agrees(&sheet, REGION_KIND_BUNDLE, 10);
        agrees(&sheet, REGION_KIND_REGION, 0);
    }
}

/* What may not stand behind an entry is told when that entry is asked for, which stands before it. */
static void behind_the_entry(void)
{
    struct sheet sheet = deck_sheet();
    put_bytes(&sheet, (const uint8_t[]){0}, 1);
    broken(sheet);
    sheet = deck_sheet();
    put_bytes(&sheet, (const uint8_t[]){0, 0}, 2);
    broken(sheet);
    sheet = deck_sheet();
    put_name(&sheet, 4, 0, "x");
    broken(sheet);
    sheet = deck_sheet();
    put_name(&sheet, REGION_KIND_REGION, 1, "a\x7F");
    broken(sheet);
    sheet = deck_sheet();
    put_name(&sheet, REGION_KIND_REGION, 1, "");
    broken(sheet);
    sheet = deck_sheet();
    put_name(&sheet, REGION_KIND_REGION, 1, "x");
    NAMES(12, 4, lookup(&sheet, REGION_KIND_REGION, 0));
    NAMES(23, 1, lookup(&sheet, REGION_KIND_REGION, 1));
    put_name(&sheet, REGION_KIND_REGION, 0, "deck");
    broken(sheet);
}

/* A name of every length, alone and with an entry behind it: 1 to 40 bytes. */
static void name_lengths(void)
{
    char name[300];
    memset(name, 'n', sizeof name);
    for (size_t length = 0; length <= sizeof name; length++) {
        struct sheet sheet = no_entries();
        put_entry(&sheet, REGION_KIND_SERVICE, 7, name, length);
        struct sheet two = sheet;
        put_name(&two, REGION_KIND_REGION, 0, "deck");
        if (length >= 1 && length <= REGION_LONGEST_NAME) {
            NAMES(12, length, lookup(&sheet, REGION_KIND_SERVICE, 7));
            NAMES(12, length, lookup(&two, REGION_KIND_SERVICE, 7));
            NAMES(19 + length, 4, lookup(&two, REGION_KIND_REGION, 0));
        } else {
            broken(sheet);
            broken(two);
        }
    }
}

/* Every byte at every place of a name: hex 20 to 7E. */
static void name_bytes(void)
{
    for (unsigned byte = 0; byte <= 255; byte++) {
        for (size_t place = 12; place < 16; place++) {
            struct sheet sheet = deck_sheet();
            sheet.bytes[place] = (uint8_t)byte;
            if (byte >= 0x20 && byte <= 0x7E) {
                NAMES(12, 4, lookup(&sheet, REGION_KIND_REGION, 0));
                UNCHANGED(-REGION_NO_ENTRY, lookup(&sheet, REGION_KIND_REGION, 1));
            } else {
                broken(sheet);
            }
        }
    }
}

/* The largest numbers. A kind is not cut to a byte, and no kind and number is another's. */
static void largest(void)
{
    static const uint32_t kinds[] = {4, 255, 256, 258, 65538, UINT32_MAX - 1, UINT32_MAX};
    struct sheet sheet = no_entries();
    for (uint8_t kind = 0; kind <= 3; kind++) {
        put_name(&sheet, kind, UINT32_MAX, "last");
    }
    for (uint32_t kind = 0; kind <= 3; kind++) {
        NAMES(12 + 11 * kind, 4, lookup(&sheet, kind, UINT32_MAX));
        UNCHANGED(-REGION_NO_ENTRY, lookup(&sheet, kind, UINT32_MAX - 1));
        UNCHANGED(-REGION_NO_ENTRY, lookup(&sheet, kind, 0));
    }
    for (size_t i = 0; i < sizeof kinds / sizeof kinds[0]; i++) {
        UNCHANGED(-REGION_NO_ENTRY, lookup(&sheet, kinds[i], UINT32_MAX));
        UNCHANGED(-REGION_NO_ENTRY, lookup(&sheet, kinds[i], 0));
    }
}

/* Two entries, in each order: by kind, then by number as a whole. */
static void orders(void)
{
    static const uint32_t numbers[] = {0, 1, 255, 256, 65536, 1u << 24, 1u << 31, UINT32_MAX};
    enum { NUMBERS = sizeof numbers / sizeof numbers[0], PAIRS = 4 * NUMBERS };
    for (uint8_t first = 0; first < PAIRS; first++) {
        for (uint8_t second = 0; second < PAIRS; second++) {
            struct sheet sheet = no_entries();
            put_name(&sheet, first / NUMBERS, numbers[first % NUMBERS], "first");
            put_name(&sheet, second / NUMBERS, numbers[second % NUMBERS], "second");
            if (first < second) {
                NAMES(12, 5, lookup(&sheet, first / NUMBERS, numbers[first % NUMBERS]));
                NAMES(24, 6, lookup(&sheet, second / NUMBERS, numbers[second % NUMBERS]));
            } else {
                broken(sheet);
            }
        }
    }
}

/* Every number of entries up to 64, and everything in them and between them. */
static void counts(void)
{
    struct sheet sheet = no_entries();
    for (uint8_t count = 0; count <= 64; count++) {
        for (uint32_t kind = 0; kind <= 4; kind++) {
            for (uint32_t number = 0; number <= 32; number++) {
                agrees(&sheet, kind, number);
            }
        }
        put_entry(&sheet, count / 16, 1 + 2u * (count % 16), "sixteen letters.", 1 + count % 16);
    }
}

/* The length field of an entry: every value, in a sheet that is whole for some of them. */
static void entry_lengths(void)
{
    struct sheet sheet = small_sheet();
    for (uint32_t length = 0; length <= UINT16_MAX; length += length < 1024 ? 1 : 251) {
        sheet.bytes[FRONT] = (uint8_t)(length >> 8);
        sheet.bytes[FRONT + 1] = (uint8_t)length;
        agrees(&sheet, REGION_KIND_BUNDLE, 10);
        agrees(&sheet, REGION_KIND_REGION, 0);
    }
}

/* Every byte of a sheet with every value. */
static void damages(void)
{
    struct sheet sheet = small_sheet();
    for (size_t place = 0; place < sheet.length; place++) {
        uint8_t was = sheet.bytes[place];
        for (unsigned byte = 0; byte <= 255; byte++) {
            sheet.bytes[place] = (uint8_t)byte;
            agrees(&sheet, REGION_KIND_BUNDLE, 10);
            agrees(&sheet, REGION_KIND_BUNDLE, 258);
            agrees(&sheet, REGION_KIND_SERVICE, UINT32_MAX);
            agrees(&sheet, REGION_KIND_REGION, 0);
            agrees(&sheet, 4, 0);
        }
        sheet.bytes[place] = was;
    }
}

/* A region is a kind of names, and no kind of items. */
static void kinds_of_items(void)
{
    build_g();
    UNCHANGED(-REGION_NOT_A_KIND, region_route_v4(graph, lent.bytes, BYTES, 10, REGION_KIND_REGION, 0, 0));
}

void test_names(void)
{
    lend();
    whole_sheets();
    broken_sheets();
    fronts();
    beginnings();
    behind_the_entry();
    name_lengths();
    name_bytes();
    largest();
    orders();
    counts();
    entry_lengths();
    damages();
    kinds_of_items();
}
