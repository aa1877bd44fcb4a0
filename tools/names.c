/* Looks up names in a name sheet, which is a file.

       names SHEET KIND NUMBER     prints the name, or `refused` and the number
       names SHEET                 prints the listing on standard input, each line with the names of the asker and of its region
                                   behind it, each after a tab, and `-` for a name that the sheet does not have. Prints `refused`
                                   and the number alone where the sheet is broken, and a listing that is a refusal as it is.

   KIND and NUMBER are numbers that ./wimboru has found to be decimal and of 32 bits. A name may have the letters of a refusal, so
   the exit status tells them apart: 0 answered, 1 refused, 2 wrong usage, 3 something could not be read. */
#include "input.h"
#include "wimboru.h"

#include <inttypes.h>
#include <stdlib.h>
#include <string.h>

enum {
    ANSWERED = 0,
    REFUSED = 1,
    WRONG_USAGE = 2,
    UNREADABLE = 3,
    LINE_BYTES = 256, /* more than a line of a listing has */
};

/* Prints a name, or another text where the sheet has none, and hands back what the lookup answered. */
static int64_t print_name(struct input sheet, uint32_t kind, uint32_t item, const char *other)
{
    size_t start = 0;
    int64_t length = region_name(sheet.bytes, sheet.length, &start, kind, item);
    if (length > 0) {
        fwrite(sheet.bytes + start, 1, (size_t)length, stdout);
    } else {
        fputs(other, stdout);
    }
    return length;
}

static int print_refusal(int64_t answer)
{
    printf("refused %" PRId64 "\n", -answer);
    return REFUSED;
}

static int look_up(struct input sheet, uint32_t kind, uint32_t item)
{
    int64_t answer = print_name(sheet, kind, item, "");
    if (answer < 0) {
        return print_refusal(answer);
    }
    putchar('\n');
    return ANSWERED;
}

/* Prints a line of the listing, which is without its end here: the first has the titles, the others start with asker and region. */
static void print_line(struct input sheet, const char *line)
{
    uint32_t asker;
    uint32_t region;
    fputs(line, stdout);
    if (sscanf(line, "%" SCNu32 " %" SCNu32, &asker, &region) == 2) {
        putchar('\t');
        print_name(sheet, REGION_KIND_BUNDLE, asker, "-");
        putchar('\t');
        print_name(sheet, REGION_KIND_REGION, region, "-");
    } else {
        fputs("\tasker-name\tregion-name", stdout);
    }
    putchar('\n');
}

/* Reads a line without its end. */
static bool next_line(char *line)
{
    if (fgets(line, LINE_BYTES, stdin) == NULL) {
        return false;
    }
    line[strcspn(line, "\n")] = '\0';
    return true;
}

static int print_listing(struct input sheet)
{
    static const char refused[] = "refused ";
    char line[LINE_BYTES];
    size_t start;
    int64_t answer = region_name(sheet.bytes, sheet.length, &start, UINT32_MAX, 0); /* of no entry: judges the sheet */
    while (next_line(line)) {
        if (strncmp(line, refused, strlen(refused)) == 0) {
            puts(line);
            return REFUSED;
        }
        if (answer == -REGION_BROKEN_SHEET) {
            return print_refusal(answer);
        }
        print_line(sheet, line);
    }
    return ferror(stdin) ? UNREADABLE : ANSWERED;
}

static bool read_sheet(struct input *sheet, const char *path)
{
    FILE *file = fopen(path, "rb");
    *sheet = (struct input){NULL, 0};
    bool whole = file != NULL && read_all(sheet, file);
    if (file != NULL) {
        fclose(file);
    }
    return whole;
}

int main(int argc, char **argv)
{
    if (argc != 2 && argc != 4) {
        fprintf(stderr, "usage: names SHEET [KIND NUMBER]\n");
        return WRONG_USAGE;
    }
    struct input sheet;
    int status = UNREADABLE;
    if (!read_sheet(&sheet, argv[1])) {
        fprintf(stderr, "names: %s could not be read\n", argv[1]);
    } else if (argc == 4) {
        status = look_up(sheet, number(argv[2]), number(argv[3]));
    } else {
        status = print_listing(sheet);
    }
    free(sheet.bytes);
    return status;
}
