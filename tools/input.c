#include "input.h"

#include <stdlib.h>

bool read_all(struct input *input, FILE *file)
{
    size_t room = 0;
    input->bytes = NULL;
    input->length = 0;
    while (!feof(file) && !ferror(file)) {
        if (input->length == room) {
            room = 2 * room + 65536;
            uint8_t *more = realloc(input->bytes, room);
            if (more == NULL) {
                return false;
            }
            input->bytes = more;
        }
        input->length += fread(input->bytes + input->length, 1, room - input->length, file);
    }
    return !ferror(file);
}

uint32_t number(const char *digits)
{
    return (uint32_t)strtoul(digits, NULL, 10);
}
