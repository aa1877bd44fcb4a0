/* What the programs are given: files and numbers. */
#ifndef INPUT_H
#define INPUT_H

#include <stdbool.h>
#include <stddef.h>
#include <stdint.h>
#include <stdio.h>

struct input {
    uint8_t *bytes;
    size_t length;
};

/* Reads all of a file, whatever its length, into memory that the caller frees; tells whether it could be read and kept. */
bool read_all(struct input *input, FILE *file);

/* The number of decimal digits. */
uint32_t number(const char *digits);

#endif
