/* Archives that the tests make byte by byte, without the library. */
#ifndef MADE_H
#define MADE_H

#include "images.h"

/* Regions and nothing else, as a file of a version. */
struct image regions_alone(uint8_t version, const uint8_t *numbers, size_t count);

/* An archive of version 1 or 2, by a generator of numbers. Equal seeds give equal archives. */
struct image made_older(uint32_t seed);

#endif
