/* Memory that ends where a page that faults begins: a call that reads or writes past what it is lent there ends the program. */
#ifndef EDGE_H
#define EDGE_H

#include "wimboru.h"

enum {
    ROOM = 1 << 16 /* a whole number of pages, for any part that is lent */
};

/* The end of ROOM bytes of memory, which have a page after them that faults; and their release. */
uint8_t *edge(void);
void release(uint8_t *end);

/* A record, a list of numbers or of versions, or bytes, that end at an edge. */
region_graph *record_at(uint8_t *end);
uint32_t *numbers_at(uint8_t *end, const uint32_t *numbers, size_t count);
uint16_t *versions_at(uint8_t *end, const uint16_t *versions, size_t count);
uint8_t *bytes_at(uint8_t *end, const uint8_t *bytes, size_t count);

#endif
