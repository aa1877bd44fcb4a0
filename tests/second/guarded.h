/* Memory between pages that cannot be touched: a read or a write before its first or past its last byte ends the program. */
#ifndef SECOND_GUARDED_H
#define SECOND_GUARDED_H

#include <stddef.h>

enum { GUARDED_ROOM = 1 << 20 };

/* GUARDED_ROOM bytes from first up to past. As many before and after them cannot be touched. */
struct guarded {
    unsigned char *first;
    unsigned char *past;
};

struct guarded guarded_make(void);

/* A block that begins with the room, and one that ends with it. A size over GUARDED_ROOM ends the program. */
void *guarded_low(struct guarded room, size_t size);
void *guarded_high(struct guarded room, size_t size);

#endif
