/* Counts the bytes that memcpy copies, in a program that is linked with -Wl,--wrap=memcpy. */
#include <stddef.h>

/* In engine.c. */
extern size_t copied;

void *__real_memcpy(void *to, const void *from, size_t length);
void *__wrap_memcpy(void *to, const void *from, size_t length);

void *__wrap_memcpy(void *to, const void *from, size_t length)
{
    copied += length;
    return __real_memcpy(to, from, length);
}
