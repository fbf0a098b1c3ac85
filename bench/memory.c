/* The two functions of a C library that a compiler may call for itself. */
#include <stddef.h>

void *memset(void *to, int value, size_t count);
void *memcpy(void *restrict to, const void *restrict from, size_t count);

void *memset(void *to, int value, size_t count) {
    unsigned char *p = to;
    for (size_t i = 0; i < count; i++) p[i] = (unsigned char)value;
    return to;
}

void *memcpy(void *restrict to, const void *restrict from, size_t count) {
    unsigned char *p = to;
    const unsigned char *q = from;
    for (size_t i = 0; i < count; i++) p[i] = q[i];
    return to;
}
