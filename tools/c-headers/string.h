/* What C's <string.h> has and the examples, the tests and tools/replay.c use, for a compiler without the headers of a C library. */
#ifndef SIPHON_STRING_H
#define SIPHON_STRING_H
#include <stddef.h>
void *memset(void *to, int byte, size_t count);
void *memcpy(void *to, const void *from, size_t count);
int memcmp(const void *a, const void *b, size_t count);
#endif
