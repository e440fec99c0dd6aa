/* What Linux's <unistd.h> has on x86-64 and tools/replay.c uses, for a compiler without the headers of a C library. */
#ifndef SIPHON_UNISTD_H
#define SIPHON_UNISTD_H
#include <stddef.h>
long read(int file, void *to, size_t count);
#endif
