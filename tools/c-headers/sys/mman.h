/* What Linux's <sys/mman.h> has on x86-64 and tools/replay.c uses, for a compiler without the headers of a C library. */
#ifndef SIPHON_MMAN_H
#define SIPHON_MMAN_H
#include <stddef.h>
#define PROT_NONE 0
#define PROT_READ 1
#define PROT_WRITE 2
#define MAP_PRIVATE 2
#define MAP_ANONYMOUS 32
#define MAP_FAILED ((void *)-1)
void *mmap(void *at, size_t length, int protection, int flags, int file, long offset);
int mprotect(void *at, size_t length, int protection);
#endif
