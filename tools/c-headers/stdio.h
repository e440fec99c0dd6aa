/* What C's <stdio.h> has and the examples, the tests and tools/replay.c use, for a compiler without the headers of a C library. */
#ifndef SIPHON_STDIO_H
#define SIPHON_STDIO_H
#include <stddef.h>
typedef struct siphon_file FILE;
extern FILE *stdout;
extern FILE *stderr;
int printf(const char *format, ...);
int fprintf(FILE *to, const char *format, ...);
size_t fwrite(const void *from, size_t size, size_t count, FILE *to);
int fflush(FILE *of);
int ferror(FILE *of);
#endif
