/* What C's <stddef.h> has and the examples use, for a compiler without the headers of a C library. */
#ifndef SIPHON_STDDEF_H
#define SIPHON_STDDEF_H
typedef __SIZE_TYPE__ size_t;
#endif
