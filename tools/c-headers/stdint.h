/* What C's <stdint.h> has and the examples use, for a compiler without the headers of a C library. */
#ifndef SIPHON_STDINT_H
#define SIPHON_STDINT_H
typedef __UINT8_TYPE__ uint8_t;
typedef __UINT16_TYPE__ uint16_t;
typedef __UINT32_TYPE__ uint32_t;
typedef __UINT64_TYPE__ uint64_t;
#endif
