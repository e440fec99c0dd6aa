/*
 * The driver tools/replay.c with a passing call that writes beside what it is lent, for tests/second.sh to see that each such write
 * is told. It goes by the partition: 0 to 5 writes the byte past the end of one of the six buffers, 6 to 11 the byte before one.
 * From any other it returns 0, or 1 where a buffer of length 0 is no null pointer, or another is one.
 */
#define _DEFAULT_SOURCE 1
#include "siphonpear.h"

static uint32_t pass_beside(uint32_t p,
                            const void *packet, size_t packet_length,
                            const void *windows, size_t windows_length,
                            void *numbers, size_t numbers_length,
                            void *logs, size_t logs_length,
                            void *out, size_t out_length,
                            void *answer, size_t answer_length) {
    volatile unsigned char *at[6];
    size_t length[6], i;
    uint32_t wrong = 0;
    at[0] = (unsigned char *)packet, length[0] = packet_length;
    at[1] = (unsigned char *)windows, length[1] = 8 * windows_length;
    at[2] = numbers, length[2] = 4 * numbers_length;
    at[3] = logs, length[3] = 4 * logs_length;
    at[4] = out, length[4] = out_length;
    at[5] = answer, length[5] = 4 * answer_length;
    if (p < 6)
        at[p][length[p]] = 0;
    else if (p < 12)
        at[p - 6][-1] = 0;
    for (i = 0; i < 6; i++)
        if ((length[i] == 0) != (at[i] == 0))
            wrong = 1;
    return wrong;
}

#define siphon_pass pass_beside
#include "../tools/replay.c"
