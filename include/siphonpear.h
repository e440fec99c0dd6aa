/*
 * Siphonpear for C and C++: a software PCI Express switch with sixteen partitions. docs/RULES.md has all the rules; this file
 * has every call, what it returns, and what becomes of each buffer. The shortest way is to keep the tables in a struct
 * siphon_switch, and to make the calls on it that stand at the end of this file: siphon_switch_pass and seven more.
 *
 * Each call takes every input: a partition that does not exist, a cut packet, a table of random words, a buffer that is too
 * short. It always ends, reads and writes only the buffers that it is lent, and returns 0 or the number of a refusal. Each is
 * proved to do what is said here. It keeps nothing between calls, so calls may run at once wherever no buffer that one of them
 * may write is lent to another.
 *
 * A marked packet is a poisoned one: EP, bit 14 of its first word, is set.
 *
 * What the caller must still see to, since no call can:
 *   - A buffer is a pointer and a length: how many numbers of the pointer's type, not bytes. That many must be there to be
 *     read, and written where the pointer is not const. A null pointer with length 0 is an empty buffer; a null or a wrong
 *     pointer with a length above 0 cannot be caught.
 *   - Each pointer is aligned as C aligns its type.
 *   - No two buffers of one call overlap: the packet may not lie inside Out.
 *   - Nobody else changes a buffer while a call runs.
 *
 * Link with libsiphonpear.a, which tools/archive builds and puts into target/staticlib/, for x86-64. It keeps no data of its own,
 * allocates nothing, and needs nothing of a C library but, at most, memcpy. tools/link-c compiles and links, and
 * examples/c/lesson.c is an example.
 */
#ifndef SIPHONPEAR_H
#define SIPHONPEAR_H

#include <stddef.h>
#include <stdint.h>

#ifdef __cplusplus
extern "C" {
#endif

/* How long the lent buffers are. The first three lengths are exact; of the last two more is allowed, and stays as it is. */
#define SIPHON_WINDOWS 768 /* words of 64 bits: 16 rows a partition, of base, target and control */
#define SIPHON_NUMBERS 80  /* words of 32 bits: 4 mapping entries a partition, then 16 bus words */
#define SIPHON_LOGS 96     /* words of 32 bits: 6 a partition, of status, first error and 4 header words */
#define SIPHON_OUT 4112    /* bytes, or more: the longest packet that can come out */
#define SIPHON_ANSWER 8    /* words of 32 bits, or more: what siphon_pass writes */

/* What became of a packet: the first word of an answer. */
#define SIPHON_CROSSED 0  /* it came out in another partition */
#define SIPHON_ANSWERED 1 /* a refused read: a completion came out in the sender's own partition */
#define SIPHON_DROPPED 2  /* nothing came out */

/* What a call returns. 0 is crossed for siphon_pass and done for the others; any other number is a refusal. */
#define SIPHON_DONE 0
#define SIPHON_WRONG_CALL 1           /* a number too large, or a buffer of a wrong length: see each call */
#define SIPHON_SENDER_INACTIVE 2      /* the sender is inactive */
#define SIPHON_NOT_CARRIED 4          /* another kind of packet, or one with a digest or an address type */
#define SIPHON_POISONED 5             /* the packet is marked (poisoned, EP set), and may not pass there */
#define SIPHON_NO_WINDOW 6            /* no window of the sender covers the address */
#define SIPHON_NO_ENTRY 7             /* no entry of the sender holds the requester ID */
#define SIPHON_DESTINATION_INACTIVE 8 /* the window leads to an inactive partition */
#define SIPHON_NOT_PASSABLE 9         /* a completion that has no way back */
#define SIPHON_WINDOW_VALUES 10       /* wrong values for a window */
#define SIPHON_OVERLAP 11             /* the window would overlap another of its partition */
#define SIPHON_REPETITION 12          /* another slot of the partition holds this ID */
#define SIPHON_TOO_SHORT 31           /* the packet has fewer than 12 bytes */
#define SIPHON_WRONG_LENGTH 32        /* the packet is longer or shorter than its first word says */
#define SIPHON_ENABLES 33             /* a request of one dword with last enables, or a longer one with first or last 0 */
#define SIPHON_CONTIGUITY 34          /* a gap between the bytes that the request enables, where none is allowed */
#define SIPHON_PAGE_CROSSING 35       /* the request runs past the end of its 4 KiB page */
#define SIPHON_ZERO_HIGH_WORD 36      /* a 64-bit header whose high word is 0: the address fits into 32 bits */

/* The bits of a log's status, by their numbers: bit n is 1 << n. The first error of a row is such a number. */
#define SIPHON_LOG_POISONED 12              /* refusal 5 */
#define SIPHON_LOG_UNEXPECTED_COMPLETION 16 /* refusal 9 */
#define SIPHON_LOG_MALFORMED 18             /* refusals 31 to 36 */
#define SIPHON_LOG_UNSUPPORTED 20           /* refusals 4, 6, 7 and 8 */

/*
 * The eight calls of the library. A program makes them itself if it keeps the tables elsewhere than in a struct siphon_switch:
 * each in a place of its own, or in memory that something else lays out.
 */

/*
 * Passes a packet that partition p sends: its header, then its data, in the order of the wire, and nothing else.
 *
 * Returns 0 if it crossed, else the first refusal that strikes: 1, 2, 4 to 9 or 31 to 36. docs/RULES.md has their order, in
 * section 6, and in sections 4 and 5 when each strikes; 1 is first, and is about this call:
 *   1   answer_length under 8; p above 15; windows_length not 768, numbers_length not 80, logs_length not 96; out_length
 *       under 4112
 * A read that 5, 6, 7 or 8 refuses is answered. Whatever else is refused is dropped.
 *
 * answer: the first eight words are written, and words beyond them stay.
 *   0     SIPHON_CROSSED, SIPHON_ANSWERED or SIPHON_DROPPED
 *   1     the partition that something came out in: another one if it crossed, p if it was answered
 *   2     how many bytes came out: header and data; 12 if it was answered
 *   3     how many header words those have: 3 or 4
 *   4..7  these header words; the last is 0 where there are three
 *   If the packet was dropped, words 1 to 7 are 0. If answer_length is under 8, nothing is written, and no other buffer changes.
 * out: what came out, from the start: as many bytes as word 2 of the answer says. Bytes beyond them stay, and all of them stay
 *   if the packet was dropped. A marked packet that crosses comes out marked.
 * logs: all refusals but 1 and 2 are logged in the row of p, which begins at logs[6 * p], whether the packet was answered or
 *   dropped. If the status was 0, first error becomes the number of the bit, and the header words those of the packet. Then
 *   the bit is set in the status. All else stays: crossings and refusals 1 and 2 are not logged.
 * packet, windows, numbers: only read; every word of numbers is afterwards what it was.
 */
uint32_t siphon_pass(uint32_t p,
                     const uint8_t *packet, size_t packet_length,
                     const uint64_t *windows, size_t windows_length,
                     uint32_t *numbers, size_t numbers_length,
                     uint32_t *logs, size_t logs_length,
                     uint8_t *out, size_t out_length,
                     uint32_t *answer, size_t answer_length);

/*
 * The table calls. Each returns 0 when it is done, else a refusal, the first that strikes in the order given; a call that
 * refuses leaves its table as it was, and one that is done writes the words named and no others.
 */

/*
 * Opens a window of 2^k bytes in this slot of partition p: address base of p becomes address target of partition q. If marked
 * is 0, no marked packet passes by it; if it is any other number, they may. No refusal of this call depends on it.
 * Writes its row, from windows[48 * p + 3 * slot] on: base, target and control. Control is 0x1000 + 0x100 * q + k, and 0x2000
 * more where marked packets may pass: bits 7:0 are k, 11:8 are q, 12 is set in every window, 13 is for marked packets. A row
 * with a bit above 13 is not in force.
 *   1   p above 15, slot above 15, windows_length not 768
 *   10  k below 12 or above 39, base or target no multiple of 2^k, q above 15, q equal to p
 *   11  some address of it is covered by another slot of p whose row is in force; the slot's own old row does not count
 */
uint32_t siphon_set_window(uint32_t p, uint32_t slot, uint64_t base, uint64_t target, uint32_t k, uint32_t q,
                           uint32_t marked, uint64_t *windows, size_t windows_length);

/*
 * Shuts the window in this slot of partition p. Writes its row: three zeros.
 *   1   p above 15, slot above 15, windows_length not 768
 */
uint32_t siphon_empty_window(uint32_t p, uint32_t slot, uint64_t *windows, size_t windows_length);

/*
 * Lets this slot of partition p hold a requester ID, under which its endpoint can send. Writes numbers[4 * p + slot]:
 * 0x10000 + id.
 *   1   p above 15, slot above 3, numbers_length not 80
 *   12  another slot of p holds this ID
 */
uint32_t siphon_set_entry(uint32_t p, uint32_t slot, uint16_t id, uint32_t *numbers, size_t numbers_length);

/*
 * Frees this slot of partition p. Writes numbers[4 * p + slot]: 0.
 *   1   p above 15, slot above 3, numbers_length not 80
 */
uint32_t siphon_free_entry(uint32_t p, uint32_t slot, uint32_t *numbers, size_t numbers_length);

/*
 * Puts partition p on a bus, which makes it active. Several partitions may share one. Writes numbers[64 + p]: bus.
 *   1   p above 15, bus above 255, numbers_length not 80
 */
uint32_t siphon_set_bus(uint32_t p, uint32_t bus, uint32_t *numbers, size_t numbers_length);

/*
 * Makes partition p inactive. Writes numbers[64 + p]: 256. In a table of zeros every partition is active, on bus 0.
 *   1   p above 15, numbers_length not 80
 */
uint32_t siphon_make_inactive(uint32_t p, uint32_t *numbers, size_t numbers_length);

/*
 * Takes the bits that are 1 in ones out of the status of partition p. Writes logs[6 * p]. The next error is noted in full only
 * if the status has become 0, which 0xFFFFFFFF always does.
 *   1   p above 15, logs_length not 96
 */
uint32_t siphon_clear_log(uint32_t p, uint32_t ones, uint32_t *logs, size_t logs_length);

/*
 * A switch: all the tables, each of its length. It begins idle, with every partition inactive and every other word 0, in a
 * function or as a static:
 *   struct siphon_switch s = SIPHON_SWITCH_IDLE;
 * Make one call at a time on a switch.
 */
struct siphon_switch {
    uint64_t windows[SIPHON_WINDOWS];
    uint32_t numbers[SIPHON_NUMBERS];
    uint32_t logs[SIPHON_LOGS];
};

/* Sixteen words, all x; and an idle switch, a line for each field in their order. */
#define SIPHON_16(x) x, x, x, x, x, x, x, x, x, x, x, x, x, x, x, x
#define SIPHON_SWITCH_IDLE                                                                                        \
    {                                                                                                             \
        {0},                                                                      /* windows: none */             \
        {SIPHON_16(0), SIPHON_16(0), SIPHON_16(0), SIPHON_16(0), SIPHON_16(256)}, /* numbers: no entry, no bus */ \
        {0},                                                                      /* logs: no error */            \
    }

/*
 * The calls on a switch. siphon_switch_NAME has the parameters of siphon_NAME without the tables, lends it those of s, and
 * returns what it returns. These eight are plain C, and not proved: each is one statement.
 */

static inline uint32_t siphon_switch_pass(struct siphon_switch *s, uint32_t p,
                                          const uint8_t *packet, size_t packet_length,
                                          uint8_t *out, size_t out_length,
                                          uint32_t *answer, size_t answer_length)
{
    return siphon_pass(p,
                       packet, packet_length,
                       s->windows, SIPHON_WINDOWS,
                       s->numbers, SIPHON_NUMBERS,
                       s->logs, SIPHON_LOGS,
                       out, out_length,
                       answer, answer_length);
}

static inline uint32_t siphon_switch_set_window(struct siphon_switch *s, uint32_t p, uint32_t slot, uint64_t base,
                                                uint64_t target, uint32_t k, uint32_t q, uint32_t marked)
{
    return siphon_set_window(p, slot, base, target, k, q, marked, s->windows, SIPHON_WINDOWS);
}

static inline uint32_t siphon_switch_empty_window(struct siphon_switch *s, uint32_t p, uint32_t slot)
{
    return siphon_empty_window(p, slot, s->windows, SIPHON_WINDOWS);
}

static inline uint32_t siphon_switch_set_entry(struct siphon_switch *s, uint32_t p, uint32_t slot, uint16_t id)
{
    return siphon_set_entry(p, slot, id, s->numbers, SIPHON_NUMBERS);
}

static inline uint32_t siphon_switch_free_entry(struct siphon_switch *s, uint32_t p, uint32_t slot)
{
    return siphon_free_entry(p, slot, s->numbers, SIPHON_NUMBERS);
}

static inline uint32_t siphon_switch_set_bus(struct siphon_switch *s, uint32_t p, uint32_t bus)
{
    return siphon_set_bus(p, bus, s->numbers, SIPHON_NUMBERS);
}

static inline uint32_t siphon_switch_make_inactive(struct siphon_switch *s, uint32_t p)
{
    return siphon_make_inactive(p, s->numbers, SIPHON_NUMBERS);
}

static inline uint32_t siphon_switch_clear_log(struct siphon_switch *s, uint32_t p, uint32_t ones)
{
    return siphon_clear_log(p, ones, s->logs, SIPHON_LOGS);
}

#ifdef __cplusplus
}
#endif

#endif
