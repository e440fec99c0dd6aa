/* A lesson over the switch, from C: a window is open for student 15, a read crosses and its completion comes back; then a
   broken packet, a read of student 15 that runs past its page, where the refusal tells which rule it breaks; then a marked
   breakdown, where the teacher's write with EP set reaches the dash of student 15 through the chosen window and is refused at
   its neighbour, the window to student 14; then an examination, where the same read is refused and logged. Prints each step;
   ends with 1 if a call returned another number. */
#include <stdint.h>
#include <stdio.h>

#include "siphonpear.h"

enum { TEACHER = 0, NEIGHBOUR = 14, STUDENT = 15 };

static struct siphon_switch school = SIPHON_SWITCH_IDLE;
static uint8_t out[SIPHON_OUT];
static uint32_t answer[SIPHON_ANSWER];
static int wrong = 0;

/* What a call returned, and what it must return. */
static void must(const char *call, uint32_t returned, uint32_t wanted)
{
    if (returned != wanted) {
        printf("%s returned %lu, and must return %lu\n", call, (unsigned long)returned, (unsigned long)wanted);
        wrong = 1;
    }
}

/* Words in hex, and the line's end. */
static void print_words(const uint32_t *words, size_t count)
{
    size_t i;
    for (i = 0; i < count; i++) {
        printf(" %08lX", (unsigned long)words[i]);
    }
    printf("\n");
}

/* Words as the bytes of a packet: the highest byte first. */
static void to_bytes(const uint32_t *words, size_t count, uint8_t *bytes)
{
    size_t i;
    for (i = 0; i < 4 * count; i++) {
        bytes[i] = (uint8_t)(words[i / 4] >> (24 - 8 * (i % 4)));
    }
}

/* The bytes that came out, as words. */
static void print_out(size_t length)
{
    uint32_t word;
    size_t i;
    for (i = 0; i < length; i += 4) {
        word = (uint32_t)out[i] << 24 | (uint32_t)out[i + 1] << 16 | (uint32_t)out[i + 2] << 8 | out[i + 3];
        printf(" %08lX", (unsigned long)word);
    }
    printf("\n");
}

/* Passes a packet of up to four words, and prints what became of it. */
static void pass(const char *name, uint32_t from, const uint32_t *words, size_t count, uint32_t wanted)
{
    uint8_t packet[16];
    uint32_t number;
    to_bytes(words, count, packet);
    printf("%s, from %lu:", name, (unsigned long)from);
    print_words(words, count);
    number = siphon_switch_pass(&school, from, packet, 4 * count, out, SIPHON_OUT, answer, SIPHON_ANSWER);
    must("siphon_switch_pass", number, wanted);
    if (answer[0] == SIPHON_DROPPED) {
        printf("  dropped by %lu\n", (unsigned long)number);
        return;
    }
    if (answer[0] == SIPHON_ANSWERED) {
        printf("  refused by %lu and answered,", (unsigned long)number);
    } else {
        printf("  crossed,");
    }
    printf(" %lu bytes in %lu:", (unsigned long)answer[2], (unsigned long)answer[1]);
    print_out(answer[2]);
}

/* The row of a partition's log. */
static void print_log(uint32_t p)
{
    const uint32_t *row = school.logs + 6 * p;
    if (row[0] == 0) {
        printf("log of %lu: no error\n", (unsigned long)p);
        return;
    }
    printf("log of %lu: status %08lX, first error %lu,", (unsigned long)p, (unsigned long)row[0], (unsigned long)row[1]);
    print_words(row + 2, 4);
}

/* Opens a window of 1 MiB in a slot of partition p, to q; marked packets may pass where marked is not 0. */
static void open_window(uint32_t p, uint32_t slot, uint64_t base, uint64_t target, uint32_t q, uint32_t marked)
{
    uint32_t number = siphon_switch_set_window(&school, p, slot, base, target, 20, q, marked);
    must("siphon_switch_set_window", number, SIPHON_DONE);
}

static void shut_window(uint32_t p, uint32_t slot)
{
    must("siphon_switch_empty_window", siphon_switch_empty_window(&school, p, slot), SIPHON_DONE);
}

static void clear_log(uint32_t p)
{
    must("siphon_switch_clear_log", siphon_switch_clear_log(&school, p, 0xFFFFFFFF), SIPHON_DONE);
}

/* Every partition on a bus of its own, and the IDs under which student 15 and the teacher send. */
static void begin(void)
{
    uint32_t p;
    for (p = 0; p < 16; p++) {
        must("siphon_switch_set_bus", siphon_switch_set_bus(&school, p, p + 1), SIPHON_DONE);
    }
    must("siphon_switch_set_entry", siphon_switch_set_entry(&school, STUDENT, 0, 0x0300), SIPHON_DONE);
    must("siphon_switch_set_entry", siphon_switch_set_entry(&school, TEACHER, 0, 0x0108), SIPHON_DONE);
}

int main(void)
{
    static const uint32_t read[] = {0x00000001, 0x0300050F, 0x90000010};
    static const uint32_t completion[] = {0x4A000001, 0x01000004, 0x017C0510, 0x00000037};
    static const uint32_t broken_read[] = {0x00000002, 0x030006FF, 0x90000FFC};
    static const uint32_t marked_write[] = {0x40004001, 0x0108020F, 0xC0F00020, 0x00000001};
    static const uint32_t marked_beside[] = {0x40004001, 0x0108020F, 0xC0E00020, 0x00000001};
    static const uint32_t marked_completion[] = {0x4A004001, 0x10000004, 0x10400320, 0x00000001};

    begin();
    printf("A class: the window of student 15 is open.\n");
    open_window(STUDENT, 0, 0x90000000, 0x140000000, TEACHER, 0);
    pass("a read", STUDENT, read, 3, SIPHON_DONE);
    pass("its completion", TEACHER, completion, 4, SIPHON_DONE);
    print_log(STUDENT);

    printf("A broken packet: student 15 reads two dwords, and the second lies in the next page of 4 KiB.\n");
    pass("a broken read", STUDENT, broken_read, 3, SIPHON_PAGE_CROSSING);
    print_log(STUDENT);

    printf("A marked breakdown: marked packets may pass from the teacher to student 15, and not to student 14.\n");
    open_window(TEACHER, 15, 0xC0F00000, 0x80000000, STUDENT, 1);
    open_window(TEACHER, 14, 0xC0E00000, 0x80000000, NEIGHBOUR, 0);
    pass("a marked write to 15", TEACHER, marked_write, 4, SIPHON_DONE);
    pass("the same to 14", TEACHER, marked_beside, 4, SIPHON_POISONED);
    pass("a marked completion", STUDENT, marked_completion, 4, SIPHON_DONE);
    print_log(TEACHER);

    printf("An examination: both logs are cleared, and all windows are shut.\n");
    clear_log(TEACHER);
    clear_log(STUDENT);
    shut_window(STUDENT, 0);
    shut_window(TEACHER, 15);
    shut_window(TEACHER, 14);
    pass("the same read", STUDENT, read, 3, SIPHON_NO_WINDOW);
    pass("the same completion", TEACHER, completion, 4, SIPHON_NOT_PASSABLE);
    print_log(STUDENT);
    print_log(TEACHER);

    printf("Afterwards: the log is cleared.\n");
    clear_log(STUDENT);
    print_log(STUDENT);
    return wrong;
}
