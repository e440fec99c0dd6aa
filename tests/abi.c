/* Each call of include/siphonpear.h, done and refused, from C: what it returns and which words it writes, and that a buffer is
   left alone beyond what is written; then an idle switch, and each call on a switch beside the same call on copies of its
   tables. tests/c_example.sh builds and runs it; the last line is 'N passed, M failed'. */
#include <stdint.h>
#include <stdio.h>
#include <string.h>

#include "siphonpear.h"

static uint64_t windows[SIPHON_WINDOWS];
static uint32_t numbers[SIPHON_NUMBERS];
static uint32_t logs[SIPHON_LOGS];
static uint8_t out[SIPHON_OUT + 1];
static uint32_t answer[SIPHON_ANSWER + 2];
static int passed = 0, failed = 0;

static void expect(const char *name, int holds)
{
    if (holds) {
        passed++;
    } else {
        failed++;
        printf("FAILED: %s\n", name);
    }
}

/* The answer from one of its words on, and Out from one of its bytes on, are all this byte. */
static int rest_is(int byte, size_t answer_from, size_t out_from)
{
    const unsigned char *of_answer = (const unsigned char *)answer;
    size_t i;
    for (i = out_from; i < sizeof out; i++) {
        if (out[i] != byte) return 0;
    }
    for (i = 4 * answer_from; i < sizeof answer; i++) {
        if (of_answer[i] != byte) return 0;
    }
    return 1;
}

/* And the logs too. */
static int all_are(int byte, size_t answer_from, size_t out_from)
{
    const unsigned char *of_logs = (const unsigned char *)logs;
    size_t i;
    for (i = 0; i < sizeof logs; i++) {
        if (of_logs[i] != byte) return 0;
    }
    return rest_is(byte, answer_from, out_from);
}

/* The first eight words of the answer. */
static int answer_is(const uint32_t *words)
{
    size_t i;
    for (i = 0; i < SIPHON_ANSWER; i++) {
        if (answer[i] != words[i]) return 0;
    }
    return 1;
}

/* Passes a packet; the logs are all this byte before. */
static uint32_t pass_over(int byte, uint32_t p, const uint8_t *packet, size_t n, size_t out_length, size_t answer_length)
{
    memset(logs, byte, sizeof logs);
    memset(out, 0xAA, sizeof out);
    memset(answer, 0xAA, sizeof answer);
    return siphon_pass(p, packet, n, windows, SIPHON_WINDOWS, numbers, SIPHON_NUMBERS, logs, SIPHON_LOGS, out, out_length,
                       answer, answer_length);
}

static uint32_t pass(uint32_t p, const uint8_t *packet, size_t length, size_t out_length, size_t answer_length)
{
    return pass_over(0xAA, p, packet, length, out_length, answer_length);
}

/* Partition 1's window in slot 0. */
static uint32_t set_first(uint32_t marked)
{
    return siphon_set_window(1, 0, 0x90000000, 0x140000000, 20, 0, marked, windows, SIPHON_WINDOWS);
}

static void window_calls(void)
{
    uint64_t *row = windows + 48;
    expect("a window is set", set_first(0) == SIPHON_DONE);
    expect("its row", row[0] == 0x90000000 && row[1] == 0x140000000 && row[2] == 0x1014);
    expect("a slot too large", siphon_set_window(1, 16, 0, 0, 12, 0, 0, windows, SIPHON_WINDOWS) == SIPHON_WRONG_CALL);
    expect("a table too short", siphon_set_window(1, 1, 0, 0, 12, 0, 0, windows, SIPHON_WINDOWS - 1) == SIPHON_WRONG_CALL);
    expect("k too small", siphon_set_window(1, 1, 0, 0, 11, 0, 0, windows, SIPHON_WINDOWS) == SIPHON_WINDOW_VALUES);
    expect("an overlap", siphon_set_window(1, 1, 0x900FF000, 0, 12, 0, 0, windows, SIPHON_WINDOWS) == SIPHON_OVERLAP);
    expect("the next row is as it was", row[3] == 0 && row[4] == 0 && row[5] == 0);
    expect("another is set", siphon_set_window(1, 1, 0xA0000000, 0, 12, 3, 0, windows, SIPHON_WINDOWS) == SIPHON_DONE);
    expect("and emptied", siphon_empty_window(1, 1, windows, SIPHON_WINDOWS) == SIPHON_DONE && row[3] == 0 && row[5] == 0);
    expect("a partition too large", siphon_empty_window(16, 0, windows, SIPHON_WINDOWS) == SIPHON_WRONG_CALL);
}

/* The control of a row, by what is given for marked; no refusal depends on that. */
static void marked_windows(void)
{
    static const uint32_t yes[] = {1, 2, 0x80000000, 0xFFFFFFFF};
    uint64_t *row = windows + 48;
    size_t i;
    for (i = 0; i < 4; i++) {
        row[2] = 0;
        expect("marked packets may pass", set_first(yes[i]) == SIPHON_DONE && row[2] == 0x3014);
    }
    expect("no slot 16", siphon_set_window(1, 16, 0, 0, 12, 0, 1, windows, SIPHON_WINDOWS) == SIPHON_WRONG_CALL);
    expect("k too large", siphon_set_window(1, 1, 0, 0, 40, 0, 1, windows, SIPHON_WINDOWS) == SIPHON_WINDOW_VALUES);
    expect("over another", siphon_set_window(1, 1, 0x900FF000, 0, 12, 0, 1, windows, SIPHON_WINDOWS) == SIPHON_OVERLAP);
    expect("the next row is empty", row[3] == 0 && row[4] == 0 && row[5] == 0);
    expect("base and target stand", row[0] == 0x90000000 && row[1] == 0x140000000);
    expect("none may pass", set_first(0) == SIPHON_DONE && row[2] == 0x1014);
}

static void number_calls(void)
{
    expect("an entry is set", siphon_set_entry(1, 2, 0x0300, numbers, SIPHON_NUMBERS) == SIPHON_DONE && numbers[6] == 0x10300);
    expect("a repetition", siphon_set_entry(1, 3, 0x0300, numbers, SIPHON_NUMBERS) == SIPHON_REPETITION && numbers[7] == 0);
    expect("another entry", siphon_set_entry(1, 3, 0xFFFF, numbers, SIPHON_NUMBERS) == SIPHON_DONE && numbers[7] == 0x1FFFF);
    expect("it is freed", siphon_free_entry(1, 3, numbers, SIPHON_NUMBERS) == SIPHON_DONE && numbers[7] == 0);
    expect("an entry slot too large", siphon_free_entry(1, 4, numbers, SIPHON_NUMBERS) == SIPHON_WRONG_CALL);
    expect("a bus", siphon_set_bus(0, 1, numbers, SIPHON_NUMBERS) == SIPHON_DONE && numbers[64] == 1);
    expect("another", siphon_set_bus(1, 2, numbers, SIPHON_NUMBERS) == SIPHON_DONE && numbers[65] == 2);
    expect("a bus too large", siphon_set_bus(1, 256, numbers, SIPHON_NUMBERS) == SIPHON_WRONG_CALL && numbers[65] == 2);
    expect("inactive", siphon_make_inactive(3, numbers, SIPHON_NUMBERS) == SIPHON_DONE && numbers[67] == 256);
    expect("numbers too long", siphon_make_inactive(3, numbers, SIPHON_NUMBERS + 1) == SIPHON_WRONG_CALL);
}

static const uint32_t dropped[] = {SIPHON_DROPPED, 0, 0, 0, 0, 0, 0, 0};

static void passing(void)
{
    static const uint8_t read[] = {0, 0, 0, 1, 3, 0, 5, 0x0F, 0x90, 0, 0, 0x10};
    static const uint8_t far_read[] = {0, 0, 0, 1, 3, 0, 5, 0x0F, 0xA0, 0, 0, 0x10};
    static const uint32_t crossed[] = {SIPHON_CROSSED, 0, 16, 4, 0x20000001, 0x0146050F, 0x00000001, 0x40000010};
    static const uint32_t answered[] = {SIPHON_ANSWERED, 1, 12, 3, 0x0A000000, 0x02002004, 0x03000510, 0};
    expect("a read crosses", pass(1, read, 12, sizeof out, 10) == 0);
    expect("its answer", answer_is(crossed));
    expect("its bytes", out[0] == 0x20 && out[4] == 0x01 && out[5] == 0x46 && out[12] == 0x40 && out[15] == 0x10);
    expect("beyond them nothing changes", all_are(0xAA, 8, 16));
    expect("a read without a window is answered", pass(1, far_read, 12, sizeof out, 10) == SIPHON_NO_WINDOW);
    expect("by the eight words", answer_is(answered));
    expect("its bit is set in the sender's status", logs[6] == (0xAAAAAAAA | 1u << SIPHON_LOG_UNSUPPORTED));
    expect("and in no other row", logs[5] == 0xAAAAAAAA && logs[12] == 0xAAAAAAAA);
    expect("an inactive sender", pass(3, read, 12, sizeof out, 10) == SIPHON_SENDER_INACTIVE && answer_is(dropped) && all_are(0xAA, 8, 0));
    expect("no such sender", pass(16, read, 12, sizeof out, 10) == SIPHON_WRONG_CALL && answer_is(dropped) && all_are(0xAA, 8, 0));
    expect("a short Out", pass(1, read, 12, SIPHON_OUT - 1, 8) == SIPHON_WRONG_CALL && answer_is(dropped) && all_are(0xAA, 8, 0));
    expect("a short answer", pass(1, read, 12, sizeof out, 7) == SIPHON_WRONG_CALL && all_are(0xAA, 0, 0));
    expect("no packet", pass(1, 0, 0, SIPHON_OUT, 8) == SIPHON_TOO_SHORT && answer_is(dropped));
}

/* A packet from partition 1 that is dropped: its name, its refusal with its log bit, and how many bytes it has. */
struct refused {
    const char *name;
    uint32_t number;
    uint32_t bit;
    size_t length;
    uint32_t words[5];
};

/* The rules of form in their order: a packet that breaks a rule and the next one, then the same with the first of the two
   mended, which breaks the other alone; then each rule by itself in other ways, and packets that break none. */
static const struct refused of_form[] = {
    {"31 before 4", SIPHON_TOO_SHORT, 18, 11, {0x01000001, 0x0300050F, 0x90000000}},
    {"4", SIPHON_NOT_CARRIED, 20, 12, {0x01000001, 0x0300050F, 0x90000000}},
    {"4 before 32", SIPHON_NOT_CARRIED, 20, 16, {0x01000001, 0x0300050F, 0x90000010, 0x11223344}},
    {"32", SIPHON_WRONG_LENGTH, 18, 16, {0x00000001, 0x0300050F, 0x90000010, 0x11223344}},
    {"32 before 33", SIPHON_WRONG_LENGTH, 18, 16, {0x00000001, 0x0300051F, 0x90000010, 0x11223344}},
    {"33", SIPHON_ENABLES, 18, 12, {0x00000001, 0x0300051F, 0x90000010}},
    {"33 before 34", SIPHON_ENABLES, 18, 12, {0x00000002, 0x030005F0, 0x90000014}},
    {"34", SIPHON_CONTIGUITY, 18, 12, {0x00000002, 0x030005F5, 0x90000014}},
    {"34 before 35", SIPHON_CONTIGUITY, 18, 12, {0x00000002, 0x030005F5, 0x90000FFC}},
    {"35", SIPHON_PAGE_CROSSING, 18, 12, {0x00000002, 0x030005FF, 0x90000FFC}},
    {"35 before 36", SIPHON_PAGE_CROSSING, 18, 16, {0x20000002, 0x030005FF, 0x00000000, 0x90000FFC}},
    {"36", SIPHON_ZERO_HIGH_WORD, 18, 16, {0x20000002, 0x030005FF, 0x00000000, 0x90000FF8}},
    {"36 before 6", SIPHON_ZERO_HIGH_WORD, 18, 20, {0x60000001, 0x0300050F, 0x00000000, 0xB0000010, 0x11223344}},
    {"31, a read", SIPHON_TOO_SHORT, 18, 11, {0x00000001, 0x0300050F, 0x90000000}},
    {"31, a completion", SIPHON_TOO_SHORT, 18, 11, {0x0A000000, 0x01000004, 0x01470500}},
    {"32, a header cut off", SIPHON_WRONG_LENGTH, 18, 14, {0x20000001, 0x0300050F, 0x00000001, 0x40000000}},
    {"32, a write with a word too few", SIPHON_WRONG_LENGTH, 18, 16, {0x40000002, 0x030005FF, 0x90000010, 0x11223344}},
    {"32, a completion with a byte too many", SIPHON_WRONG_LENGTH, 18, 13, {0x0A000000, 0x01000004, 0x01470510}},
    {"33, first enables of two dwords", SIPHON_ENABLES, 18, 12, {0x00000002, 0x030005F0, 0x90000010}},
    {"33, last enables of two dwords", SIPHON_ENABLES, 18, 12, {0x00000002, 0x0300050F, 0x90000010}},
    {"33, last enables at a flush", SIPHON_ENABLES, 18, 12, {0x00000001, 0x03000510, 0x90000010}},
    {"34, last enables", SIPHON_CONTIGUITY, 18, 12, {0x00000003, 0x030005CF, 0x90000010}},
    {"34, three dwords at a multiple of 8", SIPHON_CONTIGUITY, 18, 12, {0x00000003, 0x030005F7, 0x90000010}},
    {"35, 4,096 bytes", SIPHON_PAGE_CROSSING, 18, 12, {0x00000000, 0x030005FF, 0x90000004}},
    {"none, a flush", SIPHON_NO_WINDOW, 20, 16, {0x40000001, 0x03000500, 0xB0000010, 0x11223344}},
    {"none, gaps at a multiple of 8", SIPHON_NO_WINDOW, 20, 20, {0x40000002, 0x030005A5, 0xB0000010, 0x11223344, 0x5566}},
    {"none, no gap", SIPHON_NO_WINDOW, 20, 20, {0x40000002, 0x03000518, 0xB0000014, 0x11223344, 0x55667788}},
    {"none, up to the page's end", SIPHON_NO_WINDOW, 20, 20, {0x40000002, 0x030005FF, 0xB0000FF8, 0x11223344, 0x55667788}},
    {"none, a high word of 1", SIPHON_NO_WINDOW, 20, 20, {0x60000001, 0x0300050F, 0x00000001, 0xB0000010, 0x11223344}},
    {"none, a completion", SIPHON_NOT_PASSABLE, 16, 20, {0x4A000002, 0x01000010, 0x01470FFC, 0x11223344, 0x55667788}},
};

/* Only this packet is logged: the fourth word of its header where it has one, and no data. */
static int is_logged(const struct refused *r)
{
    size_t i;
    for (i = 0; i < SIPHON_LOGS; i++) {
        uint32_t wanted = 0;
        if (i == 6) wanted = (uint32_t)1 << r->bit;
        if (i == 7) wanted = r->bit;
        if (i >= 8 && i < 11) wanted = r->words[i - 8];
        if (i == 11 && (r->words[0] & 0x20000000) != 0) wanted = r->words[3];
        if (logs[i] != wanted) return 0;
    }
    return 1;
}

static void forms(void)
{
    uint8_t packet[21];
    size_t n, i;
    for (n = 0; n < sizeof of_form / sizeof *of_form; n++) {
        const struct refused *r = of_form + n;
        uint32_t number;
        int before = failed;
        memset(packet, 0xFF, sizeof packet);
        for (i = 0; i < r->length; i++) {
            packet[i] = (uint8_t)(r->words[i / 4] >> (24 - 8 * (i % 4)));
        }
        number = pass_over(0, 1, packet, r->length, sizeof out, 10);
        expect("its number", number == r->number);
        expect("it is dropped", answer_is(dropped));
        expect("Out and the words behind the answer stay", rest_is(0xAA, 8, 0));
        expect("its row of the log, and no other", is_logged(r));
        if (failed != before) printf("of the packet '%s', which got %lu\n", r->name, (unsigned long)number);
    }
}

/* Marked packets, and the answers to them. */
static const uint8_t marked_read[] = {0, 0, 0x40, 1, 3, 0, 5, 0x0F, 0x90, 0, 0, 0x10};
static const uint8_t marked_far_read[] = {0, 0, 0x40, 1, 3, 0, 5, 0x0F, 0xA0, 0, 0, 0x10};
static const uint8_t marked_write[] = {0x40, 0, 0x40, 1, 3, 0, 5, 0x0F, 0x90, 0, 0, 0x10, 1, 2, 3, 4};
static const uint8_t marked_strange_write[] = {0x40, 0, 0x40, 1, 3, 1, 5, 0x0F, 0x90, 0, 0, 0x10, 1, 2, 3, 4};
static const uint8_t marked_completion[] = {0x4A, 0, 0x40, 1, 1, 0, 0, 4, 1, 0x46, 5, 0x10, 1, 2, 3, 4};
static const uint8_t marked_stray[] = {0x4A, 0, 0x40, 1, 1, 0, 0, 4, 1, 0x47, 5, 0x10, 1, 2, 3, 4};
static const uint32_t marked_answered[] = {SIPHON_ANSWERED, 1, 12, 3, 0x0A000000, 0x02002004, 0x03000510, 0};
static const uint32_t read_crossed[] = {SIPHON_CROSSED, 0, 16, 4, 0x20004001, 0x0146050F, 0x00000001, 0x40000010};
static const uint32_t write_crossed[] = {SIPHON_CROSSED, 0, 20, 4, 0x60004001, 0x0146050F, 0x00000001, 0x40000010};
static const uint32_t came_back[] = {SIPHON_CROSSED, 1, 16, 3, 0x4A004001, 0x02000004, 0x03000510, 0};

/* The window lets no marked packet pass. */
static void marked_refused(void)
{
    expect("a marked write is refused", pass(1, marked_write, 16, sizeof out, 10) == SIPHON_POISONED
           && answer_is(dropped));
    expect("and logged as poisoned", logs[6] == (0xAAAAAAAA | 1u << SIPHON_LOG_POISONED));
    expect("a marked read is answered", pass(1, marked_read, 12, sizeof out, 10) == SIPHON_POISONED
           && answer_is(marked_answered));
    expect("5 comes before 7", pass(1, marked_strange_write, 16, sizeof out, 10) == SIPHON_POISONED);
    expect("6 comes before 5", pass(1, marked_far_read, 12, sizeof out, 10) == SIPHON_NO_WINDOW && answer_is(marked_answered));
    expect("and is logged as 6", logs[6] == (0xAAAAAAAA | 1u << SIPHON_LOG_UNSUPPORTED));
    expect("a marked completion is refused", pass(0, marked_completion, 16, sizeof out, 10) == SIPHON_POISONED
           && answer_is(dropped));
    expect("and logged in its sender's row", logs[0] == (0xAAAAAAAA | 1u << SIPHON_LOG_POISONED) && logs[6] == 0xAAAAAAAA);
    expect("9 comes before 5", pass(0, marked_stray, 16, sizeof out, 10) == SIPHON_NOT_PASSABLE && answer_is(dropped));
    expect("and is logged as 9", logs[0] == (0xAAAAAAAA | 1u << SIPHON_LOG_UNEXPECTED_COMPLETION));
}

/* The window lets them pass. */
static void marked_crossing(void)
{
    expect("marked packets are let through", set_first(1) == SIPHON_DONE);
    expect("a marked write crosses", pass(1, marked_write, 16, sizeof out, 10) == SIPHON_DONE && answer_is(write_crossed));
    expect("with EP, and with its data", out[0] == 0x60 && out[2] == 0x40 && out[16] == 1 && out[19] == 4);
    expect("and is not logged", all_are(0xAA, 8, 20));
    expect("a marked read crosses", pass(1, marked_read, 12, sizeof out, 10) == SIPHON_DONE && answer_is(read_crossed));
    expect("a marked write with no entry", pass(1, marked_strange_write, 16, sizeof out, 10) == SIPHON_NO_ENTRY);
    expect("a marked completion crosses", pass(0, marked_completion, 16, sizeof out, 10) == SIPHON_DONE
           && answer_is(came_back));
    expect("with EP, and is not logged", out[0] == 0x4A && out[2] == 0x40 && all_are(0xAA, 8, 16));
}

/* The same range in two slots, which no call sets: the lower slot alone counts for a request, any for a completion. */
static void marked_in_two_slots(void)
{
    uint64_t *row = windows + 48;
    memcpy(row + 3, row, 3 * sizeof *row);
    row[2] = 0x1014;
    expect("a later window is not looked at", pass(1, marked_write, 16, sizeof out, 10) == SIPHON_POISONED);
    expect("any window does for a completion", pass(0, marked_completion, 16, sizeof out, 10) == SIPHON_DONE
           && answer_is(came_back));
    row[5] = 0x7014;
    expect("with bit 14 a row is not in force", pass(0, marked_completion, 16, sizeof out, 10) == SIPHON_POISONED);
    row[2] = 0x5014;
    expect("whatever bit 13 is", pass(1, marked_write, 16, sizeof out, 10) == SIPHON_NO_WINDOW);
    expect("and leads nowhere", pass(0, marked_completion, 16, sizeof out, 10) == SIPHON_NOT_PASSABLE);
}

/* A switch that is there as long as the program; idle_switches has one of its own. */
static struct siphon_switch held = SIPHON_SWITCH_IDLE;

/* Every partition is inactive, and all other words are 0. */
static int is_idle(const struct siphon_switch *s)
{
    size_t i;
    for (i = 0; i < SIPHON_WINDOWS; i++) {
        if (s->windows[i] != 0) return 0;
    }
    for (i = 0; i < SIPHON_NUMBERS; i++) {
        if (s->numbers[i] != (i < 64 ? 0u : 256u)) return 0;
    }
    for (i = 0; i < SIPHON_LOGS; i++) {
        if (s->logs[i] != 0) return 0;
    }
    return 1;
}

/* Two buffers have the same bytes. */
static int alike(const void *one, const void *other, size_t length)
{
    const unsigned char *a = one, *b = other;
    size_t i;
    for (i = 0; i < length; i++) {
        if (a[i] != b[i]) return 0;
    }
    return 1;
}

static const uint8_t plain_read[] = {0, 0, 0, 1, 3, 0, 5, 0x0F, 0x90, 0, 0, 0x10};

static void idle_switches(void)
{
    struct siphon_switch s = SIPHON_SWITCH_IDLE;
    uint32_t p;
    expect("a static switch is idle", is_idle(&held));
    expect("one in a function too", is_idle(&s));
    for (p = 0; p < 16; p++) {
        memset(out, 0xAA, sizeof out);
        memset(answer, 0xAA, sizeof answer);
        expect("no partition of it is active", siphon_switch_pass(&s, p, plain_read, 12, out, sizeof out, answer, 10)
               == SIPHON_SENDER_INACTIVE && answer_is(dropped) && rest_is(0xAA, 8, 0));
    }
    expect("and it stays idle", is_idle(&s));
}

/* Lays the same words into a switch and into the tables, no two alike in one: every entry is held, every partition active. */
static void lay(struct siphon_switch *s)
{
    uint32_t i;
    for (i = 0; i < SIPHON_WINDOWS; i++) s->windows[i] = i;
    for (i = 0; i < SIPHON_NUMBERS; i++) s->numbers[i] = i < 64 ? 0x10000 + i : i;
    for (i = 0; i < SIPHON_LOGS; i++) s->logs[i] = 0xF0000000 + i;
    memcpy(windows, s->windows, sizeof windows);
    memcpy(numbers, s->numbers, sizeof numbers);
    memcpy(logs, s->logs, sizeof logs);
}

/* A call on a switch and the same one on the tables returned what they must, and the words of both are still the same. */
static void both(const char *name, const struct siphon_switch *s, uint32_t returned, uint32_t beside, uint32_t wanted)
{
    expect(name, returned == wanted && beside == wanted && alike(s->windows, windows, sizeof windows)
           && alike(s->numbers, numbers, sizeof numbers) && alike(s->logs, logs, sizeof logs));
}

/* The read, from partition 3, on a switch and on the tables: what is left in Out and in the answer is the same too. */
static void both_pass(const char *name, struct siphon_switch *s, size_t length, size_t out_length, size_t answer_length,
                      uint32_t wanted)
{
    static uint8_t other_out[sizeof out];
    uint32_t other[SIPHON_ANSWER + 2];
    uint32_t returned;
    memset(out, 0xAA, sizeof out);
    memset(answer, 0xAA, sizeof answer);
    memcpy(other_out, out, sizeof out);
    memcpy(other, answer, sizeof answer);
    returned = siphon_switch_pass(s, 3, plain_read, length, other_out, out_length, other, answer_length);
    both(name, s, returned, siphon_pass(3, plain_read, length, windows, SIPHON_WINDOWS, numbers, SIPHON_NUMBERS, logs,
                                        SIPHON_LOGS, out, out_length, answer, answer_length), wanted);
    expect(name, alike(other_out, out, sizeof out) && alike(other, answer, sizeof answer));
}

static void switch_calls(struct siphon_switch *s)
{
    lay(s);
    both("a window is set on both", s, siphon_switch_set_window(s, 3, 5, 0x90000000, 0x140000000, 20, 7, 1),
         siphon_set_window(3, 5, 0x90000000, 0x140000000, 20, 7, 1, windows, SIPHON_WINDOWS), SIPHON_DONE);
    both("an entry is set on both", s, siphon_switch_set_entry(s, 3, 2, 0x0300),
         siphon_set_entry(3, 2, 0x0300, numbers, SIPHON_NUMBERS), SIPHON_DONE);
    both("a bus is set on both", s, siphon_switch_set_bus(s, 7, 9),
         siphon_set_bus(7, 9, numbers, SIPHON_NUMBERS), SIPHON_DONE);
    both_pass("a read crosses on both", s, 12, sizeof out, 10, SIPHON_DONE);
    both_pass("a cut read is dropped on both", s, 11, sizeof out, 10, SIPHON_TOO_SHORT);
    both_pass("a short Out on both", s, 12, SIPHON_OUT - 1, 10, SIPHON_WRONG_CALL);
    both_pass("a short answer on both", s, 12, sizeof out, 7, SIPHON_WRONG_CALL);
    both("a log is cleared on both", s, siphon_switch_clear_log(s, 3, 0x30000002),
         siphon_clear_log(3, 0x30000002, logs, SIPHON_LOGS), SIPHON_DONE);
    both("a partition is made inactive on both", s, siphon_switch_make_inactive(s, 7),
         siphon_make_inactive(7, numbers, SIPHON_NUMBERS), SIPHON_DONE);
    both_pass("a read is answered on both", s, 12, sizeof out, 10, SIPHON_DESTINATION_INACTIVE);
    both("an entry is freed on both", s, siphon_switch_free_entry(s, 3, 2),
         siphon_free_entry(3, 2, numbers, SIPHON_NUMBERS), SIPHON_DONE);
    both("a window is emptied on both", s, siphon_switch_empty_window(s, 3, 5),
         siphon_empty_window(3, 5, windows, SIPHON_WINDOWS), SIPHON_DONE);
}

/* What a call on a switch refuses leaves it as it was. */
static void switch_refusals(struct siphon_switch *s)
{
    const uint32_t wrong = SIPHON_WRONG_CALL;
    lay(s);
    both("no window 16", s, siphon_switch_set_window(s, 3, 16, 0, 0, 12, 7, 1), wrong, wrong);
    both("no window 16 to empty", s, siphon_switch_empty_window(s, 3, 16), wrong, wrong);
    both("no entry 4", s, siphon_switch_set_entry(s, 3, 4, 0x0300), wrong, wrong);
    both("no entry 4 to free", s, siphon_switch_free_entry(s, 3, 4), wrong, wrong);
    both("no bus 256", s, siphon_switch_set_bus(s, 3, 256), wrong, wrong);
    both("no partition 16", s, siphon_switch_make_inactive(s, 16), wrong, wrong);
    both("no log 16", s, siphon_switch_clear_log(s, 16, 0xFFFFFFFF), wrong, wrong);
}

int main(void)
{
    window_calls();
    marked_windows();
    number_calls();
    passing();
    forms();
    marked_refused();
    marked_crossing();
    marked_in_two_slots();
    logs[6] = 0x00101000;
    expect("a log is cleared", siphon_clear_log(1, 0x00100000, logs, SIPHON_LOGS) == SIPHON_DONE && logs[6] == 0x00001000);
    expect("logs too short", siphon_clear_log(1, 0x00001000, logs, SIPHON_LOGS - 1) == SIPHON_WRONG_CALL && logs[6] == 0x00001000);
    idle_switches();
    switch_calls(&held);
    switch_refusals(&held);
    printf("%d passed, %d failed\n", passed, failed);
    return failed != 0;
}
