/*
 * The calls of a stream, each made through the library for C on tables held here, and an answer for each: docs/REPLAY.md.
 * tools/replay builds it and runs it.
 *
 * A call gets its buffers between two pages that nobody may touch, at the end of their room and at every other call at its
 * start. The rest of the room is filler; a call that left a byte of it changed wrote beside a buffer.
 */
#define _DEFAULT_SOURCE 1
#include <stdint.h>
#include <stdio.h>
#include <string.h>
#include <sys/mman.h>
#include <unistd.h>

#include "siphonpear.h"

#define PAGE 4096u
#define ROOM (2 * PAGE) /* bytes, as many as the largest buffer can have, or more */
#define FILLER 0x5A
#define VERSION 1
#define RIGHT 0xFFFFFFFFu  /* the right length, where a length is lent */
#define BROKEN 0xFFFFFFFFu /* what is answered to a record that cannot be read as a call */

enum { PASS = 1, SET_WINDOW, EMPTY_WINDOW, SET_ENTRY, FREE_ENTRY, SET_BUS, MAKE_INACTIVE, CLEAR_LOG, LEND = 101, STORE, SHOW };

/* Buffers by their numbers; the packet is number 0. */
enum { PACKET = 0, WINDOWS = 1, NUMBERS = 4, LOGS = 6, OUT = 7, ANSWER = 8, BUFFERS = 16 };

struct buffer {
    size_t width;         /* bytes a word */
    size_t room;          /* how many words can be lent */
    size_t right;         /* how many the switch asks for */
    int is_table;         /* whether it stays from call to call, and can be stored into and shown */
    size_t lent;          /* how many words are lent */
    unsigned char *kept;  /* the words between calls */
    unsigned char *start; /* the room between the guard pages */
    unsigned char *at;    /* where in the room the words lie during a call, or null */
};

static struct buffer buffers[BUFFERS] = {
    [PACKET] = {.width = 1, .room = 4200},
    [WINDOWS] = {.width = 8, .room = 769, .right = SIPHON_WINDOWS, .is_table = 1},
    [NUMBERS] = {.width = 4, .room = 81, .right = SIPHON_NUMBERS, .is_table = 1},
    [LOGS] = {.width = 4, .room = 97, .right = SIPHON_LOGS, .is_table = 1},
    [OUT] = {.width = 1, .room = 4120, .right = SIPHON_OUT, .is_table = 1},
    [ANSWER] = {.width = 4, .room = 10, .right = SIPHON_ANSWER},
};

/* The record: version, call, fifteen parameters, and how many bytes follow. */
static unsigned char record[72];

/* How many records were read, and how many calls of the switch were made. */
static unsigned long records, calls;

/* Bytes of standard input that were read ahead, and whether reading failed. */
static unsigned char ahead[1 << 16];
static size_t ahead_at, ahead_end;
static int has_failed;

/* Reads ahead, after what was answered is out; 0 where there is nothing more. */
static int read_ahead(void) {
    long n;
    fflush(stdout);
    n = (long)read(0, ahead, sizeof ahead);
    has_failed = n < 0;
    ahead_at = 0;
    ahead_end = n > 0 ? (size_t)n : 0;
    return n > 0;
}

/* Takes so many bytes of standard input, or as many as there are, and says how many. */
static size_t get(unsigned char *to, size_t n) {
    size_t done = 0;
    while (done < n && (ahead_at < ahead_end || read_ahead())) {
        size_t piece = ahead_end - ahead_at < n - done ? ahead_end - ahead_at : n - done;
        memcpy(to + done, ahead + ahead_at, piece);
        ahead_at += piece;
        done += piece;
    }
    return done;
}

/* A word of the record; parameter n; and two parameters as one number of 64 bits. */
static uint32_t word(size_t i) {
    const unsigned char *b = record + 4 * i;
    return (uint32_t)b[0] << 24 | (uint32_t)b[1] << 16 | (uint32_t)b[2] << 8 | b[3];
}

static uint32_t parameter(size_t n) {
    return word(1 + n);
}

static uint64_t long_parameter(size_t n) {
    return (uint64_t)parameter(n) << 32 | parameter(n + 1);
}

/* A word as four bytes. */
static void put(unsigned char *to, uint32_t w) {
    to[0] = (unsigned char)(w >> 24);
    to[1] = (unsigned char)(w >> 16);
    to[2] = (unsigned char)(w >> 8);
    to[3] = (unsigned char)w;
}

/* The answer to a record: a number, and ten words or zeros. */
static void reply(uint32_t number, const uint32_t *words) {
    unsigned char text[44];
    size_t i;
    put(text, number);
    for (i = 0; i < 10; i++)
        put(text + 4 + 4 * i, words ? words[i] : 0);
    fwrite(text, 1, sizeof text, stdout);
}

/* Finds a buffer a place to be kept, all zeros, and a room of filler between guard pages; 0 where there is none. */
static int make_room(struct buffer *b) {
    void *kept = mmap(0, ROOM, PROT_READ | PROT_WRITE, MAP_PRIVATE | MAP_ANONYMOUS, -1, 0);
    unsigned char *all = mmap(0, ROOM + 2 * PAGE, PROT_NONE, MAP_PRIVATE | MAP_ANONYMOUS, -1, 0);
    if (b->width * b->room > ROOM || kept == MAP_FAILED || all == MAP_FAILED)
        return 0;
    b->kept = kept;
    b->start = all + PAGE;
    b->lent = b->right;
    if (mprotect(b->start, ROOM, PROT_READ | PROT_WRITE) != 0)
        return 0;
    memset(b->start, FILLER, ROOM);
    return 1;
}

/* Lays what is lent of a buffer into its room. Nothing is a null pointer. */
static void *lay(size_t n) {
    struct buffer *b = &buffers[n];
    size_t bytes = b->width * b->lent;
    b->at = calls % 2 ? b->start : b->start + ROOM - bytes;
    memcpy(b->at, b->kept, bytes);
    return bytes == 0 ? 0 : b->at;
}

static size_t lent(size_t n) {
    return buffers[n].lent;
}

/* Whether so many bytes are all filler: the first is, and each is like the next. */
static int is_filler(const unsigned char *from, size_t n) {
    return n == 0 || (from[0] == FILLER && memcmp(from, from + 1, n - 1) == 0);
}

/* Takes a buffer back and puts filler in its place; 0 where the filler around it does not stand. */
static int take(struct buffer *b) {
    size_t bytes = b->width * b->lent;
    size_t before = (size_t)(b->at - b->start);
    int stands = is_filler(b->start, before) && is_filler(b->at + bytes, ROOM - before - bytes);
    memcpy(b->kept, b->at, bytes);
    memset(b->at, FILLER, bytes);
    b->at = 0;
    return stands;
}

/* Takes every buffer back that lies in its room. */
static int take_all(void) {
    int stand = 1;
    size_t n;
    for (n = 0; n < BUFFERS; n++)
        if (buffers[n].at && !take(&buffers[n]))
            stand = 0;
    return stand;
}

/* Passes the packet; the answer's words are all 0xAAAAAAAA before. */
static uint32_t pass(void) {
    memset(buffers[ANSWER].kept, 0xAA, 4 * buffers[ANSWER].room);
    return siphon_pass(parameter(1), lay(PACKET), lent(PACKET), lay(WINDOWS), lent(WINDOWS), lay(NUMBERS), lent(NUMBERS),
                       lay(LOGS), lent(LOGS), lay(OUT), lent(OUT), lay(ANSWER), lent(ANSWER));
}

/* Makes a call of the switch. */
static uint32_t call_switch(uint32_t call) {
    uint32_t p = parameter(1), second = parameter(2);
    switch (call) {
    case PASS:
        return pass();
    case SET_WINDOW:
        return siphon_set_window(p, second, long_parameter(3), long_parameter(5), parameter(7), parameter(8), parameter(9),
                                 lay(WINDOWS), lent(WINDOWS));
    case EMPTY_WINDOW:
        return siphon_empty_window(p, second, lay(WINDOWS), lent(WINDOWS));
    case SET_ENTRY:
        return siphon_set_entry(p, second, (uint16_t)parameter(3), lay(NUMBERS), lent(NUMBERS));
    case FREE_ENTRY:
        return siphon_free_entry(p, second, lay(NUMBERS), lent(NUMBERS));
    case SET_BUS:
        return siphon_set_bus(p, second, lay(NUMBERS), lent(NUMBERS));
    case MAKE_INACTIVE:
        return siphon_make_inactive(p, lay(NUMBERS), lent(NUMBERS));
    default:
        return siphon_clear_log(p, second, lay(LOGS), lent(LOGS));
    }
}

/* Lends a length of each buffer, parameter n of number n. */
static void lend(void) {
    size_t n;
    for (n = 1; n < BUFFERS; n++) {
        struct buffer *b = &buffers[n];
        uint32_t length = parameter(n);
        b->lent = length == RIGHT ? b->right : length < b->room ? length : b->room;
    }
}

/* Stores a word into a table. */
static void store(void) {
    uint32_t n = parameter(1), place = parameter(2);
    uint64_t value = long_parameter(3);
    struct buffer *b = &buffers[n < BUFFERS ? n : 0];
    if (!b->is_table || place >= b->room)
        return;
    if (b->width == 8)
        ((uint64_t *)(void *)b->kept)[place] = value;
    else if (b->width == 4)
        ((uint32_t *)(void *)b->kept)[place] = (uint32_t)value;
    else
        b->kept[place] = (unsigned char)value;
}

/* Writes a table out with its whole room. */
static void show_table(const struct buffer *b) {
    static unsigned char text[ROOM];
    size_t i;
    if (b->width == 1)
        memcpy(text, b->kept, b->room);
    for (i = 0; b->width == 8 && i < b->room; i++) {
        uint64_t w = ((const uint64_t *)(const void *)b->kept)[i];
        put(text + 8 * i, (uint32_t)(w >> 32));
        put(text + 8 * i + 4, (uint32_t)w);
    }
    for (i = 0; b->width == 4 && i < b->room; i++)
        put(text + 4 * i, ((const uint32_t *)(const void *)b->kept)[i]);
    fwrite(text, b->width, b->room, stdout);
}

static void show(void) {
    size_t n;
    for (n = 0; n < BUFFERS; n++)
        if (buffers[n].is_table)
            show_table(&buffers[n]);
}

/* Reads what follows a record of so many bytes: 1 where the two are a call. */
static int is_call(size_t n) {
    uint32_t call = word(1), following = word(17);
    if (n < sizeof record || word(0) != VERSION)
        return 0;
    if (call != PASS)
        return following == 0 && ((call >= SET_WINDOW && call <= CLEAR_LOG) || (call >= LEND && call <= SHOW));
    if (following > buffers[PACKET].room)
        return 0;
    buffers[PACKET].lent = following;
    return get(buffers[PACKET].kept, following) == following;
}

/* Makes the call and answers it; 0 where something was written beside a buffer. */
static int make(void) {
    uint32_t call = word(1), number = 0;
    if (call == LEND)
        lend();
    else if (call == STORE)
        store();
    else if (call != SHOW) {
        calls++;
        number = call_switch(call);
        if (!take_all())
            return 0;
    }
    reply(number, call == PASS ? (const uint32_t *)(const void *)buffers[ANSWER].kept : 0);
    if (call == SHOW)
        show();
    return 1;
}

/* Answers every record; 0 where a call wrote beside a buffer. */
static int run(void) {
    size_t n;
    while ((n = get(record, sizeof record)) != 0) {
        records++;
        if (!is_call(n)) {
            reply(BROKEN, 0);
            return 1;
        }
        if (!make()) {
            reply(BROKEN, 0);
            return 0;
        }
    }
    return 1;
}

int main(void) {
    int is_clean;
    size_t n;
    for (n = 0; n < BUFFERS; n++)
        if (buffers[n].width != 0 && !make_room(&buffers[n])) {
            fprintf(stderr, "replay: there is no room for the tables\n");
            return 2;
        }
    is_clean = run();
    if (fflush(stdout) != 0 || ferror(stdout) || has_failed) {
        fprintf(stderr, "replay: standard input cannot be read, or standard output cannot be written\n");
        return 2;
    }
    if (!is_clean) {
        fprintf(stderr, "replay: the call of record %lu wrote beside a buffer\n", records);
        return 1;
    }
    return 0;
}
