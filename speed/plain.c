/*
 * The passing call and the setting of a window in plain C, unproved and unchecked, for comparison of speed: the same checks on
 * the same tables in the same order, and the same answer, as siphon_pass and siphon_set_window.
 */
#include <stddef.h>
#include <stdint.h>
#include <string.h>

struct header {
    uint32_t w[4];
};

/* What a look at the windows found. */
struct translation {
    uint64_t address;
    unsigned destination;
    int lets_marked;
};

static uint32_t load(const uint8_t *b) {
    return (uint32_t)b[0] << 24 | (uint32_t)b[1] << 16 | (uint32_t)b[2] << 8 | b[3];
}

static void save(uint8_t *b, uint32_t w) {
    b[0] = (uint8_t)(w >> 24);
    b[1] = (uint8_t)(w >> 16);
    b[2] = (uint8_t)(w >> 8);
    b[3] = (uint8_t)w;
}

static unsigned byte_at(const uint8_t *s, size_t n, size_t i) {
    return i < n ? s[i] : 0;
}

static uint32_t word_at(const uint8_t *s, size_t n, size_t at) {
    if (at + 4 <= n)
        return load(s + at);
    return (uint32_t)byte_at(s, n, at) << 24 | byte_at(s, n, at + 1) << 16 | byte_at(s, n, at + 2) << 8 | byte_at(s, n, at + 3);
}

static struct header read_header(const uint8_t *s, size_t n) {
    struct header h;
    h.w[0] = word_at(s, n, 0);
    h.w[1] = word_at(s, n, 4);
    h.w[2] = word_at(s, n, 8);
    h.w[3] = byte_at(s, n, 0) & 0x20 ? word_at(s, n, 12) : 0;
    return h;
}

static unsigned kind(const struct header *h) {
    return h->w[0] >> 24;
}

static int has_four(const struct header *h) {
    return (kind(h) & 0x20) != 0;
}

static int is_completion(const struct header *h) {
    return kind(h) == 0x0A || kind(h) == 0x4A;
}

static int is_read(const struct header *h) {
    return kind(h) == 0x00 || kind(h) == 0x20;
}

static int has_data(const struct header *h) {
    return kind(h) == 0x40 || kind(h) == 0x60 || kind(h) == 0x4A;
}

static int is_marked(const struct header *h) {
    return (h->w[0] & 0x4000) != 0;
}

static uint32_t dwords(const struct header *h) {
    uint32_t n = h->w[0] & 0x3FF;
    return n ? n : 1024;
}

static size_t header_bytes(const struct header *h) {
    return has_four(h) ? 16 : 12;
}

static size_t total_bytes(const struct header *h) {
    return header_bytes(h) + (has_data(h) ? 4 * (size_t)dwords(h) : 0);
}

static uint64_t address(const struct header *h) {
    return has_four(h) ? (uint64_t)h->w[2] << 32 | (h->w[3] & ~3u) : h->w[2] & ~3u;
}

/* The first of refusals 33 to 36 that a request gets, or 0. */
static uint32_t request_form(const struct header *h) {
    uint32_t first = h->w[1] & 15, last = h->w[1] >> 4 & 15, length = dwords(h);
    uint64_t a = address(h);
    if (length == 1 ? last != 0 : first == 0 || last == 0)
        return 33;
    if (length != 1 && !(length == 2 && a % 8 == 0)) {
        if (!(first == 15 || first == 14 || first == 12 || first == 8))
            return 34;
        if (!(last == 1 || last == 3 || last == 7 || last == 15))
            return 34;
    }
    if ((a & 4095) + 4 * length > 4096)
        return 35;
    return has_four(h) && h->w[2] == 0 ? 36 : 0;
}

/* The first of refusals 31, 4 and 32 to 36 that a packet gets, or 0. */
static uint32_t form(const struct header *h, size_t n) {
    if (n < 12)
        return 31;
    if (!(is_read(h) || kind(h) == 0x40 || kind(h) == 0x60 || is_completion(h)) || h->w[0] & 0x8000 || h->w[0] & 0x0C00)
        return 4;
    if (n != total_bytes(h))
        return 32;
    return is_completion(h) ? 0 : request_form(h);
}

static int in_force(const uint64_t *row, unsigned p) {
    uint64_t control = row[2];
    unsigned k = control & 255;
    uint64_t below;
    if (control >> 14 != 0 || !(control & 0x1000) || k < 12 || k > 39 || (control >> 8 & 15) == p)
        return 0;
    below = ((uint64_t)1 << k) - 1;
    return (row[0] & below) == 0 && (row[1] & below) == 0;
}

static int look(const uint64_t *windows, unsigned p, uint64_t a, struct translation *t) {
    const uint64_t *row = windows + 48 * p;
    int s;
    for (s = 0; s < 16; s++, row += 3)
        if (in_force(row, p) && a >= row[0] && a - row[0] < (uint64_t)1 << (row[2] & 255)) {
            t->address = a - row[0] + row[1];
            t->destination = row[2] >> 8 & 15;
            t->lets_marked = (row[2] & 0x2000) != 0;
            return 1;
        }
    return 0;
}

/* Some row of p in force leads to q, and has all of these bits in its control. */
static int leads(const uint64_t *windows, unsigned p, unsigned q, uint64_t bits) {
    const uint64_t *row = windows + 48 * p;
    int s;
    for (s = 0; s < 16; s++, row += 3)
        if (in_force(row, p) && (row[2] >> 8 & 15) == q && (row[2] & bits) == bits)
            return 1;
    return 0;
}

static int find(const uint32_t *numbers, unsigned p, uint32_t id) {
    unsigned s;
    for (s = 0; s < 4; s++)
        if (numbers[4 * p + s] == (0x10000 | id))
            return (int)(4 * p + s);
    return -1;
}

static unsigned lowest(uint32_t e) {
    return e & 1 ? 0 : e & 2 ? 1 : e & 4 ? 2 : e & 8 ? 3 : 0;
}

static unsigned highest(uint32_t e) {
    return e & 8 ? 3 : e & 4 ? 2 : e & 2 ? 1 : 0;
}

static uint32_t byte_count(const struct header *h) {
    uint32_t first = h->w[1] & 15, last = h->w[1] >> 4 & 15, length = dwords(h);
    if (length == 1)
        return highest(first) - lowest(first) + 1;
    return 4 * length - lowest(first) - (3 - highest(last));
}

static void put_answer(uint32_t *answer, uint32_t outcome, unsigned q, size_t length, const struct header *h) {
    answer[0] = outcome;
    answer[1] = q;
    answer[2] = (uint32_t)length;
    answer[3] = has_four(h) ? 4 : 3;
    memcpy(answer + 4, h->w, sizeof h->w);
}

static void put_packet(uint8_t *out, const struct header *h, const uint8_t *data, size_t n) {
    save(out, h->w[0]);
    save(out + 4, h->w[1]);
    save(out + 8, h->w[2]);
    if (has_four(h)) {
        save(out + 12, h->w[3]);
        memcpy(out + 16, data, n);
    } else {
        memcpy(out + 12, data, n);
    }
}

static void record(uint32_t *row, unsigned bit, const struct header *h) {
    if (row[0] == 0) {
        row[1] = bit;
        memcpy(row + 2, h->w, sizeof h->w);
    }
    row[0] |= (uint32_t)1 << bit;
}

static unsigned log_bit(uint32_t refusal) {
    return refusal > 30 ? 18 : refusal == 5 ? 12 : refusal == 9 ? 16 : 20;
}

static uint32_t drop(uint32_t refusal, const struct header *h, uint32_t *row, uint32_t *answer) {
    record(row, log_bit(refusal), h);
    memset(answer, 0, 32);
    answer[0] = 2;
    return refusal;
}

static uint32_t refuse(uint32_t refusal, unsigned p, uint32_t bus, const struct header *h, uint32_t *row, uint8_t *out,
                       uint32_t *answer) {
    struct header c;
    if (!is_read(h))
        return drop(refusal, h, row, answer);
    record(row, log_bit(refusal), h);
    c.w[0] = 0x0A000000 | (h->w[0] & 0x00703000);
    c.w[1] = bus << 24 | 1 << 13 | (byte_count(h) & 0xFFF);
    c.w[2] = (h->w[1] & 0xFFFFFF00) | (address(h) & 0x7C) | lowest(h->w[1] & 15);
    c.w[3] = 0;
    put_packet(out, &c, 0, 0);
    put_answer(answer, 1, p, 12, &c);
    return refusal;
}

static uint32_t cross(const struct header *h, unsigned q, const uint8_t *packet, size_t n, size_t head, uint8_t *out,
                      uint32_t *answer) {
    put_packet(out, h, packet + head, n - head);
    put_answer(answer, 0, q, total_bytes(h), h);
    return 0;
}

static uint32_t pass_request(unsigned p, const uint8_t *packet, size_t n, struct header *h, const uint64_t *windows,
                             const uint32_t *numbers, uint32_t *row, uint8_t *out, uint32_t *answer) {
    uint32_t bus = numbers[64 + p], low = has_four(h) ? h->w[3] & 3 : h->w[2] & 3;
    size_t head = header_bytes(h);
    struct translation t;
    int i;
    if (!look(windows, p, address(h), &t))
        return refuse(6, p, bus, h, row, out, answer);
    if (is_marked(h) && !t.lets_marked)
        return refuse(5, p, bus, h, row, out, answer);
    i = find(numbers, p, h->w[1] >> 16);
    if (i < 0)
        return refuse(7, p, bus, h, row, out, answer);
    if (numbers[64 + t.destination] > 255)
        return refuse(8, p, bus, h, row, out, answer);
    h->w[1] = numbers[64 + t.destination] << 24 | (64 + (uint32_t)i) << 16 | (h->w[1] & 0xFFFF);
    if (t.address >> 32) {
        h->w[0] |= 0x20000000;
        h->w[2] = (uint32_t)(t.address >> 32);
        h->w[3] = (uint32_t)t.address | low;
    } else {
        h->w[0] &= ~0x20000000u;
        h->w[2] = (uint32_t)t.address | low;
        h->w[3] = 0;
    }
    return cross(h, t.destination, packet, n, head, out, answer);
}

static uint32_t pass_completion(unsigned q, const uint8_t *packet, size_t n, struct header *h, const uint64_t *windows,
                                const uint32_t *numbers, uint32_t *row, uint8_t *out, uint32_t *answer) {
    uint32_t id = h->w[2] >> 16, i = id & 63;
    unsigned p = i >> 2;
    if (id != (numbers[64 + q] << 8 | 64 | i) || numbers[i] >> 16 != 1 || p == q || numbers[64 + p] > 255 ||
        !leads(windows, p, q, 0))
        return drop(9, h, row, answer);
    if (is_marked(h) && !leads(windows, p, q, 0x2000))
        return drop(5, h, row, answer);
    h->w[1] = numbers[64 + p] << 24 | (h->w[1] & 0xFFFF);
    h->w[2] = numbers[i] << 16 | (h->w[2] & 0xFFFF);
    return cross(h, p, packet, n, 12, out, answer);
}

uint32_t plain_pass(uint32_t p, const uint8_t *packet, size_t n, const uint64_t *windows, size_t windows_length,
                    uint32_t *numbers, size_t numbers_length, uint32_t *logs, size_t logs_length, uint8_t *out,
                    size_t out_length, uint32_t *answer, size_t answer_length) {
    struct header h;
    uint32_t refusal;
    if (answer_length < 8)
        return 1;
    if (p > 15 || windows_length != 768 || numbers_length != 80 || logs_length != 96 || out_length < 4112 ||
        numbers[64 + p] > 255) {
        refusal = p > 15 || windows_length != 768 || numbers_length != 80 || logs_length != 96 || out_length < 4112 ? 1 : 2;
        memset(answer, 0, 32);
        answer[0] = 2;
        return refusal;
    }
    h = read_header(packet, n);
    refusal = form(&h, n);
    if (refusal)
        return drop(refusal, &h, logs + 6 * p, answer);
    if (is_completion(&h))
        return pass_completion(p, packet, n, &h, windows, numbers, logs + 6 * p, out, answer);
    return pass_request(p, packet, n, &h, windows, numbers, logs + 6 * p, out, answer);
}

static int overlaps(const uint64_t *row, uint64_t base, unsigned k) {
    uint64_t size = (uint64_t)1 << (row[2] & 255);
    return (base >= row[0] && base - row[0] < size) || (row[0] >= base && row[0] - base < (uint64_t)1 << k);
}

uint32_t plain_set_window(uint32_t p, uint32_t slot, uint64_t base, uint64_t target, uint32_t k, uint32_t q, uint32_t marked,
                          uint64_t *windows, size_t windows_length) {
    uint64_t *row;
    uint32_t s;
    if (p > 15 || slot > 15 || windows_length != 768)
        return 1;
    if (k < 12 || k > 39 || q > 15 || q == p || base & (((uint64_t)1 << k) - 1) || target & (((uint64_t)1 << k) - 1))
        return 10;
    for (s = 0, row = windows + 48 * p; s < 16; s++, row += 3)
        if (s != slot && in_force(row, p) && overlaps(row, base, k))
            return 11;
    row = windows + 3 * (16 * p + slot);
    row[0] = base;
    row[1] = target;
    row[2] = (marked ? 0x3000 : 0x1000) | q << 8 | k;
    return 0;
}
