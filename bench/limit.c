/* A plain program of the same algorithm in C, on one thread and over the C library alone: the sketch of the k smallest
   MurmurHash3_x64_128 hashes of the distinct lines of standard input, of the numbers that they spell, or of the fields of
   a column. Its line is that of `sketchd count`; it refuses nothing.

       limit [--k K] [--raw] [--csv COLUMN] */
#include <stdint.h>
#include <stdio.h>
#include <stdlib.h>
#include <string.h>
#include <unistd.h>

typedef unsigned __int128 u128;

static const uint64_t C1 = 0x87c37b91114253d5, C2 = 0x4cf5ad432745937f;

static inline uint64_t rotate(uint64_t word, int by) { return word << by | word >> (64 - by); }

static inline uint64_t load(const uint8_t *at) {
    uint64_t word;
    memcpy(&word, at, 8);
    return word;
}

static inline uint64_t finish(uint64_t k) {
    k = (k ^ k >> 33) * 0xff51afd7ed558ccd;
    k = (k ^ k >> 33) * 0xc4ceb9fe1a85ec53;
    return k ^ k >> 33;
}

static inline uint64_t first(uint64_t k) { return rotate(k * C1, 31) * C2; }
static inline uint64_t second(uint64_t k) { return rotate(k * C2, 33) * C1; }

/* At most eight bytes as a word, the lowest first. */
static inline uint64_t word_of(const uint8_t *bytes, size_t length) {
    uint64_t word = 0;
    while (length > 0) word = word << 8 | bytes[--length];
    return word;
}

static inline uint64_t hash63(const uint8_t *text, size_t length) {
    uint64_t h1 = 0, h2 = 0;
    size_t rest = length;
    for (; rest >= 16; rest -= 16, text += 16) {
        h1 = (rotate(h1 ^ first(load(text)), 27) + h2) * 5 + 0x52dce729;
        h2 = (rotate(h2 ^ second(load(text + 8)), 31) + h1) * 5 + 0x38495ab5;
    }
    if (rest > 8) h2 ^= second(word_of(text + 8, rest - 8));
    if (rest > 0) h1 ^= first(word_of(text, rest < 8 ? rest : 8));
    h1 ^= length, h2 ^= length;
    h1 += h2, h2 += h1;
    h1 = finish(h1) + finish(h2);
    return h1 >> 1 ? h1 >> 1 : 1;
}

/* The k smallest: a heap with the greatest first, and a table with linear probing, in which 0 is no item. */
static size_t k = 4096, count;
static uint64_t *heap, *table, mask, theta = 1ull << 63;
static int shift;

static inline size_t home(uint64_t item) { return item * 0x9e3779b97f4a7c15 >> shift; }

static void make_sketch(void) {
    int bits = 1;
    while (1ull << bits < 4 * k) bits++;
    mask = (1ull << bits) - 1, shift = 64 - bits;
    heap = calloc(k, 8), table = calloc(mask + 1, 8);
    if (!heap || !table) exit(1);
}

static inline size_t place(uint64_t item) {
    size_t at = home(item);
    while (table[at] && table[at] != item) at = (at + 1) & mask;
    return at;
}

static void forget(uint64_t item) {
    size_t hole = place(item), at = hole;
    for (;;) {
        table[hole] = 0;
        do {
            at = (at + 1) & mask;
            if (!table[at]) return;
        } while (((at - home(table[at])) & mask) < ((at - hole) & mask));
        table[hole] = table[at], hole = at;
    }
}

static void sink(size_t at) {
    uint64_t item = heap[at];
    for (size_t child; (child = 2 * at + 1) < count; at = child) {
        child += child + 1 < count && heap[child + 1] > heap[child];
        if (heap[child] <= item) break;
        heap[at] = heap[child];
    }
    heap[at] = item;
}

static void keep(uint64_t item) {
    size_t at = place(item);
    if (table[at]) return;
    table[at] = item;
    if (count < k) {
        heap[count++] = item;
        if (count < k) return;
        for (size_t i = k / 2 + 1; i-- > 0;) sink(i);
    } else {
        forget(heap[0]);
        heap[0] = item;
        sink(0);
    }
    theta = heap[0];
}

static inline uint64_t number(const uint8_t *text, size_t length) {
    uint64_t value = 0;
    for (size_t i = 0; i < length; i++) value = value * 10 + (text[i] - '0');
    return value;
}

static inline void take(const uint8_t *text, size_t length, int raw) {
    if (length == 0) return;
    uint64_t item = raw ? number(text, length) + 1 : hash63(text, length);
    if (item < theta) keep(item);
}

/* Comma-separated values: the fields of the column, without the quotes in which they may stand; two quotes in quotes are
   one. A field that stands whole in the piece and has no quotes is taken where it is, of any other the bytes gather. */
static size_t column;

static void take_records(const uint8_t *at, const uint8_t *end) {
    static enum { BARE, QUOTED, CLOSED } state = BARE;
    static uint8_t field[1 << 16];
    static size_t held, number = 1;
    while (at < end) {
        const uint8_t *stop = at;
        if (state == QUOTED) while (stop < end && *stop != '"') stop++;
        else while (stop < end && *stop != ',' && *stop != '\n' && *stop != '"') stop++;
        const uint8_t *text = at;
        size_t length = stop - at;
        if (number == column && (held || stop == end || *stop == '"')) {
            length = length < sizeof field - held ? length : sizeof field - held;
            memcpy(field + held, at, length);
            text = field, length = held += length;
        }
        if (stop == end) return;
        if (*stop == '"') {
            if (state == CLOSED && number == column && stop == at && held < sizeof field) field[held++] = '"';
            state = state == QUOTED ? CLOSED : QUOTED;
        } else {
            if (number == column) take(text, length - (*stop == '\n' && length && text[length - 1] == '\r'), 0);
            number = *stop == ',' ? number + 1 : 1, held = 0, state = BARE;
        }
        at = stop + 1;
    }
}

static void print_fraction(u128 over, uint64_t under) {
    char digits[48], *at = digits + sizeof digits - 1;
    *at = 0;
    do *--at = '0' + (int)(over % 10); while (over /= 10);
    printf("estimate %s/%llu\n", at, (unsigned long long)under);
}

int main(int argc, char **words) {
    enum { ROOM = 1 << 18 };
    static uint8_t piece[ROOM];
    int raw = 0;
    for (int i = 1; i < argc; i++) {
        if (!strcmp(words[i], "--raw")) raw = 1;
        if (!strcmp(words[i], "--k") && i + 1 < argc) k = strtoul(words[++i], 0, 10);
        if (!strcmp(words[i], "--csv") && i + 1 < argc) column = strtoul(words[++i], 0, 10);
    }
    make_sketch();
    size_t held = 0;
    for (ssize_t got; (got = read(0, piece + held, ROOM - held)) > 0;) {
        if (column) {
            take_records(piece, piece + got);
            continue;
        }
        uint8_t *line = piece, *end = piece + held + got, *stop;
        while ((stop = memchr(line, '\n', end - line))) {
            size_t length = stop - line;
            take(line, length - (length && line[length - 1] == '\r'), raw);
            line = stop + 1;
        }
        held = end - line;
        memmove(piece, line, held);
    }
    take(piece, held, raw);
    if (count < k) print_fraction(count, 1);
    else print_fraction((u128)(k - 1) << 63, theta);
}
