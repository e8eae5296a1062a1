/* The jobs of the proved leaves as one writes them in C where time counts: one pass, sixteen bytes or a word at a time, in loops that
 * gcc -O3 turns into vector code for any x86-64, memcpy and memset where one would. For a little-endian machine. */
#include "plain.h"
#include <string.h>

enum { BLOCK = 16, WIDEST = 600 };

typedef uint64_t word __attribute__((may_alias, aligned(1))); /* eight bytes, at any place */

static size_t least(size_t a, size_t b) { return a < b ? a : b; }

/* ---- rows: a short memset or memcpy costs more than some blocks of a fixed size. What a block writes behind its run or literal is
 * written again, by the next one or by the zeros at the end. */
static void put_run(uint8_t *row, size_t wide, size_t at, size_t count, uint8_t byte) {
    if (at + count + BLOCK - 1 <= wide)
        for (size_t k = 0; k < count; k += BLOCK) memset(row + at + k, byte, BLOCK);
    else if (at < wide) memset(row + at, byte, least(count, wide - at));
}

/* The payload has `there` bytes from this place on. */
static void put_literal(uint8_t *row, size_t wide, size_t at, const uint8_t *from, size_t count, size_t there) {
    if (at + count + BLOCK - 1 <= wide && count + BLOCK - 1 <= there)
        for (size_t k = 0; k < count; k += BLOCK) memcpy(row + at + k, from + k, BLOCK);
    else if (at < wide) memcpy(row + at, from, least(count, wide - at));
}

static void put_zeros(uint8_t *row, size_t wide, size_t at) {
    if (at < wide) memset(row + at, 0, wide - at);
}

/* One to eight bytes, and none behind them: by two halves that may overlap. */
static void replace(uint8_t *row, size_t wide, size_t at, const uint8_t *from, size_t count) {
    if (at >= wide) return;
    row += at;
    count = least(count, wide - at);
    if (count >= 4) {
        uint32_t first, last;
        memcpy(&first, from, 4);
        memcpy(&last, from + count - 4, 4);
        memcpy(row, &first, 4);
        memcpy(row + count - 4, &last, 4);
    } else {
        row[0] = from[0];
        if (count > 1) memcpy(row + count - 2, from + count - 2, 2);
    }
}

static int pairs(const uint8_t *p, size_t n, uint8_t *row, size_t wide) {
    size_t at = 0;
    if (n % 2) return 0;
    for (size_t i = 0; i < n && at < wide; i += 2) {
        put_run(row, wide, at, (size_t)p[i] + 1, p[i + 1]);
        at += (size_t)p[i] + 1;
    }
    put_zeros(row, wide, at);
    return 1;
}

static int packed(const uint8_t *p, size_t n, uint8_t *row, size_t wide) {
    size_t at = 0, i = 0;
    while (i < n) {
        uint8_t c = p[i++];
        if (c < 128) {
            size_t count = (size_t)c + 1;
            if (n - i < count) return 0;
            put_literal(row, wide, at, p + i, count, n - i);
            at += count;
            i += count;
        } else if (c > 128) {
            size_t count = 257 - (size_t)c;
            if (i == n) return 0;
            put_run(row, wide, at, count, p[i++]);
            at += count;
        }
    }
    put_zeros(row, wide, at);
    return 1;
}

static int delta(const uint8_t *p, size_t n, uint8_t *row, size_t wide) {
    size_t at = 0, i = 0;
    while (i < n) {
        uint8_t c = p[i++];
        size_t count = (size_t)(c >> 5) + 1, offset = c & 31;
        if (offset == 31) {
            uint8_t more;
            do {
                if (i == n) return 0;
                more = p[i++];
                offset += more;
            } while (more == 255);
        }
        at += offset;
        if (n - i < count) return 0;
        replace(row, wide, at, p + i, count);
        at += count;
        i += count;
    }
    return 1;
}

/* Whether no byte is missing: the place of each control byte comes of the one before, so this cannot go faster than they are read one by one. */
static int delta_whole(const uint8_t *p, size_t n) {
    size_t i = 0;
    while (i < n) {
        uint8_t c = p[i++];
        if ((c & 31) == 31) {
            while (i < n && p[i] == 255) i++;
            i++;
        }
        i += (size_t)(c >> 5) + 1;
    }
    return i == n;
}

static int as_it_is(const uint8_t *p, size_t n, uint8_t *row, size_t wide) {
    memcpy(row, p, least(n, wide));
    put_zeros(row, wide, n);
    return 1;
}

int plain_decode(uint8_t method, const uint8_t *payload, size_t n, uint8_t *row, size_t wide) {
    int whole;
    switch (method) {
    case 0: return as_it_is(payload, n, row, wide);
    case 1: whole = pairs(payload, n, row, wide); break;
    case 2: whole = packed(payload, n, row, wide); break;
    default: whole = delta(payload, n, row, wide); break;
    }
    if (!whole) memset(row, 0, wide);
    return whole;
}

int plain_decode_looking(uint8_t method, const uint8_t *payload, size_t n, uint8_t *row, size_t wide) {
    if (method != 3 || delta_whole(payload, n)) return plain_decode(method, payload, n, row, wide);
    memset(row, 0, wide);
    return 0;
}

/* ---- squares: the bits of a byte as d dots each, the first dot in the first byte's highest bit */
#define BIT(byte, k, d) (((byte) >> (k) & 1u) * ((1u << (d)) - 1) << (k) * (d))
#define BITS(byte, d) \
    (BIT(byte, 0, d) | BIT(byte, 1, d) | BIT(byte, 2, d) | BIT(byte, 3, d) | BIT(byte, 4, d) | BIT(byte, 5, d) | BIT(byte, 6, d) | BIT(byte, 7, d))
#define OF_4(f, b) f(b), f((b) + 1), f((b) + 2), f((b) + 3)
#define OF_16(f, b) OF_4(f, b), OF_4(f, (b) + 4), OF_4(f, (b) + 8), OF_4(f, (b) + 12)
#define OF_64(f, b) OF_16(f, b), OF_16(f, (b) + 16), OF_16(f, (b) + 32), OF_16(f, (b) + 48)
#define OF_256(f) OF_64(f, 0), OF_64(f, 64), OF_64(f, 128), OF_64(f, 192)
#define THREE(byte) __builtin_bswap32(BITS(byte, 3) << 8)
#define FOUR(byte) __builtin_bswap32(BITS(byte, 4))

static const uint32_t threes[256] = {OF_256(THREE)}, fours[256] = {OF_256(FOUR)};

/* Two dots to a bit are made in lanes of 16 bits: faster than a table, as many bytes are made at once. */
static void by_two(uint8_t *restrict ink, const uint8_t *restrict row, size_t n) {
    for (size_t i = 0; i < n; i++) {
        uint16_t x = (uint16_t)(row[i] >> 4 | (row[i] & 15) << 8);
        x = (uint16_t)((x | x << 2) & 0x3333);
        x = (uint16_t)((x | x << 1) & 0x5555);
        x = (uint16_t)(x | x << 1);
        memcpy(ink + 2 * i, &x, 2);
    }
}

/* Two bytes at once; what is written behind their dots is written again. */
static void by_three(uint8_t *restrict ink, const uint8_t *restrict row, size_t n) {
    size_t i = 0;
    for (; i + 2 <= n; i += 2) {
        uint64_t both = threes[row[i]] | (uint64_t)threes[row[i + 1]] << 24;
        memcpy(ink + 3 * i, &both, 8);
    }
    if (i < n) memcpy(ink + 3 * i, &threes[row[i]], 4);
}

static void by_four(uint8_t *restrict ink, const uint8_t *restrict row, size_t n) {
    for (size_t i = 0; i < n; i++) memcpy(ink + 4 * i, &fours[row[i]], 4);
}

/* Other counts, which no resolution has: dot by dot. */
static void by_dots(uint8_t *ink, size_t room, const uint8_t *row, size_t n, size_t dots) {
    memset(ink, 0, room);
    for (size_t x = 0; x < n * 8 * dots && x < room * 8; x++)
        if (row[x / dots / 8] & 128 >> x / dots % 8) ink[x / 8] |= (uint8_t)(128 >> x % 8);
}

/* The first n bytes of a row as squares: made once, for all its page rows. */
static void make_ink(uint8_t *ink, size_t wide, const uint8_t *row, size_t n, size_t dots) {
    switch (dots) {
    case 2: by_two(ink, row, n); break;
    case 3: by_three(ink, row, n); break;
    case 4: by_four(ink, row, n); break;
    default: by_dots(ink, wide, row, n, dots); break;
    }
}

/* ---- painting */

/* A cheap look, as real pages have many blank rows: equal neighbours, and the first is zero. */
static int is_blank(const uint8_t *row, size_t n) { return !n || (!row[0] && !memcmp(row, row + 1, n - 1)); }

static void lay(uint8_t *restrict to, const uint8_t *restrict from, size_t n) {
    for (size_t i = 0; i < n; i++) to[i] |= from[i];
}

/* The same s bits to the right; neither s nor n is 0. A byte gets its upper s bits from the byte before: a word of those, and a word of
 * the bytes themselves, need no swapping, as the bits that crossed over into a neighbour are masked. */
static void lay_shifted(uint8_t *restrict to, const uint8_t *restrict from, size_t n, unsigned s) {
    const uint64_t own = 0x0101010101010101u * (0xFFu >> s);
    const word *before = (const word *)from, *at = (const word *)(from + 1);
    word *there = (word *)(to + 1);
    size_t words = (n - 1) / 8;
    to[0] |= (uint8_t)(from[0] >> s);
    for (size_t i = 0; i < words; i++) there[i] |= (before[i] << (8 - s) & ~own) | (at[i] >> s & own);
    for (size_t i = 8 * words + 1; i < n; i++) to[i] |= (uint8_t)((from[i - 1] << 8 | from[i]) >> s);
}

/* A page row painted with n bytes, one dot to a bit. */
static void lay_line(uint8_t *line, size_t wide, const uint8_t *ink, size_t n, size_t from) {
    size_t at = from / 8, there = least(n, wide - at);
    unsigned s = from % 8;
    if (!s) {
        lay(line + at, ink, there);
        return;
    }
    lay_shifted(line + at, ink, there, s);
    if (at + there < wide) line[at + there] |= (uint8_t)(ink[there - 1] << (8 - s));
}

void plain_paint(uint8_t *page, size_t n, size_t wide, const uint8_t *row, size_t row_n, size_t dots, size_t from, size_t line) {
    uint8_t ink[WIDEST + 8];
    size_t count;
    if (!dots || from / 8 >= wide) return;
    count = least(row_n, (wide - from / 8) / dots + 1);
    if (is_blank(row, count)) return;
    if (dots > 1) {
        make_ink(ink, wide, row, count, dots);
        row = ink;
        count = least(count * dots, wide);
    }
    for (size_t y = line; y < line + dots && (y + 1) * wide <= n; y++) lay_line(page + y * wide, wide, row, count, from);
}

/* ---- counting: in each byte of a word the bits of up to 31 words, at most 248; the loop over them is turned into vector code */
static uint64_t per_byte(uint64_t v) {
    v -= v >> 1 & 0x5555555555555555u;
    v = (v & 0x3333333333333333u) + (v >> 2 & 0x3333333333333333u);
    return (v + (v >> 4)) & 0x0F0F0F0F0F0F0F0Fu;
}

static size_t sum_of_bytes(uint64_t v) {
    v = (v & 0x00FF00FF00FF00FFu) + (v >> 8 & 0x00FF00FF00FF00FFu);
    return v * 0x0001000100010001u >> 48;
}

size_t plain_count(const uint8_t *page, size_t n) {
    enum { WORDS = 31 };
    size_t sum = 0, i = 0;
    for (; i + WORDS * 8 <= n; i += WORDS * 8) {
        const word *words = (const word *)(page + i);
        uint64_t bits = 0;
        for (int k = 0; k < WORDS; k++) bits += per_byte(words[k]);
        sum += sum_of_bytes(bits);
    }
    for (; i < n; i++) sum += per_byte(page[i]);
    return sum;
}
