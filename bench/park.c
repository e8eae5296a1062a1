/* A state written as text and read back, as one writes it in C: members by a table, a text by its lines. Soundness is that of reader.c. */
#include "park.h"
#include "reader.h"
#include <string.h>

enum { STACK = 20, SEED_ROW = 600, DIGITS = 10 };

/* The members in the order of a text, behind W and H. */
struct member { size_t at, bytes; };
static const struct member members[] = {
    {ROV_X, 4}, {ROV_Y, 4}, {ROV_LEFT, 4}, {ROV_RIGHT, 4}, {ROV_TOP, 4}, {ROV_HMI, 4}, {ROV_VMI, 4}, {ROV_TERMINATION, 1},
    {ROV_RESOLUTION, 2}, {ROV_METHOD, 1}, {ROV_STARTED, 1}, {ROV_MARGIN, 4}, {ROV_USED, 1}, {ROV_DEPTH, 8}};
enum { MEMBERS = sizeof members / sizeof members[0] };

static uint64_t get(const uint8_t *state, struct member m) {
    uint64_t n = 0;
    while (m.bytes-- > 0) n = n << 8 | state[m.at + m.bytes];
    return n;
}

/* False if the number has no room in the member's bytes. */
static bool set(uint8_t *state, struct member m, uint64_t n) {
    for (size_t i = 0; i < m.bytes; i++, n >>= 8) state[m.at + i] = (uint8_t)n;
    return n == 0;
}

static struct member stacked_x(size_t i) { return (struct member){ROV_STACK + 8 * i, 4}; }
static struct member stacked_y(size_t i) { return (struct member){ROV_STACK + 8 * i + 4, 4}; }

/* ---- writing: a sound state's text always has room in ROV_PARKED bytes */
struct out {
    uint8_t bytes[ROV_PARKED];
    size_t n;
};

static void put(struct out *o, uint8_t byte) { o->bytes[o->n++] = byte; }

static void put_word(struct out *o, const char *word) {
    while (*word) put(o, (uint8_t)*word++);
}

/* A tab and a decimal. */
static void put_number(struct out *o, uint64_t n) {
    uint8_t digits[DIGITS];
    size_t count = 0;
    do digits[count++] = (uint8_t)('0' + n % 10);
    while (n /= 10);
    put(o, '\t');
    while (count > 0) put(o, digits[--count]);
}

static void put_row(struct out *o, const uint8_t *row, size_t n) {
    static const char hex[] = "0123456789ABCDEF";
    put_word(o, "ROW\t");
    for (size_t i = 0; i < n; i++) {
        put(o, (uint8_t)hex[row[i] >> 4]);
        put(o, (uint8_t)hex[row[i] & 15]);
    }
    put(o, '\n');
}

static void put_text(struct out *o, size_t W, size_t H, const uint8_t *state) {
    size_t depth = state[ROV_DEPTH];
    put_word(o, "JOB");
    put_number(o, W);
    put_number(o, H);
    for (size_t i = 0; i < MEMBERS; i++) put_number(o, get(state, members[i]));
    put(o, '\n');
    for (size_t i = 0; i < depth; i++) {
        put_word(o, "POS");
        put_number(o, get(state, stacked_x(i)));
        put_number(o, get(state, stacked_y(i)));
        put(o, '\n');
    }
    put_row(o, state + ROV_SEED, W / 8);
}

static bool measured(size_t W, size_t H) { return W >= 8 && W <= 4800 && W % 8 == 0 && H >= 1 && H <= 6800; }

uint32_t plain_park(size_t W, size_t H, const uint8_t *state, size_t state_n, uint8_t *room, size_t room_n, size_t *length) {
    struct out o;
    *length = 0;
    if (!measured(W, H)) return 10;
    if (!plain_sound(W, H, state, state_n)) return 13;
    if (state[ROV_FIRST]) return 16;
    o.n = 0;
    put_text(&o, W, H, state);
    if (o.n > room_n) return 15;
    memcpy(room, o.bytes, o.n);
    *length = o.n;
    return 0;
}

/* ---- reading: the form first, to the text's end; numbers are kept as they are read, and judged afterwards */
struct in {
    const uint8_t *bytes;
    size_t n, at;
};

struct parked {
    uint64_t wide, high;
    uint8_t state[ROV_STATE];
    bool fits; /* no number was too large for its member */
};

static bool take(struct in *t, uint8_t byte) {
    if (t->at == t->n || t->bytes[t->at] != byte) return false;
    t->at++;
    return true;
}

static bool take_word(struct in *t, const char *word) {
    while (*word)
        if (!take(t, (uint8_t)*word++)) return false;
    return true;
}

static bool is_digit(const struct in *t) { return t->at < t->n && t->bytes[t->at] >= '0' && t->bytes[t->at] <= '9'; }

/* A tab and a decimal: 1 to 10 digits, no leading zeros. */
static bool take_number(struct in *t, uint64_t *n) {
    size_t first;
    if (!take(t, '\t')) return false;
    for (first = t->at, *n = 0; is_digit(t) && t->at - first <= DIGITS; t->at++) *n = *n * 10 + (t->bytes[t->at] - '0');
    if (t->at == first || t->at - first > DIGITS) return false;
    return t->at - first == 1 || t->bytes[first] != '0';
}

static bool take_member(struct in *t, struct parked *p, struct member m, uint64_t *n) {
    if (!take_number(t, n)) return false;
    if ((m.at == ROV_STARTED || m.at == ROV_USED) && *n > 1) return false;
    if (!set(p->state, m, *n)) p->fits = false;
    return true;
}

/* As many as the depth says, also where that is more than the stack has places for. */
static bool take_positions(struct in *t, struct parked *p, uint64_t depth) {
    uint64_t n;
    for (uint64_t i = 0; i < depth; i++) {
        size_t place = i < STACK ? (size_t)i : STACK - 1;
        if (!take_word(t, "POS") || !take_member(t, p, stacked_x(place), &n) || !take_member(t, p, stacked_y(place), &n) || !take(t, '\n'))
            return false;
    }
    if (depth > STACK) p->fits = false;
    return true;
}

static bool take_hex(struct in *t, uint8_t *value) {
    uint8_t byte;
    if (t->at == t->n) return false;
    byte = t->bytes[t->at++];
    if (byte >= '0' && byte <= '9') *value = (uint8_t)(byte - '0');
    else if (byte >= 'A' && byte <= 'F') *value = (uint8_t)(byte - 'A' + 10);
    else return false;
    return true;
}

static bool take_row(struct in *t, struct parked *p, uint64_t pairs) {
    uint8_t high, low;
    if (!take_word(t, "ROW\t")) return false;
    for (uint64_t i = 0; i < pairs; i++) {
        if (!take_hex(t, &high) || !take_hex(t, &low)) return false;
        if (i < SEED_ROW) p->state[ROV_SEED + i] = (uint8_t)(high << 4 | low);
    }
    return take(t, '\n');
}

static bool take_text(struct in *t, struct parked *p) {
    uint64_t n = 0; /* the last of the members is the depth */
    memset(p->state, 0, ROV_STATE);
    p->fits = true;
    if (!take_word(t, "JOB") || !take_number(t, &p->wide) || !take_number(t, &p->high)) return false;
    for (size_t i = 0; i < MEMBERS; i++)
        if (!take_member(t, p, members[i], &n)) return false;
    return take(t, '\n') && take_positions(t, p, n) && take_row(t, p, p->wide / 8) && t->at == t->n;
}

/* A measure that is too large for size_t is not allowed either. */
static bool holds(const struct parked *p) {
    return p->fits && p->wide <= 4800 && p->high <= 6800 && plain_sound((size_t)p->wide, (size_t)p->high, p->state, ROV_STATE);
}

uint32_t plain_unpark(const uint8_t *text, size_t text_n, size_t *W, size_t *H, uint8_t *state, size_t state_n) {
    struct in t = {text, text_n, 0};
    struct parked p;
    if (!take_text(&t, &p)) return 17;
    if (!holds(&p)) return 18;
    if (state_n < ROV_STATE) return 13;
    *W = (size_t)p.wide;
    *H = (size_t)p.high;
    memcpy(state, p.state, ROV_STATE);
    return 0;
}
