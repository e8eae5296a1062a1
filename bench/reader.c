/* PCL read as one writes it in C for a page controller: one struct, changed in place, and switch statements. Rows and dots are
 * those of plain.c. For a little-endian machine, where the bytes of a state are the struct's own. */
#include "reader.h"
#include "plain.h"
#include <string.h>

enum { ESC = 27, DOT = 24, INCH = 7200, STACK = 20, SEED_ROW = 600, LONGEST = 1048576, MOST_HMI = 1966020, MOST_VMI = 50400 };

struct position { uint32_t x, y; };

struct state { /* the layout of ROV_X .. ROV_SEED, but for the seed row, which stays in the caller's bytes */
    uint32_t x, y, left, right, top, hmi, vmi, margin;
    uint16_t resolution;
    uint8_t termination, method, started, used, first, group;
    uint64_t depth;
    struct position stack[STACK];
};
_Static_assert(sizeof(struct state) == ROV_SEED && offsetof(struct state, stack) == ROV_STACK, "the state's bytes");

struct reader {
    struct state st;
    uint8_t *seed, *page; /* no page in a translation */
    const uint8_t *stream;
    size_t n, at, wide, high;
    uint32_t lw, lh; /* logical width and height */
    int ended;
};

struct value {
    bool relative, negative;
    uint32_t size; /* in ten-thousandths */
};

/* A command as it was sent. The key of a two-byte command is its byte; that of a sequence has the first byte and the group too. */
struct sent {
    uint32_t key;
    struct value v;
    const uint8_t *payload;
    size_t count;
};

static uint32_t least(uint64_t a, uint32_t b) { return a < b ? (uint32_t)a : b; }
static bool measured(size_t W, size_t H) { return W >= 8 && W <= 4800 && W % 8 == 0 && H >= 1 && H <= 6800; }

/* ---- the state */
static uint32_t first_line(const struct reader *r) { return least((uint64_t)r->st.top + r->st.vmi * 3 / 4, r->lh); }

static void make_afresh(struct reader *r) {
    memset(&r->st, 0, sizeof r->st);
    memset(r->seed, 0, SEED_ROW);
    r->st.right = r->lw;
    r->st.top = r->high > 150 ? 3600 : 0;
    r->st.hmi = 720;
    r->st.vmi = 1200;
    r->st.resolution = 75;
    r->st.y = first_line(r);
}

static bool stack_sound(const struct state *s, uint32_t lw, uint32_t lh) {
    if (s->depth > STACK) return false;
    for (size_t i = 0; i < STACK; i++) {
        uint32_t most_x = i < s->depth ? lw : 0, most_y = i < s->depth ? lh : 0;
        if (s->stack[i].x > most_x || s->stack[i].y > most_y) return false;
    }
    return true;
}

static bool sequence_sound(uint8_t first, uint8_t group) {
    if (first == 0 && group == 0) return true;
    return first >= 33 && first <= 47 && group >= 96 && group <= 126;
}

static bool resolution_sound(uint16_t r) { return r == 75 || r == 100 || r == 150 || r == 300; }

static bool state_sound(const struct state *s, const uint8_t *seed, size_t W, size_t H) {
    uint32_t lw = (uint32_t)W * DOT, lh = (uint32_t)H * DOT;
    if (s->x > lw || s->y > lh || s->left >= s->right || s->right > lw || s->top > lh || s->margin > lw) return false;
    if (s->hmi > MOST_HMI || s->vmi > MOST_VMI || s->termination > 3 || s->method > 3 || s->started > 1 || s->used > 1) return false;
    if (!resolution_sound(s->resolution) || !sequence_sound(s->first, s->group) || !stack_sound(s, lw, lh)) return false;
    for (size_t i = W / 8; i < SEED_ROW; i++)
        if (seed[i]) return false;
    return true;
}

/* ---- moves */
static void move_x(struct reader *r, int64_t x) { r->st.x = x < 0 ? 0 : least((uint64_t)x, r->lw); }
static void move_y(struct reader *r, int64_t y) { r->st.y = y < 0 ? 0 : least((uint64_t)y, r->lh); }

/* Text: each byte goes right by a column, as far as the margin; all but spaces use the page. */
static void type(struct reader *r, const uint8_t *text, size_t n) {
    struct state *s = &r->st;
    uint8_t marks = 0;
    for (size_t i = 0; i < n; i++) marks |= text[i] ^ ' ';
    s->x = least(s->x + (uint64_t)n * s->hmi, s->x <= s->right ? s->right : r->lw);
    if (marks) s->used = 1;
}

static void tab(struct reader *r) {
    struct state *s = &r->st;
    uint32_t step = 8 * s->hmi;
    uint64_t stop = s->left;
    if (step == 0) return;
    if (s->x >= s->left) stop += (uint64_t)step * ((s->x - s->left) / step + 1);
    s->x = least(stop, s->x <= s->right ? s->right : r->lw);
}

static void backspace(struct reader *r) {
    struct state *s = &r->st;
    uint32_t stop = s->x >= s->left ? s->left : 0;
    s->x = s->x - stop > s->hmi ? s->x - s->hmi : stop;
}

static void end_page(struct reader *r) {
    r->ended = 1;
    r->st.used = 0;
}

static void control(struct reader *r, uint8_t code) {
    struct state *s = &r->st;
    switch (code) {
    case '\b': backspace(r); break;
    case '\t': tab(r); break;
    case '\n':
        if (s->termination & 2) s->x = s->left;
        s->y = least((uint64_t)s->y + s->vmi, r->lh);
        break;
    case '\f':
        if (s->termination & 2) s->x = s->left;
        end_page(r);
        s->y = first_line(r);
        break;
    case '\r':
        s->x = s->left;
        if (s->termination & 1) s->y = least((uint64_t)s->y + s->vmi, r->lh);
        break;
    default: break;
    }
}

static uint32_t two_bytes(struct reader *r, uint8_t byte) {
    switch (byte) {
    case '9':
        r->st.left = 0;
        r->st.right = r->lw;
        return 0;
    case '=': r->st.y = least((uint64_t)r->st.y + r->st.vmi / 2, r->lh); return 0;
    case 'E':
        if (r->st.used) end_page(r);
        make_afresh(r);
        return 0;
    default: return 3;
    }
}

/* ---- commands: each gives its finding, 0 for none */
static uint32_t whole(struct value v) { return v.size / 10000; }
static bool whole_negative(struct value v) { return v.negative && whole(v) > 0; }

static int64_t displacement(struct value v, uint32_t unit) {
    int64_t d = (int64_t)((uint64_t)v.size * unit / 10000);
    return v.negative ? -d : d;
}

static uint32_t go_x(struct reader *r, struct value v, uint32_t unit) {
    move_x(r, (v.relative ? r->st.x : 0) + displacement(v, unit));
    return 0;
}

static uint32_t go_y(struct reader *r, struct value v, uint32_t unit, uint32_t from) {
    move_y(r, (v.relative ? r->st.y : from) + displacement(v, unit));
    return 0;
}

static uint32_t left_margin(struct reader *r, struct value v) {
    uint64_t left = (uint64_t)whole(v) * r->st.hmi;
    if (whole_negative(v) || left >= r->st.right) return 4;
    r->st.left = (uint32_t)left;
    if (r->st.x < r->st.left) r->st.x = r->st.left;
    return 0;
}

static uint32_t right_margin(struct reader *r, struct value v) {
    uint32_t right = least((uint64_t)(whole(v) + 1) * r->st.hmi, r->lw);
    if (whole_negative(v) || right <= r->st.left) return 4;
    r->st.right = right;
    if (r->st.x > right) r->st.x = right;
    return 0;
}

static uint32_t top_margin(struct reader *r, struct value v) {
    uint64_t top = (uint64_t)whole(v) * r->st.vmi;
    if (whole_negative(v) || r->st.vmi == 0 || top > r->lh) return 4;
    r->st.top = (uint32_t)top;
    return 0;
}

static uint32_t line_height(struct reader *r, struct value v) {
    if ((v.negative && v.size > 0) || v.size > 3360000) return 4;
    r->st.vmi = (uint32_t)displacement(v, 150);
    return 0;
}

static uint32_t lines_per_inch(struct reader *r, struct value v) {
    if (whole_negative(v)) return 4;
    switch (whole(v)) {
    case 1: case 2: case 3: case 4: case 6: case 8: case 12: case 16: case 24: case 48:
        r->st.vmi = INCH / whole(v);
        return 0;
    default: return 4;
    }
}

static uint32_t column_width(struct reader *r, struct value v) {
    if (v.negative && v.size > 0) return 4;
    r->st.hmi = (uint32_t)displacement(v, 60);
    return 0;
}

static uint32_t termination(struct reader *r, struct value v) {
    if (whole_negative(v) || whole(v) > 3) return 4;
    r->st.termination = (uint8_t)whole(v);
    return 0;
}

static uint32_t stacked(struct reader *r, struct value v) {
    struct state *s = &r->st;
    if (whole_negative(v) || whole(v) > 1) return 4;
    if (whole(v) == 0) {
        if (s->depth == STACK) return 5;
        s->stack[s->depth++] = (struct position){s->x, s->y};
        return 0;
    }
    if (s->depth == 0) return 5;
    s->depth--;
    s->x = s->stack[s->depth].x;
    s->y = s->stack[s->depth].y;
    s->stack[s->depth] = (struct position){0, 0};
    return 0;
}

static uint32_t resolution(struct reader *r, struct value v) {
    if (whole_negative(v) || !resolution_sound((uint16_t)whole(v))) return 4;
    if (r->st.started) return 6;
    r->st.resolution = (uint16_t)whole(v);
    return 0;
}

static void start_raster(struct reader *r, uint32_t margin) {
    r->st.started = 1;
    r->st.margin = margin;
    memset(r->seed, 0, r->wide);
}

static uint32_t raster_start(struct reader *r, struct value v) {
    if (whole_negative(v) || whole(v) > 1) return 4;
    if (r->st.started) return 6;
    start_raster(r, whole(v) ? r->st.x : 0);
    return 0;
}

static uint32_t raster_reset(struct reader *r) {
    r->st.started = 0;
    r->st.method = 0;
    r->st.margin = 0;
    memset(r->seed, 0, r->wide);
    return 0;
}

static uint32_t row_method(struct reader *r, struct value v) {
    if (whole_negative(v) || whole(v) > 3) return 4;
    r->st.method = (uint8_t)whole(v);
    return 0;
}

static uint32_t rows_down(struct reader *r, struct value v) {
    if (whole_negative(v)) return 4;
    if (!r->st.started) return 6;
    r->st.y = least((uint64_t)r->st.y + whole(v) * (INCH / r->st.resolution), r->lh);
    return 0;
}

static uint32_t transparent(struct reader *r, struct value v, const uint8_t *payload, size_t count) {
    if (whole_negative(v)) return 4;
    type(r, payload, count);
    return 0;
}

static uint32_t row(struct reader *r, struct value v, const uint8_t *payload, size_t count) {
    struct state *s = &r->st;
    int came_whole;
    if (whole_negative(v)) return 4;
    if (!s->started) start_raster(r, 0);
    came_whole = plain_decode(s->method, payload, count, r->seed, r->wide);
    if (r->page) plain_paint(r->page, r->wide * r->high, r->wide, r->seed, r->wide, 300 / s->resolution, s->margin / DOT, s->y / DOT);
    s->x = s->margin;
    s->y = least((uint64_t)s->y + INCH / s->resolution, r->lh);
    s->used = 1;
    return came_whole ? 0 : 7;
}

#define KEY(first, group, letter) ((uint32_t)(first) << 16 | (uint32_t)(group) << 8 | (uint32_t)(letter))

static uint32_t command(struct reader *r, const struct sent *c) {
    struct state *s = &r->st;
    struct value v = c->v;
    if (c->key < 256) return two_bytes(r, (uint8_t)c->key);
    switch (c->key) {
    case KEY('&', 'a', 'C'): return go_x(r, v, s->hmi);
    case KEY('&', 'a', 'H'): return go_x(r, v, 10);
    case KEY('*', 'p', 'X'): return go_x(r, v, DOT);
    case KEY('&', 'a', 'V'): return go_y(r, v, 10, s->top);
    case KEY('*', 'p', 'Y'): return go_y(r, v, DOT, s->top);
    case KEY('&', 'a', 'R'): return go_y(r, v, s->vmi, s->top + s->vmi * 3 / 4);
    case KEY('&', 'a', 'L'): return left_margin(r, v);
    case KEY('&', 'a', 'M'): return right_margin(r, v);
    case KEY('&', 'l', 'E'): return top_margin(r, v);
    case KEY('&', 'l', 'C'): return line_height(r, v);
    case KEY('&', 'l', 'D'): return lines_per_inch(r, v);
    case KEY('&', 'k', 'H'): return column_width(r, v);
    case KEY('&', 'k', 'G'): return termination(r, v);
    case KEY('&', 'f', 'S'): return stacked(r, v);
    case KEY('&', 'p', 'X'): return transparent(r, v, c->payload, c->count);
    case KEY('*', 't', 'R'): return resolution(r, v);
    case KEY('*', 'r', 'A'): return raster_start(r, v);
    case KEY('*', 'r', 'B'): s->started = 0; return 0;
    case KEY('*', 'r', 'C'): return raster_reset(r);
    case KEY('*', 'b', 'M'): return row_method(r, v);
    case KEY('*', 'b', 'Y'): return rows_down(r, v);
    case KEY('*', 'b', 'W'): return row(r, v, c->payload, c->count);
    default: return 3;
    }
}

/* ---- items: inline, as the run and the translator both go through them */
static bool is_digit(const struct reader *r) { return r->at < r->n && r->stream[r->at] >= '0' && r->stream[r->at] <= '9'; }

static struct value read_value(struct reader *r) {
    struct value v = {false, false, 0};
    uint32_t units = 0, part = 0, scale = 1000;
    if (r->at < r->n && (r->stream[r->at] == '+' || r->stream[r->at] == '-')) {
        v.relative = true;
        v.negative = r->stream[r->at++] == '-';
    }
    for (; is_digit(r); r->at++)
        if (units < 32768) units = units * 10 + (r->stream[r->at] - '0'); /* more digits only make it larger */
    if (r->at < r->n && r->stream[r->at] == '.') {
        for (r->at++; is_digit(r); r->at++, scale /= 10) part += (r->stream[r->at] - '0') * scale;
    }
    v.size = units > 32766 ? 327670000 : units * 10000 + part;
    return v;
}

static uint32_t broken(struct reader *r, uint32_t finding) {
    r->st.first = r->st.group = 0;
    if (finding == 1) r->at = r->n;
    return finding;
}

/* The rest of a sequence, from its value on; group 0 if it has none. Gives its finding, 1 or 2, or 0: the command is read. */
static inline uint32_t read_sequence(struct reader *r, uint8_t first, uint8_t group, struct sent *c) {
    uint8_t letter;
    bool small;
    c->v = read_value(r);
    if (r->at == r->n) return broken(r, 1);
    letter = r->stream[r->at];
    small = letter >= 96;
    if (letter < 64 || letter == 95 || letter > 126 || (small && !group)) return broken(r, 2);
    c->key = KEY(first, group, small ? letter - 32 : letter);
    c->payload = r->stream + ++r->at;
    c->count = 0;
    if ((c->key & 255) == 'W' || c->key == KEY('&', 'p', 'X') || c->key == KEY('*', 'b', 'V')) {
        if (!c->v.negative) c->count = whole(c->v);
        if (c->count > r->n - r->at) return broken(r, 1);
        r->at += c->count;
    }
    r->st.first = small ? first : 0;
    r->st.group = small ? group : 0;
    return 0;
}

static inline uint32_t read_escape(struct reader *r, struct sent *c) {
    uint8_t byte, group = 0;
    if (++r->at == r->n) return broken(r, 1);
    byte = r->stream[r->at];
    if (byte < 33 || byte > 126) return broken(r, 2);
    r->at++;
    if (byte >= 48) {
        c->key = byte;
        return 0;
    }
    if (r->at < r->n && r->stream[r->at] >= 96 && r->stream[r->at] <= 126) group = r->stream[r->at++];
    return read_sequence(r, byte, group, c);
}

static bool has_item(const struct reader *r) { return r->at < r->n || r->st.first; }
static bool at_command(const struct reader *r) { return r->st.first || r->stream[r->at] == ESC; }

static inline uint32_t do_command(struct reader *r, struct sent *c) {
    uint32_t finding = r->st.first ? read_sequence(r, r->st.first, r->st.group, c) : read_escape(r, c);
    return finding ? finding : command(r, c);
}

static inline bool is_text(uint8_t byte) { return byte >= 32 && byte != 127; }

/* The text up to the next code or command, but at most so many bytes; each is an item. Gives how many. */
static inline size_t do_text(struct reader *r, size_t most) {
    const uint8_t *text = r->stream + r->at;
    size_t n = 0;
    if (most > r->n - r->at) most = r->n - r->at;
    while (n < most && is_text(text[n])) n++;
    type(r, text, n);
    r->at += n;
    return n;
}

/* One item, or some of text, at most so many. Gives how many. */
static inline size_t do_items(struct reader *r, size_t most, uint32_t *finding) {
    struct sent c;
    if (at_command(r)) *finding = do_command(r, &c);
    else if (is_text(r->stream[r->at])) return do_text(r, most);
    else control(r, r->stream[r->at++]);
    return 1;
}

/* ---- the plain stream */
struct out { /* the bytes are NULL where they are only counted */
    uint8_t *bytes;
    size_t n, at;
};

static void put(struct out *o, uint8_t byte) {
    if (o->bytes && o->at < o->n) o->bytes[o->at] = byte;
    o->at++;
}

static void put_all(struct out *o, const uint8_t *from, size_t n) {
    if (o->bytes && o->at + n <= o->n) memcpy(o->bytes + o->at, from, n);
    o->at += n;
}

static void put_decimal(struct out *o, uint32_t n) {
    uint8_t digits[10];
    size_t at = sizeof digits;
    do digits[--at] = (uint8_t)('0' + n % 10);
    while (n /= 10);
    put_all(o, digits + at, sizeof digits - at);
}

static void put_size(struct out *o, uint32_t size) {
    uint32_t part = size % 10000;
    put_decimal(o, size / 10000);
    if (part) put(o, '.');
    for (uint32_t scale = 1000; part; scale /= 10) {
        put(o, (uint8_t)('0' + part / scale));
        part %= scale;
    }
}

static void put_position(struct out *o, struct value v) {
    if (v.relative) put(o, v.negative && v.size ? '-' : '+');
    put_size(o, v.size);
}

static void put_start(struct out *o, uint32_t key) {
    put(o, ESC);
    put(o, (uint8_t)(key >> 16));
    put(o, (uint8_t)(key >> 8));
}

static void put_counted(struct out *o, uint32_t key, const uint8_t *payload, size_t n) {
    put_start(o, key);
    put_decimal(o, (uint32_t)n);
    put(o, (uint8_t)key);
    put_all(o, payload, n);
}

/* How many bytes a row has up to the last that is not zero; the white behind it by words. */
static size_t without_white(const uint8_t *row, size_t n) {
    uint64_t last;
    for (; n >= sizeof last; n -= sizeof last) {
        memcpy(&last, row + n - sizeof last, sizeof last);
        if (last) break;
    }
    while (n > 0 && !row[n - 1]) n--;
    return n;
}

static void put_row(struct out *o, uint32_t key, const uint8_t *row, size_t n) { put_counted(o, key, row, without_white(row, n)); }

static void put_valued(struct out *o, uint32_t key, struct value v) {
    put_start(o, key);
    switch (key) {
    case KEY('&', 'a', 'C'): case KEY('&', 'a', 'H'): case KEY('*', 'p', 'X'):
    case KEY('&', 'a', 'V'): case KEY('*', 'p', 'Y'): case KEY('&', 'a', 'R'): put_position(o, v); break;
    case KEY('&', 'l', 'C'): case KEY('&', 'k', 'H'): put_size(o, v.size); break;
    case KEY('*', 'r', 'B'): case KEY('*', 'r', 'C'): break;
    default: put_decimal(o, whole(v)); break;
    }
    put(o, (uint8_t)key);
}

/* A command that was done: a row is the seed row now. */
static void put_command(struct out *o, const struct reader *r, const struct sent *c) {
    switch (c->key) {
    case '9': case '=': case 'E':
        put(o, ESC);
        put(o, (uint8_t)c->key);
        break;
    case KEY('*', 'b', 'M'): break;
    case KEY('*', 'b', 'W'): put_row(o, c->key, r->seed, r->wide); break;
    case KEY('&', 'p', 'X'): put_counted(o, c->key, c->payload, c->count); break;
    default: put_valued(o, c->key, c->v); break;
    }
}

static bool is_ignored(uint8_t code) { return code < '\b' || code > '\r' || code == '\v'; }

static void translate_items(struct reader *r, struct out *o) {
    struct sent c;
    uint32_t finding;
    uint8_t byte;
    if (at_command(r)) {
        finding = do_command(r, &c);
        if (finding == 0 || finding == 7) put_command(o, r, &c);
        return;
    }
    byte = r->stream[r->at];
    if (is_text(byte)) {
        const uint8_t *text = r->stream + r->at;
        put_all(o, text, do_text(r, SIZE_MAX));
        return;
    }
    r->at++;
    control(r, byte);
    if (!is_ignored(byte)) put(o, byte);
}

/* One pass. Gives the length of the plain stream; where it is more than `most`, some length that is more too. */
static size_t translated(size_t W, size_t H, const uint8_t *stream, size_t n, uint8_t *room, size_t most) {
    uint8_t seed[SEED_ROW];
    struct reader r = {.seed = seed, .stream = stream, .n = n, .wide = W / 8, .high = H, .lw = (uint32_t)W * DOT, .lh = (uint32_t)H * DOT};
    struct out o = {room, most, 0};
    make_afresh(&r);
    while (has_item(&r) && o.at <= most) translate_items(&r, &o);
    return o.at;
}

/* ---- the calls */
uint32_t plain_afresh(size_t W, size_t H, uint8_t *state, size_t n) {
    struct reader r = {.high = H};
    if (!measured(W, H)) return 10;
    if (n < ROV_STATE) return 13;
    r.lw = (uint32_t)W * DOT;
    r.lh = (uint32_t)H * DOT;
    r.seed = state + ROV_SEED;
    make_afresh(&r);
    memcpy(state, &r.st, sizeof r.st);
    return 0;
}

bool plain_sound(size_t W, size_t H, const uint8_t *state, size_t n) {
    struct state s;
    if (!measured(W, H) || n < ROV_STATE) return false;
    memcpy(&s, state, sizeof s);
    return state_sound(&s, state + ROV_SEED, W, H);
}

size_t plain_dots(size_t W, size_t H, const uint8_t *page, size_t n) {
    if (!measured(W, H) || n < W / 8 * H) return 0;
    return plain_count(page, W / 8 * H);
}

static uint32_t refusal(size_t W, size_t H, size_t page_n, size_t stream_n, const uint8_t *state, size_t state_n, size_t place) {
    if (!measured(W, H)) return 10;
    if (page_n < W / 8 * H) return 11;
    if (stream_n > LONGEST) return 12;
    if (!plain_sound(W, H, state, state_n)) return 13;
    return place > stream_n ? 14 : 0;
}

uint32_t plain_run(size_t W, size_t H, uint8_t *page, size_t page_n, const uint8_t *stream, size_t stream_n,
                   uint8_t *state, size_t state_n, size_t allowance, size_t *place, size_t *done, uint32_t *finding, size_t *found, size_t *ended) {
    struct reader r;
    uint32_t told = 0, refused = refusal(W, H, page_n, stream_n, state, state_n, *place);
    size_t count = 0;
    *finding = 0;
    *done = *found = *ended = 0;
    if (refused) return refused;
    memcpy(&r.st, state, sizeof r.st);
    r.seed = state + ROV_SEED;
    r.page = page;
    r.stream = stream;
    r.n = stream_n;
    r.at = *place;
    r.wide = W / 8;
    r.high = H;
    r.lw = (uint32_t)W * DOT;
    r.lh = (uint32_t)H * DOT;
    r.ended = 0;
    if (allowance && has_item(&r) && !r.st.used) memset(page, 0, r.wide * H);
    while (count < allowance && has_item(&r) && !told && !r.ended) {
        size_t began = r.at;
        count += do_items(&r, allowance - count, &told);
        if (told) *found = began;
    }
    memcpy(state, &r.st, sizeof r.st);
    *place = r.at;
    *done = count;
    *finding = told;
    *ended = (size_t)r.ended;
    return 0;
}

static uint32_t translation_refusal(size_t W, size_t H, size_t stream_n) {
    if (!measured(W, H)) return 10;
    return stream_n > LONGEST ? 12 : 0;
}

/* A refused room is untouched, and there is no other room: so the first pass only counts. */
uint32_t plain_translate(size_t W, size_t H, const uint8_t *stream, size_t stream_n, uint8_t *room, size_t room_n, size_t *length) {
    size_t count, most = room_n < LONGEST ? room_n : LONGEST;
    uint32_t refused = translation_refusal(W, H, stream_n);
    *length = 0;
    if (refused) return refused;
    count = translated(W, H, stream, stream_n, NULL, most);
    if (count > most) return 15;
    *length = translated(W, H, stream, stream_n, room, count);
    return 0;
}

uint32_t plain_translate_once(size_t W, size_t H, const uint8_t *stream, size_t stream_n, uint8_t *room, size_t room_n, size_t *length) {
    size_t count, most = room_n < LONGEST ? room_n : LONGEST;
    uint32_t refused = translation_refusal(W, H, stream_n);
    *length = 0;
    if (refused) return refused;
    count = translated(W, H, stream, stream_n, room, most);
    if (count > most) return 15;
    *length = count;
    return 0;
}
