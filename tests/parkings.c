/* Runs a file of K and U cases through rov_park and rov_unpark: parkings CASES MET. The formats are in second/README.md, mode `cases`; what comes
 * out must be what the second program says, line for line. Besides, each state is parked in rooms of just the text's length, one byte less, one
 * more, and none, out of buffers that are too short and longer, and with flags that are neither 0 nor 1; each text that is written is read back at
 * once, each that reads is parked again, and each is read into buffers that are too short and longer. All that is lent is between guards. Where
 * something is amiss, the case's line says what instead of its result. MET is written: how often each outcome came up. With -DPLAIN the plain C of
 * bench/ stands in for the proved archive. */
#include "runs.h"

enum { MOST_ROOM = 8000000, LONGER = 97, MOST_STATE = ROV_STATE + LONGER };
enum { SHORTEST = 43 }; /* no text is shorter: three letters, 16 fields of a digit, LF; three letters, a tab, a pair, LF */

enum {
    PARKED, K_10, K_13, K_16, K_15, K_10_13, K_10_16, K_10_15, K_13_16, K_13_15, K_16_15, READ, U_17, U_18, U_13, U_17_13, U_18_13
};
static const char *const outcomes[] = {
    "parked", "parking refused 10", "parking refused 13", "parking refused 16", "parking refused 15", "10 before 13", "10 before 16",
    "10 before 15", "13 before 16", "13 before 15", "16 before 15", "read", "reading refused 17", "reading refused 18", "reading refused 13",
    "17 before 13", "18 before 13"};

struct parking {
    size_t wide, high, room;
    uint8_t fill, state[ROV_STATE];
};

/* What a call gives in numbers, with guards between them. */
struct length {
    uint64_t guard0;
    size_t length;
    uint64_t guard1;
    uint32_t code;
};
struct measure {
    uint64_t guard0;
    size_t wide;
    uint64_t guard1;
    size_t high;
    uint64_t guard2;
    uint32_t code;
};

static struct lent state, room, tried, known; /* known: the text, once it is learnt */
static uint8_t state_copy[MOST_STATE];

/* ---- calls: what no call may do is blamed here */

/* A state of n bytes to be lent; from ROV_STATE on they are junk. Where n is too few, the rest of the state is there all the same: a call that looked at
 * it would find nothing wrong. */
static void lend_state(const uint8_t *s, size_t n) {
    memcpy(state_copy, s, ROV_STATE);
    memset(state_copy + ROV_STATE, JUNK, LONGER);
    set_length(&state, n < ROV_STATE ? ROV_STATE : n);
    memcpy(state.bytes, state_copy, state.n);
}

/* Bytes that are too few for a state: any, and in every other case one too few. */
static size_t too_few(void) { return number % 2 ? number % ROV_STATE : ROV_STATE - 1; }

static bool measure_allowed(size_t wide, size_t high) {
    return wide >= 8 && wide <= 4800 && wide % 8 == 0 && high >= 1 && high <= 6800;
}

/* Parks n bytes of the state into a room, each of whose bytes is `fill`. */
static struct length park(const struct parking *c, const uint8_t *s, size_t n, struct lent *to, size_t room_n, uint8_t fill) {
    struct length x = {JUNK, JUNK, JUNK, JUNK};
    lend_state(s, n);
    set_length(to, room_n);
    memset(to->bytes, fill, room_n);
    x.code = rov_park(c->wide, c->high, n ? state.bytes : NULL, n, pointer(to), room_n, &x.length);
    if (x.guard0 != JUNK || x.guard1 != JUNK) blame("guards of the length");
    check_guards(to, "guards of the room");
    check_guards(&state, "guards of a state that is parked");
    if (memcmp(state.bytes, state_copy, state.n)) blame("a state that is parked was written");
    if (x.code && x.code != 10 && x.code != 13 && x.code != 15 && x.code != 16) blame("no number of a refused parking");
    if (x.code && x.length) blame("a refused parking gave a length");
    if (x.code && !is_filled(to->bytes, room_n, fill)) blame("a refused parking wrote into the room");
    if (!x.code && x.length < SHORTEST) blame("a text that is too short for any");
    if (x.length > room_n || x.length > ROV_PARKED) blame("the length is greater than the room, or than ROV_PARKED");
    else if (!is_filled(to->bytes + x.length, room_n - x.length, fill)) blame("a byte was written behind the text");
    return x;
}

/* Reads a text into a state of n bytes, each of them `fill`; they stay in `state`. */
static struct measure unpark(const struct lent *text, size_t n, uint8_t fill) {
    struct measure x = {JUNK, JUNK, JUNK, JUNK, JUNK, JUNK};
    set_length(&state, n);
    memset(state.bytes, fill, n);
    x.code = rov_unpark(pointer(text), text->n, &x.wide, &x.high, pointer(&state), n);
    if (x.guard0 != JUNK || x.guard1 != JUNK || x.guard2 != JUNK) blame("guards of the measure");
    check_guards(&state, "guards of a state that is read");
    if (x.code && x.code != 13 && x.code != 17 && x.code != 18) blame("no number of a refused reading");
    if (x.code && (x.wide != JUNK || x.high != JUNK)) blame("a refused reading wrote the measure");
    if (x.code && !is_filled(state.bytes, n, fill)) blame("a refused reading wrote the state");
    if (!x.code && n < ROV_STATE) blame("a text was read into a state that is too short");
    else if (!x.code && !is_filled(state.bytes + ROV_STATE, n - ROV_STATE, fill)) blame("a byte was written behind the state");
    return x;
}

/* ---- K */
static void read_k(char *line, struct parking *c) {
    char *w[6];
    words_of(line, "K", w, 6);
    c->wide = number_of(w[1]);
    c->high = number_of(w[2]);
    c->room = number_of(w[3]);
    if (c->room >= MOST_ROOM) bad();
    c->fill = fill_of(w[4]);
    if (strcmp(w[5], "-")) state_of(w[5], c->state);
    else if (rov_afresh(c->wide, c->high, c->state, ROV_STATE)) rov_afresh(640, 800, c->state, ROV_STATE);
}

static bool is_known(const struct lent *l, size_t n) { return n == known.n && memcmp(l->bytes, known.bytes, n) == 0; }

/* A room of n bytes: it is refused just if the text is longer. */
static void try_room(const struct parking *c, size_t n, const char *what) {
    struct length x = park(c, c->state, ROV_STATE, &tried, n, (uint8_t)~c->fill);
    if (n < known.n ? x.code != 15 : x.code || !is_known(&tried, x.length)) blame(what);
}

static void try_rooms(const struct parking *c) {
    try_room(c, known.n, "room of just the length");
    try_room(c, known.n - 1, "room one byte short");
    try_room(c, known.n + 1, "room one byte longer");
    try_room(c, 0, "room of no bytes");
}

/* The text comes back to the measure and the state that it was made of, and these alone. */
static void read_back(const struct parking *c) {
    struct measure x = unpark(&known, ROV_STATE, (uint8_t)~c->fill);
    if (x.code || x.wide != c->wide || x.high != c->high || memcmp(state.bytes, c->state, ROV_STATE)) blame("the text reads back to another state");
    x = unpark(&known, too_few(), c->fill);
    if (x.code != 13) blame("a text was read into a state that is too short");
}

/* The text, by a room that is always enough; false if there is none. */
static bool learn(const struct parking *c, const uint8_t *s) {
    struct length x = park(c, s, ROV_STATE, &known, ROV_PARKED, (uint8_t)(c->fill + 1));
    if (x.code == 15) blame("a room of ROV_PARKED bytes was not enough");
    set_length(&known, x.code ? 0 : x.length);
    return x.code == 0;
}

/* What the text of a case cannot say. A buffer that is too short and wrong flags are 13, longer buffers are like those of ROV_STATE bytes. */
static void try_states(const struct parking *c, uint32_t code) {
    uint32_t wrong = code == 10 ? 10 : 13;
    uint8_t flags[ROV_STATE];
    struct length x = park(c, c->state, ROV_STATE + 1 + number % LONGER, &tried, c->room, c->fill);
    if (x.code != code || memcmp(tried.bytes, room.bytes, room.n)) blame("a longer state buffer is parked otherwise");
    x = park(c, c->state, too_few(), &tried, ROV_PARKED, c->fill);
    if (x.code != wrong) blame("a state that is too short was not refused");
    for (size_t i = 0; i < 2; i++) {
        memcpy(flags, c->state, ROV_STATE);
        flags[i ? ROV_USED : ROV_STARTED] = (uint8_t)(2 + (number + i * 101) % 254);
        x = park(c, flags, ROV_STATE, &tried, c->room, c->fill);
        if (x.code != wrong) blame("a flag that is neither 0 nor 1 was not refused");
    }
}

static void parked(const struct parking *c, const struct length *x) {
    bool fits = c->room >= known.n;
    if (fits ? x->code || !is_known(&room, x->length) : x->code != 15) blame("the room given and a longer one differ");
    try_rooms(c);
    read_back(c);
    met[fits ? PARKED : K_15]++;
}

/* The same refusal in any room. What else would have refused it is counted: a state that is not sound on the largest page is so on none. */
static void refused(const struct parking *c, uint32_t code) {
    struct length none = park(c, c->state, ROV_STATE, &tried, 0, c->fill), large = park(c, c->state, ROV_STATE, &tried, 5000, (uint8_t)~c->fill);
    bool open = c->state[ROV_FIRST] || c->state[ROV_GROUP], short_room = c->room < SHORTEST;
    uint8_t closed[ROV_STATE];
    if (none.code != code || large.code != code) blame("a refusal that goes by the room");
    memcpy(closed, c->state, ROV_STATE);
    closed[ROV_FIRST] = closed[ROV_GROUP] = 0;
    if (code == 10) {
        met[K_10]++;
        met[K_10_13] += !rov_sound(4800, 6800, c->state, ROV_STATE);
        met[K_10_16] += open && rov_sound(4800, 6800, c->state, ROV_STATE);
        met[K_10_15] += short_room;
    } else if (code == 13) {
        met[K_13]++;
        met[K_13_16] += open && !rov_sound(c->wide, c->high, closed, ROV_STATE);
        met[K_13_15] += short_room;
    } else {
        met[K_16]++;
        if (!open) blame("16 with no sequence open");
        if (!learn(c, closed)) blame("closed, it is refused too");
        met[K_16_15] += c->room < known.n;
    }
}

static void case_k(char *line) {
    struct parking c;
    struct length x;
    read_k(line, &c);
    x = park(&c, c.state, ROV_STATE, &room, c.room, c.fill);
    if ((x.code == 10) == measure_allowed(c.wide, c.high)) blame("10, and the measure");
    else if (x.code != 10 && (x.code == 13) == rov_sound(c.wide, c.high, c.state, ROV_STATE)) blame("13, and soundness");
    else if (x.code && x.code != 15) refused(&c, x.code);
    else if (learn(&c, c.state)) parked(&c, &x);
    else blame("a longer room is refused otherwise");
    try_states(&c, x.code);
    if (amiss) printf("%zu %s\n", number, amiss);
    else if (x.code) printf("%zu refused %u %zu %016llx\n", number, x.code, x.length, (unsigned long long)hash_of(room.bytes, room.n));
    else {
        printf("%zu parked %zu %016llx ", number, x.length, (unsigned long long)hash_of(room.bytes, room.n));
        write_hex(room.bytes, x.length);
        putchar('\n');
    }
}

/* ---- U: the text is where the other drivers have the stream */
static void read_u(char *line) {
    char *w[2];
    words_of(line, "U", w, 2);
    stream_of(w[1]);
}

/* What reads is allowed, sound and without an open sequence, and is parked again to the same bytes. */
static void park_again(const struct measure *x, const uint8_t *s) {
    struct parking c = {.wide = x->wide, .high = x->high};
    struct length y;
    if (!measure_allowed(c.wide, c.high) || !rov_sound(c.wide, c.high, s, ROV_STATE)) blame("it reads to a state that is not sound");
    if (s[ROV_FIRST] || s[ROV_GROUP]) blame("it reads to an open sequence");
    y = park(&c, s, ROV_STATE, &tried, ROV_PARKED, JUNK);
    if (y.code || y.length != stream.n || memcmp(tried.bytes, stream.bytes, stream.n)) blame("it is parked again to another text");
}

/* Into other buffers: longer, the same; too short, 13 where it reads. */
static void try_buffers(const struct measure *x, const uint8_t *s) {
    struct measure y = unpark(&stream, ROV_STATE + 1 + number % LONGER, (uint8_t)number);
    if (y.code != x->code || y.wide != x->wide || y.high != x->high) blame("into a longer state buffer it reads otherwise");
    if (!y.code && memcmp(state.bytes, s, ROV_STATE)) blame("into a longer state buffer it reads otherwise");
    y = unpark(&stream, too_few(), (uint8_t)~number);
    if (y.code != (x->code ? x->code : 13)) blame("into a state that is too short it is not refused as it should be");
}

static void case_u(char *line) {
    uint8_t s[ROV_STATE];
    struct measure x;
    read_u(line);
    x = unpark(&stream, ROV_STATE, JUNK);
    memcpy(s, state.bytes, ROV_STATE);
    if (!x.code) park_again(&x, s);
    try_buffers(&x, s);
    check_stream();
    if (!x.code) met[READ]++, met[U_13]++;
    else if (x.code == 17) met[U_17]++, met[U_17_13]++;
    else if (x.code == 18) met[U_18]++, met[U_18_13]++;
    if (amiss) printf("%zu %s\n", number, amiss);
    else if (x.code) printf("%zu refused %u\n", number, x.code);
    else {
        printf("%zu read %zu %zu", number, x.wide, x.high);
        write_state(s);
        putchar('\n');
    }
}

static void one_case(char *line) {
    if (line[0] == 'K') case_k(line);
    else case_u(line);
}

int main(int words, char **word) {
    if (words != 3) {
        fputs("usage: parkings CASES MET\n", stderr);
        return 1;
    }
    make(&state, MOST_STATE);
    make(&room, MOST_ROOM);
    make(&tried, MOST_ROOM);
    make(&known, ROV_PARKED);
    return each_line(word[1], one_case) || write_met(word[2], outcomes, sizeof outcomes / sizeof outcomes[0]);
}
