/* Runs a file of T cases through rov_translate: transcases CASES MET. The formats are in second/README.md, mode `cases`; what comes out
 * must be what the second program says, line for line. Besides, each case is translated into rooms of just the plain stream's length, one
 * byte less, one more, and none, each between guards; and the plain stream is run by rov_run beside the stream: the same pages, no
 * finding, the same end state but for the method, which is 0. Where something is amiss, the case's line says what instead of its result.
 * MET is written: how often each outcome came up. With -DPLAIN the plain C reader of bench/ stands in for the proved archive. */
#include "cases.h"

enum { LONGEST = 1048576, MOST_ROOM = 8000000, MOST_LEARNT = 2 * LONGEST, MOST_PAGE = 4080000 };

enum { /* behind the findings of the streams */
    PLAIN_STREAM = FINDINGS - 1, EMPTY, SHORTER, LONGER, FULL, ENDED, LAST, REFUSED_10, REFUSED_12, REFUSED_ROOM, REFUSED_LONGEST, BOTH_10_12,
    BOTH_10_15, BOTH_12_15
};
static const char *const outcomes[] = {
    "finding 1 dropped", "finding 2 dropped", "finding 3 dropped", "finding 4 dropped", "finding 5 dropped", "finding 6 dropped",
    "finding 7 made a row of zeros", "plain stream", "empty plain stream", "shorter than the stream", "longer than the stream",
    "of 1,048,576 bytes", "page ended", "last page used", "refused 10", "refused 12", "refused 15, room too short",
    "refused 15, longer than 1,048,576 bytes", "10 before 12", "10 before 15", "12 before 15"};

struct case_line {
    size_t wide, high, room;
    uint8_t fill;
};

/* What a call gives in numbers, with guards around. */
struct numbers {
    uint64_t guard0;
    size_t length;
    uint64_t guard1;
    uint32_t code;
};

/* A stream that is run from afresh to its end, page by page. */
struct job {
    const struct lent *stream;
    struct lent page, state;
    size_t place, found[FINDINGS]; /* how often each was found */
};

static struct lent room, tried, known; /* known: the plain stream, once it is learnt */
static struct job sent, plain;

/* ---- calls */
/* A call with a room of n bytes, each of them `fill`. What no call may do is blamed here. */
static struct numbers translate(const struct case_line *c, const struct lent *from, struct lent *to, size_t n, uint8_t fill) {
    struct numbers x = {JUNK, JUNK, JUNK, JUNK};
    set_length(to, n);
    memset(to->bytes, fill, n);
    x.code = rov_translate(c->wide, c->high, pointer(from), from->n, pointer(to), n, &x.length);
    if (x.guard0 != JUNK || x.guard1 != JUNK) blame("guards of the length");
    check_guards(to, "guards of the room");
    if (x.code && x.length) blame("a refused call gave a length");
    if (x.code && !is_filled(to->bytes, n, fill)) blame("a refused call wrote into the room");
    if (x.length > n || x.length > LONGEST) blame("the length is greater than the room, or than 1,048,576");
    else if (!is_filled(to->bytes + x.length, n - x.length, fill)) blame("a byte was written behind the plain stream");
    return x;
}

static bool is_known(const struct lent *l, size_t n) { return n == known.n && memcmp(l->bytes, known.bytes, n) == 0; }

/* A room of n bytes: it is refused just if the plain stream is longer. */
static void try_room(const struct case_line *c, size_t n, const char *what) {
    struct numbers x = translate(c, &stream, &tried, n, (uint8_t)~c->fill);
    if (n < known.n ? x.code != 15 : x.code || !is_known(&tried, x.length)) blame(what);
}

static void try_rooms(const struct case_line *c) {
    try_room(c, known.n, "room of just the length");
    if (known.n) try_room(c, known.n - 1, "room one byte short");
    try_room(c, known.n + 1, "room one byte longer");
    try_room(c, 0, "room of no bytes");
}

/* A room that is long enough, or that would be but for the limit: a byte of the stream comes to a row with its head at most, or to
 * five bytes. */
static size_t enough_for(const struct case_line *c) {
    size_t most = stream.n * (c->wide / 8 + 16);
    return most < LONGEST ? most : MOST_LEARNT;
}

/* The plain stream, by a room that is long enough; false if it is too long for any. */
static bool learn(const struct case_line *c) {
    struct numbers x = translate(c, &stream, &known, enough_for(c), (uint8_t)(c->fill + 1));
    if (x.code && (x.code != 15 || known.n <= LONGEST)) blame("a room that is long enough was refused");
    set_length(&known, x.code || amiss ? 0 : x.length);
    return x.code == 0;
}

/* ---- the plain stream, run again */
static void start(struct job *j, const struct lent *from, const struct case_line *c) {
    j->stream = from;
    j->place = 0;
    memset(j->found, 0, sizeof j->found);
    set_length(&j->page, c->wide / 8 * c->high);
    set_length(&j->state, ROV_STATE);
    if (rov_afresh(c->wide, c->high, j->state.bytes, ROV_STATE)) blame("afresh was refused");
}

/* To the next page end, over findings; false if the stream's end comes first. */
static bool to_page_end(struct job *j, const struct case_line *c) {
    size_t done, found, ended = 0;
    uint32_t finding, refusal;
    do {
        refusal = rov_run(c->wide, c->high, j->page.bytes, j->page.n, j->stream->bytes, j->stream->n, j->state.bytes, ROV_STATE, SIZE_MAX,
                          &j->place, &done, &finding, &found, &ended);
        if (finding < FINDINGS) j->found[finding]++;
        else blame("no number of a finding");
    } while (finding && !ended);
    if (refusal) blame("a run was refused");
    return !refusal && ended;
}

static bool same_ends(void) {
    uint8_t *method = &sent.state.bytes[ROV_METHOD];
    *method = 0;
    return memcmp(sent.state.bytes, plain.state.bytes, ROV_STATE) == 0;
}

static void run_both(const struct case_line *c) {
    bool ended, used;
    start(&sent, &stream, c);
    start(&plain, &known, c);
    do {
        ended = to_page_end(&sent, c);
        if (to_page_end(&plain, c) != ended) blame("the plain stream has another number of pages");
        used = sent.state.bytes[ROV_USED];
        if ((ended || used) && memcmp(sent.page.bytes, plain.page.bytes, sent.page.n)) blame("the plain stream has another page");
        met[ENDED] += ended;
    } while (ended && !amiss);
    met[LAST] += used;
    for (size_t i = 1; i < FINDINGS; i++)
        if (plain.found[i]) blame("the plain stream has a finding");
    if (!same_ends()) blame("the plain stream has another end state, or another method than 0");
}

static void translate_again(const struct case_line *c) {
    struct numbers x = translate(c, &known, &tried, known.n, (uint8_t)~c->fill);
    if (x.code || !is_known(&tried, x.length)) blame("the plain stream's plain stream is another");
}

/* ---- cases */
static void read_case(char *line, struct case_line *c) {
    char *w[6];
    words_of(line, "T", w, 6);
    c->wide = number_of(w[1]);
    c->high = number_of(w[2]);
    c->room = number_of(w[3]);
    if (c->room >= MOST_ROOM) bad();
    c->fill = fill_of(w[4]);
    stream_of(w[5]);
}

/* The room is not looked at before 10 and 12. */
static void refused_anyhow(const struct case_line *c, uint32_t code) {
    struct numbers none = translate(c, &stream, &tried, 0, c->fill), large = translate(c, &stream, &tried, 5000, (uint8_t)~c->fill);
    if (none.code != code || large.code != code) blame("a refusal that goes by the room");
    met[code == 10 ? REFUSED_10 : REFUSED_12]++;
    if (code == 10 && stream.n > LONGEST) met[BOTH_10_12]++;
    if (c->room == 0 && stream.n > 0) met[code == 10 ? BOTH_10_15 : BOTH_12_15]++;
}

static void count_lengths(void) {
    met[PLAIN_STREAM]++;
    met[EMPTY] += known.n == 0;
    met[SHORTER] += known.n < stream.n;
    met[LONGER] += known.n > stream.n;
    met[FULL] += known.n == LONGEST;
    for (size_t i = 1; i < FINDINGS; i++) met[i - 1] += sent.found[i];
}

static void translated(const struct case_line *c, const struct numbers *x) {
    bool fits = c->room >= known.n;
    if (fits ? x->code || !is_known(&room, x->length) : x->code != 15) blame("the room given and a longer one differ");
    if (!fits) met[REFUSED_ROOM]++;
    try_rooms(c);
    run_both(c);
    translate_again(c);
    count_lengths();
}

static void one_case(char *line) {
    struct case_line c;
    struct numbers x;
    read_case(line, &c);
    x = translate(&c, &stream, &room, c.room, c.fill);
    if (x.code == 10 || x.code == 12) {
        refused_anyhow(&c, x.code);
    } else if (c.wide > 4800 || c.high > 6800) {
        blame("a measure that is too large was not refused");
    } else if (learn(&c)) {
        translated(&c, &x);
    } else {
        if (x.code != 15) blame("the room given and a longer one differ");
        met[REFUSED_LONGEST]++;
    }
    check_stream();
    if (amiss) printf("%zu %s\n", number, amiss);
    else if (x.code) printf("%zu refused %u %zu %016llx\n", number, x.code, x.length, (unsigned long long)hash_of(room.bytes, room.n));
    else printf("%zu plain %zu %016llx\n", number, x.length, (unsigned long long)hash_of(room.bytes, room.n));
}

int main(int words, char **word) {
    if (words != 3) {
        fputs("usage: transcases CASES MET\n", stderr);
        return 1;
    }
    make(&room, MOST_ROOM);
    make(&tried, LONGEST + 1);
    make(&known, MOST_LEARNT);
    make(&sent.page, MOST_PAGE);
    make(&plain.page, MOST_PAGE);
    make(&sent.state, ROV_STATE);
    make(&plain.state, ROV_STATE);
    return each_line(word[1], one_case) || write_met(word[2], outcomes, sizeof outcomes / sizeof outcomes[0]);
}
