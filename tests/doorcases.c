/* Runs a file of R cases through the door: doorcases CASES MET. The formats are in second/README.md, mode `cases`; what comes out must be
 * what the second program says, line for line. Each case is run a second time in pieces, and the other calls are held against the run;
 * where something is amiss, the case's line says what instead of its result. MET is written: how often each outcome came up.
 * With -DPLAIN the plain C reader of bench/ stands in for the proved archive. */
#include "runs.h"

enum { PAGE_ENDED = FINDINGS, REFUSED }; /* the findings come first, the refusals last */
static const char *const outcomes[] = {
    "no finding", "finding 1", "finding 2", "finding 3", "finding 4", "finding 5", "finding 6", "finding 7", "page ended",
    "refused 10", "refused 11", "refused 12", "refused 13", "refused 14"};

/* What a call gives in numbers, with guards between them. */
struct numbers {
    uint64_t guard0;
    size_t place;
    uint64_t guard1;
    size_t done;
    uint64_t guard2;
    uint32_t finding, guard3; /* side by side: a finding is written by four bytes */
    size_t found;
    uint64_t guard4;
    size_t ended;
    uint64_t guard5;
    uint32_t refusal;
};

static struct lent page, pieces_page, state, pieces_state;
static size_t allowance; /* the case's */

/* ---- reading a case */
/* The state `-` is what the door itself says is afresh; of 640 x 800 where the measure is not allowed. */
static void afresh_of(size_t wide, size_t high, uint8_t *s) {
    uint32_t short_code, code;
    memset(s, JUNK, ROV_STATE);
    short_code = rov_afresh(wide, high, s, ROV_STATE - 1);
    if (!is_filled(s, ROV_STATE, JUNK)) blame("afresh wrote into a short state");
    code = rov_afresh(wide, high, s, ROV_STATE);
    if (short_code != (code ? 10 : 13)) blame("afresh's number for a short state");
    if (code == 0) return;
    if (code != 10) blame("afresh's number");
    if (!is_filled(s, ROV_STATE, JUNK)) blame("afresh wrote though it refused");
    rov_afresh(640, 800, s, ROV_STATE);
}

static void read_case(char *line, struct case_line *c) {
    char *w[9];
    words_of(line, "R", w, 9);
    handed_of(w, c);
    if (strcmp(w[5], "-") == 0) afresh_of(c->wide, c->high, c->state);
    allowance = number_of(w[7]);
    stream_of(w[8]);
}

/* ---- the calls */
static struct numbers start_at(size_t place) {
    return (struct numbers){JUNK, place, JUNK, JUNK, JUNK, JUNK, JUNK, JUNK, JUNK, JUNK, JUNK, JUNK};
}

static void call(const struct case_line *c, struct lent *p, struct lent *s, size_t most, struct numbers *x) {
    x->finding = JUNK;
    x->done = x->found = x->ended = JUNK;
    x->refusal = rov_run(c->wide, c->high, p->bytes, p->n, stream.bytes, stream.n, s->bytes, s->n, most,
                         &x->place, &x->done, &x->finding, &x->found, &x->ended);
    if (x->guard0 != JUNK || x->guard1 != JUNK || x->guard2 != JUNK || x->guard3 != JUNK || x->guard4 != JUNK || x->guard5 != JUNK)
        blame("guards of the numbers");
    if (x->finding >= FINDINGS) blame("no number of a finding");
    if (x->refusal && (x->refusal < FIRST_REFUSAL || x->refusal >= FIRST_REFUSAL + REFUSALS)) blame("no number of a refusal");
    if (x->refusal && (x->done || x->finding || x->found || x->ended)) blame("a refused call gave items, a finding or a page");
    check_guards(p, "guards of the page");
    check_guards(s, "guards of the state");
}

/* The run in pieces of 0, 1, 2, 3, .. items must give what the run at once gave. */
static void run_in_pieces(const struct case_line *c, const struct numbers *once) {
    struct numbers x = start_at(c->place);
    size_t left = allowance, done = 0;
    lend(c, &pieces_page, &pieces_state);
    for (size_t piece = 0;; piece++) {
        size_t most = piece < left ? piece : left;
        call(c, &pieces_page, &pieces_state, most, &x);
        done += x.done;
        left -= x.done;
        if (x.refusal || x.finding || x.ended || x.done < most || left == 0) break;
    }
    if (x.refusal || x.finding != once->finding || x.place != once->place || x.found != once->found || x.ended != once->ended || done != once->done ||
        memcmp(pieces_state.bytes, state.bytes, ROV_STATE) || memcmp(pieces_page.bytes, page.bytes, page.n))
        blame("pieces differ");
}

/* A call that must be refused with 13: nothing lent may change. */
static void refused_call(const struct case_line *c, size_t at, uint8_t byte, size_t state_n, const char *what) {
    struct numbers x = start_at(c->place);
    uint8_t was[ROV_STATE];
    lend(c, &pieces_page, &pieces_state);
    pieces_state.bytes[at] = byte;
    memcpy(was, pieces_state.bytes, ROV_STATE);
    if (state_n < ROV_STATE) set_length(&pieces_state, state_n);
    call(c, &pieces_page, &pieces_state, allowance, &x);
    if (x.refusal != 13 || x.place != c->place || memcmp(was, pieces_state.bytes, state_n)) blame(what);
    if (!is_filled(pieces_page.bytes, pieces_page.n, c->fill)) blame(what);
}

/* What the text of a case cannot say: a state that is too short, marks that are neither 0 nor 1. */
static void try_more(const struct case_line *c) {
    refused_call(c, ROV_X, c->state[ROV_X], number % ROV_STATE, "a state too short was not refused");
    refused_call(c, ROV_STARTED, (uint8_t)(2 + number % 254), ROV_STATE, "a wrong mark of started was not refused");
    refused_call(c, ROV_USED, (uint8_t)(2 + number % 254), ROV_STATE, "a wrong mark of used was not refused");
    if (rov_sound(c->wide, c->high, c->state, number % ROV_STATE)) blame("a state too short is sound");
}

/* rov_sound must say what refusal 13 says, also where 11 or 12 came before it: with a whole page and a stream of no bytes neither does. */
static void check_sound(const struct case_line *c, uint32_t refusal) {
    struct numbers x = start_at(0);
    bool sound = rov_sound(c->wide, c->high, c->state, ROV_STATE);
    size_t n = stream.n;
    if (refusal == 10) {
        if (sound) blame("sound on a measure that is not allowed");
        return;
    }
    lend(c, &pieces_page, &pieces_state);
    set_length(&pieces_page, c->wide / 8 * c->high);
    stream.n = 0;
    call(c, &pieces_page, &pieces_state, 1, &x);
    stream.n = n;
    if ((x.refusal == 13) == sound) blame("sound and refusal 13 differ");
}

/* ---- writing the result */
static void write_result(const struct case_line *c, const struct numbers *x) {
    size_t dots = rov_dots(c->wide, c->high, page.bytes, page.n);
    if ((x->refusal == 10 || x->refusal == 11) && dots) blame("dots of no page");
    if (amiss) {
        printf("%zu %s\n", number, amiss);
        return;
    }
    if (x->refusal) printf("%zu refused %u %zu %zu", number, x->refusal, x->done, x->place);
    else printf("%zu ran %zu %zu %u %zu %zu", number, x->done, x->place, x->finding, x->found, x->ended);
    write_state(state.bytes);
    printf(" %016llx", (unsigned long long)hash_of(page.bytes, page.n));
    if (x->refusal) putchar('\n');
    else printf(" %zu\n", dots);
}

static void count(const struct numbers *x) {
    if (amiss) return;
    if (x->refusal) met[REFUSED + x->refusal - FIRST_REFUSAL]++;
    else met[x->finding]++;
    if (x->ended) met[PAGE_ENDED]++;
}

static void one_case(char *line) {
    enum { NOW_AND_THEN = 16 };
    static struct case_line c;
    struct numbers once;
    read_case(line, &c);
    once = start_at(c.place);
    lend(&c, &page, &state);
    call(&c, &page, &state, allowance, &once);
    if (!once.refusal) run_in_pieces(&c, &once);
    check_sound(&c, once.refusal);
    if (number % NOW_AND_THEN == 0 && (!once.refusal || once.refusal >= 13)) try_more(&c);
    check_stream();
    write_result(&c, &once);
    count(&once);
}

int main(int words, char **word) {
    if (words != 3) {
        fputs("usage: doorcases CASES MET\n", stderr);
        return 1;
    }
    make(&page, MOST_PAGE);
    make(&pieces_page, MOST_PAGE);
    make(&state, ROV_STATE);
    make(&pieces_state, ROV_STATE);
    return each_line(word[1], one_case) || write_met(word[2], outcomes, sizeof outcomes / sizeof outcomes[0]);
}
