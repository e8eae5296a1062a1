/* Runs a file of S cases through the steps of the program `pages`: stepcases CASES MET. The formats are in second/README.md, mode `cases`;
 * what comes out must be what the second program says, line for line. Each step is made a second time with a room that is long enough: but
 * for the lines that have no room, both must give the same. Where something is amiss, the case's line says what instead of its result.
 * MET is written: how often each outcome came up. With -DPLAIN a step by the plain C reader of bench/ stands in for the proved archive. */
#include "../include/leaves.h"
#include "runs.h"

enum { MOST_ROOM = 8000000, ENOUGH = 256, ROOM_FILL = '.', OTHER_FILL = '#' }; /* ENOUGH: more than the lines of any step */

enum { NO_LINE, PAGE_ENDED = FINDINGS, OVER_USED, OVER_UNUSED, ROOM_SHORT, NO_ROOM, REFUSED }; /* the findings are between the first two */
static const char *const outcomes[] = {
    "no line", "finding 1", "finding 2", "finding 3", "finding 4", "finding 5", "finding 6", "finding 7", "page ended",
    "over, page used", "over, page unused", "room too short", "lines and no room", "refused 10", "refused 11", "refused 12", "refused 13",
    "refused 14"};

/* What a step gives in numbers, with guards between them. */
struct numbers {
    uint64_t guard0;
    size_t place;
    uint64_t guard1;
    size_t number;
    uint64_t guard2;
    size_t findings;
    uint64_t guard3;
    size_t end;
    uint64_t guard4;
    size_t has_page;
    uint64_t guard5;
    size_t over;
    uint64_t guard6;
    uint32_t refusal;
};

struct lent_all {
    struct lent page, state, room;
};

static struct lent_all once, again;
static size_t page_number, findings, room_length; /* the case's */

/* ---- a step in plain C */
#ifdef PLAIN
#define rov_step plain_step
static int end_lines(char *lines, const uint8_t *state, size_t number, size_t found, size_t dots) {
    int n = state[ROV_USED] ? sprintf(lines, "PAGE\t%zu\t%zu\n", number, dots) : 0;
    return n + sprintf(lines + n, "END\t%u\t%u\t%u\t%zu\n", (unsigned)get(state, ROV_X, 4), (unsigned)get(state, ROV_Y, 4), state[ROV_DEPTH], found);
}

/* Item by item, so that the cursor before each is known. */
static uint32_t plain_step(size_t w, size_t h, uint8_t *page, size_t page_length, const uint8_t *stream, size_t stream_length, uint8_t *state,
                           size_t state_length, size_t *place, size_t *number, size_t *findings, uint8_t *room, size_t room_length, size_t *end,
                           size_t *has_page, size_t *over) {
    size_t done, found, ended, items = 0, dots = 0;
    uint32_t finding, refusal;
    unsigned x, y;
    char lines[ENOUGH];
    int n = 0;
    do {
        x = state_length >= ROV_STATE ? (unsigned)get(state, ROV_X, 4) : 0;
        y = state_length >= ROV_STATE ? (unsigned)get(state, ROV_Y, 4) : 0;
        refusal = plain_run(w, h, page, page_length, stream, stream_length, state, state_length, 1, place, &done, &finding, &found, &ended);
        items += done;
    } while (done && !finding && !ended);
    *end = *has_page = 0;
    *over = items == 0;
    if (refusal) return refusal;
    for (size_t i = 0; i < page_length; i++) dots += (size_t)__builtin_popcount(page[i]);
    if (items == 0) n = end_lines(lines, state, *number, *findings, dots);
    if (finding) n = sprintf(lines, "FAULT\t%zu\t%u\nMARK\t%zu\t%u\t%u\t%u\n", found, finding, found, finding, x, y);
    if (ended) n += sprintf(lines + n, "PAGE\t%zu\t%zu\n", *number, dots);
    *has_page = items == 0 ? state[ROV_USED] : ended;
    *number += ended;
    *findings += finding > 0;
    *end = (size_t)n < room_length ? (size_t)n : room_length;
    if (*end) memcpy(room, lines, *end);
    return 0;
}
#endif

/* ---- the calls */
static void read_case(char *line, struct case_line *c) {
    char *w[11];
    words_of(line, "S", w, 11);
    handed_of(w, c);
    if (strcmp(w[5], "-") == 0) stop("a step's state is not written out");
    page_number = number_of(w[7]);
    findings = number_of(w[8]);
    room_length = number_of(w[9]);
    if (room_length >= MOST_ROOM) bad();
    stream_of(w[10]);
}

static void lend_all(const struct case_line *c, struct lent_all *l, size_t n, uint8_t fill) {
    lend(c, &l->page, &l->state);
    set_length(&l->room, n);
    memset(l->room.bytes, fill, n);
}

/* What no refused step may do. The state is what it was before the call. */
static void check_refused(const struct case_line *c, const struct lent_all *l, const uint8_t *was, uint8_t fill, const struct numbers *x) {
    if (x->refusal < FIRST_REFUSAL || x->refusal >= FIRST_REFUSAL + REFUSALS) blame("no number of a refusal");
    if (x->place != c->place || x->number != page_number || x->findings != findings) blame("a refused step changed place, number or findings");
    if (x->end || x->has_page || x->over != 1) blame("a refused step gave lines or a page, or is not over");
    if (!is_filled(l->page.bytes, l->page.n, c->fill)) blame("a refused step wrote into the page");
    if (memcmp(l->state.bytes, was, l->state.n)) blame("a refused step wrote into the state");
    if (!is_filled(l->room.bytes, l->room.n, fill)) blame("a refused step wrote into the room");
}

/* A step on what is lent. What no step may do is blamed here. */
static struct numbers call(const struct case_line *c, struct lent_all *l, uint8_t fill) {
    struct numbers x = {JUNK, c->place, JUNK, page_number, JUNK, findings, JUNK, JUNK, JUNK, JUNK, JUNK, JUNK, JUNK, JUNK};
    uint8_t was[ROV_STATE];
    memcpy(was, l->state.bytes, l->state.n);
    x.refusal = rov_step(c->wide, c->high, l->page.bytes, l->page.n, pointer(&stream), stream.n, l->state.bytes, l->state.n, &x.place, &x.number,
                         &x.findings, pointer(&l->room), l->room.n, &x.end, &x.has_page, &x.over);
    if (x.guard0 != JUNK || x.guard1 != JUNK || x.guard2 != JUNK || x.guard3 != JUNK || x.guard4 != JUNK || x.guard5 != JUNK || x.guard6 != JUNK)
        blame("guards of the numbers");
    check_guards(&l->page, "guards of the page");
    check_guards(&l->state, "guards of the state");
    check_guards(&l->room, "guards of the room");
    if (x.refusal) check_refused(c, l, was, fill, &x);
    if (x.has_page > 1 || x.over > 1) blame("a mark that is neither 0 nor 1");
    if (x.end > l->room.n) blame("the end is behind the room");
    else if (!is_filled(l->room.bytes + x.end, l->room.n - x.end, fill)) blame("a byte was written behind the lines");
    return x;
}

/* The step in a room that is long enough must give what the step gave, and its lines. */
static struct numbers with_room(const struct case_line *c, const struct numbers *first) {
    struct numbers x;
    lend_all(c, &again, ENOUGH, OTHER_FILL);
    x = call(c, &again, OTHER_FILL);
    if (x.refusal != first->refusal || x.place != first->place || x.number != first->number || x.findings != first->findings ||
        x.has_page != first->has_page || x.over != first->over || memcmp(again.state.bytes, once.state.bytes, ROV_STATE) ||
        memcmp(again.page.bytes, once.page.bytes, once.page.n))
        blame("the room changes what a step gives");
    if (x.end >= ENOUGH) blame("lines that are too long");
    if (first->end != (x.end < room_length ? x.end : room_length)) blame("the end is not that of the lines, nor of the room");
    if (!amiss && memcmp(again.room.bytes, once.room.bytes, first->end)) blame("the room changes the lines");
    return x;
}

/* A step that must be refused with 13. */
static void refused_step(const struct case_line *c, size_t at, uint8_t byte, size_t state_n, const char *what) {
    lend_all(c, &again, ENOUGH, OTHER_FILL);
    again.state.bytes[at] = byte;
    set_length(&again.state, state_n);
    if (call(c, &again, OTHER_FILL).refusal != 13) blame(what);
}

/* What the text of a case cannot say: a state that is too short, marks that are neither 0 nor 1. */
static void try_more(const struct case_line *c) {
    refused_step(c, ROV_X, c->state[ROV_X], number % ROV_STATE, "a state too short was not refused");
    refused_step(c, ROV_STARTED, (uint8_t)(2 + number % 254), ROV_STATE, "a wrong mark of started was not refused");
    refused_step(c, ROV_USED, (uint8_t)(2 + number % 254), ROV_STATE, "a wrong mark of used was not refused");
}

/* ---- writing the result */
static void write_result(const struct numbers *x) {
    if (amiss) {
        printf("%zu %s\n", number, amiss);
        return;
    }
    if (x->refusal) printf("%zu refused %u %zu", number, x->refusal, x->place);
    else printf("%zu stepped %zu", number, x->place);
    write_state(once.state.bytes);
    printf(" %016llx %zu %zu %zu %zu %zu ", (unsigned long long)hash_of(once.page.bytes, once.page.n), x->number, x->findings, x->has_page, x->over,
           x->end);
    write_hex(once.room.bytes, x->end);
    printf(" %016llx\n", (unsigned long long)hash_of(once.room.bytes, once.room.n));
}

/* The finding of the lines in a room that is long enough, 0 if they have none. */
static size_t finding_of(const struct lent *room, size_t end) {
    char lines[ENOUGH + 1];
    size_t finding = 0;
    memcpy(lines, room->bytes, end);
    lines[end] = 0;
    return sscanf(lines, "FAULT %*u %zu", &finding) == 1 && finding < FINDINGS ? finding : 0;
}

static void count(const struct numbers *x, const struct numbers *whole) {
    size_t finding;
    if (amiss) return;
    if (x->refusal) {
        met[REFUSED + x->refusal - FIRST_REFUSAL]++;
        return;
    }
    finding = finding_of(&again.room, whole->end);
    met[NO_LINE] += whole->end == 0;
    met[finding] += finding > 0;
    met[PAGE_ENDED] += x->has_page && !x->over;
    met[OVER_USED] += x->has_page && x->over;
    met[OVER_UNUSED] += !x->has_page && x->over;
    met[ROOM_SHORT] += x->end < whole->end;
    met[NO_ROOM] += room_length == 0 && whole->end > 0;
}

static void one_case(char *line) {
    enum { NOW_AND_THEN = 16 };
    static struct case_line c;
    struct numbers x, whole;
    read_case(line, &c);
    lend_all(&c, &once, room_length, ROOM_FILL);
    x = call(&c, &once, ROOM_FILL);
    whole = with_room(&c, &x);
    count(&x, &whole);
    if (number % NOW_AND_THEN == 0 && (!x.refusal || x.refusal >= 13)) try_more(&c);
    check_stream();
    write_result(&x);
}

int main(int words, char **word) {
    if (words != 3) {
        fputs("usage: stepcases CASES MET\n", stderr);
        return 1;
    }
    make(&once.page, MOST_PAGE);
    make(&once.state, ROV_STATE);
    make(&once.room, MOST_ROOM);
    make(&again.page, MOST_PAGE);
    make(&again.state, ROV_STATE);
    make(&again.room, ENOUGH);
    return each_line(word[1], one_case) || write_met(word[2], outcomes, sizeof outcomes / sizeof outcomes[0]);
}
