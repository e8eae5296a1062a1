/* The proved run against the plain C reader, in one process: door FILE NAME [FILE NAME ..]. A line of docs/SPEED.md's table for each
 * stream: the ratio of the times, and how the time grows: that of the stream over that of its sixteen parts, each a stream of its own
 * that goes on where the last ended, so that both draw the same pages. Before they are timed, both sides are run stop by stop, and
 * every number, state and page must be the same. */
#include "side.h"
#include "timed.h"

enum { W = 4800, H = 6800, PAGE = W / 8 * H };

typedef uint32_t (*run_function)(size_t, size_t, uint8_t *, size_t, const uint8_t *, size_t, uint8_t *, size_t, size_t,
                                 size_t *, size_t *, uint32_t *, size_t *, size_t *);

/* One side: its function, and what the function changes. */
struct side {
    run_function run;
    size_t place, done, found, ended;
    uint32_t finding, refusal;
    uint8_t state[ROV_STATE], *page;
    double whole, parts; /* the least times */
};

static uint8_t proved_page[PAGE], plain_page[PAGE];
static const size_t all[2] = {0, MOST};
static size_t cuts[PARTS + 1]; /* where the parts begin and end: between items */
static struct side proved = {.run = rov_run, .page = proved_page}, plain = {.run = plain_run, .page = plain_page};

/* The page is used at the start, so that zeroing it does not hide the reading. */
static void start(struct side *s) {
    plain_afresh(W, H, s->state, ROV_STATE);
    s->state[ROV_USED] = 1;
    s->place = 0;
}

static void step(struct side *s, const uint8_t *bytes, size_t n, size_t allowance) {
    s->refusal = s->run(W, H, s->page, PAGE, bytes, n, s->state, ROV_STATE, allowance, &s->place, &s->done, &s->finding, &s->found, &s->ended);
}

/* A run that stopped for no finding and no page end has come to the stream's end. */
static int at_end(const struct side *s) { return s->refusal || (!s->finding && !s->ended); }

static double time_of(struct side *s, const size_t *bounds, size_t parts) {
    double t;
    start(s);
    t = now();
    for (size_t i = 0; i < parts; i++) {
        s->place = 0;
        do step(s, stream + bounds[i], bounds[i + 1] - bounds[i], SIZE_MAX);
        while (!at_end(s));
    }
    return now() - t;
}

/* An item that ends a part has a sequence closed behind it, for an open one is a finding at the part's end. */
static void find_cuts(void) {
    size_t part = 1;
    start(&plain);
    do {
        step(&plain, stream, MOST, 1);
        if (part < PARTS && plain.place >= part * (MOST / PARTS) && !plain.state[ROV_FIRST]) cuts[part++] = plain.place;
    } while (plain.place < MOST);
    cuts[PARTS] = MOST;
}

static int same_numbers(void) {
    return proved.refusal == plain.refusal && proved.finding == plain.finding && proved.place == plain.place && proved.done == plain.done &&
           proved.found == plain.found && proved.ended == plain.ended && memcmp(proved.state, plain.state, ROV_STATE) == 0;
}

static int both_do_the_same(void) {
    memset(proved_page, 0, PAGE);
    memset(plain_page, 0, PAGE);
    start(&proved);
    start(&plain);
    do {
        step(&proved, stream, MOST, SIZE_MAX);
        step(&plain, stream, MOST, SIZE_MAX);
        if (proved.refusal || !same_numbers()) return 0;
        if ((proved.ended || at_end(&proved)) && memcmp(proved_page, plain_page, PAGE)) return 0;
    } while (!at_end(&proved));
    return proved.place == MOST;
}

static void time_both(void) {
    double began = now();
    proved.whole = proved.parts = plain.whole = plain.parts = 0;
    for (int turn = 0; more_turns(turn, began); turn++) {
        lower(&proved.whole, time_of(&proved, all, 1));
        lower(&plain.whole, time_of(&plain, all, 1));
        lower(&proved.parts, time_of(&proved, cuts, PARTS));
        lower(&plain.parts, time_of(&plain, cuts, PARTS));
    }
}

static int measure(const char *file, const char *name) {
    if (!read_stream(file)) return 1;
    if (!both_do_the_same()) {
        fprintf(stderr, "door: %s: DIFFERENT RESULTS\n", name);
        return 1;
    }
    find_cuts();
    time_both();
    if (!same_numbers() || memcmp(proved_page, plain_page, PAGE)) {
        fprintf(stderr, "door: %s in parts: DIFFERENT RESULTS\n", name);
        return 1;
    }
    printf("| %s | %.2f | %.2f | %.2f |\n", name, proved.whole / plain.whole, proved.whole / proved.parts, plain.whole / plain.parts);
    fflush(stdout);
    return 0;
}

int main(int words, char **word) {
    return each_stream(words, word, "| Stream of 1 MB | Ratio | Growth, proved | Growth, plain C |\n|---|---|---|---|", measure);
}
