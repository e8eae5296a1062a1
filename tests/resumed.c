/* Jobs that are parked and gone on with: resumed CASES STREAMS. The cases are T lines (second/README.md, mode `cases`), of which the page's measure and
 * the stream are taken, up to so many that are allowed. Each stream is run afresh twice, side by side. Once in one go, from stop to stop. Once with a
 * power cut after each item: the state is parked, all is lost but the text, the place and the page if it is used, and the text is read back into fresh
 * memory, measure and all. Where a sequence is open, parking must be refused by 16, and the job goes on without a cut. At each stop both must have the
 * same finding, place, count of items and state, and the same page where one ended or is used. The end is a stop too. After MANY items of a stream a
 * cut comes only every SELDOM items and at each stop. A line for each stream that differs, then the counts: streams, items, parkings, refusals 16,
 * streams that differ. With -DPLAIN the plain C of bench/ stands in for the proved archive. */
#include "cases.h"

enum { MOST_PAGE = 4080000, MANY = 5000, SELDOM = 97 };

/* A job between two calls, and what the last one told. */
struct job {
    size_t wide, high, place, done, found, ended;
    uint32_t finding;
    struct lent page, *state;
};

static struct lent states[2], text; /* the second job's state is read back into the other of two */
static struct lent once_state;
static struct job once, cut;
static size_t wanted, streams, items, parkings, refusals, differ;

/* ---- a power cut */
static void wipe(struct lent *l) { memset(l->bytes, JUNK, l->n); }

/* All that outlasts it is the text, the place, and the page if it is used. */
static void lose(void) {
    wipe(cut.state);
    cut.wide = cut.high = JUNK;
    cut.state = cut.state == &states[0] ? &states[1] : &states[0];
    wipe(cut.state);
}

/* False while a sequence is open. */
static bool park(void) {
    bool open = cut.state->bytes[ROV_FIRST];
    size_t length = JUNK;
    uint32_t refusal;
    set_length(&text, ROV_PARKED);
    wipe(&text);
    refusal = rov_park(cut.wide, cut.high, cut.state->bytes, ROV_STATE, text.bytes, ROV_PARKED, &length);
    if (refusal != (open ? ROV_REFUSED_SEQUENCE_OPEN : ROV_CARRIED_OUT)) blame("parking was refused, or not with a sequence open");
    set_length(&text, refusal ? 0 : length);
    refusals += refusal == ROV_REFUSED_SEQUENCE_OPEN;
    parkings += refusal == ROV_CARRIED_OUT;
    return refusal == ROV_CARRIED_OUT;
}

static void power_cut(void) {
    if (!park()) return;
    if (!cut.state->bytes[ROV_USED]) wipe(&cut.page);
    lose();
    if (rov_unpark(text.bytes, text.n, &cut.wide, &cut.high, cut.state->bytes, ROV_STATE)) blame("the text was refused");
    if (cut.wide != once.wide || cut.high != once.high) blame("the text has another measure");
    check_guards(&states[0], "guards of a state");
    check_guards(&states[1], "guards of a state");
    check_guards(&text, "guards of the text");
}

/* ---- both runs */
static void start(struct job *j, size_t wide, size_t high) {
    j->wide = wide;
    j->high = high;
    j->place = 0;
    set_length(&j->page, wide / 8 * high);
    wipe(&j->page);
    set_length(j->state, ROV_STATE);
    rov_afresh(wide, high, j->state->bytes, ROV_STATE);
}

static void run(struct job *j, size_t allowance) {
    uint32_t refusal = rov_run(j->wide, j->high, j->page.bytes, j->page.n, stream.bytes, stream.n, j->state->bytes, ROV_STATE, allowance,
                               &j->place, &j->done, &j->finding, &j->found, &j->ended);
    if (refusal) blame("a run was refused");
}

/* The job with cuts, to its next stop; `before` items are done. Gives how many it did. A page that ended is handed over before the cut. */
static size_t to_stop(size_t before) {
    size_t done = 0;
    do {
        size_t most = before + done < MANY ? 1 : SELDOM;
        run(&cut, most);
        done += cut.done;
        if (cut.finding || cut.ended || cut.done < most) break;
        power_cut();
    } while (!amiss);
    return done;
}

static void compare(size_t done) {
    bool used = once.state->bytes[ROV_USED];
    if (done != once.done || cut.place != once.place) blame("another number of items, or another place");
    if (cut.finding != once.finding || cut.found != once.found) blame("another finding");
    if (cut.ended != once.ended) blame("another page end");
    if (memcmp(cut.state->bytes, once.state->bytes, ROV_STATE)) blame("another state");
    if ((once.ended || used) && memcmp(cut.page.bytes, once.page.bytes, once.page.n)) blame("another page");
    check_guards(&cut.page, "guards of the page");
}

static void run_both(size_t wide, size_t high) {
    size_t before = 0;
    bool more;
    once.state = &once_state;
    cut.state = &states[0];
    set_length(&states[1], ROV_STATE);
    start(&once, wide, high);
    start(&cut, wide, high);
    do {
        run(&once, SIZE_MAX);
        compare(to_stop(before));
        before += once.done;
        more = once.finding || once.ended;
        if (!amiss) power_cut();
    } while (more && !amiss);
    if (!amiss && cut.state->bytes[ROV_FIRST]) blame("a sequence is open behind the stream's end");
    items += before;
}

/* ---- cases */
static void one_case(char *line) {
    uint8_t afresh[ROV_STATE];
    char *w[6];
    size_t wide, high;
    words_of(line, "T", w, 6);
    wide = number_of(w[1]);
    high = number_of(w[2]);
    if (streams == wanted || rov_afresh(wide, high, afresh, ROV_STATE)) return;
    stream_of(w[5]);
    if (stream.n == 0 || stream.n > 1048576) return;
    streams++;
    run_both(wide, high);
    check_stream();
    if (!amiss) return;
    differ++;
    printf("line %zu: %s, at place %zu\n", number, amiss, cut.place);
}

int main(int words, char **word) {
    if (words != 3) {
        fputs("usage: resumed CASES STREAMS\n", stderr);
        return 1;
    }
    wanted = number_of(word[2]);
    make(&states[0], ROV_STATE);
    make(&states[1], ROV_STATE);
    make(&once_state, ROV_STATE);
    make(&text, ROV_PARKED);
    make(&once.page, MOST_PAGE);
    make(&cut.page, MOST_PAGE);
    if (each_line(word[1], one_case)) return 1;
    printf("%zu streams, %zu items, %zu parkings, %zu refusals 16, %zu differences\n", streams, items, parkings, refusals, differ);
    return fflush(stdout) || differ || streams < wanted ? 1 : 0;
}
