/* A job in slices of time, as a page controller runs it: the job is spooled, and each turn does some items of it, so that other work comes
 * in between. Between two turns a job is nothing but the caller's memory: state, place and page. Here the power goes after every turn, and the
 * next turn has only what was kept: the state parked as a text, the place, and the page if it is used. A state has no text while a sequence
 * is open: then there is a turn of one item more before the power goes. At the end the job is run again in one go: the same findings, pages
 * and end must come out.
 *
 *     pieces JOB [W H [ITEMS]]     W and H are dots, 640 and 800 if not given; at most ITEMS items to a turn, 1000 if not given
 *
 * Exit status: 0 the job was read to its end; 1 a word or a file is wrong, or both runs differ; 2 the call was refused, or the kept text was. */
#include "../include/rovinuset.h"
#include <stdio.h>
#include <stdlib.h>
#include <string.h>

enum { LONGEST_JOB = 1048576, LARGEST_PAGE = 4800 / 8 * 6800, LOST = 0xFF };

/* All that a job is between two calls. */
struct engine {
    size_t W, H, place; /* the page's measure in dots; how much of the job is read */
    uint8_t state[ROV_STATE];
    uint8_t page[LARGEST_PAGE];
};

/* All that a job is over a power cut. The text holds W, H and the state; unlike the state's bytes it outlasts a change of the library's version too.
 * ROV_PARKED bytes are enough for any. */
struct kept {
    size_t place, length;
    uint8_t text[ROV_PARKED];
    uint8_t page[LARGEST_PAGE];
};

/* What came out so far. The sum is over findings, their places and the bytes of the pages, to compare two runs. */
struct outcome {
    size_t turns, items, findings, pages;
    uint64_t sum;
};

static size_t job_n;
static uint8_t job[LONGEST_JOB + 1]; /* a byte more, so that a longer job is seen, and refused */
static struct engine engine;
static struct kept kept; /* stands for memory that outlasts a power cut: with a battery, or a file */

/* ---- a power cut */

static size_t page_bytes(void) { return engine.W / 8 * engine.H; }

/* The text is kept with the place that it belongs to, and with the page. A page that is not used need not be kept: the next item zeroes it. Gives 0, or
 * the refusal: 16 where a sequence is open. Where it is refused, what was kept before is still there. */
static uint32_t keep(void) {
    size_t length;
    uint32_t refusal = rov_park(engine.W, engine.H, engine.state, ROV_STATE, kept.text, ROV_PARKED, &length);
    if (refusal) return refusal;
    kept.length = length;
    kept.place = engine.place;
    if (engine.state[ROV_USED]) memcpy(kept.page, engine.page, page_bytes());
    return 0;
}

static void lose(void) { memset(&engine, LOST, sizeof engine); }

/* Nothing needs to be tested but what the call gives: a text that is cut short or garbled is refused by 17 or 18, and then there is no state, and the
 * job is to be started again. What is read is a state that rov_run takes; it refuses by 14 what is no place of this job. A text that is damaged
 * can still be one, as a digit is as good as another: a controller keeps a checksum beside it. */
static uint32_t restore(void) {
    uint32_t refusal = rov_unpark(kept.text, kept.length, &engine.W, &engine.H, engine.state, ROV_STATE);
    if (refusal) {
        puts("the kept text holds no state");
        return refusal;
    }
    engine.place = kept.place;
    if (engine.state[ROV_USED]) memcpy(engine.page, kept.page, page_bytes());
    return 0;
}

/* ---- what a turn tells */

static void add(struct outcome *out, const void *bytes, size_t n) {
    const uint8_t *b = (const uint8_t *)bytes;
    for (size_t i = 0; i < n; i++) out->sum = (out->sum ^ b[i]) * 1099511628211u;
}

/* `place` is where the item began that is at fault: what to say, log or send on is the controller's choice. */
static void report_finding(struct outcome *out, uint32_t finding, size_t place, bool aloud) {
    out->findings++;
    add(out, &finding, sizeof finding);
    add(out, &place, sizeof place);
    if (aloud) printf("place %zu: finding %u\n", place, (unsigned)finding);
}

/* The page must be taken from the buffer now: the next turn that has an item to do zeroes it. */
static void hand_over(struct outcome *out, bool aloud) {
    out->pages++;
    add(out, engine.page, page_bytes());
    if (aloud) printf("page %zu: %zu dots\n", out->pages, rov_dots(engine.W, engine.H, engine.page, sizeof engine.page));
}

/* A turn of at most so many items. Gives the refusal, or 0 and whether there may be more to do: a run that did fewer items than it might,
 * with no finding and no page end, has come to the job's end. */
static uint32_t turn(struct outcome *out, size_t items, bool aloud, bool *more) {
    size_t done, found, ended;
    uint32_t finding, refusal;
    refusal = rov_run(engine.W, engine.H, engine.page, sizeof engine.page, job, job_n, engine.state, ROV_STATE, items, &engine.place, &done, &finding,
                      &found, &ended);
    if (refusal) return refusal;
    out->turns++;
    out->items += done;
    if (finding) report_finding(out, finding, found, aloud);
    if (ended) hand_over(out, aloud);
    *more = finding || ended || done == items;
    return 0;
}

/* ---- both runs */

/* Switched off: what is not kept is lost. While a sequence is open nothing can be kept, and the job goes on by one item and one again. That comes to an
 * end, at the latest at the job's end, which closes every sequence: so where there is no more to do, keeping is not refused by 16. */
static uint32_t switch_off(struct outcome *out, bool *more) {
    uint32_t refusal;
    while ((refusal = keep()) == ROV_REFUSED_SEQUENCE_OPEN) {
        refusal = turn(out, 1, true, more);
        if (refusal) return refusal;
    }
    if (!refusal) lose();
    return refusal;
}

/* The job from its start, so many items to a turn, with a power cut behind each turn or without. A job need not end its last page. */
static uint32_t run_job(size_t W, size_t H, struct outcome *out, size_t items, bool cuts) {
    bool more = true;
    uint32_t refusal = rov_afresh(W, H, engine.state, ROV_STATE);
    engine.W = W;
    engine.H = H;
    engine.place = 0;
    while (!refusal && more) {
        refusal = turn(out, items, cuts, &more);
        if (!refusal && cuts) refusal = switch_off(out, &more);
        if (!refusal && cuts) refusal = restore();
    }
    if (!refusal && engine.state[ROV_USED]) hand_over(out, cuts);
    add(out, engine.state, ROV_STATE);
    return refusal;
}

/* A member of the state: little-endian, whatever the machine is. */
static unsigned long member(size_t at, size_t bytes) {
    unsigned long n = 0;
    while (bytes-- > 0) n = n << 8 | engine.state[at + bytes];
    return n;
}

static int both(size_t W, size_t H, size_t items) {
    struct outcome pieces = {0, 0, 0, 0, 0}, once = {0, 0, 0, 0, 0};
    uint32_t refusal = run_job(W, H, &pieces, items, true);
    bool same;
    if (refusal) {
        printf("refused %u\n", (unsigned)refusal);
        return 2;
    }
    printf("end: x %lu, y %lu, stack depth %lu\n", member(ROV_X, 4), member(ROV_Y, 4), member(ROV_DEPTH, 8));
    run_job(W, H, &once, SIZE_MAX, false);
    same = pieces.sum == once.sum && pieces.items == once.items && pieces.findings == once.findings && pieces.pages == once.pages;
    printf("%zu items, %zu findings, %zu pages in %zu turns: %s\n", pieces.items, pieces.findings, pieces.pages, pieces.turns,
           same ? "as in one go" : "NOT as in one go");
    return same ? 0 : 1;
}

static bool read_job(const char *name) {
    FILE *in = fopen(name, "rb");
    bool good;
    job_n = in ? fread(job, 1, sizeof job, in) : 0;
    good = in && !ferror(in);
    if (!good) perror(name);
    if (in) fclose(in);
    return good;
}

/* A decimal number. One that is too large for the type becomes the largest. */
static bool number_of(const char *word, size_t *n) {
    char *end;
    *n = (size_t)strtoull(word, &end, 10);
    return word[0] >= '0' && word[0] <= '9' && *end == 0;
}

int main(int words, char **word) {
    size_t W = 640, H = 800, items = 1000;
    int status;
    if ((words != 2 && words != 4 && words != 5) || (words > 2 && (!number_of(word[2], &W) || !number_of(word[3], &H))) ||
        (words > 4 && (!number_of(word[4], &items) || items == 0))) {
        fputs("usage: pieces JOB [W H [ITEMS]]\n", stderr);
        return 1;
    }
    if (!read_job(word[1])) return 1;
    status = both(W, H, items);
    if (fflush(stdout)) {
        perror("pieces");
        return 1;
    }
    return status;
}
