/* What it costs to run a stream in turns: turns FILE NAME [FILE NAME ..]. A line of docs/SPEED.md's table for each stream, of which the first
 * 64 KB are run: how many items it has, and the time with at most 1, 10, 100 and 1,000 items to a call, over that in one go. All must
 * come to the same items, state and page. */
#include "side.h"
#include "timed.h"

enum { W = 4800, H = 6800, PAGE = W / 8 * H, LENGTH = MOST / PARTS, LEAST = 3 };

static const size_t allowances[] = {1, 10, 100, 1000};
enum { KINDS = sizeof allowances / sizeof allowances[0] };

static uint8_t page[PAGE], once_page[PAGE], state[ROV_STATE], once_state[ROV_STATE];
static size_t items;

static double time_of(size_t allowance) {
    size_t place = 0, done, found, ended;
    uint32_t finding, refusal;
    double t = now();
    rov_afresh(W, H, state, ROV_STATE);
    items = 0;
    do {
        refusal = rov_run(W, H, page, PAGE, stream, LENGTH, state, ROV_STATE, allowance, &place, &done, &finding, &found, &ended);
        items += done;
    } while (!refusal && (finding || ended || done == allowance));
    return now() - t;
}

/* The least of some times; for short ones of more. */
static double least_of(size_t allowance) {
    double least = 0, began = now();
    for (int turn = 0; turn < LEAST || now() - began < LONG_ENOUGH / KINDS; turn++) lower(&least, time_of(allowance));
    return least;
}

static int line_of(const char *file, const char *name) {
    double once, times[KINDS];
    size_t once_items;
    if (!read_stream(file)) return 1;
    once = least_of(SIZE_MAX);
    once_items = items;
    memcpy(once_state, state, ROV_STATE);
    memcpy(once_page, page, PAGE);
    for (size_t i = 0; i < KINDS; i++) {
        times[i] = least_of(allowances[i]);
        if (items == once_items && !memcmp(once_state, state, ROV_STATE) && !memcmp(once_page, page, PAGE)) continue;
        fprintf(stderr, "turns: %s: DIFFERENT RESULTS\n", name);
        return 1;
    }
    printf("| %s | %zu |", name, once_items);
    for (size_t i = 0; i < KINDS; i++) printf(" %.1f |", times[i] / once);
    puts("");
    fflush(stdout);
    return 0;
}

int main(int words, char **word) {
    return each_stream(words, word, "| Stream of 64 KB | Items | 1 | 10 | 100 | 1,000 |\n|---|---|---|---|---|---|", line_of);
}
