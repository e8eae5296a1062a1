/* The proved leaves against plain C, in one process: a line of docs/SPEED.md's table for each workload, with the ratio of their times and
 * how each grows: the time of a row of 600 bytes, or of a page of 6,800 such rows, over eight times that of an eighth. Each workload is timed in
 * turns, the least time of each side counts, and both must have done the same. */
#include "../include/leaves.h"
#include "plain.h"
#include <stdio.h>
#include <stdlib.h>
#include <string.h>
#include <time.h>

enum { WIDE = 600, HIGH = 6800, PAGE = WIDE * HIGH, ROUNDS = 100, PARTS = 8 };

static uint8_t proved_page[PAGE], plain_page[PAGE], payload[1 << 16], row[WIDE], blank[WIDE], seed[WIDE];
static size_t payload_n;
static unsigned state = 1;

static unsigned next_random(void) { return (state = state * 1664525u + 1013904223u) >> 8; }

/* The processor's time of this process alone, as others may work beside it. */
static double now(void) {
    struct timespec t;
    clock_gettime(CLOCK_PROCESS_CPUTIME_ID, &t);
    return (double)t.tv_sec + (double)t.tv_nsec * 1e-9;
}

/* ---- payloads of a row, as a driver writes them */
static void add(unsigned byte) { payload[payload_n++] = (uint8_t)byte; }

static void fill_random(uint8_t *at, size_t n) {
    for (size_t i = 0; i < n; i++) at[i] = (uint8_t)next_random();
}

enum kind { LONG_RUNS, LITERALS, MIXED, SHORT_LITERALS };

static size_t run_length(enum kind kind) {
    switch (kind) {
    case LONG_RUNS: return 100;
    case MIXED: return 1 + next_random() % 12;
    default: return 1;
    }
}

static size_t literal_length(enum kind kind) {
    switch (kind) {
    case LITERALS: return 100;
    case SHORT_LITERALS: return 1 + next_random() % 16;
    default: return 1 + next_random() % 12;
    }
}

static void make_payload(int method, enum kind kind, size_t wide) {
    size_t at = 0;
    payload_n = 0;
    while (at < wide) {
        size_t left = wide - at, run = run_length(kind), literal = literal_length(kind);
        if (run > left) run = left;
        if (literal > left) literal = left;
        if (method == 0) {
            for (size_t i = 0; i < left; i++) add(next_random());
            at = wide;
        } else if (method == 1) {
            add((unsigned)run - 1);
            add(next_random());
            at += run;
        } else if (method == 2) {
            if (run >= 2 && (kind == LONG_RUNS || next_random() % 2)) {
                add(257 - (unsigned)run);
                add(next_random());
                at += run;
            } else {
                add((unsigned)literal - 1);
                for (size_t i = 0; i < literal; i++) add(next_random());
                at += literal;
            }
        } else { /* method 3: runs are untouched bytes, literals replace */
            size_t skip = kind == LITERALS ? 0 : kind == LONG_RUNS ? 60 : next_random() % 40, count = kind == LITERALS ? 8 : 1 + next_random() % 8;
            if (skip >= left) skip = left - 1;
            if (count > left - skip) count = left - skip;
            add((unsigned)(count - 1) * 32 + (unsigned)(skip < 31 ? skip : 31));
            if (skip >= 31) add((unsigned)skip - 31);
            for (size_t i = 0; i < count; i++) add(next_random());
            at += skip + count;
        }
    }
}

/* ---- timing */
struct times { double proved, plain; };

static void lower(double *least, double t) {
    if (*least == 0 || t < *least) *least = t;
}

static void line_of(const char *name, struct times whole, struct times part, int same) {
    printf("| %s | %.2f | %.2f | %.2f |\n", name, whole.proved / whole.plain, whole.proved / (PARTS * part.proved), whole.plain / (PARTS * part.plain));
    fflush(stdout);
    if (same) return;
    fprintf(stderr, "leaves: %s: DIFFERENT RESULTS\n", name);
    exit(1);
}

typedef int (*decoder)(uint8_t, const uint8_t *, size_t, uint8_t *, size_t);

static struct times decode_times(decoder decode, int method, enum kind kind, size_t wide, int *same) {
    enum { TURNS = 4000 };
    static uint8_t a[WIDE], b[WIDE];
    struct times least = {0, 0};
    make_payload(method, kind, wide);
    for (int r = 0; r < ROUNDS; r++) {
        bool x = false;
        int y = 0;
        double t;
        memcpy(a, seed, WIDE);
        memcpy(b, seed, WIDE);
        t = now();
        for (int i = 0; i < TURNS; i++) x = rov_decode((uint8_t)method, payload, payload_n, a, wide);
        lower(&least.proved, now() - t);
        t = now();
        for (int i = 0; i < TURNS; i++) y = decode((uint8_t)method, payload, payload_n, b, wide);
        lower(&least.plain, now() - t);
        *same = *same && (int)x == y && x && memcmp(a, b, WIDE) == 0;
    }
    return least;
}

static void rows_by(decoder decode, int method, enum kind kind, const char *name) {
    int same = 1;
    struct times whole = decode_times(decode, method, kind, WIDE, &same), part = decode_times(decode, method, kind, WIDE / PARTS, &same);
    line_of(name, whole, part, same);
}

static void rows_of(int method, enum kind kind, const char *name) { rows_by(plain_decode, method, kind, name); }

static struct times paint_times(const uint8_t *bytes, size_t dots, size_t from, size_t wide) {
    enum { LINES = 400 };
    struct times least = {0, 0};
    for (int r = 0; r < ROUNDS; r++) {
        double t = now();
        for (size_t y = 0; y < LINES; y++) rov_paint(proved_page, wide * HIGH, wide, bytes, wide, dots, from, y * dots);
        lower(&least.proved, now() - t);
        t = now();
        for (size_t y = 0; y < LINES; y++) plain_paint(plain_page, wide * HIGH, wide, bytes, wide, dots, from, y * dots);
        lower(&least.plain, now() - t);
    }
    return least;
}

static void paint_of(const uint8_t *bytes, size_t dots, size_t from, const char *name) {
    struct times whole = paint_times(bytes, dots, from, WIDE), part = paint_times(bytes, dots, from, WIDE / PARTS);
    line_of(name, whole, part, memcmp(proved_page, plain_page, PAGE) == 0);
}

static struct times count_times(size_t n, int *same) {
    struct times least = {0, 0};
    for (int r = 0; r < ROUNDS; r++) {
        size_t a, b;
        double t = now();
        a = rov_count(proved_page, n);
        lower(&least.proved, now() - t);
        t = now();
        b = plain_count(plain_page, n);
        lower(&least.plain, now() - t);
        *same = *same && a == b;
    }
    return least;
}

static void count_of(void) {
    int same = 1;
    struct times whole = count_times(PAGE, &same), part = count_times(PAGE / PARTS, &same);
    line_of("count of a page's dots", whole, part, same);
}

static struct times clear_times(size_t n) {
    struct times least = {0, 0};
    for (int r = 0; r < ROUNDS; r++) {
        double t;
        memset(proved_page, r, PAGE);
        t = now();
        rov_clear(proved_page, PAGE, n);
        lower(&least.proved, now() - t);
        memset(plain_page, r, PAGE);
        t = now();
        memset(plain_page, 0, n);
        lower(&least.plain, now() - t);
    }
    return least;
}

static void clear_of(void) {
    struct times whole = clear_times(PAGE), part = clear_times(PAGE / PARTS);
    line_of("clear a page", whole, part, memcmp(proved_page, plain_page, PAGE) == 0);
}

int main(void) {
    fill_random(seed, WIDE);
    fill_random(row, WIDE);
    puts("| Workload | Ratio | Growth, proved | Growth, plain C |\n|---|---|---|---|");
    rows_of(0, MIXED, "row, method 0");
    rows_of(1, LONG_RUNS, "row, method 1, long runs");
    rows_of(1, LITERALS, "row, method 1, runs of 1");
    rows_of(1, MIXED, "row, method 1, mixed");
    rows_of(2, LONG_RUNS, "row, method 2, long runs");
    rows_of(2, LITERALS, "row, method 2, literals");
    rows_of(2, SHORT_LITERALS, "row, method 2, short literals");
    rows_of(2, MIXED, "row, method 2, mixed");
    rows_of(3, LONG_RUNS, "row, method 3, far apart");
    rows_of(3, LITERALS, "row, method 3, all replaced");
    rows_of(3, MIXED, "row, method 3, mixed");
    rows_by(plain_decode_looking, 3, LONG_RUNS, "row, method 3, far apart, plain C looks first, too");
    rows_by(plain_decode_looking, 3, LITERALS, "row, method 3, all replaced, plain C looks first, too");
    rows_by(plain_decode_looking, 3, MIXED, "row, method 3, mixed, plain C looks first, too");
    paint_of(row, 1, 0, "paint, 300 dots an inch");
    paint_of(row, 1, 5, "paint, 300, shifted");
    paint_of(row, 2, 0, "paint, 150 dots an inch");
    paint_of(row, 2, 5, "paint, 150, shifted");
    paint_of(row, 3, 0, "paint, 100 dots an inch");
    paint_of(row, 3, 5, "paint, 100, shifted");
    paint_of(row, 4, 0, "paint, 75 dots an inch");
    paint_of(row, 4, 5, "paint, 75, shifted");
    paint_of(blank, 1, 0, "paint, a blank row");
    count_of();
    clear_of();
    return 0;
}
