/* What the drivers of runs and of steps share: what both are handed, and the text of a state (second/README.md, mode `cases`). */
#ifndef RUNS_H
#define RUNS_H
#include "cases.h"

enum { MOST_PAGE = 8000000, STACK = 20, SEED_ROW = 600 };
enum { FIRST_REFUSAL = ROV_REFUSED_PAGE_MEASURE, REFUSALS = 5 };

struct case_line {
    size_t wide, high, length, place; /* length: of the page buffer */
    uint8_t fill;                     /* each of its bytes */
    uint8_t state[ROV_STATE];         /* as handed in */
};

/* ---- numbers of a state */
static inline void put(uint8_t *s, size_t at, size_t bytes, uint64_t n) {
    for (size_t i = 0; i < bytes; i++, n >>= 8) s[at + i] = (uint8_t)n;
    if (n) bad();
}

static inline uint64_t get(const uint8_t *s, size_t at, size_t bytes) {
    uint64_t n = 0;
    for (size_t i = bytes; i > 0; i--) n = n << 8 | s[at + i - 1];
    return n;
}

/* The numbers of a state's text, in its order. */
static const struct { size_t at, bytes; } members[14] = {
    {ROV_X, 4}, {ROV_Y, 4}, {ROV_LEFT, 4}, {ROV_RIGHT, 4}, {ROV_TOP, 4}, {ROV_HMI, 4}, {ROV_VMI, 4}, {ROV_TERMINATION, 1},
    {ROV_RESOLUTION, 2}, {ROV_METHOD, 1}, {ROV_STARTED, 1}, {ROV_MARGIN, 4}, {ROV_USED, 1}, {ROV_DEPTH, 8}};

static inline void pair_of(char *word, uint8_t *s, size_t at, size_t bytes) {
    put(s, at, bytes, number_of(split(&word, ':')));
    put(s, at + bytes, bytes, number_of(split(&word, ':')));
}

static inline void state_of(char *word, uint8_t *s) {
    char *sequence, *stack;
    memset(s, 0, ROV_STATE);
    for (size_t i = 0; i < 14; i++) put(s, members[i].at, members[i].bytes, number_of(split(&word, ',')));
    sequence = split(&word, ',');
    stack = split(&word, ',');
    if (strcmp(sequence, "-")) pair_of(sequence, s, ROV_FIRST, 1);
    if (strcmp(stack, "-") == 0) stack = NULL;
    for (size_t i = 0; stack; i++) {
        if (i == STACK) bad();
        pair_of(split(&stack, ';'), s, ROV_STACK + 8 * i, 4);
    }
    hex_of(split(&word, ','), s + ROV_SEED, SEED_ROW);
}

/* The words before a case's own: W H LENGTH FILL STATE PLACE. A state `-` is left to the driver. */
static inline void handed_of(char **w, struct case_line *c) {
    c->wide = number_of(w[1]);
    c->high = number_of(w[2]);
    c->length = number_of(w[3]);
    if (c->length >= MOST_PAGE) bad();
    c->fill = fill_of(w[4]);
    if (strcmp(w[5], "-")) state_of(w[5], c->state);
    c->place = number_of(w[6]);
}

static inline void lend(const struct case_line *c, struct lent *p, struct lent *s) {
    set_length(p, c->length);
    memset(p->bytes, c->fill, p->n);
    set_length(s, ROV_STATE);
    memcpy(s->bytes, c->state, ROV_STATE);
}

/* ---- writing */
static inline void write_hex(const uint8_t *bytes, size_t n) {
    for (size_t i = 0; i < n; i++) {
        putchar("0123456789ABCDEF"[bytes[i] >> 4]);
        putchar("0123456789ABCDEF"[bytes[i] & 15]);
    }
    if (!n) putchar('-');
}

static inline void write_state(const uint8_t *s) {
    size_t places = STACK, seed = SEED_ROW;
    putchar(' ');
    for (size_t i = 0; i < 14; i++) printf("%llu,", (unsigned long long)get(s, members[i].at, members[i].bytes));
    if (s[ROV_FIRST] || s[ROV_GROUP]) printf("%u:%u,", s[ROV_FIRST], s[ROV_GROUP]);
    else fputs("-,", stdout);
    while (places > 0 && get(s, ROV_STACK + 8 * (places - 1), 8) == 0) places--;
    for (size_t i = 0; i < places; i++) {
        if (i > 0) putchar(';');
        printf("%llu:%llu", (unsigned long long)get(s, ROV_STACK + 8 * i, 4), (unsigned long long)get(s, ROV_STACK + 8 * i + 4, 4));
    }
    fputs(places ? "," : "-,", stdout);
    while (seed > 0 && s[ROV_SEED + seed - 1] == 0) seed--;
    write_hex(s + ROV_SEED, seed);
}

#endif
