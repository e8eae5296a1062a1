/* What the drivers of cases share: bytes that are lent between guards, the words of a case (second/README.md, mode `cases`), the lines of
 * a file, and the count of what was met. */
#ifndef CASES_H
#define CASES_H
#include "../bench/side.h"
#include <stdio.h>
#include <stdlib.h>
#include <string.h>

enum { MOST_STREAM = 1 << 21, GUARD = 64, GUARD_BYTE = 0x5A, JUNK = 77, MOST_OUTCOMES = 64 };
enum { FINDINGS = ROV_FINDING_DAMAGED_ROW + 1 }; /* with 0, none */

/* Lent bytes with guard bytes before and behind them. */
struct lent {
    uint8_t *bytes;
    size_t n;
};

static struct lent stream, stream_copy; /* the case's stream, and what it was before the calls */
static size_t number;                   /* of the case */
static const char *amiss;               /* the first thing that is wrong with it */
static size_t met[MOST_OUTCOMES];       /* how often each outcome came up */

static inline void blame(const char *what) {
    if (!amiss) amiss = what;
}

static inline void stop(const char *what) {
    fflush(stdout);
    fprintf(stderr, "cases: line %zu: %s\n", number, what);
    exit(1);
}

static inline void bad(void) { stop("it is not of the form"); }

/* ---- lent bytes */
static inline void make(struct lent *l, size_t most) {
    uint8_t *bytes = malloc(most + 2 * GUARD);
    if (!bytes) stop("no memory");
    memset(bytes, GUARD_BYTE, GUARD);
    l->bytes = bytes + GUARD;
    l->n = 0;
}

static inline void set_length(struct lent *l, size_t n) {
    l->n = n;
    memset(l->bytes + n, GUARD_BYTE, GUARD);
}

static inline void check_guards(const struct lent *l, const char *what) {
    for (size_t i = 0; i < GUARD; i++)
        if (l->bytes[l->n + i] != GUARD_BYTE || *(l->bytes - 1 - i) != GUARD_BYTE) blame(what);
}

static inline void check_stream(void) {
    if (memcmp(stream.bytes, stream_copy.bytes, stream.n)) blame("the stream was written");
    check_guards(&stream, "guards of the stream");
}

static inline bool is_filled(const uint8_t *bytes, size_t n, uint8_t fill) {
    return n == 0 || (bytes[0] == fill && memcmp(bytes, bytes + 1, n - 1) == 0);
}

/* A pointer to no bytes is not read. */
static inline uint8_t *pointer(const struct lent *l) { return l->n ? l->bytes : NULL; }

/* ---- words */
static inline int digit(char c) {
    if (c >= '0' && c <= '9') return c - '0';
    if (c >= 'A' && c <= 'F') return c - 'A' + 10;
    if (c >= 'a' && c <= 'f') return c - 'a' + 10;
    return -1;
}

static inline size_t hex_of(const char *word, uint8_t *out, size_t most) {
    size_t n = 0;
    if (strcmp(word, "-") == 0) return 0;
    for (; word[0]; word += 2) {
        int high = digit(word[0]), low = word[1] ? digit(word[1]) : -1;
        if (high < 0 || low < 0 || n == most) bad();
        out[n++] = (uint8_t)(high * 16 + low);
    }
    return n;
}

static inline uint8_t fill_of(const char *word) {
    uint8_t fill = 0;
    if (hex_of(word, &fill, 1) != 1) bad();
    return fill;
}

static inline uint64_t number_of(const char *word) {
    char *end;
    uint64_t n = strtoull(word, &end, 10);
    if (end == word || *end) bad();
    return n;
}

static inline char *split(char **rest, char mark) {
    char *word = *rest, *end;
    if (!word) bad();
    end = strchr(word, mark);
    *rest = end ? end + 1 : NULL;
    if (end) *end = 0;
    return word;
}

static inline void words_of(char *line, const char *kind, char **word, size_t count) {
    for (size_t i = 0; i < count; i++) word[i] = split(&line, ' ');
    if (line || strcmp(word[0], kind)) bad();
}

static inline void stream_of(char *word) {
    bool repeated = word[0] == 'x';
    size_t n = 0, have;
    if (repeated) {
        word++;
        n = number_of(split(&word, ':'));
        if (!word || n > MOST_STREAM) bad();
    }
    have = hex_of(word, stream.bytes, MOST_STREAM);
    if (repeated && !have) bad();
    for (; have < n; have *= 2) memcpy(stream.bytes + have, stream.bytes, have < n - have ? have : n - have);
    set_length(&stream, repeated ? n : have);
    memcpy(stream_copy.bytes, stream.bytes, stream.n);
}

static inline uint64_t hash_of(const uint8_t *bytes, size_t n) {
    uint64_t hash = 14695981039346656037u;
    for (size_t i = 0; i < n; i++) hash = (hash ^ bytes[i]) * 1099511628211u;
    return hash;
}

/* ---- files */
static inline int each_line(const char *file, void (*one_case)(char *)) {
    FILE *in = fopen(file, "r");
    char *line = NULL;
    size_t room = 0;
    ssize_t n;
    if (!in) {
        perror(file);
        return 1;
    }
    make(&stream, MOST_STREAM);
    make(&stream_copy, MOST_STREAM);
    while ((n = getline(&line, &room, in)) > 0) {
        if (line[n - 1] == '\n') line[n - 1] = 0;
        number++;
        amiss = NULL;
        one_case(line);
    }
    free(line);
    return ferror(in) || fclose(in) || fflush(stdout) ? 1 : 0;
}

/* A line for each outcome, also for one that was never met: how often, a tab, its name. */
static inline int write_met(const char *file, const char *const *names, size_t count) {
    FILE *out = fopen(file, "w");
    if (!out) {
        perror(file);
        return 1;
    }
    for (size_t i = 0; i < count; i++) fprintf(out, "%zu\t%s\n", met[i], names[i]);
    return fclose(out) ? 1 : 0;
}

#endif
