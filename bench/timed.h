/* What door.c, translate.c and turns.c share: a stream of 1 MB in a file, and the least of many times. */
#ifndef TIMED_H
#define TIMED_H
#include <stdint.h>
#include <stdio.h>
#include <string.h>
#include <time.h>

enum { MOST = 1048576, TURNS = 25, PARTS = 16 };
static const double LONG_ENOUGH = 1.5; /* seconds of turns, so that short ones have many */

static uint8_t stream[MOST + 1];

/* The processor's time of this process alone, as others may work beside it. */
static double now(void) {
    struct timespec t;
    clock_gettime(CLOCK_PROCESS_CPUTIME_ID, &t);
    return (double)t.tv_sec + (double)t.tv_nsec * 1e-9;
}

static inline int more_turns(int done, double began) { return done < TURNS || now() - began < LONG_ENOUGH; }

static void lower(double *least, double t) {
    if (*least == 0 || t < *least) *least = t;
}

/* 1 if the file has just 1 MB. */
static int read_stream(const char *name) {
    FILE *in = fopen(name, "rb");
    size_t n = in ? fread(stream, 1, sizeof stream, in) : 0;
    if (in) fclose(in);
    if (n == MOST) return 1;
    fprintf(stderr, "%s has not %d bytes\n", name, MOST);
    return 0;
}

/* Words are FILE NAME [FILE NAME ..]; `measure` prints lines of a table for each, and gives 0. */
static int each_stream(int words, char **word, const char *head, int (*measure)(const char *file, const char *name)) {
    int failed = words < 3 || words % 2 == 0;
    if (failed) fprintf(stderr, "usage: %s FILE NAME [FILE NAME ..]\n", word[0]);
    else puts(head);
    for (int i = 1; i + 1 < words && !failed; i += 2) failed = measure(word[i], word[i + 1]);
    return failed;
}

#endif
