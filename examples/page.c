/* How to call Rovinuset from C: reads a job, prints every fault and every page, and writes the last page as a picture.
 *
 *     page [JOB [W H [PICTURE]]]     JOB is a file, '-' or nothing: standard input; W and H are dots, 640 and 800 if not given
 *
 * Exit status: 0 the job was read to its end, whatever was found in it; 1 a word, file or write is wrong; 2 the call was refused. */
#include "../include/rovinuset.h"
#include <stdio.h>
#include <stdlib.h>
#include <string.h>

/* All memory is the caller's: the job, the page and the state. The library keeps nothing between calls and allocates nothing. */
enum { LONGEST_JOB = 1048576, LARGEST_PAGE = 4800 / 8 * 6800, ITEMS_AT_ONCE = 500 };
static uint8_t job[LONGEST_JOB + 1]; /* a byte more, so that a longer job is seen, and refused */
static uint8_t page[LARGEST_PAGE];
static uint8_t state[ROV_STATE];

/* A finding in words. A later version may give one that is not named here: it is some finding all the same. */
static const char *found_in_words(uint32_t finding) {
    switch (finding) {
    case ROV_FINDING_ENDS_INSIDE: return "the stream ends inside a sequence, or payload is short";
    case ROV_FINDING_CANNOT_STAND: return "a byte that can't stand there";
    case ROV_FINDING_NOT_CARRIED: return "command not carried";
    case ROV_FINDING_NOT_ALLOWED: return "value not allowed";
    case ROV_FINDING_STACK_LIMIT: return "push when full, or pop when empty";
    case ROV_FINDING_NOT_NOW: return "not allowed at this moment";
    case ROV_FINDING_DAMAGED_ROW: return "damaged row: it is drawn as a row of zeros";
    default: return "a finding this program does not know";
    }
}

/* A refusal in words. */
static const char *refused_in_words(uint32_t refusal) {
    switch (refusal) {
    case ROV_REFUSED_PAGE_MEASURE: return "page measure not allowed";
    case ROV_REFUSED_PAGE_BUFFER: return "page buffer shorter than the page";
    case ROV_REFUSED_STREAM_LENGTH: return "job longer than 1,048,576 bytes";
    case ROV_REFUSED_UNSOUND_STATE: return "the state is not sound on this page";
    case ROV_REFUSED_START_PLACE: return "start place after the end of the job";
    default: return "for a reason this program does not know";
    }
}

/* A member of the state: little-endian, whatever the machine is. */
static unsigned long member(size_t at, size_t bytes) {
    unsigned long n = 0;
    while (bytes-- > 0) n = n << 8 | state[at + bytes];
    return n;
}

/* A page as PBM: its bytes are those of the buffer. Each page is written over the one before. 0 if it could not be written. */
static int write_picture(const char *name, size_t W, size_t H) {
    FILE *out = fopen(name, "wb");
    int whole = out && fprintf(out, "P4\n%zu %zu\n", W, H) > 0 && fwrite(page, 1, W / 8 * H, out) == W / 8 * H;
    if (out && fclose(out)) whole = 0;
    if (!whole) perror(name);
    return whole;
}

/* A page is to be handed over. It is still in the buffer; the next rov_run that has an item to do zeroes it. */
static int hand_over(size_t number, const char *picture, size_t W, size_t H) {
    printf("page %zu: %zu dots\n", number, rov_dots(W, H, page, sizeof page));
    return picture ? write_picture(picture, W, H) : 1;
}

static int read_job(const char *name, size_t *n) {
    FILE *in = name && strcmp(name, "-") ? fopen(name, "rb") : stdin;
    int good;
    *n = in ? fread(job, 1, sizeof job, in) : 0;
    good = in && !ferror(in);
    if (!good) perror(name ? name : "-");
    if (in && in != stdin) fclose(in);
    return good;
}

static int refused(uint32_t refusal) {
    printf("refused %u: %s\n", (unsigned)refusal, refused_in_words(refusal));
    return 2;
}

/* Runs the whole job, some items at a time, as a controller does that has other things to do in between. */
static int run_job(size_t n, size_t W, size_t H, const char *picture) {
    size_t place = 0, done, found, ended, pages = 0;
    uint32_t finding, refusal = rov_afresh(W, H, state, sizeof state); /* once for each job; then the state goes from call to call */
    if (refusal) return refused(refusal);
    do {
        refusal = rov_run(W, H, page, sizeof page, job, n, state, sizeof state, ITEMS_AT_ONCE, &place, &done, &finding, &found, &ended);
        if (refusal) return refused(refusal); /* nothing was done: page, state and place are as they were */
        if (finding) printf("place %zu: finding %u, %s\n", found, (unsigned)finding, found_in_words(finding)); /* `found` is where the item began */
        if (ended && !hand_over(++pages, picture, W, H)) return 1;
        /* A run stops early after a finding, a page end, or at the end of the job; only then is there nothing left. */
    } while (finding || ended || done == ITEMS_AT_ONCE);
    if (state[ROV_USED] && !hand_over(++pages, picture, W, H)) return 1; /* a job need not end its last page */
    printf("end: x %lu, y %lu, stack depth %lu\n", member(ROV_X, 4), member(ROV_Y, 4), member(ROV_DEPTH, 8));
    return 0;
}

/* A decimal number. One that is too large for the type becomes the largest, which no page has. */
static int number_of(const char *word, size_t *n) {
    char *end;
    *n = (size_t)strtoull(word, &end, 10);
    return word[0] >= '0' && word[0] <= '9' && *end == 0;
}

int main(int words, char **word) {
    size_t W = 640, H = 800, n;
    int status;
    if (words == 3 || words > 5 || (words >= 4 && (!number_of(word[2], &W) || !number_of(word[3], &H)))) {
        fputs("usage: page [JOB [W H [PICTURE]]]\n", stderr);
        return 1;
    }
    if (!read_job(words > 1 ? word[1] : NULL, &n)) return 1;
    status = run_job(n, W, H, words > 4 ? word[4] : NULL);
    if (fflush(stdout)) {
        perror("page");
        return 1;
    }
    return status;
}
