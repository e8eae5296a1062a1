/* The plain stream of standard input on standard output, by the library for C: plain [W H], 640 800 if no words are given. A refusal is the
 * one line `REFUSED<TAB>number` on standard error. A word that is no number is 0, which no page measure is: 10.
 * With -DPLAIN the plain C translator of bench/ stands in for the proved archive. */
#include "../bench/side.h"
#include <stdio.h>

enum { LONGEST = 1048576, MOST_NUMBER = 1000000 };

static uint8_t stream[LONGEST + 1], room[LONGEST]; /* one byte more shows that the input is longer */

static size_t number_of(const char *word) {
    size_t n = 0;
    if (!word) return 0;
    for (; *word; word++) {
        if (*word < '0' || *word > '9') return 0;
        if (n < MOST_NUMBER) n = n * 10 + (size_t)(*word - '0');
    }
    return n;
}

int main(int words, char **word) {
    size_t W = words > 1 ? number_of(word[1]) : 640, H = words > 1 ? number_of(word[2]) : 800;
    size_t n = fread(stream, 1, sizeof stream, stdin), length;
    uint32_t refused = rov_translate(W, H, stream, n, room, sizeof room, &length);
    if (refused) fprintf(stderr, "REFUSED\t%u\n", refused);
    return fwrite(room, 1, length, stdout) == length && fflush(stdout) == 0 ? 0 : 1;
}
