/* Runs a file of cases through the proved leaves: leaves FILE ('-': standard input). The formats are in second/README.md, mode
 * `leaves`; what comes out must be what the second program says, line for line. */
#include "../include/leaves.h"
#include <stdio.h>
#include <stdlib.h>
#include <string.h>

enum { LONGEST = 1 << 16 };

static char line[2 * LONGEST + 4096];
static uint8_t first_bytes[LONGEST], second_bytes[LONGEST];

static void bad(size_t number) {
    fprintf(stderr, "leaves: line %zu is not of the form\n", number);
    exit(1);
}

static int digit(char c) {
    if (c >= '0' && c <= '9') return c - '0';
    if (c >= 'A' && c <= 'F') return c - 'A' + 10;
    if (c >= 'a' && c <= 'f') return c - 'a' + 10;
    return -1;
}

/* The bytes of a field of hexadecimal pairs, '-' for none. */
static size_t bytes_of(const char *word, uint8_t *out, size_t number) {
    size_t n = 0;
    if (strcmp(word, "-") == 0) return 0;
    for (; word[0]; word += 2) {
        int high = digit(word[0]), low = word[1] ? digit(word[1]) : -1;
        if (high < 0 || low < 0 || n == LONGEST) bad(number);
        out[n++] = (uint8_t)(high * 16 + low);
    }
    return n;
}

static size_t number_of(const char *word) { return (size_t)strtoull(word, NULL, 10); }

static void value_case(char **w, size_t number) {
    size_t at = number_of(w[1]), n = bytes_of(w[2], first_bytes, number);
    printf("%u %u %zu\n", rov_value_sign(first_bytes, n, at), rov_value_size(first_bytes, n, at), rov_value_next(first_bytes, n, at));
}

static void item_case(char **w, size_t number) {
    uint8_t first = (uint8_t)number_of(w[1]), group = (uint8_t)number_of(w[2]);
    size_t at = number_of(w[3]), n = bytes_of(w[4], first_bytes, number), f[9];
    for (uint8_t i = 0; i < 9; i++) f[i] = rov_item_field(first_bytes, n, at, first, group, i);
    printf("%zu %zu %zu %zu %zu", f[0], f[1], f[2], f[3], f[4]);
    if (f[0] == 3) printf(" %zu %zu %zu %zu", f[5], f[6], f[7], f[8]);
    putchar('\n');
}

static void row_case(char **w, size_t number) {
    static uint8_t row[600];
    size_t wide = number_of(w[2]), n;
    if (wide > 600) bad(number);
    memset(row, 0, sizeof row);
    n = bytes_of(w[3], first_bytes, number);
    memcpy(row, first_bytes, n < wide ? n : wide);
    n = bytes_of(w[4], second_bytes, number);
    printf("%d ", rov_decode((uint8_t)number_of(w[1]), second_bytes, n, row, wide) ? 1 : 0);
    for (n = 600; n > 0 && row[n - 1] == 0;) n--;
    if (n == 0) putchar('-');
    for (size_t i = 0; i < n; i++) printf("%02X", row[i]);
    putchar('\n');
}

static void paint_case(char **w, size_t number) {
    enum { MARK = 64 };
    size_t wide = number_of(w[1]), high = number_of(w[2]), n = wide * high, row_n;
    uint8_t fill[1], *page = malloc(n + MARK);
    uint64_t hash = 14695981039346656037u;
    if (!page || bytes_of(w[7], fill, number) != 1) bad(number);
    memset(page, fill[0], n);
    memset(page + n, 0x5A, MARK); /* bytes behind the page, lent with it by nobody */
    row_n = bytes_of(w[6], first_bytes, number);
    rov_paint(page, n, wide, first_bytes, row_n, number_of(w[3]), number_of(w[4]), number_of(w[5]));
    for (size_t i = 0; i < n; i++) hash = (hash ^ page[i]) * 1099511628211u;
    for (size_t i = n; i < n + MARK; i++)
        if (page[i] != 0x5A) bad(number);
    printf("%016llx %zu\n", (unsigned long long)hash, rov_count(page, n));
    free(page);
}

static void number_case(char **w, size_t number) {
    uint8_t room[40];
    size_t sign = number_of(w[1]), n;
    memset(room, 0, sizeof room);
    (void)number;
    /* a used value has no minus before 0 */
    n = rov_write_value(sign != 0, sign == 2 && number_of(w[2]) != 0, (uint32_t)number_of(w[2]), room, 32, 0);
    printf("%.*s\n", (int)n, (char *)room);
}

int main(int words, char **word) {
    FILE *in = words == 2 && strcmp(word[1], "-") ? fopen(word[1], "r") : stdin;
    size_t number = 0;
    if (!in) {
        perror(word[1]);
        return 1;
    }
    while (fgets(line, sizeof line, in)) {
        static const struct { char kind; int fields; void (*run)(char **, size_t); } kinds[] = {
            {'V', 3, value_case}, {'I', 5, item_case}, {'D', 5, row_case}, {'P', 8, paint_case}, {'N', 3, number_case}};
        char *w[9];
        int n = 0;
        size_t k;
        number++;
        for (char *p = strtok(line, " \n"); p && n < 9; p = strtok(NULL, " \n")) w[n++] = p;
        for (k = 0; k < 5; k++)
            if (n == kinds[k].fields && w[0][0] == kinds[k].kind && !w[0][1]) break;
        if (k == 5) bad(number);
        kinds[k].run(w, number);
    }
    return fflush(stdout) ? 1 : 0;
}
