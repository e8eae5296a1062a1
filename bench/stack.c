/* The stack that each call uses: it is made on a stack filled with a pattern, and the lowest word that was changed tells how deep it went. Prints a table of
 * a run's and a translation's depth for each kind of item, and one of the deepest of each call, in bytes. The call's own
 * arguments and return address are counted; what an empty function needs on the same stack is not. */
#include "side.h"
#include <stdio.h>
#include <stdlib.h>
#include <string.h>
#include <ucontext.h>

enum { W = 4800, H = 6800, PAGE = W / 8 * H, WORDS = 1 << 17 };

static const uint64_t pattern = 0xA5C3F00D5EEDBEEFu;
static uint64_t words[WORDS];
static uint8_t page[PAGE], state[ROV_STATE], room[1 << 16], text[ROV_PARKED];
static char made[1 << 16]; /* a stream that is put together here */
static ucontext_t caller, callee;

/* What the call on the other stack works on; it takes no arguments of its own, and has nothing on that stack. */
static const uint8_t *stream;
static size_t stream_n, page_n = PAGE, room_n = sizeof room, place, done, found, ended, items, length;
static uint32_t finding, stopped, refusal; /* of the last call; `stopped` is the last finding that there was */

static size_t wide = W, state_n = ROV_STATE, text_n, text_room = ROV_PARKED, read_wide, read_high, dots;
static bool sound;

static void nothing(void) {}

static void afresh(void) { refusal = rov_afresh(wide, H, state, state_n); }
static void soundness(void) { sound = rov_sound(wide, H, state, state_n); }
static void count(void) { dots = rov_dots(wide, H, page, page_n); }

/* To the stream's end, resumed at each stop. */
static void whole_run(void) {
    do {
        refusal = rov_run(wide, H, page, page_n, stream, stream_n, state, state_n, SIZE_MAX, &place, &done, &finding, &found, &ended);
        if (finding) stopped = finding;
        items += done;
    } while (!refusal && (finding || ended));
}

static void translation(void) { refusal = rov_translate(wide, H, stream, stream_n, room, room_n, &length); }

static void parking(void) { refusal = rov_park(wide, H, state, state_n, text, text_room, &text_n); }
static void reading(void) { refusal = rov_unpark(text, text_n, &read_wide, &read_high, state, state_n); }

static size_t depth_of(void (*function)(void)) {
    size_t low = 0;
    for (size_t i = 0; i < WORDS; i++) words[i] = pattern;
    getcontext(&callee);
    callee.uc_stack.ss_sp = words;
    callee.uc_stack.ss_size = sizeof words;
    callee.uc_link = &caller;
    makecontext(&callee, function, 0);
    swapcontext(&caller, &callee);
    while (low < WORDS && words[low] == pattern) low++;
    return (WORDS - low) * sizeof words[0];
}

struct kind {
    const char *name, *bytes;
    size_t n;
    uint32_t finding; /* that the stream must bring about, so that a kind is what its name says */
};
#define S(text) text, sizeof(text) - 1

/* seven positions pushed */
#define PUSH "\33&f0s0s0s0s0s0s0S"

static const struct kind kinds[] = {
    {"text and spaces", S("Rm 412 MPa \xE4\xFF"), 0},
    {"codes", S("\r\n\t\b\f\0\x7F"), 0},
    {"line termination 3", S("\33&k3G\r\n\f"), 0},
    {"ESC E, used", S("a\33E"), 0},
    {"ESC 9, ESC =", S("\0339\33="), 0},
    {"columns and rows", S("\33&a10.5c5.25R\33&a-3c+2R"), 0},
    {"decipoints", S("\33&a1440h720V\33&a+1.5h-2V"), 0},
    {"dots", S("\33*p100x50Y\33*p-7x+9Y"), 0},
    {"margins", S("\33&a5l60M\33&l2E"), 0},
    {"HMI and VMI", S("\33&k10.5H\33&l7.5C\33&l6D"), 0},
    {"push and pop", S("\33&f0S\33&f1S"), 0},
    {"push when full", S(PUSH PUSH PUSH "\33&f0S"), 5},
    {"raster start, rows down, end", S("\33*t150R\33*r1A\33*b2m9Y\33*rB\33*rC"), 0},
    {"transparent text", S("\33&p5X\33E a\xFF"), 0},
    {"row, method 0, 75", S("\33*b2W\xFF\x80"), 0},
    {"row, method 0, 100", S("\33*t100R\33*b2W\xFF\x80"), 0},
    {"row, method 0, 150", S("\33*t150R\33*b2W\xFF\x80"), 0},
    {"row, method 0, 300", S("\33*t300R\33*b2W\xFF\x80"), 0},
    {"row, method 0, shifted", S("\33*t300R\33*p3X\33*r1A\33*b2W\xFF\x80"), 0},
    {"row, method 1", S("\33*b1m4W\x05\xA5\xFF\x0F"), 0},
    {"row, method 2", S("\33*b2m5W\xFE\xA5\x01\x0F\xF0"), 0},
    {"row, method 3", S("\33*b2m5w\xFE\xA5\x01\x0F\xF0" "3m3w\x21\x11\x22" "3W\x1F\x00\x77"), 0},
    {"damaged row, method 1", S("\33*b1m3W\x05\xA5\xFF"), 7},
    {"damaged row, method 2", S("\33*b2m1W\xFE"), 7},
    {"damaged row, method 3", S("\33*b3m2W\x1F\xFF"), 7},
    {"the stream ends in a sequence", S("\33&a12.5"), 1},
    {"payload is short", S("\33*b9W\x01"), 1},
    {"a byte that can't stand", S("\33&a1c\n"), 2},
    {"ESC ESC", S("\33\33E"), 2},
    {"not carried", S("\33(s5Wabcde\33&l1X\33Z"), 3},
    {"value not allowed", S("\33&l5D"), 4},
    {"pop when empty", S("\33&f1S"), 5},
    {"not allowed at this moment", S("\33*r0A\33*t75R"), 6},
    {"nothing", S(""), 0},
};

static void must(int holds, const char *what) {
    if (holds) return;
    fprintf(stderr, "stack: %s: not what it should be\n", what);
    exit(1);
}

/* The calls, and the deepest of each so far. */
enum { AFRESH, SOUND, DOTS, RUN, TRANSLATE, PARK, UNPARK, CALLS };
static const char *const calls[CALLS] = {"rov_afresh", "rov_sound", "rov_dots", "rov_run", "rov_translate", "rov_park", "rov_unpark"};
static size_t most[CALLS];

static size_t deep(int call, void (*function)(void)) {
    size_t d = depth_of(function) - depth_of(nothing);
    if (d > most[call]) most[call] = d;
    return d;
}

struct depths {
    size_t run, translation;
};

static size_t larger(size_t a, size_t b) { return a > b ? a : b; }

/* A stream run and translated from a state afresh; d becomes the deeper of both, each. The state at its end is parked and read back. */
static void measure(struct depths *d, const char *name, const char *bytes, size_t n, uint32_t found_there) {
    must(rov_afresh(W, H, state, ROV_STATE) == 0, "afresh");
    stream = (const uint8_t *)bytes;
    stream_n = n;
    place = items = stopped = 0;
    d->run = larger(d->run, deep(RUN, whole_run));
    must(stopped == found_there && refusal == 0 && (items > 0) == (n > 0), name);
    d->translation = larger(d->translation, deep(TRANSLATE, translation));
    must(refusal == 0, name);
    deep(SOUND, soundness);
    must(sound, name);
    deep(DOTS, count);
    deep(PARK, parking);
    must(refusal == 0, name);
    deep(UNPARK, reading);
    must(refusal == 0, name);
}

static void tell(const char *name, struct depths d) { printf("| %s | %zu | %zu |\n", name, d.run, d.translation); }

/* Values of every length: 1 to 5 digits before the point, 0 to 4 places behind it, without a sign and with both. */
static void values(void) {
    static const char *const signs[] = {"", "+", "-"};
    const char *name = "values of 1 to 5 digits and 0 to 4 places";
    struct depths d = {0, 0};
    for (int digits = 1; digits <= 5; digits++)
        for (int places = 0; places <= 4; places++)
            for (int s = 0; s < 3; s++) {
                int n = sprintf(made, "\33&a%s%.*s%s%.*sC\33*p%s%.*sX\33&k%.*s%s%.*sH", signs[s], digits, "12345", places ? "." : "", places, "6789", signs[s],
                                digits, "12345", digits, "12345", places ? "." : "", places, "6789");
                measure(&d, name, made, (size_t)n, 0);
            }
    tell(name, d);
}

/* Payloads whose count has 1 to 5 digits. */
static void counts(const char *name, const char *start, char letter, int fill) {
    static const size_t long_as[] = {7, 42, 601, 4321, 12345};
    struct depths d = {0, 0};
    for (int i = 0; i < 5; i++) {
        int n = sprintf(made, "%s%zu%c", start, long_as[i], letter);
        memset(made + n, fill, long_as[i]);
        measure(&d, name, made, (size_t)n + long_as[i], 0);
    }
    tell(name, d);
}

/* A value of a thousand digits, all but the last of them zeros. */
static void long_value(void) {
    const char *name = "a value of a thousand digits";
    struct depths d = {0, 0};
    int n = sprintf(made, "\33&a%01000dC", 5);
    measure(&d, name, made, (size_t)n, 0);
    tell(name, d);
}

/* Each refusal of each call, in the order of their numbers. */
static void refused(int call, void (*function)(void), uint32_t number) {
    deep(call, function);
    must(refusal == number, calls[call]);
}

static void refusals(void) {
    stream = (const uint8_t *)made;
    stream_n = 1;
    place = 0;
    wide = 7;
    refused(AFRESH, afresh, 10);
    refused(RUN, whole_run, 10);
    refused(TRANSLATE, translation, 10);
    deep(SOUND, soundness);
    must(!sound, "sound on no page");
    deep(DOTS, count);
    must(dots == 0, "dots on no page");
    wide = W;
    page_n = PAGE - 1;
    refused(RUN, whole_run, 11);
    deep(DOTS, count);
    must(dots == 0, "dots on a short page");
    page_n = PAGE;
    stream_n = 1048577; /* nothing of it is read */
    refused(RUN, whole_run, 12);
    refused(TRANSLATE, translation, 12);
    stream_n = 1;
    state_n = ROV_STATE - 1;
    refused(AFRESH, afresh, 13);
    refused(RUN, whole_run, 13);
    deep(SOUND, soundness);
    must(!sound, "sound in too few bytes");
    state_n = ROV_STATE;
    place = 2;
    refused(RUN, whole_run, 14);
    place = 0;
    made[0] = 'a';
    room_n = 0;
    refused(TRANSLATE, translation, 15);
    room_n = sizeof room;
    deep(AFRESH, afresh);
    must(refusal == 0, "afresh");
}

/* Likewise of a state that is parked and of a text that is read; both are afresh. */
static void text_refusals(void) {
    wide = 7;
    refused(PARK, parking, 10);
    wide = W;
    state_n = ROV_STATE - 1;
    refused(PARK, parking, 13);
    state_n = ROV_STATE;
    state[ROV_FIRST] = '&';
    state[ROV_GROUP] = 'a';
    refused(PARK, parking, 16);
    state[ROV_FIRST] = state[ROV_GROUP] = 0;
    text_room = 0;
    refused(PARK, parking, 15);
    text_room = ROV_PARKED;
    refused(PARK, parking, 0);
    state_n = ROV_STATE - 1;
    refused(UNPARK, reading, 13);
    state_n = ROV_STATE;
    text[4] = '9'; /* of W: 9,800, and the row has too few pairs */
    refused(UNPARK, reading, 17);
    text[4] = '4';
    text[9] = '9'; /* of H: 9,800 */
    refused(UNPARK, reading, 18);
}

int main(void) {
    int first = 0;
    puts("| Item | Run | Translation |\n|---|---|---|");
    for (size_t i = 0; i < sizeof kinds / sizeof kinds[0]; i++) {
        struct depths d = {0, 0};
        measure(&d, kinds[i].name, kinds[i].bytes, kinds[i].n, kinds[i].finding);
        tell(kinds[i].name, d);
    }
    values();
    long_value();
    counts("rows, counts of 1 to 5 digits", "\33*b", 'W', 0xA5);
    counts("transparent text, counts of 1 to 5 digits", "\33&p", 'X', 'a');
    refusals();
    text_refusals();
    puts("\n| Call, at its deepest | Stack |\n|---|---|");
    for (int i = 0; i < CALLS; i++) {
        printf("| `%s` | %zu |\n", calls[i], most[i]);
        if (most[i] > most[first]) first = i;
    }
    printf("\nThe most is `%s`'s.\n", calls[first]);
    return 0;
}
