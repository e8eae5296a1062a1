/* The proved translator against the plain C one, in one process: translate FILE NAME [FILE NAME ..]. A line of docs/SPEED.md's table for each
 * stream, cut where its plain stream would be longer than 1 MB: how long both are; the ratio of the times, to plain C that keeps the same
 * promise (it counts first) and to plain C in one pass, which leaves a refused room half written; and how the time grows: that of sixteen
 * equal parts in one stream over sixteen times that of one part. A stream that was cut has a second line, for the whole of it: it is
 * refused with 15. Before they are timed, both sides must give the same number, length and room. */
#include "side.h"
#include "timed.h"

enum { W = 4800, H = 6800, FILL = 0xA5 };

typedef uint32_t (*translate_function)(size_t, size_t, const uint8_t *, size_t, uint8_t *, size_t, size_t *);

/* One side: its function, and what the function changes. */
struct side {
    translate_function translate;
    uint8_t *room;
    size_t length;
    uint32_t code;
};

/* A stream to be timed. */
struct bytes {
    const uint8_t *from;
    size_t n;
};

static uint8_t proved_room[MOST], plain_room[MOST], once_room[MOST], parts[MOST];
static struct side proved = {rov_translate, proved_room, 0, 0}, plain = {plain_translate, plain_room, 0, 0},
                   once = {plain_translate_once, once_room, 0, 0};

static void translate(struct side *s, struct bytes b) { s->code = s->translate(W, H, b.from, b.n, s->room, MOST, &s->length); }

static double time_of(struct side *s, struct bytes b) {
    double t = now();
    translate(s, b);
    return now() - t;
}

static int both_do_the_same(struct bytes b) {
    memset(proved_room, FILL, MOST);
    memset(plain_room, FILL, MOST);
    translate(&proved, b);
    translate(&plain, b);
    return proved.code == plain.code && proved.length == plain.length && memcmp(proved_room, plain_room, MOST) == 0;
}

/* ---- cutting a stream */
static size_t cuts[MOST + 2];

/* The places where a stream may be cut: behind whole items, with no sequence open. Gives how many there are behind the first, 0. */
static size_t find_cuts(struct bytes b) {
    static uint8_t page[W / 8 * H];
    uint8_t state[ROV_STATE];
    size_t place = 0, count = 0, done, found, ended;
    uint32_t finding;
    plain_afresh(W, H, state, ROV_STATE);
    while (place < b.n) {
        state[ROV_USED] = 1; /* no page is zeroed for an item */
        plain_run(W, H, page, sizeof page, b.from, b.n, state, ROV_STATE, 1, &place, &done, &finding, &found, &ended);
        if (finding == ROV_FINDING_ENDS_INSIDE) break;
        if (!state[ROV_FIRST]) cuts[++count] = place;
    }
    return count;
}

/* The longest beginning of a stream whose plain stream has at most so many bytes. It is found by halves: of two beginnings the
 * longer one has no shorter plain stream. */
static struct bytes beginning(struct bytes b, size_t most) {
    size_t low = 0, high = find_cuts(b);
    while (low < high) {
        size_t middle = (low + high + 1) / 2;
        translate(&plain, (struct bytes){b.from, cuts[middle]});
        if (plain.code == 0 && plain.length <= most) low = middle;
        else high = middle - 1;
    }
    return (struct bytes){b.from, cuts[low]};
}

/* ESC E and the beginning of the stream, sixteen times: each part is translated from afresh, so that all are the same work. */
static struct bytes make_parts(void) {
    static uint8_t bytes[MOST / PARTS];
    struct bytes part;
    memcpy(bytes, "\33E", 2);
    memcpy(bytes + 2, stream, sizeof bytes - 2);
    part = beginning((struct bytes){bytes, sizeof bytes}, sizeof bytes);
    for (size_t i = 0; i < PARTS; i++) memcpy(parts + i * part.n, part.from, part.n);
    return (struct bytes){parts, part.n * PARTS};
}

/* The sixteen parts have sixteen times the plain stream of one. */
static int parts_are_alike(struct bytes all) {
    size_t length;
    translate(&plain, (struct bytes){all.from, all.n / PARTS});
    length = plain.length;
    return both_do_the_same(all) && proved.code == 0 && proved.length == PARTS * length;
}

/* ---- measuring */
struct times { double proved, plain, once, proved_all, plain_all, proved_part, plain_part; };

static struct times measure(struct bytes whole, struct bytes all) {
    struct times t = {0, 0, 0, 0, 0, 0, 0};
    struct bytes part = {all.from, all.n / PARTS};
    double began = now();
    for (int turn = 0; more_turns(turn, began); turn++) {
        lower(&t.proved, time_of(&proved, whole));
        lower(&t.plain, time_of(&plain, whole));
        lower(&t.once, time_of(&once, whole));
        lower(&t.proved_all, time_of(&proved, all));
        lower(&t.plain_all, time_of(&plain, all));
        lower(&t.proved_part, time_of(&proved, part));
        lower(&t.plain_part, time_of(&plain, part));
    }
    return t;
}

static int line_of(const char *name, struct bytes whole, struct bytes all) {
    struct times t;
    uint32_t code;
    size_t length;
    if (!both_do_the_same(whole)) return 1;
    code = proved.code;
    length = proved.length;
    t = measure(whole, all);
    if (code) printf("| %s, refused | %zu | - | %.2f | %.2f | - | - |\n", name, whole.n, t.proved / t.plain, t.proved / t.once);
    else
        printf("| %s | %zu | %zu | %.2f | %.2f | %.2f | %.2f |\n", name, whole.n, length, t.proved / t.plain, t.proved / t.once,
               t.proved_all / (PARTS * t.proved_part), t.plain_all / (PARTS * t.plain_part));
    fflush(stdout);
    return 0;
}

static int lines_of(const char *file, const char *name) {
    struct bytes whole = {stream, MOST}, all;
    int refused, failed;
    if (!read_stream(file)) return 1;
    all = make_parts();
    translate(&plain, whole);
    refused = plain.code != 0;
    failed = !parts_are_alike(all) || line_of(name, refused ? beginning(whole, MOST) : whole, all) || (refused && line_of(name, whole, all));
    if (failed) fprintf(stderr, "translate: %s: DIFFERENT RESULTS\n", name);
    return failed;
}

int main(int words, char **word) {
    const char *head = "| Stream | Bytes | Plain | Ratio | Ratio to one pass | Growth, proved | Growth, plain C |\n|---|---|---|---|---|---|---|";
    return each_stream(words, word, head, lines_of);
}
