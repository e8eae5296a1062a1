/* Rovinuset for C and C++: reading PCL, drawing pages, passing a job on as a plain stream, parking a job half read. The archive is
 * target/librovinuset.a (./rovinuset archive); docs/DOOR.md has the tables: memory, numbers, how to go on. The calls may be made with any numbers
 * and any bytes. Three things are the caller's: a slice is a pointer and a length, and has that many bytes (it may be empty, its pointer is then
 * not read); `place`, `done`, `finding`, `found`, `ended`, `length`, and `W` and `H` of rov_unpark point to numbers; what is lent to one call does
 * not overlap.
 * The library has no data of its own and allocates nothing: calls may run at the same time if no two share what one of them writes. */
#ifndef ROVINUSET_H
#define ROVINUSET_H
#include <stdbool.h>
#include <stddef.h>
#include <stdint.h>

#ifdef __cplusplus
extern "C" {
#endif

/* Findings and refusals are two tables of numbers: the same number may stand in both and mean two things. Later versions add to both: take a finding
 * that is not named here as some finding, and a number given back that is not named here as refused. */

/* What was found in the stream: *finding of rov_run. The run was carried out and stopped behind it. */
enum {
    ROV_FINDING_NONE = 0,
    ROV_FINDING_ENDS_INSIDE = 1,  /* the stream ends inside a sequence, or payload is short */
    ROV_FINDING_CANNOT_STAND = 2, /* a byte that can't stand there */
    ROV_FINDING_NOT_CARRIED = 3,  /* command not carried */
    ROV_FINDING_NOT_ALLOWED = 4,  /* value not allowed */
    ROV_FINDING_STACK_LIMIT = 5,  /* push when full, or pop when empty */
    ROV_FINDING_NOT_NOW = 6,      /* not allowed at this moment */
    ROV_FINDING_DAMAGED_ROW = 7   /* damaged row: drawn as a row of zeros */
};

/* What rov_afresh, rov_run, rov_translate, rov_park and rov_unpark give back. Refused: nothing was done. */
enum {
    ROV_CARRIED_OUT = 0,
    ROV_REFUSED_PAGE_MEASURE = 10,  /* W is a multiple of 8 from 8 to 4,800, H is 1 to 6,800: not so here */
    ROV_REFUSED_PAGE_BUFFER = 11,   /* page buffer shorter than W/8 x H bytes */
    ROV_REFUSED_STREAM_LENGTH = 12, /* stream longer than 1,048,576 bytes */
    ROV_REFUSED_UNSOUND_STATE = 13, /* the bytes are no state that is sound on this page */
    ROV_REFUSED_START_PLACE = 14,   /* start place after the end of the stream */
    ROV_REFUSED_ROOM = 15,          /* plain stream or text longer than the room, or plain stream longer than 1,048,576 bytes */
    ROV_REFUSED_SEQUENCE_OPEN = 16, /* a sequence is open: the state has no text */
    ROV_REFUSED_TEXT_FORM = 17,     /* text not of the form */
    ROV_REFUSED_TEXT_STATE = 18     /* text of the form, but its measure is not allowed, or its state not sound on that page */
};

/* A state between calls, in ROV_STATE bytes that the caller keeps. Numbers are little-endian. The bytes are of this version only, the one that
 * the file VERSION names: another may lay them out otherwise. Keep no state across a change of version: what is kept over a power cut and over
 * versions is its text, by rov_park. */
#define ROV_STATE 808
enum {
    ROV_X = 0,            /* 4 bytes; lengths are in 1/7200 inch */
    ROV_Y = 4,            /* 4 */
    ROV_LEFT = 8,         /* 4: left margin */
    ROV_RIGHT = 12,       /* 4: right margin */
    ROV_TOP = 16,         /* 4: top margin */
    ROV_HMI = 20,         /* 4 */
    ROV_VMI = 24,         /* 4 */
    ROV_MARGIN = 28,      /* 4: graphics margin */
    ROV_RESOLUTION = 32,  /* 2 */
    ROV_TERMINATION = 34, /* 1: line termination */
    ROV_METHOD = 35,      /* 1: row method */
    ROV_STARTED = 36,     /* 1: raster started, 0 or 1 */
    ROV_USED = 37,        /* 1: page used, 0 or 1 */
    ROV_FIRST = 38,       /* 1: first byte of the open sequence; 0 and 0: none is open */
    ROV_GROUP = 39,       /* 1: its group byte */
    ROV_DEPTH = 40,       /* 8: stack depth */
    ROV_STACK = 48,       /* 20 times x and y, 4 bytes each, deepest first */
    ROV_SEED = 208        /* 600: seed row */
};

/* The state afresh for a page of W by H dots. 0; or 10, or 13 (n < ROV_STATE), and nothing is written. */
uint32_t rov_afresh(size_t W, size_t H, uint8_t *state, size_t n);

/* Whether the bytes are a state that is sound on this page. false where the measure is not allowed or n < ROV_STATE. */
bool rov_sound(size_t W, size_t H, const uint8_t *state, size_t n);

/* Dots set on a page, its W/8 x H bytes. 0 where the measure is not allowed or the buffer is shorter than the page. */
size_t rov_dots(size_t W, size_t H, const uint8_t *page, size_t n);

/* At most `allowance` items of the stream, from *place on, on the page. Gives 0, or the refusal (10 to 14; 13 also where state_n < ROV_STATE, or
 * the bytes of `started` or `used` are neither 0 nor 1).
 * The refusal is the first that applies, in the order of the table. With the page unused and an item to do, the page is zeroed first: take a page that
 * ended out of the buffer before the next call. Bytes of the page from W/8 x H on and of the state from ROV_STATE on are never written.
 * Not refused: page and state are as after the items, *place is behind them, *done is how many were done, *finding is the finding behind which it
 * stopped (0 if none), *found is the finding's place (0 if none), *ended is 1 if a page ended (it is in the buffer as it is to be handed
 * over), else 0.
 * Refused: page, state and *place are as they were; *done, *finding, *found and *ended are 0. */
uint32_t rov_run(size_t W, size_t H, uint8_t *page, size_t page_n, const uint8_t *stream, size_t stream_n,
                 uint8_t *state, size_t state_n, size_t allowance, size_t *place, size_t *done, uint32_t *finding, size_t *found, size_t *ended);

/* The plain stream of a stream, written to the room; no page and no state is needed. Run by rov_run on a page of the same W and H, from rov_afresh and
 * place 0 on, it has the same pages as the stream run so, no finding, and the same end state but for the row method, which is 0.
 * Gives 0: the first *length bytes of the room are the plain stream, the rest of it is untouched. Or the refusal: 10, 12, or 15 (the
 * plain stream is longer than room_n, or than 1,048,576 bytes): the room is untouched, *length is 0. */
uint32_t rov_translate(size_t W, size_t H, const uint8_t *stream, size_t stream_n, uint8_t *room, size_t room_n, size_t *length);

/* No parked text is longer: a room of so many bytes is always enough. */
#define ROV_PARKED 1905

/* A state parked: its text, with the page's measure in it, written to the front of the room. Of the state only the first ROV_STATE bytes count. The
 * page is not in the text, nor is the place: where the page is used (ROV_USED), it is to be kept beside the text. While a sequence is open there is no
 * text; a run of one item more, and again, comes to where none is, at the latest at the stream's end.
 * Gives 0: the first *length bytes of the room are the text, the rest of it is untouched. Or the refusal: 10, 13 (also where state_n < ROV_STATE, or
 * the bytes of `started` or `used` are neither 0 nor 1), 16, or 15 (the text is longer than room_n), the first that applies, in this order: the room
 * is untouched, *length is 0. */
uint32_t rov_park(size_t W, size_t H, const uint8_t *state, size_t state_n, uint8_t *room, size_t room_n, size_t *length);

/* A parked text, of any bytes and any length, read back in one pass.
 * Gives 0: *W and *H are the page's measure, which is allowed, and the state's ROV_STATE bytes are sound on that page, with no sequence open; rov_park
 * makes just this text of them. Bytes of the state from ROV_STATE on are not written. Or the refusal: 17, 18, or 13 (state_n < ROV_STATE), the first
 * that applies, in this order: nothing is written, there is no state. */
uint32_t rov_unpark(const uint8_t *text, size_t text_n, size_t *W, size_t *H, uint8_t *state, size_t state_n);

#ifdef __cplusplus
}
#endif

#endif
