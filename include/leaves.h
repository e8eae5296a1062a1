/* The proved leaves, one by one, for tests and measurements: the archive of the crate `leaf_door`, and of `leaf_step` for rov_step. A slice is a pointer and a length. */
#ifndef ROVINUSET_LEAVES_H
#define ROVINUSET_LEAVES_H
#include <stdbool.h>
#include <stddef.h>
#include <stdint.h>

/* The value at a place of a stream: 0 absolute, 1 relative with a plus, 2 with a minus; its size in ten-thousandths; the place behind it. */
uint32_t rov_value_sign(const uint8_t *s, size_t n, size_t at);
uint32_t rov_value_size(const uint8_t *s, size_t n, size_t at);
size_t rov_value_next(const uint8_t *s, size_t n, size_t at);

/* The item at a place, with the sequence (first, group) open, 0 0 for none. Fields: 0 kind (0 text, 1 code, 2 two-byte command,
 * 3 command, 4 broken), 1 the place behind it, 2 and 3 the sequence then open, 4 the byte, the command's number or the finding,
 * 5 and 6 the value's sign and size, 7 and 8 the payload's places. */
size_t rov_item_field(const uint8_t *s, size_t n, size_t at, uint8_t first, uint8_t group, uint8_t field);

/* A row of `wide` bytes decoded into the seed row, an array of 600; true if it came whole. */
bool rov_decode(uint8_t method, const uint8_t *payload, size_t n, uint8_t *row, size_t wide);

void rov_paint(uint8_t *page, size_t n, size_t wide, const uint8_t *row, size_t row_n, size_t dots, size_t from, size_t line);
void rov_clear(uint8_t *page, size_t n, size_t count);
size_t rov_count(const uint8_t *page, size_t n);

/* The plain form of a value, written at a place of the room; the place behind it. */
size_t rov_write_value(bool relative, bool negative, uint32_t size, uint8_t *room, size_t n, size_t at);

/* One step of a job, from *place on: a run, and its lines at the front of the room. The state is 808 bytes, as include/rovinuset.h has them. 0, or the number of
 * the refusal: then nothing is written, *place, *number and *findings stay, and *over is 1. *number is the number of the page being drawn and *findings the findings so far,
 * each at most 2^32, as is the page's length; *end is where the lines end, *has_page whether the page is to be written, *over whether there is no further step. */
uint32_t rov_step(size_t w, size_t h, uint8_t *page, size_t page_length, const uint8_t *stream, size_t stream_length,
                  uint8_t *state, size_t state_length, size_t *place, size_t *number, size_t *findings,
                  uint8_t *room, size_t room_length, size_t *end, size_t *has_page, size_t *over);

#endif
