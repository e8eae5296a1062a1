/* A plain C reader of the same rules, with the shapes of include/rovinuset.h: the yardstick of docs/SPEED.md. Nothing here is proved. */
#ifndef READER_H
#define READER_H
#include "../include/rovinuset.h"

uint32_t plain_afresh(size_t W, size_t H, uint8_t *state, size_t n);
bool plain_sound(size_t W, size_t H, const uint8_t *state, size_t n);
size_t plain_dots(size_t W, size_t H, const uint8_t *page, size_t n);
uint32_t plain_run(size_t W, size_t H, uint8_t *page, size_t page_n, const uint8_t *stream, size_t stream_n,
                   uint8_t *state, size_t state_n, size_t allowance, size_t *place, size_t *done, uint32_t *finding, size_t *found, size_t *ended);

/* It counts in a first pass and writes in a second. In one pass, the second call leaves a room that it refuses with 15 half written:
 * what the promise on refused rooms costs. */
uint32_t plain_translate(size_t W, size_t H, const uint8_t *stream, size_t stream_n, uint8_t *room, size_t room_n, size_t *length);
uint32_t plain_translate_once(size_t W, size_t H, const uint8_t *stream, size_t stream_n, uint8_t *room, size_t room_n, size_t *length);

#endif
