/* Parked texts in plain C, with the shapes of include/rovinuset.h. Nothing here is proved. */
#ifndef PARK_H
#define PARK_H
#include "../include/rovinuset.h"

uint32_t plain_park(size_t W, size_t H, const uint8_t *state, size_t state_n, uint8_t *room, size_t room_n, size_t *length);
uint32_t plain_unpark(const uint8_t *text, size_t text_n, size_t *W, size_t *H, uint8_t *state, size_t state_n);

#endif
