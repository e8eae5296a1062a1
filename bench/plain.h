/* The same jobs in plain C, for the ratios of docs/SPEED.md. Nothing here is proved. */
#ifndef PLAIN_H
#define PLAIN_H
#include <stddef.h>
#include <stdint.h>

/* A row of `wide` bytes by methods 0 to 3, into the seed row in place; 1 if it came whole, else 0 and a row of zeros. */
int plain_decode(uint8_t method, const uint8_t *payload, size_t n, uint8_t *row, size_t wide);

/* The same with a first look over a payload of method 3, as the proved decoder has it. */
int plain_decode_looking(uint8_t method, const uint8_t *payload, size_t n, uint8_t *row, size_t wide);

/* A row painted at `dots` dots to a bit from dot (from, line) on, clipped to the page of n bytes; a page row has at most 600. */
void plain_paint(uint8_t *page, size_t n, size_t wide, const uint8_t *row, size_t row_n, size_t dots, size_t from, size_t line);

/* The dots set in n bytes. */
size_t plain_count(const uint8_t *page, size_t n);

#endif
