/* ASCII codes by hand: what a competent engineer writes in an afternoon. The calls do the whole job of
 * hz_read_ascii, hz_write_ascii and hz_write_wall, with the same answers and refusals. */
#ifndef HAND_H
#define HAND_H

#include <stdbool.h>
#include <stddef.h>
#include <stdint.h>

uint8_t hand_read_ascii(const uint8_t *text, size_t len, int64_t *sec, uint64_t *ticks);

uint8_t hand_write_ascii(int64_t sec, uint64_t ticks, bool day_of_year, uint8_t digits, bool z, uint8_t *out,
                         size_t room, size_t *written);

/* As hz_write_wall. */
uint8_t hand_write_wall(int64_t sec, uint64_t ticks, uint8_t *out, size_t room, size_t *written);

#endif
