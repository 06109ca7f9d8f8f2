/* What a good card shows at its outputs for a test vector: the tester's call. */
#ifndef ROSQHEWI_EXPECT_H
#define ROSQHEWI_EXPECT_H

#include <stddef.h>
#include <stdint.h>

/*
 * bytes, length   the card's commands
 * care, value     bit j of care is 1 where input j is fixed, bit j of value is its level there, and 0 elsewhere
 * out, room       where one character '0', '1' or 'X' is written for each output, from output 0
 *
 * bytes and out must not overlap, and neither may be null, also where its length is 0.
 *
 * Answers the number of outputs, 1 to 32; the bytes of out behind them stay as they were.
 * Any other answer is a refusal, 100 plus its number, and leaves out as it was. Tested in this order:
 *   101 .. 108   the bytes are no card: 100 plus the number of the first broken rule
 *   100          the bytes are a card, but there is no memory to hold it
 *   116          a care bit at an input that the card has not, or a value bit without its care bit
 *   125          room is less than the number of outputs
 */
uint32_t expect(const uint8_t *bytes, size_t length, uint32_t care, uint32_t value, uint8_t *out, size_t room);

#endif
