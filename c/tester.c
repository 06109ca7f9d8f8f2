/* Tries the tester's call on good and bad cards and prints what it answers and what stands in the buffer afterwards. */
#include "expect.h"

#include <stdio.h>
#include <string.h>

static const uint8_t card_b[] = {0x20, 0x20, 0x31, 0x00, 0x00, 0x00, 0x01, 0x32, 0x00, 0x00, 0x00, 0x02, 0x40, 0x00, 0x03, 0x7f};
static const uint8_t card_a[] = {0x20, 0x20, 0x20, 0x31, 0x00, 0x00, 0x00, 0x01, 0x32, 0x00, 0x03, 0x00, 0x02, 0x40, 0x00, 0x04, 0x7f};
static const uint8_t two_outputs[] = {0x20, 0x34, 0x00, 0x00, 0x40, 0x00, 0x01, 0x40, 0x00, 0x00, 0x7f};

static void try_call(const char *what, const uint8_t *bytes, size_t length, uint32_t care, uint32_t value, size_t room)
{
    uint8_t out[9];
    memset(out, '.', 8);
    out[8] = 0;
    uint32_t answer = expect(bytes, length, care, value, out, room);
    printf("%-34s %3u %s\n", what, answer, (const char *)out);
}

static void try_bad(const char *what, const uint8_t *bytes, size_t length)
{
    try_call(what, bytes, length, 0, 0, 8);
}

int main(void)
{
    try_call("B, 1X", card_b, sizeof card_b, 1, 1, 8);
    try_call("B, 0X", card_b, sizeof card_b, 1, 0, 8);
    try_call("B, XX", card_b, sizeof card_b, 0, 0, 8);
    try_call("A, X00", card_a, sizeof card_a, 6, 0, 8);
    try_call("A, 11X", card_a, sizeof card_a, 3, 3, 8);
    try_call("two outputs, 1", two_outputs, sizeof two_outputs, 1, 1, 8);
    try_call("two outputs, 0, room for both", two_outputs, sizeof two_outputs, 1, 0, 2);
    try_call("two outputs, room for one", two_outputs, sizeof two_outputs, 1, 0, 1);
    try_call("a fixed input too many", card_b, sizeof card_b, 4, 0, 8);
    try_call("a value bit without care", card_b, sizeof card_b, 1, 3, 8);
    try_call("no vector, and no room", two_outputs, sizeof two_outputs, 2, 0, 0);

    try_bad("1 unknown byte", (const uint8_t[]){0x20, 0x3a}, 2);
    try_bad("2 cut inside a command", card_b, 5);
    try_bad("2 no end", card_b, sizeof card_b - 1);
    try_bad("2 nothing at all", card_b, 0);
    try_bad("3 input after a gate", (const uint8_t[]){0x20, 0x38, 0x20}, 3);
    uint8_t inputs[33];
    memset(inputs, 0x20, sizeof inputs);
    try_bad("4 a 33rd input", inputs, sizeof inputs);
    try_bad("5 operand not declared", (const uint8_t[]){0x20, 0x31, 0x00, 0x00, 0x00, 0x01}, 6);
    try_bad("6 output named twice", (const uint8_t[]){0x20, 0x40, 0x00, 0x00, 0x40, 0x00, 0x00, 0x7f}, 8);
    try_bad("7 nothing declared", (const uint8_t[]){0x7f}, 1);
    try_bad("8 a byte after the end", (const uint8_t[]){0x20, 0x40, 0x00, 0x00, 0x7f, 0x00}, 6);
    try_call("bad card before bad vector", (const uint8_t[]){0x7f}, 1, 4, 8, 0);
    return 0;
}
