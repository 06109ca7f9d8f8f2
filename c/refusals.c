/* Tries the tester's call: on good cards it prints the answer and what then stands in the buffer; then a table of every refusal,
   each caused by bytes, numbers or want of memory of its own, with whether the whole buffer is as it was. */
#include "expect.h"

#include <stdio.h>
#include <stdlib.h>
#include <string.h>

/* The linker puts this in the place of malloc (--wrap=malloc), so that the call can be made while there is no memory. */
static int no_memory;
void *__real_malloc(size_t size);
void *__wrap_malloc(size_t size);

void *__wrap_malloc(size_t size)
{
    return no_memory ? NULL : __real_malloc(size);
}

static const uint8_t card_b[] = {0x20, 0x20, 0x31, 0x00, 0x00, 0x00, 0x01, 0x32, 0x00, 0x00, 0x00, 0x02, 0x40, 0x00, 0x03, 0x7f};
static const uint8_t card_a[] = {0x20, 0x20, 0x20, 0x31, 0x00, 0x00, 0x00, 0x01, 0x32, 0x00, 0x03, 0x00, 0x02, 0x40, 0x00, 0x04, 0x7f};
static const uint8_t wire[] = {0x20, 0x40, 0x00, 0x00, 0x7f};
static const uint8_t two_outputs[] = {0x20, 0x34, 0x00, 0x00, 0x40, 0x00, 0x01, 0x40, 0x00, 0x00, 0x7f};

static void try_call(const char *what, const uint8_t *bytes, size_t length, uint32_t care, uint32_t value, size_t room)
{
    uint8_t out[9];
    memset(out, '.', 8);
    out[8] = 0;
    uint32_t answer = expect(bytes, length, care, value, out, room);
    printf("%-30s %3u %s\n", what, answer, (const char *)out);
}

static unsigned char refused_with[256];

static void print_bytes(const uint8_t *bytes, size_t length)
{
    size_t shown = length <= 8 ? length : 6;
    for (size_t i = 0; i < shown; i++)
        printf("%s%02X", i > 0 ? " " : "", bytes[i]);
    if (shown < length)
        printf(" .. %zu bytes", length);
    printf("%s\n", length == 0 ? "none" : "");
}

/* One row of the table. No two neighbouring bytes of the buffer are alike, and it goes on behind the room that the call is told. */
static void refuse(const char *why, const uint8_t *bytes, size_t length, uint32_t care, uint32_t value, size_t room)
{
    uint8_t before[64], out[64];
    for (size_t i = 0; i < sizeof before; i++)
        before[i] = (uint8_t)(0xa0 + i);
    memcpy(out, before, sizeof out);
    uint32_t answer = expect(bytes, length, care, value, out, room);
    const char *buffer = memcmp(out, before, sizeof out) == 0 ? "unchanged" : "WRITTEN";
    if (answer < sizeof refused_with)
        refused_with[answer] = 1;
    printf("%3u %-9s %4u %5u %4zu  %-34s ", answer, buffer, care, value, room, why);
    print_bytes(bytes, length);
}

static void refuse_card(const char *why, const uint8_t *bytes, size_t length)
{
    refuse(why, bytes, length, 0, 0, 32);
}

#define BYTES(...) (const uint8_t[]){__VA_ARGS__}, sizeof (const uint8_t[]){__VA_ARGS__}

static void refuse_limits(void)
{
    uint8_t bytes[257];
    memset(bytes, 0x20, 33);
    refuse_card("4 a 33rd input", bytes, 33);

    bytes[0] = 0x20;
    memset(bytes + 1, 0x38, 256);
    refuse_card("4 a 257th net", bytes, 257);

    memset(bytes, 0x20, 32);
    size_t length = 32;
    for (uint8_t net = 0; net < 33; net++) {
        bytes[length++] = 0x40;
        bytes[length++] = net < 32 ? 0x00 : 0xff;
        bytes[length++] = net < 32 ? net : 0xff;
    }
    refuse_card("4 a 33rd output", bytes, length);
}

static void refuse_bad_cards(void)
{
    refuse_card("1 no command begins with 21", BYTES(0x21));
    refuse_card("1 3A is past the last function", BYTES(0x20, 0x3a, 0x00, 0x00));
    refuse_card("2 an operand is missing", BYTES(0x20, 0x31, 0x00, 0x00));
    refuse_card("2 B without its end", card_b, sizeof card_b - 1);
    refuse_card("2 nothing at all", card_b, 0);
    refuse_card("3 an input after a gate", BYTES(0x20, 0x38, 0x20));
    refuse_limits();
    refuse_card("5 net 1 is not declared", BYTES(0x20, 0x31, 0x00, 0x00, 0x00, 0x01));
    refuse_card("5 an output that is no net", BYTES(0x20, 0x40, 0x00, 0x01, 0x7f));
    refuse_card("6 an output named twice", BYTES(0x20, 0x40, 0x00, 0x00, 0x40, 0x00, 0x00, 0x7f));
    refuse_card("7 nothing declared", BYTES(0x7f));
    refuse_card("7 no input", BYTES(0x38, 0x40, 0x00, 0x00, 0x7f));
    refuse_card("7 no output", BYTES(0x20, 0x7f));
    refuse_card("8 a byte after the end", BYTES(0x20, 0x40, 0x00, 0x00, 0x7f, 0x00));
}

int main(void)
{
    try_call("B, 1X", card_b, sizeof card_b, 1, 1, 8);
    try_call("B, 0X", card_b, sizeof card_b, 1, 0, 8);
    try_call("B, XX", card_b, sizeof card_b, 0, 0, 8);
    try_call("A, X00", card_a, sizeof card_a, 6, 0, 8);
    try_call("A, 11X", card_a, sizeof card_a, 3, 3, 8);
    try_call("two outputs, 1", two_outputs, sizeof two_outputs, 1, 1, 8);
    try_call("two outputs, 0, room for both", two_outputs, sizeof two_outputs, 1, 0, 2);

    printf("\nrefusals: answer, buffer, care, value, room, why, card bytes\n");
    refuse_bad_cards();
    refuse("16 care 3 with one input", wire, sizeof wire, 3, 0, 32);
    refuse("16 input 2 of B fixed", card_b, sizeof card_b, 4, 0, 32);
    refuse("16 a value bit without care", card_b, sizeof card_b, 1, 3, 32);
    refuse("25 room for one of two outputs", two_outputs, sizeof two_outputs, 1, 0, 1);
    refuse("25 no room", wire, sizeof wire, 0, 0, 0);
    refuse("a bad card is told first", BYTES(0x7f), 4, 8, 0);
    refuse("a bad vector before want of room", two_outputs, sizeof two_outputs, 2, 0, 0);
    no_memory = 1;
    refuse("0 no memory to hold B", card_b, sizeof card_b, 1, 1, 32);
    refuse("no memory before a bad vector", card_b, sizeof card_b, 4, 8, 0);
    refuse("a bad card needs no memory", BYTES(0x20, 0x31, 0x00, 0x00, 0x00, 0x01), 1, 1, 32);
    no_memory = 0;

    printf("\nrefused with:");
    for (size_t answer = 0; answer < sizeof refused_with; answer++)
        if (refused_with[answer])
            printf(" %zu", answer);
    printf("\n");
    return 0;
}
