/* From a price's text to the glass and back: its data bytes, the rows that they fill over a chip edge, one transfer, and the picture of -4. */
#include <stdio.h>
#include <string.h>

#include "refusal.h"

enum { PART = HUMTRELLIS_PCF8532, CHIPS = 2, COLUMNS = CHIPS * HUMTRELLIS_COLUMNS, THREE = 3, FIRST = 159 };

static uint8_t registers[HUMTRELLIS_REGISTERS], ram[COLUMNS], wanted[COLUMNS], glass[COLUMNS], bytes[HUMTRELLIS_ROWS], digits[HUMTRELLIS_PRICE], text[HUMTRELLIS_PRICE_TEXT];
static size_t answer[HUMTRELLIS_ANSWER];

static uint8_t send(const uint8_t *transfer, size_t length) {
    return humtrellis_transfer(PART, CHIPS, 0, registers, sizeof registers, ram, sizeof ram, transfer, length, HUMTRELLIS_WHOLE, answer, HUMTRELLIS_ANSWER);
}

/* In 1:3 bit k of a byte, the most significant first, is row k mod 3 of column k div 3; a byte takes three columns. */
static void fill(uint8_t *columns, uint8_t byte) {
    for (int k = 0; k < 8; k++) columns[k / 3] |= (uint8_t)((byte >> (7 - k) & 1) << k % 3);
}

static uint8_t shown(const uint8_t *columns) {
    uint8_t byte = 0;
    for (int k = 0; k < 8; k++) byte = (uint8_t)(byte << 1 | (columns[k / 3] >> k % 3 & 1));
    return byte;
}

int main(int argc, char **argv) {
    const uint8_t on[] = {0x70, 0x00, 0xC8}; /* mode-set: the display on; the writer keeps E */
    const char *price = argc > 1 ? argv[1] : "\xE2\x88\x92" "4"; /* as the market writes it, with the typographic minus */

    /* the text to data bytes */
    uint8_t number = humtrellis_price_write(THREE, (const uint8_t *)price, strlen(price), digits, sizeof digits, answer, HUMTRELLIS_ANSWER);
    if (refused("the price", number, answer)) return 1;
    const size_t count = answer[HUMTRELLIS_WRITTEN];
    if (FIRST + 3 * count > COLUMNS) {
        printf("FAIL: no room for the price from column %d on\n", FIRST);
        return 1;
    }

    /* to wanted rows, from the last column of chip 0 on, and to one transfer */
    for (size_t i = 0; i < count; i++) fill(wanted + FIRST + 3 * i, digits[i]);
    humtrellis_power_on(PART, CHIPS, 0, ram, sizeof ram, registers, sizeof registers, answer, HUMTRELLIS_ANSWER);
    send(on, sizeof on);
    number = humtrellis_write_rows(PART, CHIPS, 0, registers, sizeof registers, 0, THREE, 0, wanted, sizeof wanted, bytes, sizeof bytes, answer, HUMTRELLIS_ANSWER);
    if (refused("the rows", number, answer) || refused("the transfer", send(bytes, answer[HUMTRELLIS_WRITTEN]), answer)) return 1;

    /* to the glass, and back to text */
    humtrellis_picture(PART, CHIPS, 0, registers, sizeof registers, ram, sizeof ram, 0, 0, glass, sizeof glass, answer, HUMTRELLIS_ANSWER);
    const size_t lit = answer[HUMTRELLIS_LIT];
    for (size_t i = 0; i < count; i++) digits[i] = shown(glass + FIRST + 3 * i);
    number = humtrellis_price_read(THREE, digits, count, text, sizeof text, answer, HUMTRELLIS_ANSWER);
    if (refused("the glass", number, answer) || memcmp(glass, wanted, sizeof wanted) != 0) {
        printf("FAIL: the glass does not show the price\n");
        return 1;
    }
    printf("ok: the glass shows %.*s, %zu elements\n", (int)answer[HUMTRELLIS_WRITTEN], (const char *)text, lit);
    return 0;
}
