/* From picture to bus bytes to glass: the rows that the price -4 lights in 1:3, written as one transfer, sent, and shown. */
#include <stdio.h>
#include <string.h>

#include "refusal.h"

enum { PART = HUMTRELLIS_PCF8532, CHIPS = 2, COLUMNS = CHIPS * HUMTRELLIS_COLUMNS, THREE = 3 };

static uint8_t registers[HUMTRELLIS_REGISTERS], ram[COLUMNS], wanted[COLUMNS], glass[COLUMNS], bytes[HUMTRELLIS_ROWS];
static size_t answer[HUMTRELLIS_ANSWER];

static uint8_t send(const uint8_t *transfer, size_t length) {
    return humtrellis_transfer(PART, CHIPS, 0, registers, sizeof registers, ram, sizeof ram, transfer, length, HUMTRELLIS_WHOLE, answer, HUMTRELLIS_ANSWER);
}

int main(void) {
    const uint8_t on[] = {0x70, 0x00, 0xC8}; /* mode-set: the display on; the writer keeps E */

    /* the picture: bit r of a column is row r */
    wanted[160] = 4; /* the minus bar, in the first column of chip 1 */
    wanted[162] = 5;
    wanted[163] = 4;
    wanted[164] = 1;

    humtrellis_power_on(PART, CHIPS, 0, ram, sizeof ram, registers, sizeof registers, answer, HUMTRELLIS_ANSWER);
    send(on, sizeof on);

    /* to bytes */
    const uint8_t number = humtrellis_write_rows(PART, CHIPS, 0, registers, sizeof registers, 0, THREE, 0, wanted, sizeof wanted,
                                                 bytes, sizeof bytes, answer, HUMTRELLIS_ANSWER);
    if (refused("the rows", number, answer)) return 1;
    const size_t length = answer[HUMTRELLIS_WRITTEN];

    /* to the glass */
    if (refused("the transfer", send(bytes, length), answer)) return 1;
    printf("%zu bytes, %zu acknowledged\n", length, answer[HUMTRELLIS_ACKNOWLEDGED]);
    humtrellis_picture(PART, CHIPS, 0, registers, sizeof registers, ram, sizeof ram, 0, 0, glass, sizeof glass, answer, HUMTRELLIS_ANSWER);
    if (memcmp(glass, wanted, sizeof wanted) != 0) {
        printf("FAIL: the glass does not show what was wanted\n");
        return 1;
    }
    printf("ok: the glass shows what was wanted, %zu elements\n", answer[HUMTRELLIS_LIT]);
    return 0;
}
