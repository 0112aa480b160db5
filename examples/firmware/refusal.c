#include "refusal.h"

#include <stdio.h>

/* What each number means, and what its place counts, where it has one. */
static const struct { const char *meaning, *place; } refusals[] = {
    [HUMTRELLIS_REFUSED_EMPTY_TRANSFER] = {"an empty transfer", NULL},
    [HUMTRELLIS_REFUSED_LONG_TRANSFER] = {"a transfer or a price that is too long", NULL},
    [HUMTRELLIS_REFUSED_CHIP_COUNT] = {"too many chips in a group", NULL},
    [HUMTRELLIS_REFUSED_RAM_LENGTH] = {"the RAM's or the wanted rows' length", NULL},
    [HUMTRELLIS_REFUSED_COLUMN] = {"a column over 15", "place"},
    [HUMTRELLIS_REFUSED_REGISTER] = {"a register, mode or bank out of range", NULL},
    [HUMTRELLIS_REFUSED_COMMAND] = {"an undefined command", "byte"},
    [HUMTRELLIS_REFUSED_VIEW] = {"a group or phase over 1", NULL},
    [HUMTRELLIS_REFUSED_OUT_LENGTH] = {"the length of `out`", NULL},
    [HUMTRELLIS_REFUSED_CHIP_LIST] = {"too many plain chips", NULL},
    [HUMTRELLIS_REFUSED_CHIP] = {"a plain chip out of range", "chip"},
    [HUMTRELLIS_REFUSED_LOG] = {"a log's head", NULL},
    [HUMTRELLIS_REFUSED_RECORD] = {"a record that is cut short", "offset"},
    [HUMTRELLIS_REFUSED_LOG_LENGTH] = {"a log or a RAM image that is too long", NULL},
    [HUMTRELLIS_REFUSED_SYMBOL] = {"no symbol of a price", "byte"},
    [HUMTRELLIS_REFUSED_PART] = {"an unknown part", NULL},
    [HUMTRELLIS_REFUSED_CONTROL] = {"stray bits in a control byte", "byte"},
    [HUMTRELLIS_REFUSED_UNKNOWN] = {"data while pointer or counter is unknown", "byte"},
    [HUMTRELLIS_REFUSED_BITS] = {"bits of the last byte, not 1 to 8", NULL},
    [HUMTRELLIS_REFUSED_BODY] = {"a record's body under two bytes", "offset"},
    [HUMTRELLIS_REFUSED_FORM] = {"no record of a RAM image", "offset"},
    [HUMTRELLIS_REFUSED_CHECKSUM] = {"a record's checksum", "offset"},
    [HUMTRELLIS_REFUSED_TYPE] = {"a record's type, not 00 or 01", "offset"},
    [HUMTRELLIS_REFUSED_ADDRESS] = {"an address outside the group's columns", "offset"},
    [HUMTRELLIS_REFUSED_TWICE] = {"an address that is given twice", "offset"},
    [HUMTRELLIS_REFUSED_MISSING] = {"an address that is not given", "address"},
    [HUMTRELLIS_REFUSED_END] = {"no end record, or bytes after it", NULL},
};

int refused(const char *call, uint8_t number, const size_t *answer) {
    if (number == HUMTRELLIS_TAKEN) return 0;
    if (number == HUMTRELLIS_SIZE) /* the answer was not written */
        printf("FAIL: %s: %u, registers, chips or an answer of another size\n", call, number);
    else if (number >= sizeof refusals / sizeof refusals[0] || !refusals[number].meaning) /* of a later version */
        printf("FAIL: %s: %u, place %zu\n", call, number, answer[HUMTRELLIS_PLACE]);
    else if (refusals[number].place)
        printf("FAIL: %s: %u, %s, %s %zu\n", call, number, refusals[number].meaning, refusals[number].place, answer[HUMTRELLIS_PLACE]);
    else
        printf("FAIL: %s: %u, %s\n", call, number, refusals[number].meaning);
    return 1;
}
