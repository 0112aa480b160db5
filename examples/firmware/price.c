/* A test of the firmware: it shows -4, and the model says which elements of the glass are lit. */
#include <stdio.h>
#include <string.h>

#include "firmware.h"
#include "panel.h"
#include "refusal.h"

/* What -4 lights, as the glass's drawing has it. */
static const char *const lit[] = {"minus bar (g of digit 0)", "b of digit 1", "c of digit 1", "g of digit 1", "f of digit 1"};

static uint8_t registers[HUMTRELLIS_REGISTERS], ram[COLUMNS], picture[COLUMNS];
static size_t answer[HUMTRELLIS_ANSWER];
static int failures;

/* In the place of the board's I2C driver. A refused transfer acknowledges nothing. */
static size_t to_the_model(const uint8_t *bytes, size_t length) {
    failures += refused("the firmware's transfer",
                        humtrellis_transfer(PART, CHIPS, 0, registers, sizeof registers, ram, sizeof ram, bytes, length, HUMTRELLIS_WHOLE, answer, HUMTRELLIS_ANSWER), answer);
    return answer[HUMTRELLIS_ACKNOWLEDGED];
}

static int wanted(const char *name) {
    for (size_t i = 0; i < sizeof lit / sizeof lit[0]; i++)
        if (strcmp(lit[i], name) == 0) return 1;
    return 0;
}

/* Each element of the panel by name; what is lit besides by the count. */
static void compare(size_t shown) {
    for (int i = 0; i < ELEMENTS; i++) {
        const int is_lit = picture[panel[i].column] >> panel[i].backplane & 1;
        shown -= (size_t)is_lit;
        if (is_lit == wanted(panel[i].name)) continue;
        printf("FAIL: %s is %s (column %d, backplane %d)\n", panel[i].name, is_lit ? "lit" : "dark", panel[i].column, panel[i].backplane);
        failures++;
    }
    if (shown == 0) return;
    printf("FAIL: %zu elements outside the panel are lit\n", shown);
    failures++;
}

int main(void) {
    if (refused("power-on", humtrellis_power_on(PART, CHIPS, 0, ram, sizeof ram, registers, sizeof registers, answer, HUMTRELLIS_ANSWER), answer)) return 1;
    if (firmware_show(to_the_model, -4) != 0) {
        printf("FAIL: the firmware says that the price is not shown: %zu bytes acknowledged\n", answer[HUMTRELLIS_ACKNOWLEDGED]);
        failures++;
    }
    if (refused("the picture", humtrellis_picture(PART, CHIPS, 0, registers, sizeof registers, ram, sizeof ram, 0, 0, picture, sizeof picture, answer, HUMTRELLIS_ANSWER), answer)) return 1;
    compare(answer[HUMTRELLIS_LIT]);
    if (failures == 0) printf("ok: the glass shows -4\n");
    return failures != 0;
}
