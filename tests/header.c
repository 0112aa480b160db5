/* Every name of include/humtrellis.h against the library, compiled as C and as C++. What is expected comes from the paper. */
#include <stdio.h>
#include <string.h>

#include <humtrellis.h>

static int failures = 0;

#define EXPECT(fact) ((fact) ? (void)0 : (void)(failures++, printf("tests/header.c:%d: not so: %s\n", __LINE__, #fact)))

/* A bus of one PCF8532 in each group, or of four PCA85133 in group 0. */
enum { RAM = 2 * HUMTRELLIS_COLUMNS };
static uint8_t registers[HUMTRELLIS_REGISTERS], ram[RAM], picture[HUMTRELLIS_COLUMNS], chips[17 * HUMTRELLIS_CHIP], text[HUMTRELLIS_TEXT];
static uint8_t many[65537], wanted[RAM], written[HUMTRELLIS_THREE];
static size_t answer[HUMTRELLIS_ANSWER];

static uint8_t power_on(void) {
    memset(ram, 0, sizeof ram);
    return humtrellis_power_on(HUMTRELLIS_PCF8532, 1, 1, ram, sizeof ram, registers, sizeof registers, answer, HUMTRELLIS_ANSWER);
}

static uint8_t send_bits(const uint8_t *bytes, size_t length, uint8_t bits) {
    return humtrellis_transfer(HUMTRELLIS_PCF8532, 1, 1, registers, sizeof registers, ram, sizeof ram, bytes, length, bits, answer, HUMTRELLIS_ANSWER);
}

static uint8_t send(const uint8_t *bytes, size_t length) { return send_bits(bytes, length, HUMTRELLIS_WHOLE); }

static uint8_t show(uint8_t group, uint8_t phase, size_t length) {
    return humtrellis_picture(HUMTRELLIS_PCF8532, 1, 1, registers, sizeof registers, ram, sizeof ram, group, phase, picture, length, answer, HUMTRELLIS_ANSWER);
}

static uint8_t send_plain_bits(uint8_t part, size_t count, const uint8_t *bytes, size_t length, uint8_t bits) {
    return humtrellis_plain_transfer(part, chips, count * HUMTRELLIS_CHIP, bytes, length, bits, answer, HUMTRELLIS_ANSWER);
}

static uint8_t send_plain(uint8_t part, size_t count, const uint8_t *bytes, size_t length) {
    return send_plain_bits(part, count, bytes, length, HUMTRELLIS_WHOLE);
}

static uint8_t power_on_chip(uint8_t part, size_t length) {
    return humtrellis_chip_power_on(part, chips, length, answer, HUMTRELLIS_ANSWER);
}

static uint8_t show_chip(uint8_t part, size_t length, uint8_t phase, size_t out_length) {
    return humtrellis_chip_picture(part, chips, length, phase, picture, out_length, answer, HUMTRELLIS_ANSWER);
}

/* One command to group 1 sets one register, and the others stay 0. */
static void registers_by_name(void) {
    static const struct { uint8_t command; size_t index; uint8_t value; } set[] = {
        {0xC8, HUMTRELLIS_E, 1}, {0xC4, HUMTRELLIS_B, 1}, {0xC2, HUMTRELLIS_M, 2},  {0x09, HUMTRELLIS_P, 144}, {0xE3, HUMTRELLIS_A, 3},
        {0xFA, HUMTRELLIS_I, 1}, {0xF9, HUMTRELLIS_O, 1}, {0xF4, HUMTRELLIS_AB, 1}, {0xF2, HUMTRELLIS_BF, 2},
    };
    for (size_t i = 0; i < sizeof set / sizeof set[0]; i++) {
        const uint8_t bytes[] = {0x72, 0x00, set[i].command};
        EXPECT(power_on() == HUMTRELLIS_TAKEN);
        EXPECT(send(bytes, sizeof bytes) == HUMTRELLIS_TAKEN);
        for (size_t index = 0; index < HUMTRELLIS_REGISTERS; index++)
            EXPECT(registers[index] == (index == HUMTRELLIS_SET + set[i].index ? set[i].value : 0));
    }
}

/* The greatest value of each register is taken, and one more refused. */
static void ranges(void) {
    static const struct { size_t index; uint8_t greatest; } range[] = {
        {HUMTRELLIS_E, 1}, {HUMTRELLIS_B, 1}, {HUMTRELLIS_M, 3},  {HUMTRELLIS_P, 159}, {HUMTRELLIS_A, 4},
        {HUMTRELLIS_I, 1}, {HUMTRELLIS_O, 1}, {HUMTRELLIS_AB, 1}, {HUMTRELLIS_BF, 3},
        {HUMTRELLIS_UNKNOWN_HIGH, 1}, {HUMTRELLIS_UNKNOWN_LOW, 1}, {HUMTRELLIS_UNKNOWN_DEVICE, 1},
    };
    const uint8_t address[] = {0x70};
    for (size_t i = 0; i < HUMTRELLIS_SET; i++) {
        power_on();
        registers[range[i].index] = range[i].greatest;
        EXPECT(send(address, 1) == HUMTRELLIS_TAKEN);
        registers[range[i].index]++;
        EXPECT(send(address, 1) == HUMTRELLIS_REFUSED_REGISTER);
    }
}

/* A data byte covers 8, 4, 3, 2 columns for 1, 2, 3, 4 backplanes. */
static void modes(void) {
    static const struct { uint8_t mode, columns; } width[] = {{1, 8}, {2, 4}, {3, 3}, {0, 2}};
    const uint8_t data[] = {0x70, 0x40, 0xFF};
    for (size_t i = 0; i < 4; i++) {
        power_on();
        registers[HUMTRELLIS_M] = width[i].mode;
        EXPECT(send(data, sizeof data) == HUMTRELLIS_TAKEN);
        EXPECT(registers[HUMTRELLIS_P] == width[i].columns);
    }
}

/* 1:3, one chip, pointer 159, FF: 3 bits stored, 5 discarded, the data byte not acknowledged. */
static void answers(void) {
    const uint8_t past_the_end[] = {0x70, 0x80, 0xCB, 0x80, 0x09, 0x80, 0x4F, 0x40, 0xFF};
    const uint8_t group1[] = {0x72, 0x80, 0xC8, 0x40, 0xA5};
    EXPECT(power_on() == HUMTRELLIS_TAKEN);
    EXPECT(send(past_the_end, sizeof past_the_end) == HUMTRELLIS_TAKEN);
    EXPECT(answer[HUMTRELLIS_ACKNOWLEDGED] == 8 && answer[HUMTRELLIS_STORED] == 3 && answer[HUMTRELLIS_DISCARDED] == 5);
    EXPECT(answer[HUMTRELLIS_ACKNOWLEDGED_BY] == HUMTRELLIS_NONE && HUMTRELLIS_NONE == 4 && HUMTRELLIS_VERSION == 9);
    EXPECT(ram[HUMTRELLIS_COLUMNS - 1] == 7 && ram[HUMTRELLIS_COLUMNS] == 0);
    EXPECT(send(group1, sizeof group1) == HUMTRELLIS_TAKEN && answer[HUMTRELLIS_ACKNOWLEDGED_BY] == 0);
    EXPECT(ram[HUMTRELLIS_COLUMNS] == 5 && ram[HUMTRELLIS_COLUMNS + 1] == 10);
    EXPECT(show(1, 0, sizeof picture) == HUMTRELLIS_TAKEN);
    EXPECT(answer[HUMTRELLIS_LIT] == 4 && answer[HUMTRELLIS_ACKNOWLEDGED_BY] == 0 && picture[0] == 5 && picture[1] == 10);
}

static void refusals(void) {
    const uint8_t undefined[] = {0x70, 0x00, 0x00, 0xFC}, stray[] = {0x70, 0x80, 0xC8, 0x41, 0xA5};
    EXPECT(power_on() == HUMTRELLIS_TAKEN);
    EXPECT(send(undefined, 0) == HUMTRELLIS_REFUSED_EMPTY_TRANSFER);
    EXPECT(send(many, 4097) == HUMTRELLIS_REFUSED_LONG_TRANSFER);
    EXPECT(send(undefined, sizeof undefined) == HUMTRELLIS_REFUSED_COMMAND);
    EXPECT(answer[HUMTRELLIS_NUMBER] == HUMTRELLIS_REFUSED_COMMAND && answer[HUMTRELLIS_PLACE] == 3 && answer[HUMTRELLIS_ACKNOWLEDGED_BY] == HUMTRELLIS_NONE);
    EXPECT(send(stray, sizeof stray) == HUMTRELLIS_REFUSED_CONTROL);
    EXPECT(answer[HUMTRELLIS_NUMBER] == HUMTRELLIS_REFUSED_CONTROL && answer[HUMTRELLIS_PLACE] == 3);
    EXPECT(show(2, 0, sizeof picture) == HUMTRELLIS_REFUSED_VIEW && show(0, 2, sizeof picture) == HUMTRELLIS_REFUSED_VIEW);
    EXPECT(show(0, 0, sizeof picture - 1) == HUMTRELLIS_REFUSED_OUT_LENGTH);
    EXPECT(humtrellis_power_on(HUMTRELLIS_PCF8532, 5, 0, ram, 0, registers, sizeof registers, answer, HUMTRELLIS_ANSWER) == HUMTRELLIS_REFUSED_CHIP_COUNT);
    EXPECT(humtrellis_power_on(HUMTRELLIS_PCF8532, 1, 0, ram, 0, registers, sizeof registers, answer, HUMTRELLIS_ANSWER) == HUMTRELLIS_REFUSED_RAM_LENGTH);
    ram[7] = 16;
    registers[HUMTRELLIS_E] = 1;
    EXPECT(humtrellis_power_on(HUMTRELLIS_PCF8532, 1, 1, ram, RAM, registers, sizeof registers, answer, HUMTRELLIS_ANSWER) == HUMTRELLIS_REFUSED_COLUMN);
    EXPECT(answer[HUMTRELLIS_PLACE] == 7 && registers[HUMTRELLIS_E] == 0);
}

static void sizes(void) {
    EXPECT(humtrellis_power_on(HUMTRELLIS_PCF8532, 1, 1, ram, RAM, registers, HUMTRELLIS_REGISTERS - 1, answer, HUMTRELLIS_ANSWER) == HUMTRELLIS_SIZE);
    EXPECT(humtrellis_power_on(HUMTRELLIS_PCF8532, 1, 1, ram, RAM, registers, HUMTRELLIS_REGISTERS, answer, HUMTRELLIS_ANSWER - 1) == HUMTRELLIS_SIZE);
    EXPECT(humtrellis_plain_transfer(HUMTRELLIS_PCF8532, chips, HUMTRELLIS_CHIP - 1, ram, 1, HUMTRELLIS_WHOLE, answer, HUMTRELLIS_ANSWER) == HUMTRELLIS_SIZE);
}

/* Two chips at one place: SA0 1, subaddress 2. A byte that both acknowledge counts once. */
static void plain_chips(void) {
    const uint8_t data[] = {0x72, 0x80, 0xE2, 0x40, 0xA5};
    uint8_t *second = chips + HUMTRELLIS_CHIP;
    memset(chips, 0, sizeof chips);
    chips[HUMTRELLIS_CHIP_SA0] = second[HUMTRELLIS_CHIP_SA0] = 1;
    chips[HUMTRELLIS_CHIP_SUBADDRESS] = second[HUMTRELLIS_CHIP_SUBADDRESS] = 2;
    second[HUMTRELLIS_CHIP_REGISTERS + HUMTRELLIS_P] = 7;
    EXPECT(send_plain(HUMTRELLIS_PCF8532, 2, data, sizeof data) == HUMTRELLIS_TAKEN);
    EXPECT(answer[HUMTRELLIS_ACKNOWLEDGED] == 5 && answer[HUMTRELLIS_ACKNOWLEDGED_BY] == 2);
    EXPECT(chips[0] == 5 && chips[1] == 10 && second[7] == 5 && second[8] == 10);
    EXPECT(second[HUMTRELLIS_CHIP_REGISTERS + HUMTRELLIS_P] == 9);
    second[HUMTRELLIS_CHIP_SUBADDRESS] = 4;
    EXPECT(send_plain(HUMTRELLIS_PCF8532, 2, data, sizeof data) == HUMTRELLIS_REFUSED_CHIP && answer[HUMTRELLIS_PLACE] == 1);
    EXPECT(send_plain(HUMTRELLIS_PCF8532, 9, data, sizeof data) == HUMTRELLIS_REFUSED_CHIP_LIST);
}

/* Power-on clears the registers, also bad ones, and keeps the rest; the picture is of 160 bytes. */
static void one_chip(void) {
    memset(chips, 0, sizeof chips);
    chips[3] = 9;
    chips[HUMTRELLIS_CHIP_SA0] = 1;
    chips[HUMTRELLIS_CHIP_REGISTERS + HUMTRELLIS_P] = 200;
    EXPECT(power_on_chip(HUMTRELLIS_PCF8532, HUMTRELLIS_CHIP) == HUMTRELLIS_TAKEN);
    EXPECT(chips[3] == 9 && chips[HUMTRELLIS_CHIP_SA0] == 1 && chips[HUMTRELLIS_CHIP_REGISTERS + HUMTRELLIS_P] == 0);
    chips[HUMTRELLIS_CHIP_REGISTERS + HUMTRELLIS_E] = 1;
    EXPECT(show_chip(HUMTRELLIS_PCF8532, HUMTRELLIS_CHIP, 0, HUMTRELLIS_COLUMNS) == HUMTRELLIS_TAKEN && answer[HUMTRELLIS_LIT] == 2 && picture[3] == 9);
    EXPECT(show_chip(HUMTRELLIS_PCF8532, HUMTRELLIS_CHIP, 2, HUMTRELLIS_COLUMNS) == HUMTRELLIS_REFUSED_VIEW);
    EXPECT(show_chip(HUMTRELLIS_PCF8532, HUMTRELLIS_CHIP, 0, HUMTRELLIS_COLUMNS - 1) == HUMTRELLIS_REFUSED_OUT_LENGTH);
    chips[HUMTRELLIS_CHIP_SUBADDRESS] = 4;
    EXPECT(show_chip(HUMTRELLIS_PCF8532, HUMTRELLIS_CHIP, 0, HUMTRELLIS_COLUMNS) == HUMTRELLIS_REFUSED_CHIP);
    EXPECT(power_on_chip(HUMTRELLIS_PCF8532, HUMTRELLIS_CHIP) == HUMTRELLIS_REFUSED_CHIP && chips[HUMTRELLIS_CHIP_REGISTERS + HUMTRELLIS_E] == 0);
    EXPECT(power_on_chip(HUMTRELLIS_PCF8532, HUMTRELLIS_CHIP - 1) == HUMTRELLIS_SIZE && show_chip(HUMTRELLIS_PCF8532, HUMTRELLIS_CHIP + 1, 0, HUMTRELLIS_COLUMNS) == HUMTRELLIS_SIZE);
}

static uint8_t send_to_four(uint8_t part, const uint8_t *bytes, size_t length) {
    return humtrellis_transfer(part, 4, 0, registers, sizeof registers, ram, RAM, bytes, length, HUMTRELLIS_WHOLE, answer, HUMTRELLIS_ANSWER);
}

static uint8_t show_four(uint8_t part, size_t length) {
    static uint8_t out[RAM];
    return humtrellis_picture(part, 4, 0, registers, sizeof registers, ram, RAM, 0, 0, out, length, answer, HUMTRELLIS_ANSWER);
}

/* PCA85133: 80 columns, one pointer command up to 4F, eight subaddresses, 8 where no chip acknowledged. */
static void smaller_part(void) {
    const uint8_t part = HUMTRELLIS_PCA85133, past[] = {0x70, 0x80, 0xE7, 0x40, 0xA5}, undefined[] = {0x70, 0x00, 0x50};
    const uint8_t edge[] = {0x70, 0x80, 0xC8, 0x80, 0x4F, 0x40, 0xA5};
    memset(ram, 0, sizeof ram);
    EXPECT(HUMTRELLIS_PCF8532 == 0 && HUMTRELLIS_PCA85133 == 1 && HUMTRELLIS_PCA85133_COLUMNS == 80 && HUMTRELLIS_PCA85133_NONE == 8);
    EXPECT(humtrellis_power_on(part, 4, 0, ram, RAM, registers, sizeof registers, answer, HUMTRELLIS_ANSWER) == HUMTRELLIS_TAKEN);
    EXPECT(send_to_four(part, edge, sizeof edge) == HUMTRELLIS_TAKEN && answer[HUMTRELLIS_ACKNOWLEDGED_BY] == 1);
    EXPECT(ram[79] == 5 && ram[80] == 10 && registers[HUMTRELLIS_P] == 1 && registers[HUMTRELLIS_A] == 1);
    EXPECT(show_four(part, RAM) == HUMTRELLIS_TAKEN && answer[HUMTRELLIS_LIT] == 4);
    EXPECT(show_four(part, RAM / 2) == HUMTRELLIS_REFUSED_OUT_LENGTH);
    EXPECT(send_to_four(part, past, sizeof past) == HUMTRELLIS_TAKEN && answer[HUMTRELLIS_ACKNOWLEDGED_BY] == HUMTRELLIS_PCA85133_NONE);
    EXPECT(send_to_four(part, undefined, sizeof undefined) == HUMTRELLIS_REFUSED_COMMAND && answer[HUMTRELLIS_ACKNOWLEDGED_BY] == HUMTRELLIS_PCA85133_NONE);
    EXPECT(humtrellis_power_on(part, 9, 0, ram, RAM, registers, sizeof registers, answer, HUMTRELLIS_ANSWER) == HUMTRELLIS_REFUSED_CHIP_COUNT);
}

/* A plain PCA85133: the bytes behind its 80 columns have any value, and stay. At most 16 make a list. */
static void smaller_chips(void) {
    const uint8_t part = HUMTRELLIS_PCA85133, data[] = {0x70, 0x80, 0xE7, 0x80, 0x4E, 0x40, 0xA5};
    memset(chips, 0, sizeof chips);
    memset(chips + HUMTRELLIS_PCA85133_COLUMNS, 255, HUMTRELLIS_COLUMNS - HUMTRELLIS_PCA85133_COLUMNS);
    chips[HUMTRELLIS_CHIP_SUBADDRESS] = 7;
    EXPECT(power_on_chip(part, HUMTRELLIS_CHIP) == HUMTRELLIS_TAKEN);
    EXPECT(send_plain(part, 16, data, sizeof data) == HUMTRELLIS_TAKEN && answer[HUMTRELLIS_ACKNOWLEDGED_BY] == 7);
    EXPECT(chips[78] == 5 && chips[79] == 10 && chips[80] == 255 && chips[HUMTRELLIS_CHIP_REGISTERS + HUMTRELLIS_A] == 8);
    chips[HUMTRELLIS_CHIP_REGISTERS + HUMTRELLIS_E] = 1;
    EXPECT(show_chip(part, HUMTRELLIS_CHIP, 0, HUMTRELLIS_PCA85133_COLUMNS) == HUMTRELLIS_TAKEN && answer[HUMTRELLIS_LIT] == 4 && picture[78] == 5);
    EXPECT(show_chip(part, HUMTRELLIS_CHIP, 0, HUMTRELLIS_COLUMNS) == HUMTRELLIS_REFUSED_OUT_LENGTH);
    EXPECT(send_plain(part, 17, data, sizeof data) == HUMTRELLIS_REFUSED_CHIP_LIST);
    chips[HUMTRELLIS_CHIP_SUBADDRESS] = 8;
    EXPECT(send_plain(part, 16, data, sizeof data) == HUMTRELLIS_REFUSED_CHIP);
}

/* The marks of group 0, or of a chip. */
static int marks_are(const uint8_t *set, uint8_t high, uint8_t low, uint8_t device) {
    return set[HUMTRELLIS_UNKNOWN_HIGH] == high && set[HUMTRELLIS_UNKNOWN_LOW] == low && set[HUMTRELLIS_UNKNOWN_DEVICE] == device;
}

/* A cut data byte stores nothing and leaves three marks; each command restores its own, and then data is taken again. */
static void cut_bytes(void) {
    const uint8_t data[] = {0x70, 0x80, 0xC8, 0x40, 0xA5, 0x5A}, high[] = {0x70, 0x00, 0x00}, low[] = {0x70, 0x00, 0x40}, device[] = {0x70, 0x00, 0xE0};
    EXPECT(HUMTRELLIS_WHOLE == 8 && HUMTRELLIS_SET == 12 && HUMTRELLIS_REGISTERS == 24 && HUMTRELLIS_UNKNOWN_HIGH == 9 && HUMTRELLIS_UNKNOWN_DEVICE == 11);
    EXPECT(power_on() == HUMTRELLIS_TAKEN && marks_are(registers, 0, 0, 0));
    EXPECT(send_bits(data, sizeof data, 0) == HUMTRELLIS_REFUSED_BITS && send_bits(data, sizeof data, 9) == HUMTRELLIS_REFUSED_BITS);
    EXPECT(HUMTRELLIS_REFUSED_BITS == 19 && answer[HUMTRELLIS_PLACE] == 0 && marks_are(registers, 0, 0, 0));
    EXPECT(send_bits(data, sizeof data, 7) == HUMTRELLIS_TAKEN && marks_are(registers, 1, 1, 1) && registers[HUMTRELLIS_P] == 2);
    EXPECT(answer[HUMTRELLIS_ACKNOWLEDGED] == 5 && answer[HUMTRELLIS_STORED] == 8 && answer[HUMTRELLIS_DISCARDED] == 0 && answer[HUMTRELLIS_ACKNOWLEDGED_BY] == 0);
    EXPECT(ram[0] == 5 && ram[1] == 10 && ram[2] == 0 && marks_are(registers + HUMTRELLIS_SET, 0, 0, 0));
    EXPECT(send(data, sizeof data) == HUMTRELLIS_REFUSED_UNKNOWN && HUMTRELLIS_REFUSED_UNKNOWN == 18 && answer[HUMTRELLIS_PLACE] == 4);
    EXPECT(send(high, sizeof high) == HUMTRELLIS_TAKEN && marks_are(registers, 0, 1, 1));
    EXPECT(send(low, sizeof low) == HUMTRELLIS_TAKEN && marks_are(registers, 0, 0, 1));
    EXPECT(send_bits(device, sizeof device, 1) == HUMTRELLIS_TAKEN && marks_are(registers, 0, 0, 1) && answer[HUMTRELLIS_ACKNOWLEDGED] == 2);
    EXPECT(send_bits(data, sizeof data, 7) == HUMTRELLIS_REFUSED_UNKNOWN);
    EXPECT(send(device, sizeof device) == HUMTRELLIS_TAKEN && marks_are(registers, 0, 0, 0));
    EXPECT(send(data, sizeof data) == HUMTRELLIS_TAKEN && ram[2] == 10 && ram[3] == 5);
}

/* The same of two plain PCA85133, of which one pointer command restores both pointer marks; power-on restores all. */
static void cut_chips(void) {
    const uint8_t part = HUMTRELLIS_PCA85133, data[] = {0x70, 0x40, 0xA5}, pointer[] = {0x70, 0x00, 0x4E}, device[] = {0x70, 0x00, 0xE0};
    const uint8_t *second = chips + HUMTRELLIS_CHIP + HUMTRELLIS_CHIP_REGISTERS;
    memset(chips, 0, sizeof chips);
    EXPECT(HUMTRELLIS_CHIP == 174);
    EXPECT(send_plain_bits(part, 2, data, sizeof data, 9) == HUMTRELLIS_REFUSED_BITS);
    EXPECT(send_plain_bits(part, 2, data, sizeof data, 3) == HUMTRELLIS_TAKEN && answer[HUMTRELLIS_ACKNOWLEDGED] == 2);
    EXPECT(answer[HUMTRELLIS_ACKNOWLEDGED_BY] == HUMTRELLIS_PCA85133_NONE && marks_are(second, 1, 1, 1) && chips[0] == 0);
    EXPECT(send_plain(part, 2, pointer, sizeof pointer) == HUMTRELLIS_TAKEN && marks_are(second, 0, 0, 1));
    EXPECT(power_on_chip(part, HUMTRELLIS_CHIP) == HUMTRELLIS_TAKEN && marks_are(chips + HUMTRELLIS_CHIP_REGISTERS, 0, 0, 0));
    EXPECT(send_plain(part, 1, data, sizeof data) == HUMTRELLIS_TAKEN);
    EXPECT(send_plain(part, 2, data, sizeof data) == HUMTRELLIS_REFUSED_UNKNOWN && answer[HUMTRELLIS_PLACE] == 2);
    EXPECT(send_plain(part, 2, device, sizeof device) == HUMTRELLIS_TAKEN && send_plain(part, 2, data, sizeof data) == HUMTRELLIS_TAKEN);
    chips[HUMTRELLIS_CHIP_REGISTERS + HUMTRELLIS_UNKNOWN_LOW] = 2;
    EXPECT(send_plain(part, 2, data, sizeof data) == HUMTRELLIS_REFUSED_CHIP);
}

static uint8_t write_rows(uint8_t part, uint8_t group, uint8_t mode, uint8_t bank, size_t length, size_t room) {
    return humtrellis_write_rows(part, 1, 1, registers, sizeof registers, group, mode, bank, wanted, length, written, room, answer, HUMTRELLIS_ANSWER);
}

/* 1:3 to group 1 from a register set with E, O and every mark: row 2 of column 1 is bit 5 of the first data byte; of column 2 it is not sent. */
static void wanted_rows(void) {
    const uint8_t head[] = {0x72, 0x80, 0xCB, 0x80, 0xF9, 0x80, 0xE0, 0x80, 0x00, 0x80, 0x40, 0x40, 0x04};
    power_on();
    memset(registers + HUMTRELLIS_SET + HUMTRELLIS_UNKNOWN_HIGH, 1, 3);
    registers[HUMTRELLIS_SET + HUMTRELLIS_E] = registers[HUMTRELLIS_SET + HUMTRELLIS_O] = 1;
    wanted[1] = wanted[2] = 4;
    memset(written, 0xEE, sizeof written);
    EXPECT(write_rows(HUMTRELLIS_PCF8532, 1, 3, 0, HUMTRELLIS_COLUMNS, 66) == HUMTRELLIS_TAKEN && answer[HUMTRELLIS_WRITTEN] == 66);
    EXPECT(memcmp(written, head, sizeof head) == 0 && written[65] == 0 && written[66] == 0xEE);
    EXPECT(send(written, 66) == HUMTRELLIS_TAKEN && answer[HUMTRELLIS_ACKNOWLEDGED] == 65 && ram[HUMTRELLIS_COLUMNS + 1] == 4 && ram[HUMTRELLIS_COLUMNS + 2] == 0);
    EXPECT(registers[HUMTRELLIS_SET + HUMTRELLIS_M] == 3 && registers[HUMTRELLIS_SET + HUMTRELLIS_O] == 1 && registers[HUMTRELLIS_SET + HUMTRELLIS_UNKNOWN_LOW] == 0);
    EXPECT(write_rows(HUMTRELLIS_PCF8532, 0, 0, 0, HUMTRELLIS_COLUMNS, HUMTRELLIS_ROWS) == HUMTRELLIS_TAKEN && answer[HUMTRELLIS_WRITTEN] == 92);
    EXPECT(write_rows(HUMTRELLIS_PCA85133, 0, 1, 0, HUMTRELLIS_PCA85133_COLUMNS, 20) == HUMTRELLIS_TAKEN && answer[HUMTRELLIS_WRITTEN] == 20);
    EXPECT(write_rows(HUMTRELLIS_PCF8532, 1, 3, 0, HUMTRELLIS_COLUMNS, 65) == HUMTRELLIS_REFUSED_OUT_LENGTH);
    EXPECT(write_rows(HUMTRELLIS_PCF8532, 1, 4, 0, HUMTRELLIS_COLUMNS, 66) == HUMTRELLIS_REFUSED_REGISTER && write_rows(HUMTRELLIS_PCF8532, 1, 3, 2, HUMTRELLIS_COLUMNS, 66) == HUMTRELLIS_REFUSED_REGISTER);
    EXPECT(write_rows(HUMTRELLIS_PCF8532, 2, 3, 0, HUMTRELLIS_COLUMNS, 66) == HUMTRELLIS_REFUSED_VIEW && write_rows(HUMTRELLIS_PCF8532, 1, 3, 0, RAM, 66) == HUMTRELLIS_REFUSED_RAM_LENGTH);
    wanted[7] = 16;
    EXPECT(write_rows(HUMTRELLIS_PCF8532, 1, 3, 0, HUMTRELLIS_COLUMNS, 66) == HUMTRELLIS_REFUSED_COLUMN && answer[HUMTRELLIS_PLACE] == 7);
}

static uint8_t write_three(uint8_t part, uint8_t group, size_t length, size_t room) {
    return humtrellis_write_three(part, 1, 1, registers, sizeof registers, group, wanted, length, written, room, answer, HUMTRELLIS_ANSWER);
}

/* Rows 0 to 2 of every column of group 1, also row 2 of column 2, which a plain run skips: a byte at column 0, one at column 2, and so on. */
static void every_element(void) {
    const uint8_t head[] = {0x72, 0x80, 0xC3, 0x80, 0xE0, 0x80, 0x00, 0x80, 0x40, 0xC0, 0x04, 0x80, 0xE0, 0x80, 0x00, 0x80, 0x42, 0xC0, 0x20};
    power_on();
    memset(registers + HUMTRELLIS_SET + HUMTRELLIS_UNKNOWN_HIGH, 1, 3);
    memset(wanted, 0, sizeof wanted);
    wanted[1] = wanted[2] = 4;
    memset(ram, 15, sizeof ram);
    memset(written, 0xEE, sizeof written);
    EXPECT(write_three(HUMTRELLIS_PCF8532, 1, HUMTRELLIS_COLUMNS, 643) == HUMTRELLIS_TAKEN && answer[HUMTRELLIS_WRITTEN] == 643);
    EXPECT(memcmp(written, head, sizeof head) == 0 && written[643] == 0xEE && HUMTRELLIS_THREE == 2563);
    EXPECT(send(written, 643) == HUMTRELLIS_TAKEN && answer[HUMTRELLIS_ACKNOWLEDGED] == 642 && answer[HUMTRELLIS_DISCARDED] == 2);
    EXPECT(ram[HUMTRELLIS_COLUMNS - 1] == 15 && ram[HUMTRELLIS_COLUMNS] == 8 && ram[HUMTRELLIS_COLUMNS + 1] == 12 && ram[HUMTRELLIS_COLUMNS + 2] == 12 && ram[RAM - 1] == 8);
    EXPECT(registers[HUMTRELLIS_SET + HUMTRELLIS_M] == 3 && registers[HUMTRELLIS_SET + HUMTRELLIS_UNKNOWN_LOW] == 0);
    EXPECT(write_three(HUMTRELLIS_PCA85133, 0, HUMTRELLIS_PCA85133_COLUMNS, 243) == HUMTRELLIS_TAKEN && answer[HUMTRELLIS_WRITTEN] == 243);
    EXPECT(write_three(HUMTRELLIS_PCF8532, 1, HUMTRELLIS_COLUMNS, 642) == HUMTRELLIS_REFUSED_OUT_LENGTH && write_three(HUMTRELLIS_PCF8532, 2, HUMTRELLIS_COLUMNS, 643) == HUMTRELLIS_REFUSED_VIEW);
}

static uint8_t read_image(const char *file, size_t length) {
    return humtrellis_hex_read(HUMTRELLIS_PCA85133, 1, (const uint8_t *)file, strlen(file), ram, length, answer, HUMTRELLIS_ANSWER);
}

static int refused_image(const char *file, int number, size_t place) {
    return read_image(file, HUMTRELLIS_PCA85133_COLUMNS) == number && answer[HUMTRELLIS_NUMBER] == (size_t)number && answer[HUMTRELLIS_PLACE] == place && ram[0] == 7;
}

/* One PCA85133's RAM as Intel HEX and back; files that are refused change nothing. */
static void images(void) {
    const char *first = ":1000000007000000000000000000000000000000E9\n";
    memset(wanted, 0, sizeof wanted);
    wanted[0] = 7;
    memset(written, 0xEE, sizeof written);
    EXPECT(humtrellis_hex_write(HUMTRELLIS_PCA85133, 1, wanted, HUMTRELLIS_PCA85133_COLUMNS, written, 232, answer, HUMTRELLIS_ANSWER) == HUMTRELLIS_TAKEN);
    EXPECT(answer[HUMTRELLIS_WRITTEN] == 232 && written[232] == 0xEE && HUMTRELLIS_HEX == 12 + 44 * 40);
    EXPECT(memcmp(written, first, strlen(first)) == 0 && memcmp(written + 220, ":00000001FF\n", 12) == 0);
    EXPECT(humtrellis_hex_write(HUMTRELLIS_PCA85133, 1, wanted, HUMTRELLIS_PCA85133_COLUMNS, written, 231, answer, HUMTRELLIS_ANSWER) == HUMTRELLIS_REFUSED_OUT_LENGTH);
    EXPECT(humtrellis_hex_write(HUMTRELLIS_PCA85133, 1, wanted, HUMTRELLIS_PCA85133_COLUMNS, written, 232, answer, HUMTRELLIS_ANSWER - 1) == HUMTRELLIS_SIZE);
    memset(ram, 9, sizeof ram);
    EXPECT(humtrellis_hex_read(HUMTRELLIS_PCA85133, 1, written, 232, ram, HUMTRELLIS_PCA85133_COLUMNS, answer, HUMTRELLIS_ANSWER) == HUMTRELLIS_TAKEN);
    EXPECT(answer[HUMTRELLIS_WRITTEN] == HUMTRELLIS_PCA85133_COLUMNS && memcmp(ram, wanted, HUMTRELLIS_PCA85133_COLUMNS) == 0 && ram[HUMTRELLIS_PCA85133_COLUMNS] == 9);
    EXPECT(read_image("", HUMTRELLIS_PCA85133_COLUMNS - 1) == HUMTRELLIS_REFUSED_RAM_LENGTH && refused_image("", HUMTRELLIS_REFUSED_END, 0));
    EXPECT(refused_image(":00000001ff\n", HUMTRELLIS_REFUSED_FORM, 0) && refused_image(":0000000100\n", HUMTRELLIS_REFUSED_CHECKSUM, 0));
    EXPECT(refused_image(":00000000 00\n", HUMTRELLIS_REFUSED_FORM, 0) && refused_image(":0000000000\n:00000004FC\n", HUMTRELLIS_REFUSED_TYPE, 12));
    EXPECT(refused_image(":0100500000AF\n", HUMTRELLIS_REFUSED_ADDRESS, 0) && refused_image(":0100000000FF\n:0100000000FF\n", HUMTRELLIS_REFUSED_TWICE, 14));
    EXPECT(refused_image(":0100000010EF\n", HUMTRELLIS_REFUSED_COLUMN, 0) && refused_image(":0100000000FF\n:00000001FF\n", HUMTRELLIS_REFUSED_MISSING, 1));
}

static uint8_t write_price(uint8_t mode, const char *price, size_t length, size_t room) {
    return humtrellis_price_write(mode, (const uint8_t *)price, length, written, room, answer, HUMTRELLIS_ANSWER);
}

static uint8_t read_price(uint8_t mode, const char *segments, size_t length, size_t room) {
    return humtrellis_price_read(mode, (const uint8_t *)segments, length, written, room, answer, HUMTRELLIS_ANSWER);
}

static int refused_price(uint8_t refused, int number, size_t place) {
    return refused == number && answer[HUMTRELLIS_NUMBER] == (size_t)number && answer[HUMTRELLIS_PLACE] == place && answer[HUMTRELLIS_WRITTEN] == 0 && written[0] == 0xEE;
}

/* A price to data bytes and back, in each mode, with either minus; each refusal at its edge. */
static void prices(void) {
    const char *minus_four[] = {"\x02\x6A", "\x08\xD8", "\x10\x74", "\x04\xA6"}; /* by M: 1:4, static, 1:2, 1:3 */
    char long_price[81];
    for (uint8_t mode = 0; mode < 4; mode++) {
        memset(written, 0xEE, sizeof written);
        EXPECT(write_price(mode, "-4", 2, HUMTRELLIS_PRICE) == HUMTRELLIS_TAKEN && answer[HUMTRELLIS_WRITTEN] == 2);
        EXPECT(memcmp(written, minus_four[mode], 2) == 0 && written[2] == 0xEE);
        EXPECT(write_price(mode, "\xE2\x88\x92" "4", 4, HUMTRELLIS_PRICE) == HUMTRELLIS_TAKEN && answer[HUMTRELLIS_WRITTEN] == 2 && memcmp(written, minus_four[mode], 2) == 0);
        memset(written, 0xEE, sizeof written);
        EXPECT(read_price(mode, minus_four[mode], 2, HUMTRELLIS_PRICE_TEXT) == HUMTRELLIS_TAKEN && answer[HUMTRELLIS_WRITTEN] == 2 && memcmp(written, "-4\xEE", 3) == 0);
        EXPECT(read_price(mode, "\xFF", 1, HUMTRELLIS_PRICE_TEXT) == HUMTRELLIS_TAKEN && memcmp(written, "8.", 2) == 0);
    }
    EXPECT(write_price(3, "1.5 ", 4, HUMTRELLIS_PRICE) == HUMTRELLIS_TAKEN && answer[HUMTRELLIS_WRITTEN] == 3 && memcmp(written, "\xE0\x3E\x00", 3) == 0);
    EXPECT(write_price(3, "", 0, HUMTRELLIS_PRICE) == HUMTRELLIS_TAKEN && answer[HUMTRELLIS_WRITTEN] == 0);
    memset(long_price, '8', sizeof long_price);
    memset(written, 0xEE, sizeof written);
    EXPECT(refused_price(write_price(4, long_price, 81, 79), HUMTRELLIS_REFUSED_LONG_TRANSFER, 0) && refused_price(write_price(4, ".", 1, 79), HUMTRELLIS_REFUSED_REGISTER, 0));
    EXPECT(refused_price(write_price(3, ".", 1, 79), HUMTRELLIS_REFUSED_OUT_LENGTH, 0) && refused_price(write_price(3, "1..", 3, HUMTRELLIS_PRICE), HUMTRELLIS_REFUSED_SYMBOL, 2));
    EXPECT(refused_price(write_price(3, "4\xE2\x88", 3, HUMTRELLIS_PRICE), HUMTRELLIS_REFUSED_SYMBOL, 1) && refused_price(write_price(3, "-.", 2, HUMTRELLIS_PRICE), HUMTRELLIS_REFUSED_SYMBOL, 1));
    EXPECT(refused_price(read_price(4, long_price, 81, 159), HUMTRELLIS_REFUSED_LONG_TRANSFER, 0) && refused_price(read_price(4, "\x40", 1, 159), HUMTRELLIS_REFUSED_REGISTER, 0));
    EXPECT(refused_price(read_price(3, "\x40", 1, 159), HUMTRELLIS_REFUSED_OUT_LENGTH, 0) && refused_price(read_price(3, "\x04\x44", 2, HUMTRELLIS_PRICE_TEXT), HUMTRELLIS_REFUSED_SYMBOL, 1));
    EXPECT(write_price(3, long_price, 80, HUMTRELLIS_PRICE) == HUMTRELLIS_TAKEN && answer[HUMTRELLIS_WRITTEN] == 80 && written[79] == 0xBF && written[80] == 0xEE);
    EXPECT(humtrellis_price_write(3, (const uint8_t *)"", 0, written, HUMTRELLIS_PRICE, answer, HUMTRELLIS_ANSWER - 1) == HUMTRELLIS_SIZE);
    EXPECT(humtrellis_price_read(3, (const uint8_t *)"", 0, written, HUMTRELLIS_PRICE_TEXT, answer, HUMTRELLIS_ANSWER - 1) == HUMTRELLIS_SIZE);
}

/* An unknown part comes before every refusal, but not before a wrong size; both power-ons still give power-on registers. */
static void unknown_part(void) {
    registers[HUMTRELLIS_E] = 9;
    EXPECT(send_to_four(2, many, 0) == HUMTRELLIS_REFUSED_PART && answer[HUMTRELLIS_ACKNOWLEDGED_BY] == HUMTRELLIS_NONE && registers[HUMTRELLIS_E] == 9);
    EXPECT(answer[HUMTRELLIS_NUMBER] == HUMTRELLIS_REFUSED_PART && HUMTRELLIS_REFUSED_PART == 16 && answer[HUMTRELLIS_PLACE] == 0);
    EXPECT(show_four(2, 0) == HUMTRELLIS_REFUSED_PART && answer[HUMTRELLIS_ACKNOWLEDGED_BY] == 0);
    EXPECT(humtrellis_power_on(255, 9, 9, ram, 0, registers, sizeof registers, answer, HUMTRELLIS_ANSWER) == HUMTRELLIS_REFUSED_PART && registers[HUMTRELLIS_E] == 0);
    EXPECT(humtrellis_power_on(255, 9, 9, ram, 0, registers, sizeof registers, answer, HUMTRELLIS_ANSWER - 1) == HUMTRELLIS_SIZE);
    memset(chips, 255, sizeof chips);
    EXPECT(send_plain(2, 17, many, 0) == HUMTRELLIS_REFUSED_PART && show_chip(2, HUMTRELLIS_CHIP, 2, 0) == HUMTRELLIS_REFUSED_PART);
    EXPECT(power_on_chip(2, HUMTRELLIS_CHIP) == HUMTRELLIS_REFUSED_PART && chips[HUMTRELLIS_CHIP_REGISTERS + HUMTRELLIS_E] == 0 && chips[0] == 255);
}

/* The text of a log that is refused at a place. */
static int refused_log(const uint8_t *log, size_t length, int number, int place) {
    char expected[32];
    const int count = snprintf(expected, sizeof expected, "X %d %d\n", number, place);
    return humtrellis_replay(log, length, text, sizeof text) == (size_t)count && memcmp(text, expected, (size_t)count) == 0;
}

static void logs(void) {
    const uint8_t cut[] = {1, 1, 0, 0, 1, 0x70, 0, 2, 0x70}, crowded[] = {1, 0, 5};
    const uint8_t short_body[] = {2, 1, 0, 0, 1, 0};
    EXPECT(refused_log(cut, 2, HUMTRELLIS_REFUSED_LOG, 0));
    EXPECT(refused_log(crowded, sizeof crowded, HUMTRELLIS_REFUSED_CHIP_COUNT, 0));
    EXPECT(refused_log(cut, sizeof cut, HUMTRELLIS_REFUSED_RECORD, 6));
    EXPECT(refused_log(short_body, sizeof short_body, HUMTRELLIS_REFUSED_BODY, 3));
    EXPECT(refused_log(many, sizeof many, HUMTRELLIS_REFUSED_LOG_LENGTH, 0));
    EXPECT(humtrellis_replay(cut, sizeof cut, text, HUMTRELLIS_TEXT - 1) == 0);
}

/* A log whose second record is cut: the head and the first are kept, and the bytes behind them stay. */
static void rescues(void) {
    const uint8_t torn[] = {1, 1, 0, 0, 1, 0x70, 0, 2, 0x70};
    memset(text, 9, sizeof torn);
    EXPECT(humtrellis_rescue(torn, sizeof torn, text, sizeof torn - 1, answer, HUMTRELLIS_ANSWER) == HUMTRELLIS_REFUSED_OUT_LENGTH);
    EXPECT(humtrellis_rescue(torn, sizeof torn, text, sizeof torn, answer, HUMTRELLIS_ANSWER - 1) == HUMTRELLIS_SIZE && text[0] == 9);
    EXPECT(humtrellis_rescue(torn, sizeof torn, text, sizeof torn, answer, HUMTRELLIS_ANSWER) == HUMTRELLIS_TAKEN);
    EXPECT(answer[HUMTRELLIS_RECORDS_KEPT] == 1 && answer[HUMTRELLIS_BYTES_KEPT] == 6 && answer[HUMTRELLIS_BYTES_DROPPED] == 3);
    EXPECT(answer[HUMTRELLIS_TEAR] == 6 && HUMTRELLIS_BYTES_KEPT == 3 && HUMTRELLIS_TEAR == 5);
    EXPECT(memcmp(text, torn, 6) == 0 && text[6] == 9 && text[8] == 9);
}

/* Two columns a byte, the even one in the low four bits: group 0's byte 0 and group 1's, which begins half way. Half the RAM, every byte of it. */
static void packed(void) {
    const uint8_t to_zero[] = {0x70, 0x80, 0xC8, 0x40, 0xA5}, to_one[] = {0x72, 0x80, 0xC8, 0x80, 0x41, 0x40, 0x80};
    uint8_t half[HUMTRELLIS_COLUMNS];
    memset(half, 0xFF, sizeof half);
    EXPECT(humtrellis_packed_power_on(HUMTRELLIS_PCF8532, 1, 1, half, sizeof half, registers, sizeof registers, answer, HUMTRELLIS_ANSWER) == HUMTRELLIS_TAKEN);
    EXPECT(humtrellis_packed_transfer(HUMTRELLIS_PCF8532, 1, 1, registers, sizeof registers, half, sizeof half, to_zero, sizeof to_zero, HUMTRELLIS_WHOLE, answer, HUMTRELLIS_ANSWER) == HUMTRELLIS_TAKEN);
    EXPECT(answer[HUMTRELLIS_ACKNOWLEDGED] == 5 && answer[HUMTRELLIS_STORED] == 8 && answer[HUMTRELLIS_ACKNOWLEDGED_BY] == 0 && half[0] == 0xA5 && half[1] == 0xFF);
    EXPECT(humtrellis_packed_transfer(HUMTRELLIS_PCF8532, 1, 1, registers, sizeof registers, half, sizeof half, to_one, sizeof to_one, HUMTRELLIS_WHOLE, answer, HUMTRELLIS_ANSWER) == HUMTRELLIS_TAKEN);
    EXPECT(half[79] == 0xFF && half[80] == 0x1F && half[81] == 0xF0 && half[82] == 0xFF);
    EXPECT(humtrellis_packed_picture(HUMTRELLIS_PCF8532, 1, 1, registers, sizeof registers, half, sizeof half, 1, 0, picture, sizeof picture, answer, HUMTRELLIS_ANSWER) == HUMTRELLIS_TAKEN);
    EXPECT(answer[HUMTRELLIS_LIT] == 4 * 158 + 1 && picture[0] == 15 && picture[1] == 1 && picture[2] == 0 && picture[3] == 15);
    EXPECT(humtrellis_packed_power_on(HUMTRELLIS_PCF8532, 1, 0, half, sizeof half, registers, sizeof registers, answer, HUMTRELLIS_ANSWER) == HUMTRELLIS_REFUSED_RAM_LENGTH);
}

int main(void) {
    registers_by_name();
    ranges();
    modes();
    answers();
    refusals();
    sizes();
    plain_chips();
    one_chip();
    smaller_part();
    smaller_chips();
    cut_bytes();
    cut_chips();
    wanted_rows();
    every_element();
    packed();
    images();
    prices();
    unknown_part();
    logs();
    rescues();
    return failures != 0;
}
