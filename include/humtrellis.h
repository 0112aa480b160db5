/* PCF8532 or PCA85133 drivers on one I2C bus: the proved model, for C and C++ on x86-64 Linux. docs/C.md has how to link it, and each call with an example.
 *
 * A bus has chips of one part, HUMTRELLIS_PCF8532 or HUMTRELLIS_PCA85133, which every call on registers, chips or RAM names first:
 *
 *                  columns a chip   chips a group, at subaddresses 0 upwards without a gap   plain chips in a list
 *     PCF8532      160              0 to 4                                                   0 to 8
 *     PCA85133     80               0 to 8                                                   0 to 16
 *
 * Group 0 (SA0 = 0) has the address byte 0x70 and group 1 (SA0 = 1) 0x72.
 *
 * RAM         the part's columns a chip: group 0's chips in order, then group 1's. A byte is a column, 0 to 15; bit r is row r.
 * Packed RAM  half as long: two columns a byte, the even column in the low four bits. Every byte is two columns, so no packed call refuses by 5.
 * Registers   24 bytes: group 0's twelve, then group 1's, each in the order of enum humtrellis_register.
 * Plain chip  174 bytes: 160 columns, SA0 (0 or 1), subaddress (0 to 3; PCA85133: 0 to 7) and twelve registers.
 *             Of a PCA85133 bytes 80 to 159 are neither checked nor read nor changed.
 * Transfer    its bytes, and the bits of the last one that came: HUMTRELLIS_WHOLE, or 1 to 7 where the cable was pulled. A byte so cut is not
 *             acknowledged, counted or checked for 7 and 17, and does nothing; but a cut data byte that chips hear makes their pointer and counter unknown.
 * Wanted rows the part's columns for each chip of one group, a byte a column as in the RAM.
 * Picture     the part's columns for each chip of the group shown. A byte is a column; bit r is the element on backplane r.
 * RAM image   one group's RAM as Intel HEX: data records (type 00) and an end record (01), addresses from 0, a byte a column.
 * Price       a text of digits, space, minus (ASCII, or the typographic E2 88 92) and a point joined to the digit before it; its data bytes, one a symbol.
 * Answer      six numbers, in the order of enum humtrellis_answer.
 *
 * Every call but humtrellis_replay returns its answer's first number: 0 for taken, else the refusal.
 * A refused call writes its answer and nothing else; a refused power-on writes the power-on registers too.
 * HUMTRELLIS_SIZE comes before every refusal and nothing at all is written: registers, chips or an answer of another size.
 *
 * Each buffer comes with its length, in bytes, or in numbers for an answer. No pointer may be NULL, also where the length is 0.
 * A buffer that a call writes must not overlap any other buffer of that call.
 * The library keeps no state and allocates nothing: several threads may call it at once, each with its own buffers.
 */
#ifndef HUMTRELLIS_H
#define HUMTRELLIS_H

#include <stddef.h>
#include <stdint.h>

#define HUMTRELLIS_VERSION 9 /* of these sizes and calls; docs/C.md says what changed */
#define HUMTRELLIS_PCF8532 0 /* the parts */
#define HUMTRELLIS_PCA85133 1
#define HUMTRELLIS_COLUMNS 160         /* of a chip: its bytes in the RAM and in a picture */
#define HUMTRELLIS_PCA85133_COLUMNS 80 /* of a PCA85133 */
#define HUMTRELLIS_SET 12              /* registers of a group or a chip; group 1's begin at this index */
#define HUMTRELLIS_REGISTERS 24
#define HUMTRELLIS_WHOLE 8 /* the bits of a whole last byte */
#define HUMTRELLIS_ANSWER 6
#define HUMTRELLIS_NONE 4          /* what HUMTRELLIS_ACKNOWLEDGED_BY holds where no chip did; with refusal 16 too */
#define HUMTRELLIS_PCA85133_NONE 8 /* of a PCA85133 */
#define HUMTRELLIS_SIZE 255
#define HUMTRELLIS_ROWS 332    /* bytes that hold any transfer of humtrellis_write_rows */
#define HUMTRELLIS_THREE 2563  /* and of humtrellis_write_three */
#define HUMTRELLIS_HEX 1772    /* bytes that hold any file of humtrellis_hex_write; humtrellis_hex_read takes up to 65,536 */
#define HUMTRELLIS_PRICE 80        /* bytes that a price may have, as text and on the glass; `out` of humtrellis_price_write has at least as many */
#define HUMTRELLIS_PRICE_TEXT 160  /* the least of `out` of humtrellis_price_read */
#define HUMTRELLIS_TEXT 700000 /* bytes that hold the text of any log */

#define HUMTRELLIS_CHIP 174
#define HUMTRELLIS_CHIP_SA0 160 /* indices in a plain chip, after its columns */
#define HUMTRELLIS_CHIP_SUBADDRESS 161
#define HUMTRELLIS_CHIP_REGISTERS 162 /* its first register, E */

/* The index of each register in a set of twelve, and its range. Power-on: all 0.
 * The last three are marks. A cut data byte sets all three for every chip that hears it, and P and A keep their numbers; each mark is 0 again
 * after its own command, both pointer marks after the PCA85133's one. While any of a hearing chip is 1, a data byte is refused with 18. */
enum humtrellis_register {
    HUMTRELLIS_E = 0,  /* 0, 1: the display is on */
    HUMTRELLIS_B = 1,  /* 0, 1: bias; kept, without effect here */
    HUMTRELLIS_M = 2,  /* 0 to 3: binary 01, 10, 11, 00 are 1, 2, 3, 4 backplanes */
    HUMTRELLIS_P = 3,  /* 0 to 159: pointer, a column; PCA85133: 0 to 79 */
    HUMTRELLIS_A = 4,  /* 0 to 4: counter, a subaddress; 4 is past the end; PCA85133: 0 to 8 */
    HUMTRELLIS_I = 5,  /* 0, 1: input bank */
    HUMTRELLIS_O = 6,  /* 0, 1: output bank */
    HUMTRELLIS_AB = 7, /* 0, 1: blink mode; 1 alternates the banks in static and 1:2, and is as 0 in 1:3 and 1:4 */
    HUMTRELLIS_BF = 8, /* 0 to 3: blink frequency; 0 is no blinking */
    HUMTRELLIS_UNKNOWN_HIGH = 9,   /* 0, 1: 1 where it is unknown, until pointer high */
    HUMTRELLIS_UNKNOWN_LOW = 10,   /* 0, 1: the same, until pointer low */
    HUMTRELLIS_UNKNOWN_DEVICE = 11 /* 0, 1: the same of the counter, until device-select */
};

/* The index of each number in an answer. A number that its call does not give is 0. */
enum humtrellis_answer {
    HUMTRELLIS_NUMBER = 0,       /* what the call returns too */
    HUMTRELLIS_PLACE = 1,        /* of a refusal; 0 unless said */
    HUMTRELLIS_ACKNOWLEDGED = 2, /* bytes; a transfer and a plain transfer */
    HUMTRELLIS_LIT = 2,          /* elements; a picture */
    HUMTRELLIS_WRITTEN = 2,      /* bytes; a writer; columns of a RAM image that is read */
    HUMTRELLIS_STORED = 3,       /* bits; a transfer */
    HUMTRELLIS_DISCARDED = 4,    /* bits past the group's last chip; a transfer */
    HUMTRELLIS_RECORDS_KEPT = 2,   /* a rescue */
    HUMTRELLIS_BYTES_KEPT = 3,     /* a rescue; the head included */
    HUMTRELLIS_BYTES_DROPPED = 4,  /* a rescue */
    HUMTRELLIS_TEAR = 5,           /* a rescue: its offset; the log's length where nothing is torn */
    HUMTRELLIS_ACKNOWLEDGED_BY = 5 /* the subaddress that acknowledged the last whole data byte of a transfer or plain transfer; the part's none where none did, there is no such byte, or it is refused */
};

/* What a call returns. */
enum humtrellis_refusal {
    HUMTRELLIS_TAKEN = 0,
    HUMTRELLIS_REFUSED_EMPTY_TRANSFER = 1,
    HUMTRELLIS_REFUSED_LONG_TRANSFER = 2, /* over 4,096 bytes; a price: over HUMTRELLIS_PRICE */
    HUMTRELLIS_REFUSED_CHIP_COUNT = 3,    /* over 4 in a group; PCA85133: over 8 */
    HUMTRELLIS_REFUSED_RAM_LENGTH = 4,    /* not the part's columns for each chip of both groups, packed half of them; of wanted rows and of a RAM image, those of the group */
    HUMTRELLIS_REFUSED_COLUMN = 5,        /* a byte of the RAM or of wanted rows over 15; place: the first; in a RAM image, place: the record's offset */
    HUMTRELLIS_REFUSED_REGISTER = 6,      /* out of range, in either group; also a wanted mode over 3 or bank over 1, a price's mode over 3 */
    HUMTRELLIS_REFUSED_COMMAND = 7,       /* undefined, in a transfer that a chip hears; place: the first, the address is byte 0 */
    HUMTRELLIS_REFUSED_VIEW = 8,          /* group or phase over 1 */
    HUMTRELLIS_REFUSED_OUT_LENGTH = 9,    /* not the part's columns for each chip shown; of a rescue, shorter than the log; of a writer, than its transfer or file; of a price, than its fixed length */
    HUMTRELLIS_REFUSED_CHIP_LIST = 10,    /* more than 8 plain chips; PCA85133: more than 16 */
    HUMTRELLIS_REFUSED_CHIP = 11,         /* a field or column of a plain chip out of range; place: the first such chip */
    HUMTRELLIS_REFUSED_LOG = 12,          /* under 3 bytes or version not 1 or 2; this, the next two and 20 stand in a log's text */
    HUMTRELLIS_REFUSED_RECORD = 13,       /* cut short; place: the offset of its length field */
    HUMTRELLIS_REFUSED_LOG_LENGTH = 14,   /* over 65,536 bytes; of a RAM image too */
    HUMTRELLIS_REFUSED_SYMBOL = 15,       /* of a price, the first byte that begins no symbol, or is none's, or a point not directly after a digit; place: the byte */
    HUMTRELLIS_REFUSED_PART = 16,         /* neither HUMTRELLIS_PCF8532 nor HUMTRELLIS_PCA85133; before every other refusal */
    HUMTRELLIS_REFUSED_CONTROL = 17,      /* stray bits 5 to 0 of a control byte, in a transfer that a chip hears; place: the first */
    HUMTRELLIS_REFUSED_UNKNOWN = 18,      /* a data byte, whole or cut, while a mark of a hearing chip is 1; place: the byte; 7, 17 or 18, whichever byte comes first */
    HUMTRELLIS_REFUSED_BITS = 19,         /* not 1 to 8, in a transfer that a chip hears or not */
    HUMTRELLIS_REFUSED_BODY = 20,         /* a version 2 record's body under two bytes; place: the offset of its length field */
    HUMTRELLIS_REFUSED_FORM = 21,         /* of a RAM image, a character or a record that is none, small letters too, or an end record's length or address not 0; place of 21 to 25: the record's offset */
    HUMTRELLIS_REFUSED_CHECKSUM = 22,
    HUMTRELLIS_REFUSED_TYPE = 23,         /* neither 00 nor 01 */
    HUMTRELLIS_REFUSED_ADDRESS = 24,      /* of a data byte, outside the group's columns */
    HUMTRELLIS_REFUSED_TWICE = 25,        /* an address given before */
    HUMTRELLIS_REFUSED_MISSING = 26,      /* an address that no record gave; place: the first */
    HUMTRELLIS_REFUSED_END = 27           /* no end record, or bytes after it, which are not read */
};

#ifdef __cplusplus
extern "C" {
#endif

/* Power-on: the registers become the power-on ones, taken or refused; the RAM is only read. Refusals: 16, 3, 4, 5. */
uint8_t humtrellis_power_on(uint8_t part, uint8_t chips0, uint8_t chips1, const uint8_t *ram, size_t ram_length,
                            uint8_t *registers, size_t registers_length, size_t *answer, size_t answer_length);

/* One transfer, START to STOP or to the cut, address byte first; `bits` of its last byte came. Changes registers and RAM.
 * Answer: number, place, acknowledged, stored, discarded, acknowledged by. Refusals: 16, 3, 6, 4, 5, 1, 2, 19, then 7, 17 or 18 by the first faulty byte. */
uint8_t humtrellis_transfer(uint8_t part, uint8_t chips0, uint8_t chips1, uint8_t *registers, size_t registers_length,
                            uint8_t *ram, size_t ram_length, const uint8_t *bytes, size_t bytes_length, uint8_t bits,
                            size_t *answer, size_t answer_length);

/* The lit elements of a group (0 or 1) at a blink phase (0 or 1) into `out`. Answer: number, place, lit, 0, 0, 0. Refusals: 16, 3, 6, 4, 5, 8, 9. */
uint8_t humtrellis_picture(uint8_t part, uint8_t chips0, uint8_t chips1, const uint8_t *registers, size_t registers_length,
                           const uint8_t *ram, size_t ram_length, uint8_t group, uint8_t phase,
                           uint8_t *out, size_t out_length, size_t *answer, size_t answer_length);

/* The three calls above with the RAM packed, half as long: each says, counts and shows what the call above says, counts and shows of the unpacked RAM, and leaves the
 * RAM that packs what that call leaves. A picture is a byte a column here too. Refusals: the same in the same order, without 5; 4 means half the columns. */
uint8_t humtrellis_packed_power_on(uint8_t part, uint8_t chips0, uint8_t chips1, const uint8_t *ram, size_t ram_length,
                                   uint8_t *registers, size_t registers_length, size_t *answer, size_t answer_length);
uint8_t humtrellis_packed_transfer(uint8_t part, uint8_t chips0, uint8_t chips1, uint8_t *registers, size_t registers_length,
                                   uint8_t *ram, size_t ram_length, const uint8_t *bytes, size_t bytes_length, uint8_t bits,
                                   size_t *answer, size_t answer_length);
uint8_t humtrellis_packed_picture(uint8_t part, uint8_t chips0, uint8_t chips1, const uint8_t *registers, size_t registers_length,
                                  const uint8_t *ram, size_t ram_length, uint8_t group, uint8_t phase,
                                  uint8_t *out, size_t out_length, size_t *answer, size_t answer_length);

/* One transfer to a list of 0 to 8 plain chips (PCA85133: 0 to 16), each of which follows every byte by itself; gaps, repeated subaddresses and unequal marks are allowed.
 * Answer: number, place, acknowledged (a byte counts once), 0, 0, acknowledged by (the smallest subaddress that did).
 * Refusals: 16, 10, 11, 1, 2, 19, then 7, 17 or 18 by the first faulty byte. */
uint8_t humtrellis_plain_transfer(uint8_t part, uint8_t *chips, size_t chips_length, const uint8_t *bytes, size_t bytes_length, uint8_t bits,
                                  size_t *answer, size_t answer_length);

/* Power-on of one plain chip: its registers become the power-on ones, taken or refused, and its other bytes stay.
 * Refusals: 16, then 11 with place 0, for SA0, subaddress or a column. */
uint8_t humtrellis_chip_power_on(uint8_t part, uint8_t *chip, size_t chip_length, size_t *answer, size_t answer_length);

/* The lit elements of one plain chip at a blink phase into as many bytes as the part has columns. Answer: number, place, lit, 0, 0, 0. Refusals: 16, 11 with place 0, 8, 9. */
uint8_t humtrellis_chip_picture(uint8_t part, const uint8_t *chip, size_t chip_length, uint8_t phase,
                                uint8_t *out, size_t out_length, size_t *answer, size_t answer_length);

/* From picture to bus bytes: one whole transfer that puts a group's wanted rows into its RAM from any valid registers, unknown marks too, at the front of `out`;
 * the bytes behind it stay. `mode` (M as in the registers) and `bank` (I) are what the transfer sets; E, B, O and blinking stay as `registers` has them.
 * Rows that the mode and bank do not reach are ignored; in 1:3 also row 2 of each data byte's third column. All its bytes are acknowledged but a last data byte that
 * reaches past the last column. A group with no chip gets 0 bytes. Answer: number, place, written, 0, 0, 0. Refusals: 16, 3, 6, 8, 4, 5, then 9 for `out` shorter than the transfer. */
uint8_t humtrellis_write_rows(uint8_t part, uint8_t chips0, uint8_t chips1, const uint8_t *registers, size_t registers_length,
                              uint8_t group, uint8_t mode, uint8_t bank, const uint8_t *wanted, size_t wanted_length,
                              uint8_t *out, size_t out_length, size_t *answer, size_t answer_length);

/* Every element of a three-backplane glass: one whole transfer that sets rows 0 to 2 of every column of a group in 1:3, also the row that plain filling skips, at the front
 * of `out`; the bytes behind it stay. A data byte begins at each even column and overwrites the spare bits of the one before. E, B, I, O and blinking stay as `registers` has
 * them, and row 3 of every column too; it works from unknown marks. All its bytes are acknowledged but the last, which loses two bits. A group with no chip gets 0 bytes.
 * Answer: number, place, written, 0, 0, 0. Refusals: 16, 3, 6, 8, 4, 5, then 9 for `out` shorter than the transfer. */
uint8_t humtrellis_write_three(uint8_t part, uint8_t chips0, uint8_t chips1, const uint8_t *registers, size_t registers_length,
                               uint8_t group, const uint8_t *wanted, size_t wanted_length,
                               uint8_t *out, size_t out_length, size_t *answer, size_t answer_length);

/* A group's RAM, `chips` of the part, as Intel HEX at the front of `out`; the bytes behind it stay. Data records of 16 columns from address 0, then the end record, capitals and
 * LF: 12 bytes and 44 for each 16 columns. No chip: the end record alone. Answer: number, place, written, 0, 0, 0. Refusals: 16, 3, 4, 5, then 9 for `out` shorter than the file. */
uint8_t humtrellis_hex_write(uint8_t part, uint8_t chips, const uint8_t *ram, size_t ram_length,
                             uint8_t *out, size_t out_length, size_t *answer, size_t answer_length);

/* A group's RAM from Intel HEX: data records of any length and order, lines that end in LF or CR LF, each address exactly once, an end record last. What humtrellis_hex_write wrote
 * comes back as it was. Answer: number, place, columns, 0, 0, 0. Refusals: 16, 3, 14, 4 (`ram_length`), then 21, 22, 23, 24, 25 or 5, in that order, of the first faulty record,
 * then 27, then 26. A refused file changes no byte of `ram`. */
uint8_t humtrellis_hex_read(uint8_t part, uint8_t chips, const uint8_t *file, size_t file_length,
                            uint8_t *ram, size_t ram_length, size_t *answer, size_t answer_length);

/* A price on the glass: the 7-segment data byte of each symbol of `text` in a mode (M as in the registers), in the order that docs/C.md has, at the front of `out`; the bytes
 * behind them stay. A minus of either kind lights segment g alone; a point is in the byte of the digit before it. An empty text gives 0 bytes. Answer: number, place, written, 0, 0, 0.
 * Refusals: 2 for over HUMTRELLIS_PRICE bytes of text, 6, 9 for `out` under HUMTRELLIS_PRICE bytes, however short the text is, 15; a broken E2 88 92 has its place at the E2. */
uint8_t humtrellis_price_write(uint8_t mode, const uint8_t *text, size_t text_length,
                               uint8_t *out, size_t out_length, size_t *answer, size_t answer_length);

/* A price from the glass: the text of such data bytes, with the ASCII minus, at the front of `out`; the bytes behind it stay. What humtrellis_price_write wrote comes back as its text
 * with the ASCII minus. Answer: number, place, written, 0, 0, 0. Refusals: 2 for over HUMTRELLIS_PRICE bytes, 6, 9 for `out` under HUMTRELLIS_PRICE_TEXT bytes, 15; the point
 * alone, or with a minus, is no symbol. */
uint8_t humtrellis_price_read(uint8_t mode, const uint8_t *segments, size_t segments_length,
                              uint8_t *out, size_t out_length, size_t *answer, size_t answer_length);

/* What is whole of a torn bus log, its head and the records before the first tear, at the front of `out`; the bytes behind it stay.
 * Answer: number, place, records kept, bytes kept, bytes dropped, offset of the tear. Refusals: 14, 12, 3, then 9 for `out` shorter than `log`. */
uint8_t humtrellis_rescue(const uint8_t *log, size_t log_length, uint8_t *out, size_t out_length,
                          size_t *answer, size_t answer_length);

/* The text of a bus log of PCF8532 drivers (docs/BENCH.md) at the front of `out`; the bytes behind it stay. Returns the text's length, which is never 0;
 * returns 0, and nothing is written, if `out` has under HUMTRELLIS_TEXT bytes. A refused log has a text too, its X line. */
size_t humtrellis_replay(const uint8_t *log, size_t log_length, uint8_t *out, size_t out_length);

#ifdef __cplusplus
}
#endif

#endif
