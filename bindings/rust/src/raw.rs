//! The calls of include/humtrellis.h as they are, and its sizes, under its names without `HUMTRELLIS_`. A caller needs no more than the crate's root;
//! these are for tests and measurements, which lend buffers that the safe calls would not. `tests/declarations` holds them to the header.

pub const VERSION: usize = 9;
pub const PCF8532: u8 = 0;
pub const PCA85133: u8 = 1;
pub const COLUMNS: usize = 160;
pub const PCA85133_COLUMNS: usize = 80;
pub const SET: usize = 12;
pub const REGISTERS: usize = 24;
pub const WHOLE: u8 = 8;
pub const ANSWER: usize = 6;
pub const NONE: usize = 4;
pub const PCA85133_NONE: usize = 8;
pub const SIZE: u8 = 255;
pub const ROWS: usize = 332;
pub const THREE: usize = 2563;
pub const HEX: usize = 1772;
pub const PRICE: usize = 80;
pub const PRICE_TEXT: usize = 160;
pub const TEXT: usize = 700000;
pub const CHIP: usize = 174;
pub const CHIP_SA0: usize = 160;
pub const CHIP_SUBADDRESS: usize = 161;
pub const CHIP_REGISTERS: usize = 162;

// The index of each number in an answer.
pub const NUMBER: usize = 0;
pub const PLACE: usize = 1;
pub const ACKNOWLEDGED: usize = 2;
pub const LIT: usize = 2;
pub const WRITTEN: usize = 2;
pub const STORED: usize = 3;
pub const DISCARDED: usize = 4;
pub const RECORDS_KEPT: usize = 2;
pub const BYTES_KEPT: usize = 3;
pub const BYTES_DROPPED: usize = 4;
pub const TEAR: usize = 5;
pub const ACKNOWLEDGED_BY: usize = 5;

#[rustfmt::skip]
extern "C" {
    pub fn humtrellis_power_on(
        part: u8, chips0: u8, chips1: u8, ram: *const u8, ram_length: usize,
        registers: *mut u8, registers_length: usize, answer: *mut usize, answer_length: usize,
    ) -> u8;

    pub fn humtrellis_transfer(
        part: u8, chips0: u8, chips1: u8, registers: *mut u8, registers_length: usize,
        ram: *mut u8, ram_length: usize, bytes: *const u8, bytes_length: usize, bits: u8,
        answer: *mut usize, answer_length: usize,
    ) -> u8;

    pub fn humtrellis_picture(
        part: u8, chips0: u8, chips1: u8, registers: *const u8, registers_length: usize,
        ram: *const u8, ram_length: usize, group: u8, phase: u8,
        out: *mut u8, out_length: usize, answer: *mut usize, answer_length: usize,
    ) -> u8;

    pub fn humtrellis_packed_power_on(
        part: u8, chips0: u8, chips1: u8, ram: *const u8, ram_length: usize,
        registers: *mut u8, registers_length: usize, answer: *mut usize, answer_length: usize,
    ) -> u8;

    pub fn humtrellis_packed_transfer(
        part: u8, chips0: u8, chips1: u8, registers: *mut u8, registers_length: usize,
        ram: *mut u8, ram_length: usize, bytes: *const u8, bytes_length: usize, bits: u8,
        answer: *mut usize, answer_length: usize,
    ) -> u8;

    pub fn humtrellis_packed_picture(
        part: u8, chips0: u8, chips1: u8, registers: *const u8, registers_length: usize,
        ram: *const u8, ram_length: usize, group: u8, phase: u8,
        out: *mut u8, out_length: usize, answer: *mut usize, answer_length: usize,
    ) -> u8;

    pub fn humtrellis_plain_transfer(
        part: u8, chips: *mut u8, chips_length: usize, bytes: *const u8, bytes_length: usize, bits: u8,
        answer: *mut usize, answer_length: usize,
    ) -> u8;

    pub fn humtrellis_chip_power_on(
        part: u8, chip: *mut u8, chip_length: usize, answer: *mut usize, answer_length: usize,
    ) -> u8;

    pub fn humtrellis_chip_picture(
        part: u8, chip: *const u8, chip_length: usize, phase: u8, out: *mut u8, out_length: usize,
        answer: *mut usize, answer_length: usize,
    ) -> u8;

    pub fn humtrellis_write_rows(
        part: u8, chips0: u8, chips1: u8, registers: *const u8, registers_length: usize,
        group: u8, mode: u8, bank: u8, wanted: *const u8, wanted_length: usize,
        out: *mut u8, out_length: usize, answer: *mut usize, answer_length: usize,
    ) -> u8;

    pub fn humtrellis_write_three(
        part: u8, chips0: u8, chips1: u8, registers: *const u8, registers_length: usize,
        group: u8, wanted: *const u8, wanted_length: usize,
        out: *mut u8, out_length: usize, answer: *mut usize, answer_length: usize,
    ) -> u8;

    pub fn humtrellis_price_write(
        mode: u8, text: *const u8, text_length: usize, out: *mut u8, out_length: usize,
        answer: *mut usize, answer_length: usize,
    ) -> u8;

    pub fn humtrellis_price_read(
        mode: u8, segments: *const u8, segments_length: usize, out: *mut u8, out_length: usize,
        answer: *mut usize, answer_length: usize,
    ) -> u8;

    pub fn humtrellis_hex_write(
        part: u8, chips: u8, ram: *const u8, ram_length: usize, out: *mut u8, out_length: usize,
        answer: *mut usize, answer_length: usize,
    ) -> u8;

    pub fn humtrellis_hex_read(
        part: u8, chips: u8, file: *const u8, file_length: usize, ram: *mut u8, ram_length: usize,
        answer: *mut usize, answer_length: usize,
    ) -> u8;

    pub fn humtrellis_rescue(
        log: *const u8, log_length: usize, out: *mut u8, out_length: usize,
        answer: *mut usize, answer_length: usize,
    ) -> u8;

    pub fn humtrellis_replay(log: *const u8, log_length: usize, out: *mut u8, out_length: usize) -> usize;
}
