//! What each part has of its own. A path is compiled for one part, so that what it divides by is a literal.

use super::commands::{defined, obey_common, Defined};
use super::tables::{PCA85133_PLACES, PCF8532_PLACES};
use super::{A, DEVICE, HIGH, LOW, P, SET};

pub trait Part {
    /// Columns of one chip.
    const COLUMNS: usize;
    /// Most chips of a group; the counter rests there, and it is an answer's last number where no chip acknowledged the last data byte.
    const MOST: usize;
    const DEFINED: &'static Defined;
    /// Pointer 0, each command after its control byte, then the control byte of a data run.
    const POINTER_AND_RUN: &'static [u8];
    /// Bytes that put one data byte in its place: device-select and pointer, each after its control byte, then C0 and the byte.
    const PLACED: usize;
    /// Such bytes as a word, the first lowest, for each even column of chip 0 and the data byte 0.
    const PLACES: &'static [u64];

    fn obey(set: &mut [u8; SET], byte: u8);
}

/// Paper 01.
pub struct Pcf8532;

/// Paper 02, request 5.
pub struct Pca85133;

impl Part for Pcf8532 {
    const COLUMNS: usize = 160;
    const MOST: usize = 4;
    const DEFINED: &'static Defined = &defined(&[
        [0x00, 0x09],
        [0x40, 0x4F],
        [0xC0, 0xCF],
        [0xE0, 0xE3],
        [0xE8, 0xFB],
    ]);
    const POINTER_AND_RUN: &'static [u8] = &[0x80, 0x00, 0x80, 0x40, 0x40];
    const PLACED: usize = 8;
    const PLACES: &'static [u64] = &PCF8532_PLACES;

    fn obey(set: &mut [u8; SET], byte: u8) {
        match byte {
            0x00..=0x09 => {
                set[P] = byte << 4 | set[P] & 15;
                set[HIGH] = 0;
            }
            0x40..=0x4F => {
                set[P] = set[P] & 0xF0 | byte & 15;
                set[LOW] = 0;
            }
            0xE0..=0xE3 => {
                set[A] = byte & 3;
                set[DEVICE] = 0;
            }
            _ => obey_common(set, byte),
        }
    }
}

impl Part for Pca85133 {
    const COLUMNS: usize = 80;
    const MOST: usize = 8;
    const DEFINED: &'static Defined =
        &defined(&[[0x00, 0x4F], [0xC0, 0xCF], [0xE0, 0xE7], [0xF0, 0xFB]]);
    const POINTER_AND_RUN: &'static [u8] = &[0x80, 0x00, 0x40];
    const PLACED: usize = 6;
    const PLACES: &'static [u64] = &PCA85133_PLACES;

    fn obey(set: &mut [u8; SET], byte: u8) {
        match byte {
            0x00..=0x4F => {
                set[P] = byte;
                set[HIGH..=LOW].fill(0);
            }
            0xE0..=0xE7 => {
                set[A] = byte & 7;
                set[DEVICE] = 0;
            }
            _ => obey_common(set, byte),
        }
    }
}
