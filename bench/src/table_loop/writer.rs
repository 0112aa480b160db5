//! The transfer for a group's wanted rows: the checks, the bytes before the data, then the data by words of columns.

use super::part::{Part, Pca85133, Pcf8532};
use super::tables::BITS_OF_THREE;
use super::{checks, written, Refusal, ANSWER, B, E, O, SET, UNKNOWN_PART};
use crate::ways::Asked;

/// Bytes before the pointer: the address, and mode-set, bank-select and device-select with a control byte each.
const SETTINGS: usize = 7;

#[inline(never)]
pub fn write_rows(asked: &Asked, out: &mut [u8], answer: &mut [usize; ANSWER]) {
    *answer = written(match asked.part {
        0 => write::<Pcf8532>(*asked, out),
        1 => write::<Pca85133>(*asked, out),
        _ => Err(UNKNOWN_PART),
    });
}

/// The length of the transfer, which is at the start of the output then.
fn write<Chosen: Part>(asked: Asked, out: &mut [u8]) -> Result<usize, Refusal> {
    check::<Chosen>(asked)?;
    if asked.rows.is_empty() {
        return Ok(0);
    }
    let head = const { SETTINGS + Chosen::POINTER_AND_RUN.len() };
    let length = head + data_bytes(asked.mode, asked.rows.len());
    let Some(transfer) = out.get_mut(..length) else {
        return Err((9, 0));
    };
    let (before, data) = transfer.split_at_mut(head);
    put_head::<Chosen>(asked, before);
    put_data(asked, data);
    Ok(length)
}

/// All that is refused before the output's length: 3, 6, 8, 4, 5.
fn check<Chosen: Part>(asked: Asked) -> Result<(), Refusal> {
    checks::check_bus::<Chosen>(asked.chips, asked.registers)?;
    if asked.mode > 3 || asked.bank > 1 {
        return Err((6, 0));
    }
    check_rows::<Chosen>(asked)
}

/// 8, 4 and 5: the group and its rows.
pub fn check_rows<Chosen: Part>(asked: Asked) -> Result<(), Refusal> {
    match asked.chips.get(asked.group as usize) {
        Some(chips) => checks::check_columns::<Chosen>(*chips as usize, asked.rows),
        None => Err((8, 0)),
    }
}

/// The columns of chips of either part are whole bytes but in 1:3.
fn data_bytes(mode: u8, columns: usize) -> usize {
    match mode {
        1 => columns / 8,
        2 => columns / 4,
        3 => columns.div_ceil(3),
        _ => columns / 2,
    }
}

fn put_head<Chosen: Part>(asked: Asked, head: &mut [u8]) {
    let [address, control, mode_set] = start(asked, asked.mode);
    let output_bank = asked.registers.as_chunks::<SET>().0[asked.group as usize][O];
    let bank_select = 0xF8 | asked.bank << 1 | output_bank;
    let (settings, rest) = head.split_at_mut(SETTINGS);
    settings.copy_from_slice(&[address, control, mode_set, 0x80, bank_select, 0x80, 0xE0]);
    rest.copy_from_slice(Chosen::POINTER_AND_RUN);
}

/// The address, and mode-set after its control byte; E and B stay.
pub fn start(asked: Asked, mode: u8) -> [u8; 3] {
    let set = &asked.registers.as_chunks::<SET>().0[asked.group as usize];
    let mode_set = 0xC0 | set[E] << 3 | set[B] << 2 | mode;
    [0x70 + 2 * asked.group, 0x80, mode_set]
}

fn put_data(asked: Asked, data: &mut [u8]) {
    let shift = 2 * asked.bank;
    match asked.mode {
        1 => put_static(asked.rows, shift, data),
        2 => put_two(asked.rows, shift, data),
        3 => put_three(asked.rows, data),
        _ => put_four(asked.rows, data),
    }
}

/// Eight columns as one word; the product moves column j's bit from 8 j to 63 - j, and no two bits of it meet.
fn put_static(rows: &[u8], shift: u8, data: &mut [u8]) {
    for (byte, columns) in data.iter_mut().zip(rows.as_chunks::<8>().0) {
        let row = u64::from_le_bytes(*columns) >> shift & 0x0101_0101_0101_0101;
        *byte = (row.wrapping_mul(0x8040_2010_0804_0201) >> 56) as u8;
    }
}

/// Four columns as one word; the product moves column j's two rows, the first above the second, from 8 j to 30 - 2 j.
fn put_two(rows: &[u8], shift: u8, data: &mut [u8]) {
    for (byte, columns) in data.iter_mut().zip(rows.as_chunks::<4>().0) {
        let word = u32::from_le_bytes(*columns) >> shift;
        let swapped = (word & 0x0101_0101) << 1 | word >> 1 & 0x0101_0101;
        *byte = (swapped.wrapping_mul(0x4010_0401) >> 24) as u8;
    }
}

/// Three columns, each by its own table; the columns at the end may be too few.
fn put_three(rows: &[u8], data: &mut [u8]) {
    let [first, second, third] = &BITS_OF_THREE;
    let (whole, rest) = rows.as_chunks::<3>();
    for (byte, [a, b, c]) in data.iter_mut().zip(whole) {
        *byte = first[*a as usize] | second[*b as usize] | third[*c as usize];
    }
    if let (Some(byte), false) = (data.last_mut(), rest.is_empty()) {
        let places = rest.iter().zip(&BITS_OF_THREE);
        *byte = places.fold(0, |bits, (column, place)| bits | place[*column as usize]);
    }
}

/// Two columns as one word: their rows the other way round, in two steps, then the first column above the second.
fn put_four(rows: &[u8], data: &mut [u8]) {
    for (byte, columns) in data.iter_mut().zip(rows.as_chunks::<2>().0) {
        let word = u16::from_le_bytes(*columns);
        let swapped = (word & 0x0303) << 2 | word >> 2 & 0x0303;
        let reversed = (swapped & 0x0505) << 1 | swapped >> 1 & 0x0505;
        *byte = (reversed << 4 | reversed >> 8) as u8;
    }
}
