//! A run of data bytes into a group's columns.

use super::held::Held;
use super::part::Part;
use super::tables::{Table, FOUR, STATIC, THREE, TWO};
use super::{A, I, M, P, SET};

/// Stores a run of some bytes, moves the position, and adds to the counts acknowledged, stored and discarded.
/// The chip that has the last byte's last column, if it is there.
#[inline(always)]
pub fn store<Chosen: Part, Form: Held>(
    set: &mut [u8; SET],
    ram: &mut [u8],
    data: &[u8],
    counts: &mut [usize; 3],
) -> usize {
    let columns = Form::COLUMNS_A_BYTE * ram.len();
    let (backplanes, width) = [(4, 2), (1, 8), (2, 4), (3, 3)][set[M] as usize & 3];
    let position = Chosen::COLUMNS * set[A] as usize + set[P] as usize;
    let start = position.min(columns);
    let left = columns - start;
    let whole = data.len().min(left / width);
    let (fitting, rest) = data.split_at(whole);
    let filled = whole * width;
    Form::fill(set, ram, start, fitting);
    let mut stored = 8 * whole;
    if let Some(byte) = rest.first() {
        Form::fill_cut(set, ram, start + filled, *byte);
        stored += backplanes * (left - filled);
    }
    counts[0] += whole;
    counts[1] += stored;
    counts[2] += 8 * data.len() - stored;
    let after = position + width * data.len();
    set[P] = (after % Chosen::COLUMNS) as u8;
    set[A] = (after / Chosen::COLUMNS).min(Chosen::MOST) as u8;
    if after <= columns {
        (after - 1) / Chosen::COLUMNS
    } else {
        Chosen::MOST
    }
}

/// Bytes whose columns are all there; in line, so that it costs no call in either part's path.
#[inline(always)]
pub fn fill(set: &[u8; SET], columns: &mut [u8], data: &[u8]) {
    let shift = 2 * set[I];
    match set[M] {
        1 => fill_static(columns, data, shift),
        2 => fill_two(columns, data, shift),
        3 => fill_three(columns, data),
        _ => fill_four(columns, data),
    }
}

/// Eight columns as one word; the entry of byte FF has all bits that any entry has, so it is the mask.
fn fill_static(columns: &mut [u8], data: &[u8], shift: u8) {
    let mask = u64::from_ne_bytes(STATIC[255]) << shift;
    for (chunk, byte) in columns.as_chunks_mut::<8>().0.iter_mut().zip(data) {
        let value = u64::from_ne_bytes(STATIC[*byte as usize]) << shift;
        *chunk = (u64::from_ne_bytes(*chunk) & !mask | value).to_ne_bytes();
    }
}

/// Four columns as one word.
fn fill_two(columns: &mut [u8], data: &[u8], shift: u8) {
    let mask = u32::from_ne_bytes(TWO[255]) << shift;
    for (chunk, byte) in columns.as_chunks_mut::<4>().0.iter_mut().zip(data) {
        let value = u32::from_ne_bytes(TWO[*byte as usize]) << shift;
        *chunk = (u32::from_ne_bytes(*chunk) & !mask | value).to_ne_bytes();
    }
}

/// Three columns, two of them as one word; the last keeps its row 2. A word of four would overlap the next byte's.
fn fill_three(columns: &mut [u8], data: &[u8]) {
    for ([first, second, third], byte) in columns.as_chunks_mut::<3>().0.iter_mut().zip(data) {
        let [a, b, c, _] = THREE[*byte as usize];
        let pair = u16::from_ne_bytes([*first, *second]) & 0x0808 | u16::from_ne_bytes([a, b]);
        [*first, *second] = pair.to_ne_bytes();
        *third = *third & 0b1100 | c;
    }
}

/// Two columns with all their rows, so that nothing of the old is kept.
fn fill_four(columns: &mut [u8], data: &[u8]) {
    for (chunk, byte) in columns.as_chunks_mut::<2>().0.iter_mut().zip(data) {
        *chunk = FOUR[*byte as usize];
    }
}

/// The columns that are left for a byte that does not fit; in line too.
#[inline(always)]
pub fn fill_cut(set: &[u8; SET], columns: &mut [u8], byte: u8) {
    let shift = 2 * set[I];
    match set[M] {
        1 => fill_entry(columns, &STATIC, byte, shift),
        2 => fill_entry(columns, &TWO, byte, shift),
        3 => fill_entry(columns, &THREE, byte, 0),
        _ => fill_entry(columns, &FOUR, byte, 0),
    }
}

fn fill_entry<const WIDTH: usize>(columns: &mut [u8], table: &Table<WIDTH>, byte: u8, shift: u8) {
    let entries = table[byte as usize].iter().zip(&table[255]);
    for (column, (value, mask)) in columns.iter_mut().zip(entries) {
        *column = *column & !(mask << shift) | value << shift;
    }
}
