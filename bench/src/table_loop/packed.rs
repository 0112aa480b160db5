//! Columns packed two a byte, the even one in the low four bits (paper 02, request 6).

use super::held::Held;
use super::part::Part;
use super::tables::{PACKED_FOUR, PACKED_STATIC, PACKED_THREE, PACKED_TWO};
use super::{Refusal, I, M, SET};

pub struct Packed;

impl Held for Packed {
    const COLUMNS_A_BYTE: usize = 2;

    /// Every byte is two columns, so only the length can be wrong.
    fn check<Chosen: Part>(chips: usize, ram: &[u8]) -> Result<(), Refusal> {
        match ram.len() == Chosen::COLUMNS / 2 * chips {
            true => Ok(()),
            false => Err((4, 0)),
        }
    }

    #[inline(always)]
    fn fill(set: &[u8; SET], ram: &mut [u8], start: usize, data: &[u8]) {
        if data.is_empty() {
            return;
        }
        let (ram, odd, shift) = (&mut ram[start / 2..], start % 2, 2 * set[I]);
        match (set[M], odd) {
            (1, 0) => static_from_even(ram, data, shift),
            (1, _) => static_from_odd(ram, data, shift),
            (2, 0) => two_from_even(ram, data, shift),
            (2, _) => two_from_odd(ram, data, shift),
            (3, _) => three(ram, odd, data),
            (_, 0) => four_from_even(ram, data),
            _ => four_from_odd(ram, data),
        }
    }

    /// The RAM ends with a whole byte, so a word is cut there by its bytes.
    #[inline(always)]
    fn fill_cut(set: &[u8; SET], ram: &mut [u8], start: usize, byte: u8) {
        let (rest, shift) = (ram.get_mut(start / 2..).unwrap_or_default(), 2 * set[I]);
        let byte = byte as usize;
        let (mask, value) = match set[M] {
            1 => (PACKED_STATIC[255] << shift, PACKED_STATIC[byte] << shift),
            2 => (
                (PACKED_TWO[255] as u32) << shift,
                (PACKED_TWO[byte] as u32) << shift,
            ),
            3 => (PACKED_THREE[255] as u32, PACKED_THREE[byte] as u32),
            _ => (0xFF, PACKED_FOUR[byte] as u32),
        };
        let half = 4 * (start % 2);
        let (mask, value) = ((mask as u64) << half, (value as u64) << half);
        let words = mask.to_le_bytes().into_iter().zip(value.to_le_bytes());
        for (pair, (mask, value)) in rest.iter_mut().zip(words) {
            *pair = *pair & !mask | value;
        }
    }
}

/// The rows in `mask` of the low column of a byte.
fn put_low(pair: &mut u8, mask: u8, value: u8) {
    *pair = *pair & !(mask & 15) | value;
}

fn static_from_even(ram: &mut [u8], data: &[u8], shift: u8) {
    let mask = PACKED_STATIC[255] << shift;
    for (chunk, byte) in ram.as_chunks_mut::<4>().0.iter_mut().zip(data) {
        let value = PACKED_STATIC[*byte as usize] << shift;
        *chunk = (u32::from_le_bytes(*chunk) & !mask | value).to_le_bytes();
    }
}

/// The first column stays; the last one goes over into the byte behind the words.
fn static_from_odd(ram: &mut [u8], data: &[u8], shift: u8) {
    let mask = PACKED_STATIC[255] << shift;
    let (words, behind) = ram.split_at_mut(4 * data.len());
    let (mut over, mut first) = (0, 15);
    for (chunk, byte) in words.as_chunks_mut::<4>().0.iter_mut().zip(data) {
        let value = PACKED_STATIC[*byte as usize] << shift;
        let mixed = u32::from_le_bytes(*chunk) & !(mask & !first) | value << 4 | over;
        *chunk = mixed.to_le_bytes();
        (over, first) = (value >> 28, 0);
    }
    put_low(&mut behind[0], mask as u8, over as u8);
}

fn two_from_even(ram: &mut [u8], data: &[u8], shift: u8) {
    let mask = PACKED_TWO[255] << shift;
    for (chunk, byte) in ram.as_chunks_mut::<2>().0.iter_mut().zip(data) {
        let value = PACKED_TWO[*byte as usize] << shift;
        *chunk = (u16::from_le_bytes(*chunk) & !mask | value).to_le_bytes();
    }
}

fn two_from_odd(ram: &mut [u8], data: &[u8], shift: u8) {
    let mask = PACKED_TWO[255] << shift;
    let (words, behind) = ram.split_at_mut(2 * data.len());
    let (mut over, mut first) = (0, 15);
    for (chunk, byte) in words.as_chunks_mut::<2>().0.iter_mut().zip(data) {
        let value = PACKED_TWO[*byte as usize] << shift;
        let mixed = u16::from_le_bytes(*chunk) & !(mask & !first) | value << 4 | over;
        *chunk = mixed.to_le_bytes();
        (over, first) = (value >> 12, 0);
    }
    put_low(&mut behind[0], mask as u8, over as u8);
}

/// Three columns, from an even and an odd one in turn.
fn three(ram: &mut [u8], odd: usize, data: &[u8]) {
    let (mut at, mut odd) = (0, odd);
    for byte in data {
        let value = PACKED_THREE[*byte as usize];
        let two = &mut ram[at..at + 2];
        let old = u16::from_le_bytes([two[0], two[1]]);
        let mixed = match odd {
            0 => old & !0x0377 | value,
            _ => old & !0x3770 | value << 4,
        };
        two.copy_from_slice(&mixed.to_le_bytes());
        at += 1 + odd;
        odd ^= 1;
    }
}

/// A data byte is one packed byte.
fn four_from_even(ram: &mut [u8], data: &[u8]) {
    for (pair, byte) in ram.iter_mut().zip(data) {
        *pair = PACKED_FOUR[*byte as usize];
    }
}

fn four_from_odd(ram: &mut [u8], data: &[u8]) {
    let (pairs, behind) = ram.split_at_mut(data.len());
    let mut over = pairs[0] & 15;
    for (pair, byte) in pairs.iter_mut().zip(data) {
        let value = PACKED_FOUR[*byte as usize];
        *pair = value << 4 | over;
        over = value >> 4;
    }
    put_low(&mut behind[0], 15, over);
}

/// Writes a byte a column, 80 a turn, and counts those, with a count in a byte for some.
#[inline(always)]
pub fn show(ram: &[u8], shift: u8, rows: u64, out: &mut [u8]) -> usize {
    let rows = rows as u8;
    let mut lit = 0;
    for (turn, values) in ram
        .as_chunks::<40>()
        .0
        .iter()
        .zip(out.as_chunks_mut::<80>().0)
    {
        for (pair, [even, odd]) in turn.iter().zip(values.as_chunks_mut::<2>().0) {
            *even = (pair & 15) >> shift & rows;
            *odd = pair >> 4 >> shift & rows;
        }
        let count = |some: &[u8]| {
            some.iter()
                .map(|value| value.count_ones() as u8)
                .sum::<u8>()
        };
        lit += count(&values[..48]) as usize + count(&values[48..]) as usize;
    }
    lit
}
