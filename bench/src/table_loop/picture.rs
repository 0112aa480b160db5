//! The picture of a group, in two ways: a count a column, and eight columns as one word.

use super::held::{Bytes, Held};
use super::packed::{self, Packed};
use super::part::{Part, Pca85133, Pcf8532};
use super::{checks, group_range, refused, Refusal, AB, ANSWER, BF, E, M, O, SET, UNKNOWN_PART};
use humtrellis_tests::model::View;

/// The rows that each mode shows, for eight columns at once.
const ROWS: [u64; 4] = [
    0x0F0F_0F0F_0F0F_0F0F,
    0x0101_0101_0101_0101,
    0x0303_0303_0303_0303,
    0x0707_0707_0707_0707,
];

/// How the columns of a group are written and counted: the first row, the rows from there on, and the picture.
type Show = fn(&[u8], u8, u64, &mut [u8]) -> usize;

#[inline(always)]
fn picture<Form: Held>(view: &View, out: &mut [u8], show: Show) -> [usize; ANSWER] {
    match view.part {
        0 => picture_of::<Pcf8532, Form>(view, out, show),
        1 => picture_of::<Pca85133, Form>(view, out, show),
        _ => refused(UNKNOWN_PART, 0),
    }
}

#[inline(always)]
fn picture_of<Chosen: Part, Form: Held>(
    view: &View,
    out: &mut [u8],
    show: Show,
) -> [usize; ANSWER] {
    if let Err(refusal) = check::<Chosen, Form>(view, out.len()) {
        return refused(refusal, 0);
    }
    let group = view.group as usize;
    let own = &view.ram[group_range::<Chosen, Form>([view.chips0, view.chips1], group)];
    let set = &view.registers.as_chunks::<SET>().0[group];
    let (shift, rows) = shown(set, view.phase);
    [0, 0, show(own, shift, rows, out), 0, 0, 0]
}

#[inline(never)]
pub fn picture_by_columns(view: &View, out: &mut [u8], answer: &mut [usize; ANSWER]) {
    *answer = picture::<Bytes>(view, out, show_columns);
}

#[inline(never)]
pub fn picture_by_words(view: &View, out: &mut [u8], answer: &mut [usize; ANSWER]) {
    *answer = picture::<Bytes>(view, out, show_words);
}

#[inline(never)]
pub fn packed_picture(view: &View, out: &mut [u8], answer: &mut [usize; ANSWER]) {
    *answer = picture::<Packed>(view, out, packed::show);
}

fn check<Chosen: Part, Form: Held>(view: &View, length: usize) -> Result<(), Refusal> {
    let chips = [view.chips0, view.chips1];
    checks::check_state::<Chosen, Form>(chips, view.registers, view.ram)?;
    if view.group > 1 || view.phase > 1 {
        return Err((8, 0));
    }
    if length != Chosen::COLUMNS * chips[view.group as usize] as usize {
        return Err((9, 0));
    }
    Ok(())
}

/// The first row shown, and which rows from there on; dark is no row.
pub fn shown(set: &[u8; SET], phase: u8) -> (u8, u64) {
    let blinks = set[BF] != 0 && phase == 1;
    let banks = set[M] == 1 || set[M] == 2;
    if set[E] == 0 || blinks && (set[AB] == 0 || !banks) {
        (0, 0)
    } else if banks {
        (2 * (set[O] ^ blinks as u8), ROWS[set[M] as usize])
    } else {
        (0, ROWS[set[M] as usize & 3])
    }
}

/// A count a column, in a byte for some columns, so that the compiler does many at once; a chip of either part has whole turns of 80.
#[inline(always)]
fn show_columns(columns: &[u8], shift: u8, rows: u64, out: &mut [u8]) -> usize {
    let rows = rows as u8;
    let mut lit = 0;
    for (turn, values) in columns
        .as_chunks::<80>()
        .0
        .iter()
        .zip(out.as_chunks_mut::<80>().0)
    {
        let (first, second) = values.split_at_mut(48);
        lit += show_some(&turn[..48], shift, rows, first);
        lit += show_some(&turn[48..], shift, rows, second);
    }
    lit
}

#[inline(always)]
fn show_some(columns: &[u8], shift: u8, rows: u8, out: &mut [u8]) -> usize {
    let mut ones = 0;
    for (column, value) in columns.iter().zip(out) {
        *value = column >> shift & rows;
        ones += value.count_ones() as u8;
    }
    ones as usize
}

/// Writes the picture and counts the lit elements; the columns of a chip of either part are whole words.
#[inline(always)]
pub fn show_words(columns: &[u8], shift: u8, rows: u64, out: &mut [u8]) -> usize {
    let mut lit = 0;
    let words = columns.as_chunks::<8>().0;
    for (shown, word) in out.as_chunks_mut::<8>().0.iter_mut().zip(words) {
        let value = u64::from_ne_bytes(*word) >> shift & rows;
        *shown = value.to_ne_bytes();
        lit += value.count_ones() as usize;
    }
    lit
}
