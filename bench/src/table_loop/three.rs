//! The transfer for every element of a group in 1:3: the checks, mode-set, then a data byte at each even column, with its own device-select and pointer.

use super::part::{Part, Pca85133, Pcf8532};
use super::tables::BITS_OF_THREE;
use super::{checks, writer, written, Refusal, ANSWER, UNKNOWN_PART};
use crate::ways::Asked;

/// Bytes before the first data byte's own: the address, and mode-set with its control byte.
const HEAD: usize = 3;
/// The M bits of 1:3.
const MODE: u8 = 3;

#[inline(never)]
pub fn write_three(asked: &Asked, out: &mut [u8], answer: &mut [usize; ANSWER]) {
    *answer = written(match asked.part {
        0 => write::<Pcf8532>(*asked, out),
        1 => write::<Pca85133>(*asked, out),
        _ => Err(UNKNOWN_PART),
    });
}

fn write<Chosen: Part>(asked: Asked, out: &mut [u8]) -> Result<usize, Refusal> {
    checks::check_bus::<Chosen>(asked.chips, asked.registers)?;
    writer::check_rows::<Chosen>(asked)?;
    if asked.rows.is_empty() {
        return Ok(0);
    }
    let length = HEAD + asked.rows.len() / 2 * Chosen::PLACED;
    let Some(transfer) = out.get_mut(..length) else {
        return Err((9, 0));
    };
    let (head, placed) = transfer.split_at_mut(HEAD);
    head.copy_from_slice(&writer::start(asked, MODE));
    let chips = asked.rows.chunks_exact(Chosen::COLUMNS);
    let placed = placed.chunks_exact_mut(Chosen::COLUMNS / 2 * Chosen::PLACED);
    for (chip, (rows, bytes)) in chips.zip(placed).enumerate() {
        put_chip::<Chosen>(chip as u64, rows, bytes);
    }
    Ok(length)
}

/// Two columns a data byte; its last two bits are those that the next one overwrites.
fn put_chip<Chosen: Part>(chip: u64, rows: &[u8], bytes: &mut [u8]) {
    let [first, second, _] = &BITS_OF_THREE;
    let pairs = rows.as_chunks::<2>().0.iter().zip(Chosen::PLACES);
    for (placed, ([a, b], place)) in bytes.chunks_exact_mut(Chosen::PLACED).zip(pairs) {
        let data = (first[*a as usize] | second[*b as usize]) as u64;
        let word = place | chip << 8 | data << (8 * (Chosen::PLACED - 1));
        placed.copy_from_slice(&word.to_le_bytes()[..Chosen::PLACED]);
    }
}
