//! (c): what a careful programmer writes by hand, in plain Rust without `unsafe`.
//! It trusts its caller as little as the library does: every check of the papers in its order, with the same refusals.
//! A branch on the part leads to a path of its own, compiled with its literals. A run then goes a byte at a time over a
//! table of 256 entries a mode: bytes whose columns are all there without a test for the end, the one cut byte apart,
//! the counts in closed form.
//! Packed columns, two a byte, go by the same tables four bits a column; from an odd column on each word takes a column over from the one before.
//! Wanted rows become data bytes the other way round: whole words of columns by shifts or a product, in 1:3 by a table a column.
//! A price goes either way by a table of 256 entries a mode. A log is replayed over a bus of its own, which needs no check.

mod checks;
mod commands;
mod held;
mod log;
mod packed;
mod part;
mod picture;
mod price;
mod run;
mod tables;
mod text;
mod three;
mod transfer;
mod writer;

pub use log::replay;
pub use picture::{packed_picture, picture_by_columns, picture_by_words};
pub use price::{price_read, price_write};
pub use three::write_three;
pub use transfer::{packed_transfer, transfer};
pub use writer::write_rows;

use held::Held;
use part::Part;
use std::ops::Range;

/// Numbers of an answer.
const ANSWER: usize = 6;
/// Bytes of one register set.
const SET: usize = 12;

/// Places of the registers in a set, in the order of the C interface.
const E: usize = 0;
const B: usize = 1;
const M: usize = 2;
const P: usize = 3;
const A: usize = 4;
const I: usize = 5;
const O: usize = 6;
const AB: usize = 7;
const BF: usize = 8;
/// The marks of pointer high, pointer low and device-select: 1 where it is unknown.
const HIGH: usize = 9;
const LOW: usize = 10;
const DEVICE: usize = 11;

/// A refusal's number and place.
type Refusal = (usize, usize);

const UNKNOWN_PART: Refusal = (16, 0);

fn refused((number, place): Refusal, last: usize) -> [usize; ANSWER] {
    [number, place, 0, 0, 0, last]
}

/// The answer of a call that writes bytes to the front of its output.
fn written(length: Result<usize, Refusal>) -> [usize; ANSWER] {
    match length {
        Ok(length) => [0, 0, length, 0, 0, 0],
        Err(refusal) => refused(refusal, 0),
    }
}

/// Where the bytes of a group begin and end in the long RAM.
fn group_range<Chosen: Part, Form: Held>(chips: [u8; 2], group: usize) -> Range<usize> {
    let bytes = |chips: u8| Chosen::COLUMNS / Form::COLUMNS_A_BYTE * chips as usize;
    let middle = bytes(chips[0]);
    match group {
        0 => 0..middle,
        _ => middle..middle + bytes(chips[1]),
    }
}
