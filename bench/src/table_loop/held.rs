//! How columns are held in the RAM: a byte each, or packed, two a byte.

use super::part::Part;
use super::{checks, Refusal, SET};

pub trait Held {
    const COLUMNS_A_BYTE: usize;

    /// The bytes of so many chips.
    fn check<Chosen: Part>(chips: usize, ram: &[u8]) -> Result<(), Refusal>;

    /// Data bytes whose columns, from one on, are all there.
    fn fill(set: &[u8; SET], ram: &mut [u8], start: usize, data: &[u8]);

    /// The columns that are left for a byte that does not fit.
    fn fill_cut(set: &[u8; SET], ram: &mut [u8], start: usize, byte: u8);
}

/// A byte a column.
pub struct Bytes;

impl Held for Bytes {
    const COLUMNS_A_BYTE: usize = 1;

    fn check<Chosen: Part>(chips: usize, ram: &[u8]) -> Result<(), Refusal> {
        checks::check_columns::<Chosen>(chips, ram)
    }

    #[inline(always)]
    fn fill(set: &[u8; SET], ram: &mut [u8], start: usize, data: &[u8]) {
        super::run::fill(set, &mut ram[start..], data);
    }

    #[inline(always)]
    fn fill_cut(set: &[u8; SET], ram: &mut [u8], start: usize, byte: u8) {
        super::run::fill_cut(set, &mut ram[start..], byte);
    }
}
