//! The checks that the calls share, in the order 3, 6, 4, 5.

use super::held::Held;
use super::part::Part;
use super::{Refusal, SET};

/// The highest value of each register, for both groups.
const fn limits<Chosen: Part>() -> [u8; 2 * SET] {
    let (p, a) = (Chosen::COLUMNS as u8 - 1, Chosen::MOST as u8);
    [
        1, 1, 3, p, a, 1, 1, 1, 3, 1, 1, 1, 1, 1, 3, p, a, 1, 1, 1, 3, 1, 1, 1,
    ]
}

/// The whole state of a bus.
pub fn check_state<Chosen: Part, Form: Held>(
    chips: [u8; 2],
    registers: &[u8; 2 * SET],
    ram: &[u8],
) -> Result<(), Refusal> {
    check_bus::<Chosen>(chips, registers)?;
    Form::check::<Chosen>(chips[0] as usize + chips[1] as usize, ram)
}

/// 3 and 6: the chips and the registers.
pub fn check_bus<Chosen: Part>(chips: [u8; 2], registers: &[u8; 2 * SET]) -> Result<(), Refusal> {
    if chips[0] as usize > Chosen::MOST || chips[1] as usize > Chosen::MOST {
        return Err((3, 0));
    }
    // No branch leaves the walk, so that all registers are compared at once.
    let pairs = registers.iter().zip(const { &limits::<Chosen>() });
    if pairs.fold(false, |outside, (x, limit)| outside | (x > limit)) {
        return Err((6, 0));
    }
    Ok(())
}

/// 4 and 5: the columns of so many chips.
pub fn check_columns<Chosen: Part>(chips: usize, columns: &[u8]) -> Result<(), Refusal> {
    if columns.len() != Chosen::COLUMNS * chips {
        return Err((4, 0));
    }
    // A high bit in the union of all columns is in one of them; the union is taken many columns at once.
    if columns.iter().fold(0, |union, column| union | column) <= 15 {
        return Ok(());
    }
    match columns.iter().position(|column| *column > 15) {
        Some(place) => Err((5, place)),
        None => Ok(()),
    }
}
