//! The commands: which bytes are any, and what they do to a group's registers.

use super::part::Part;
use super::{Refusal, AB, B, BF, DEVICE, E, HIGH, I, M, O, SET};

/// Says of each byte whether it is a command.
pub type Defined = [bool; 256];

/// The bytes of some ranges, both ends included.
pub const fn defined(ranges: &[[usize; 2]]) -> Defined {
    let mut table = [false; 256];
    let mut index = 0;
    while index < ranges.len() {
        let [mut byte, last] = ranges[index];
        while byte <= last {
            table[byte] = true;
            byte += 1;
        }
        index += 1;
    }
    table
}

/// True where a data byte would go to a place that nobody knows.
fn lost(set: &[u8; SET]) -> bool {
    set[HIGH..=DEVICE] != [0; 3]
}

/// The first undefined command, control byte with stray bits, or data byte while a mark is left; a data run ends the search.
/// Of the bytes so many are whole: a cut one is looked at as data only.
pub fn check_bytes<Chosen: Part>(
    set: &[u8; SET],
    bytes: &[u8],
    whole: usize,
) -> Result<(), Refusal> {
    // Follows the marks; there is nothing to follow once all are known.
    let mut ahead = *set;
    let mut at = 1;
    while at < whole {
        let next = at + 1;
        match bytes[at] {
            0x00 => return check_commands(&bytes[next..whole], Chosen::DEFINED, next),
            0x40 | 0xC0 if lost(&ahead) && next < bytes.len() => return Err((18, next)),
            0x40 => return Ok(()),
            0x80 => {
                let command = &bytes[next..whole.min(next + 1)];
                check_commands(command, Chosen::DEFINED, next)?;
                if lost(&ahead) {
                    command
                        .iter()
                        .for_each(|byte| Chosen::obey(&mut ahead, *byte));
                }
            }
            0xC0 => {}
            _ => return Err((17, at)),
        }
        at += 2;
    }
    Ok(())
}

fn check_commands(commands: &[u8], defined: &Defined, at: usize) -> Result<(), Refusal> {
    let undefined = |byte: &u8| !defined[*byte as usize];
    match commands.iter().position(undefined) {
        Some(place) => Err((7, at + place)),
        None => Ok(()),
    }
}

/// The commands that both parts have.
pub fn obey_common(set: &mut [u8; SET], byte: u8) {
    match byte {
        0xC0..=0xCF => {
            set[E] = byte >> 3 & 1;
            set[B] = byte >> 2 & 1;
            set[M] = byte & 3;
        }
        0xF0..=0xF7 => {
            set[AB] = byte >> 2 & 1;
            set[BF] = byte & 3;
        }
        0xF8..=0xFB => {
            set[I] = byte >> 1 & 1;
            set[O] = byte & 1;
        }
        _ => {}
    }
}
