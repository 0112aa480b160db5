//! (a): the proved library, through the calls of include/humtrellis.h.

use crate::samples::Bus;
use crate::ways::Asked;
use humtrellis::raw::*;
use humtrellis_tests::model::View;

/// Both groups' registers as bytes.
pub type RegisterBytes = [u8; REGISTERS];
/// Refusal number, place, three counts and the last chip.
pub type Numbers = [usize; ANSWER];

/// A transfer and a picture in the form that the calls take the RAM in.
macro_rules! forms {
    ($transfer:ident by $called:ident, $picture:ident by $shown:ident) => {
        pub fn $transfer(bus: &mut Bus, bytes: &[u8], bits: u8, answer: &mut Numbers) {
            // Safety: each pointer goes with the length of the buffer that it points to.
            unsafe {
                $called(
                    bus.part,
                    bus.chips[0],
                    bus.chips[1],
                    bus.registers.as_mut_ptr(),
                    bus.registers.len(),
                    bus.ram.as_mut_ptr(),
                    bus.ram.len(),
                    bytes.as_ptr(),
                    bytes.len(),
                    bits,
                    answer.as_mut_ptr(),
                    answer.len(),
                );
            }
        }

        pub fn $picture(view: &View, out: &mut [u8], answer: &mut Numbers) {
            // Safety: each pointer goes with the length of the buffer that it points to.
            unsafe {
                $shown(
                    view.part,
                    view.chips0,
                    view.chips1,
                    view.registers.as_ptr(),
                    view.registers.len(),
                    view.ram.as_ptr(),
                    view.ram.len(),
                    view.group,
                    view.phase,
                    out.as_mut_ptr(),
                    out.len(),
                    answer.as_mut_ptr(),
                    answer.len(),
                );
            }
        }
    };
}

forms!(transfer by humtrellis_transfer, picture by humtrellis_picture);
forms!(packed_transfer by humtrellis_packed_transfer, packed_picture by humtrellis_packed_picture);

pub fn write_rows(asked: &Asked, out: &mut [u8], answer: &mut Numbers) {
    // Safety: each pointer goes with the length of the buffer that it points to.
    unsafe {
        humtrellis_write_rows(
            asked.part,
            asked.chips[0],
            asked.chips[1],
            asked.registers.as_ptr(),
            asked.registers.len(),
            asked.group,
            asked.mode,
            asked.bank,
            asked.rows.as_ptr(),
            asked.rows.len(),
            out.as_mut_ptr(),
            out.len(),
            answer.as_mut_ptr(),
            answer.len(),
        )
    };
}

pub fn write_three(asked: &Asked, out: &mut [u8], answer: &mut Numbers) {
    // Safety: each pointer goes with the length of the buffer that it points to.
    unsafe {
        humtrellis_write_three(
            asked.part,
            asked.chips[0],
            asked.chips[1],
            asked.registers.as_ptr(),
            asked.registers.len(),
            asked.group,
            asked.rows.as_ptr(),
            asked.rows.len(),
            out.as_mut_ptr(),
            out.len(),
            answer.as_mut_ptr(),
            answer.len(),
        )
    };
}

/// A price, text to data bytes or back.
macro_rules! price {
    ($price:ident by $called:ident) => {
        pub fn $price(mode: u8, given: &[u8], out: &mut [u8], answer: &mut Numbers) {
            // Safety: each pointer goes with the length of the buffer that it points to.
            unsafe {
                $called(
                    mode,
                    given.as_ptr(),
                    given.len(),
                    out.as_mut_ptr(),
                    out.len(),
                    answer.as_mut_ptr(),
                    answer.len(),
                );
            }
        }
    };
}

price!(price_write by humtrellis_price_write);
price!(price_read by humtrellis_price_read);

pub fn plain_transfer(part: u8, chips: &mut [u8], bytes: &[u8], bits: u8, answer: &mut Numbers) {
    // Safety: each pointer goes with the length of the buffer that it points to.
    unsafe {
        humtrellis_plain_transfer(
            part,
            chips.as_mut_ptr(),
            chips.len(),
            bytes.as_ptr(),
            bytes.len(),
            bits,
            answer.as_mut_ptr(),
            answer.len(),
        )
    };
}

/// Writes the text of a log and gives its length.
pub fn replay(log: &[u8], out: &mut [u8]) -> usize {
    // Safety: each pointer goes with the length of the buffer that it points to.
    unsafe { humtrellis_replay(log.as_ptr(), log.len(), out.as_mut_ptr(), out.len()) }
}

pub fn hex_read(part: u8, chips: u8, file: &[u8], ram: &mut [u8]) -> Numbers {
    let mut answer = [0; ANSWER];
    // Safety: each pointer goes with the length of the buffer that it points to.
    unsafe {
        humtrellis_hex_read(
            part,
            chips,
            file.as_ptr(),
            file.len(),
            ram.as_mut_ptr(),
            ram.len(),
            answer.as_mut_ptr(),
            answer.len(),
        )
    };
    answer
}
