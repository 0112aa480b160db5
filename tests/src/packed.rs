//! Request 6 of paper 02 ("Half the RAM on the panel"): the long account over a RAM that keeps two columns in a byte. Each call is that of the one-byte form under unpacking.

use crate::model::{self, Answer, View, REGISTERS};

/// A byte a column: of each packed byte the even column, in the low four bits, then the odd one.
fn unpacked(ram: &[u8]) -> Vec<u8> {
    ram.iter().flat_map(|byte| [byte % 16, byte / 16]).collect()
}

fn packed(columns: &[u8]) -> Vec<u8> {
    let byte = |pair: &[u8]| pair[0] + 16 * pair[1];
    columns.chunks(2).map(byte).collect()
}

pub fn power_on(
    part: u8,
    chips0: u8,
    chips1: u8,
    ram: &[u8],
    registers: &mut [u8; REGISTERS],
) -> Answer {
    model::power_on(part, chips0, chips1, &unpacked(ram), registers)
}

pub fn transfer(
    part: u8,
    chips0: u8,
    chips1: u8,
    registers: &mut [u8; REGISTERS],
    ram: &mut [u8],
    bytes: &[u8],
    bits: u8,
) -> Answer {
    let mut columns = unpacked(ram);
    let answer = model::transfer(part, chips0, chips1, registers, &mut columns, bytes, bits);
    ram.copy_from_slice(&packed(&columns));
    answer
}

/// The picture of a group whose RAM is packed; its output still has a byte a column.
pub fn picture(view: View, out: &mut [u8]) -> Answer {
    let columns = unpacked(view.ram);
    let ram = &columns;
    model::picture(View { ram, ..view }, out)
}
