//! (b): the independent model of `tests/`, behind the signatures of the ways.

use crate::library::Numbers;
use crate::samples::Bus;
use crate::ways::Asked;
use humtrellis::raw::{CHIP, CHIP_REGISTERS, CHIP_SA0, CHIP_SUBADDRESS, COLUMNS, TEXT};
use humtrellis_tests::model::{self, Chip, Registers, View};
use humtrellis_tests::price;
use humtrellis_tests::writer::{self, Wanted};

pub fn transfer(bus: &mut Bus, bytes: &[u8], bits: u8, answer: &mut Numbers) {
    let [chips0, chips1] = bus.chips;
    let (registers, ram) = (&mut bus.registers, &mut bus.ram);
    *answer = model::transfer(bus.part, chips0, chips1, registers, ram, bytes, bits).numbers();
}

pub fn picture(view: &View, out: &mut [u8], answer: &mut Numbers) {
    *answer = model::picture(*view, out).numbers();
}

fn wanted<'a>(asked: &Asked<'a>) -> Wanted<'a> {
    Wanted {
        part: asked.part,
        chips0: asked.chips[0],
        chips1: asked.chips[1],
        registers: asked.registers,
        group: asked.group,
        rows: asked.rows,
    }
}

pub fn write_rows(asked: &Asked, out: &mut [u8], answer: &mut Numbers) {
    *answer = writer::write_rows(wanted(asked), [asked.mode, asked.bank], out).numbers();
}

pub fn write_three(asked: &Asked, out: &mut [u8], answer: &mut Numbers) {
    *answer = writer::write_three(wanted(asked), out).numbers();
}

pub fn price_write(mode: u8, text: &[u8], out: &mut [u8], answer: &mut Numbers) {
    *answer = price::write(mode, text, out).numbers();
}

pub fn price_read(mode: u8, segments: &[u8], out: &mut [u8], answer: &mut Numbers) {
    *answer = price::read(mode, segments, out).numbers();
}

/// The model has no buffer to be too short; the call has.
pub fn replay(log: &[u8], out: &mut [u8]) -> usize {
    if out.len() < TEXT {
        return 0;
    }
    let text = model::log_text(log);
    out[..text.len()].copy_from_slice(&text);
    text.len()
}

fn chip(bytes: &[u8; CHIP]) -> Chip {
    let mut chip = Chip::new(bytes[CHIP_SA0], bytes[CHIP_SUBADDRESS]);
    chip.columns.copy_from_slice(&bytes[..COLUMNS]);
    chip.registers = Registers::from_bytes(&bytes[CHIP_REGISTERS..]);
    chip
}

/// The chips of the call become the model's and back, which is little beside what it does with them.
pub fn plain_transfer(part: u8, chips: &mut [u8], bytes: &[u8], bits: u8, answer: &mut Numbers) {
    let lent = chips.as_chunks_mut::<CHIP>().0;
    let mut own: Vec<Chip> = lent.iter().map(chip).collect();
    *answer = model::plain_transfer(part, &mut own, bytes, bits).numbers();
    for (bytes, chip) in lent.iter_mut().zip(&own) {
        bytes[..COLUMNS].copy_from_slice(&chip.columns);
        bytes[CHIP_REGISTERS..].copy_from_slice(&chip.registers.to_bytes());
    }
}
