//! The ways to carry out a call, behind one signature each, so that all are called alike.

use crate::library::{self, Numbers, RegisterBytes};
use crate::samples::Bus;
use crate::{model, table_loop};
use humtrellis_tests::model::View;

/// As the C calls do, each way writes its answer where it is told to, so that no way is timed with a copy of it.
pub fn answer_of(call: impl FnOnce(&mut Numbers)) -> Numbers {
    let mut answer = Numbers::default();
    call(&mut answer);
    answer
}

pub type Transfer = fn(&mut Bus, &[u8], u8, &mut Numbers);
pub type Picture = fn(&View, &mut [u8], &mut Numbers);
/// What a writer is asked for: rows of a group, in a mode and an input bank.
#[derive(Clone, Copy)]
pub struct Asked<'a> {
    pub part: u8,
    pub chips: [u8; 2],
    pub registers: &'a RegisterBytes,
    pub group: u8,
    pub mode: u8,
    pub bank: u8,
    pub rows: &'a [u8],
}

pub type Writer = fn(&Asked, &mut [u8], &mut Numbers);
/// To a list of plain chips, as the C interface has them.
pub type Plain = fn(u8, &mut [u8], &[u8], u8, &mut Numbers);
/// A price in a mode, either way.
pub type Price = fn(u8, &[u8], &mut [u8], &mut Numbers);
/// Gives the length of a log's text.
pub type Replay = fn(&[u8], &mut [u8]) -> usize;

/// (a), (b) and (c), in the order of the printed columns.
pub const TRANSFERS: [(&str, Transfer); 3] = [
    ("library", library::transfer),
    ("model", model::transfer),
    ("loop", loop_transfer),
];

/// The same of a picture; (c) is two loops, one that counts a column at a time, as the library does, and one by words.
pub const PICTURES: [(&str, Picture); 4] = [
    ("library", library::picture),
    ("model", model::picture),
    ("columns", table_loop::picture_by_columns),
    ("words", table_loop::picture_by_words),
];

/// The packed form (paper 02, request 6): the library's calls, its one-byte calls under unpacking, and (c).
pub const PACKED_TRANSFERS: [(&str, Transfer); 3] = [
    ("library", library::packed_transfer),
    ("unpacked", unpacked_transfer),
    ("loop", loop_packed_transfer),
];

pub const PACKED_PICTURES: [(&str, Picture); 3] = [
    ("library", library::packed_picture),
    ("unpacked", unpacked_picture),
    ("loop", table_loop::packed_picture),
];

/// The same of the transfer for wanted rows.
pub const WRITERS: [(&str, Writer); 3] = [
    ("library", library::write_rows),
    ("model", model::write_rows),
    ("loop", table_loop::write_rows),
];

/// The same of the transfer for every element in 1:3; mode and bank are not looked at.
pub const THREE_WRITERS: [(&str, Writer); 3] = [
    ("library", library::write_three),
    ("model", model::write_three),
    ("loop", table_loop::write_three),
];

pub const PRICE_WRITERS: [(&str, Price); 3] = [
    ("library", library::price_write),
    ("model", model::price_write),
    ("loop", table_loop::price_write),
];

pub const PRICE_READERS: [(&str, Price); 3] = [
    ("library", library::price_read),
    ("model", model::price_read),
    ("loop", table_loop::price_read),
];

pub const REPLAYS: [(&str, Replay); 3] = [
    ("library", library::replay),
    ("model", model::replay),
    ("loop", table_loop::replay),
];

/// The plain account, which is timed against the long one.
pub const PLAIN: [(&str, Plain); 2] = [
    ("library", library::plain_transfer),
    ("model", model::plain_transfer),
];

fn unpacked(ram: &[u8]) -> Vec<u8> {
    let columns = |pair: &u8| [pair & 15, pair >> 4];
    ram.iter().flat_map(columns).collect()
}

fn loop_transfer(bus: &mut Bus, bytes: &[u8], bits: u8, answer: &mut Numbers) {
    let (registers, ram) = (&mut bus.registers, &mut bus.ram);
    table_loop::transfer(bus.part, bus.chips, registers, ram, bytes, bits, answer)
}

fn loop_packed_transfer(bus: &mut Bus, bytes: &[u8], bits: u8, answer: &mut Numbers) {
    let (registers, ram) = (&mut bus.registers, &mut bus.ram);
    table_loop::packed_transfer(bus.part, bus.chips, registers, ram, bytes, bits, answer)
}

fn unpacked_transfer(bus: &mut Bus, bytes: &[u8], bits: u8, answer: &mut Numbers) {
    let mut whole = Bus {
        ram: unpacked(&bus.ram),
        ..bus.clone()
    };
    library::transfer(&mut whole, bytes, bits, answer);
    bus.registers = whole.registers;
    bus.ram = whole.packed().ram;
}

fn unpacked_picture(view: &View, out: &mut [u8], answer: &mut Numbers) {
    let ram = &unpacked(view.ram);
    library::picture(&View { ram, ..*view }, out, answer)
}
