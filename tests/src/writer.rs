//! Requests 2 ("From picture to bus bytes") and 12 ("Every element of a three-backplane glass") of paper 02: a group's wanted RAM rows become one transfer that puts them there.

use crate::model::{
    answer, first_over_15, refuse_at, refuse_if, Answer, Bench, Check, Part, Refusal, Registers,
    REGISTERS, SET,
};

/// The bus, and what is wanted of one of its groups.
#[derive(Clone, Copy, Debug)]
pub struct Wanted<'a> {
    pub part: u8,
    pub chips0: u8,
    pub chips1: u8,
    pub registers: &'a [u8; REGISTERS],
    pub group: u8,
    /// RAM rows of this group alone, a byte a column.
    pub rows: &'a [u8],
}

/// The wanted M and I of request 2, as in the registers; request 12 has none.
type Setting = Option<[u8; 2]>;

/// Request 2: the rows that a plain run reaches in this mode and bank.
/// Writes the transfer to the start of the output, whose other bytes stay; the first count is the bytes written.
pub fn write_rows(wanted: Wanted, mode_and_bank: [u8; 2], out: &mut [u8]) -> Answer {
    answer(written(wanted, Some(mode_and_bank), out))
}

/// Request 12: rows 0 to 2 of every column, in the same way.
pub fn write_three(wanted: Wanted, out: &mut [u8]) -> Answer {
    answer(written(wanted, None, out))
}

fn written(wanted: Wanted, setting: Setting, out: &mut [u8]) -> Result<[usize; 3], Refusal> {
    let bench = Bench::new(wanted.part, wanted.chips0, wanted.chips1)?;
    check_wanted(bench, wanted, setting)?;
    let bytes = transfer(bench, wanted, setting);
    refuse_if(out.len() < bytes.len(), 9)?;
    out[..bytes.len()].copy_from_slice(&bytes);
    Ok([bytes.len(), 0, 0])
}

/// All that is refused between the part and the output's length: 3, 6, 8, 4 and 5.
fn check_wanted(bench: Bench, wanted: Wanted, setting: Setting) -> Check {
    bench.check_counts()?;
    bench.check_registers(wanted.registers)?;
    refuse_if(setting.is_some_and(|[m, i]| m > 3 || i > 1), 6)?;
    refuse_if(wanted.group > 1, 8)?;
    let length = bench.columns(wanted.group as usize);
    refuse_if(wanted.rows.len() != length, 4)?;
    refuse_at(first_over_15(wanted.rows), 5)
}

/// The address and what follows it; E, B and O stay. A group with no chip gets no byte.
fn transfer(bench: Bench, wanted: Wanted, setting: Setting) -> Vec<u8> {
    let group = wanted.group as usize;
    if bench.chips[group] == 0 {
        return Vec::new();
    }
    let own = Registers::from_bytes(&wanted.registers[SET * group..SET * group + SET]);
    let mut bytes = vec![[112, 114][group]];
    bytes.extend(match setting {
        Some([m, i]) => plain_run(bench.part, Registers { m, i, ..own }, wanted.rows),
        None => rewriting(bench.part, Registers { m: 3, ..own }, wanted.rows),
    });
    bytes
}

/// Each command after its own control byte 80.
fn after_80(commands: &[u8]) -> Vec<u8> {
    commands
        .iter()
        .flat_map(|command| [0x80, *command])
        .collect()
}

fn mode_set(state: Registers) -> u8 {
    0xC0 | state.e << 3 | state.b << 2 | state.m
}

/// Request 2: mode-set, bank-select, device-select 0 and pointer 0, then 40 and so many data bytes that every column has its place in one.
fn plain_run(part: Part, state: Registers, rows: &[u8]) -> Vec<u8> {
    let bank_select = 0xF8 | state.i << 1 | state.o;
    let mut bytes = after_80(&[mode_set(state), bank_select]);
    bytes.extend(after_80(&part.position_commands(0, 0)));
    bytes.push(0x40);
    let mut column = 0;
    while column < rows.len() {
        bytes.push(data_byte(state, &rows[column..]));
        column += state.width();
    }
    bytes
}

/// Request 12, in 1:3 (data sheet 002, table 9): mode-set, then for each even column of each chip device-select and pointer, and after C0 a byte of two columns; its last two bits are those that the next byte overwrites.
fn rewriting(part: Part, state: Registers, rows: &[u8]) -> Vec<u8> {
    let mut bytes = after_80(&[mode_set(state)]);
    for (a, chip) in (0..).zip(rows.chunks(part.columns())) {
        for p in (0..part.columns()).step_by(2) {
            bytes.extend(after_80(&part.position_commands(a, p as u8)));
            bytes.extend([0xC0, data_byte(state, &chip[p..p + 2])]);
        }
    }
    bytes
}

/// A data byte from its first column on: bit k has row b + (k mod m) of column offset k div m, and is 0 past the last of these columns.
fn data_byte(state: Registers, columns: &[u8]) -> u8 {
    let m = state.backplanes();
    let mut byte = 0;
    for k in 0..8 {
        if let Some(column) = columns.get(k / m) {
            let row = state.first_row() + k % m;
            byte |= (column >> row & 1) << (7 - k);
        }
    }
    byte
}
