//! Request 6 of paper 02: two columns in a byte of RAM, the even one in the low four bits. Answers, counts and pictures are those of the one-byte form.

use super::*;
use crate::packed;

/// Bytes of a chip's RAM, columns, and the most chips of a group, by part.
const BYTES: [usize; 2] = [80, 40];
const WHOLE_COLUMNS: [usize; 2] = [160, 80];
const MOST: [u8; 2] = [4, 8];
/// What a transfer's answer ends with where no chip is named, by part.
const NONE: [usize; 2] = [4, 8];

/// A bus over packed RAM.
#[derive(Clone, Debug, PartialEq)]
struct Panel {
    part: u8,
    chips: [u8; 2],
    registers: [u8; REGISTERS],
    ram: Vec<u8>,
}

impl Panel {
    /// From power-on, with one value in every byte of the RAM.
    fn new(part: u8, chips: [u8; 2], byte: u8) -> Self {
        let count = (chips[0] as usize) + (chips[1] as usize);
        Panel {
            part,
            chips,
            registers: [0; REGISTERS],
            ram: vec![byte; BYTES[part as usize % 2] * count],
        }
    }

    fn cut(&mut self, bytes: &[u8], bits: u8) -> [usize; ANSWER] {
        let ([chips0, chips1], registers, ram) = (self.chips, &mut self.registers, &mut self.ram);
        packed::transfer(self.part, chips0, chips1, registers, ram, bytes, bits).numbers()
    }

    fn send(&mut self, bytes: &[u8]) -> [usize; ANSWER] {
        self.cut(bytes, WHOLE)
    }

    /// Sends commands one by one, then data, to a group.
    fn set_and_send(&mut self, group: u8, commands: &[u8], data: &[u8]) -> [usize; ANSWER] {
        let address = 0x70 + 2 * group;
        self.send(&generate::commands_then_data(address, commands, data))
    }

    /// The bytes that are not `byte`.
    fn others(&self, byte: u8) -> Vec<(usize, u8)> {
        let all = self.ram.iter().copied().enumerate();
        all.filter(|(_, value)| *value != byte).collect()
    }

    /// A and P of a group.
    fn a_and_p(&self, group: u8) -> [u8; 2] {
        let set = &self.registers[SET * group as usize..];
        [set[4], set[3]]
    }

    /// Shows a group at a phase in a buffer of this length that was all 99.
    fn show(&self, [group, phase]: [u8; 2], length: usize) -> ([usize; ANSWER], Vec<u8>) {
        let view = View {
            part: self.part,
            chips0: self.chips[0],
            chips1: self.chips[1],
            registers: &self.registers,
            ram: &self.ram,
            group,
            phase,
        };
        let mut out = vec![99; length];
        (packed::picture(view, &mut out).numbers(), out)
    }

    /// Powers on a copy, and gives its registers.
    fn power_on(&self) -> ([usize; ANSWER], [u8; REGISTERS]) {
        let (mut registers, [chips0, chips1]) = (self.registers, self.chips);
        let answer = packed::power_on(self.part, chips0, chips1, &self.ram, &mut registers);
        (answer.numbers(), registers)
    }
}

// ---- Paper 01's starred cases ----------------------------------------------

/// Chips of group 0 and what every byte is; commands and data; the bytes that change; bytes acknowledged, bits stored and discarded, and the chip; A and P.
type Edge = (
    (u8, u8),
    (&'static [u8], &'static [u8]),
    &'static [(usize, u8)],
    [usize; 4],
    [u8; 2],
);

#[rustfmt::skip]
const LARGE: [Edge; 7] = [
    ((2, 0x00), (&[0x09, 0x4F], &[0xA5]), &[(79, 0x50), (80, 0x0A)], [7, 8, 0, 1], [1, 1]),
    ((2, 0x00), (&[0xC3, 0x09, 0x4F], &[0xFF]), &[(79, 0x70), (80, 0x37)], [9, 8, 0, 1], [1, 2]),
    ((2, 0xFF), (&[0xC3, 0x09, 0x4F], &[0x00]), &[(79, 0x8F), (80, 0xC8)], [9, 8, 0, 1], [1, 2]),
    ((2, 0x00), (&[0xC1, 0x09, 0x4C], &[0x81]), &[(78, 0x01), (81, 0x10)], [9, 8, 0, 1], [1, 4]),
    ((2, 0x00), (&[0xC2, 0xFA, 0x09, 0x4E], &[0xFF]), &[(79, 0xCC), (80, 0xCC)], [11, 8, 0, 1], [1, 2]),
    ((1, 0x00), (&[0xC3, 0x09, 0x4F], &[0xFF]), &[(79, 0x70)], [8, 3, 5, 4], [1, 2]),
    ((4, 0x00), (&[0xE3, 0x09, 0x4E], &[0xFF, 0xFF]), &[(319, 0xFF)], [9, 8, 8, 4], [4, 2]),
];

#[rustfmt::skip]
const SMALL: [Edge; 7] = [
    ((2, 0x00), (&[0x4F], &[0xA5]), &[(39, 0x50), (40, 0x0A)], [5, 8, 0, 1], [1, 1]),
    ((2, 0x00), (&[0xC3, 0x4F], &[0xFF]), &[(39, 0x70), (40, 0x37)], [7, 8, 0, 1], [1, 2]),
    ((2, 0xFF), (&[0xC3, 0x4F], &[0x00]), &[(39, 0x8F), (40, 0xC8)], [7, 8, 0, 1], [1, 2]),
    ((2, 0x00), (&[0xC1, 0x4C], &[0x81]), &[(38, 0x01), (41, 0x10)], [7, 8, 0, 1], [1, 4]),
    ((2, 0x00), (&[0xC2, 0xFA, 0x4E], &[0xFF]), &[(39, 0xCC), (40, 0xCC)], [9, 8, 0, 1], [1, 2]),
    ((1, 0x00), (&[0xC3, 0x4F], &[0xFF]), &[(39, 0x70)], [6, 3, 5, 8], [1, 2]),
    ((8, 0x00), (&[0xE7, 0x4E], &[0xFF, 0xFF]), &[(319, 0xFF)], [7, 8, 8, 8], [8, 2]),
];

#[test]
fn starred_cases() {
    for (part, edges) in [(PCF8532, LARGE), (PCA85133, SMALL)] {
        for ((chips, byte), (commands, data), changed, counted, a_and_p) in edges {
            let mut panel = Panel::new(part, [chips, 0], byte);
            let answer = panel.set_and_send(0, commands, data);
            assert_eq!(answer[..2], [0, 0]);
            assert_eq!(answer[2..], counted);
            assert_eq!(panel.others(byte), changed);
            assert_eq!(panel.a_and_p(0), a_and_p);
        }
    }
}

/// Columns 12 and 4, alternating to bank 1: 3 and 1 are shown, the even column first.
#[test]
fn alternate_blinking_shows_the_other_bank() {
    for (part, columns) in [(PCF8532, 160), (PCA85133, 80)] {
        let mut panel = Panel::new(part, [1, 0], 0x4C);
        panel.send(&[0x70, 0x00, 0xCA, 0xF8, 0xF5]);
        let (answer, out) = panel.show([0, 1], columns);
        assert_eq!(answer, [0, 0, 3 * columns / 2, 0, 0, 0]);
        assert_eq!(out, [3, 1].repeat(columns / 2));
    }
}

// ---- Where a column's bits are ---------------------------------------------

/// M and I, a data byte, and the RAM's first bytes that it gives from column 0, and from column 1.
type Halves = ([u8; 2], u8, [&'static [u8]; 2]);

#[rustfmt::skip]
const HALVES: [Halves; 8] = [
    // 1000 1010: row 0 of columns 0, 4 and 6, or 1, 5 and 7.
    ([1, 0], 0x8A, [&[0x01, 0x00, 0x01, 0x01, 0x00], &[0x10, 0x00, 0x10, 0x10, 0x00]]),
    ([1, 1], 0x8A, [&[0x04, 0x00, 0x04, 0x04, 0x00], &[0x40, 0x00, 0x40, 0x40, 0x00]]),
    // 10 01 11 00: columns of 1, 2, 3 and 0, four times as much in bank 1.
    ([2, 0], 0x9C, [&[0x21, 0x03, 0x00], &[0x10, 0x32, 0x00]]),
    ([2, 1], 0x9C, [&[0x84, 0x0C, 0x00], &[0x40, 0xC8, 0x00]]),
    // 110 001 11: columns of 3, 4 and 3.
    ([3, 0], 0xC7, [&[0x43, 0x03, 0x00], &[0x30, 0x34, 0x00]]),
    ([3, 1], 0xC7, [&[0x43, 0x03, 0x00], &[0x30, 0x34, 0x00]]),
    // 0010 0001: columns of 4 and 8.
    ([0, 0], 0x21, [&[0x84, 0x00], &[0x40, 0x08]]),
    ([0, 1], 0x21, [&[0x84, 0x00], &[0x40, 0x08]]),
];

#[test]
fn halves_by_hand() {
    for part in [PCF8532, PCA85133] {
        for ([mode, bank], data, starts) in HALVES {
            for (p, expected) in (0..).zip(starts) {
                let mut panel = Panel::new(part, [0, 1], 0);
                (panel.registers[SET + 2], panel.registers[SET + 5]) = (mode, bank);
                panel.registers[SET + 3] = p;
                panel.send(&[0x72, 0x40, data]);
                assert_eq!(panel.ram[..expected.len()], *expected);
                assert!(panel.ram[expected.len()..].iter().all(|byte| *byte == 0));
            }
        }
    }
}

/// M, and what FF makes of columns of 0 in banks 0 and 1; 00 takes the same bits from columns of 15.
const FILLED: [(u8, [&[u8]; 2]); 4] = [
    (1, [&[1; 8], &[4; 8]]),
    (2, [&[3; 4], &[12; 4]]),
    (3, [&[7, 7, 3]; 2]),
    (0, [&[15, 15]; 2]),
];

/// FF over columns of 0, or 00 over columns of 15, from a position of a group on: each column's bits are in its own half of its own byte, those past the last chip are lost, and nothing else changes.
fn expect_filled(mut panel: Panel, group: u8, filled: &[u8], v: usize) {
    let part = panel.part as usize;
    let before = if group == 0 {
        0
    } else {
        panel.chips[0] as usize
    };
    let own = WHOLE_COLUMNS[part] * panel.chips[group as usize] as usize;
    let set = &mut panel.registers[SET * group as usize..];
    let columns = WHOLE_COLUMNS[part];
    (set[3], set[4]) = ((v % columns) as u8, (v / columns) as u8);
    let data = !panel.ram[0];
    let mut expected = panel.ram.clone();
    let mut stored = 0;
    for (column, bits) in (v..own).zip(filled) {
        let half = if column % 2 == 0 { *bits } else { bits << 4 };
        expected[BYTES[part] * before + column / 2] ^= half;
        stored += bits.count_ones() as usize;
    }
    let answer = panel.send(&[0x70 + 2 * group, 0x40, data]);
    let end = v + filled.len();
    let (acknowledged, chip) = match end <= own {
        true => (3, (end - 1) / columns),
        false => (2, NONE[part]),
    };
    assert_eq!(answer, [0, 0, acknowledged, stored, 8 - stored, chip]);
    assert_eq!(panel.ram, expected);
    let a = MOST[part].min((end / columns) as u8);
    assert_eq!(panel.a_and_p(group), [a, (end % columns) as u8]);
}

/// Every position of a group, also where the counter rests, in every mode and bank, with both values of data.
#[test]
fn every_position() {
    for (part, chips) in [(PCF8532, [2, 1]), (PCA85133, [3, 2]), (PCA85133, [1, 8])] {
        for ((mode, banks), group) in FILLED.into_iter().flat_map(|x| [(x, 0), (x, 1)]) {
            for (bank, filled) in (0..).zip(banks) {
                let positions = WHOLE_COLUMNS[part as usize] * (MOST[part as usize] as usize + 1);
                for (v, byte) in (0..positions).flat_map(|v| [(v, 0x00), (v, 0xFF)]) {
                    let mut panel = Panel::new(part, chips, byte);
                    let set = &mut panel.registers[SET * group as usize..];
                    (set[2], set[5]) = (mode, bank);
                    expect_filled(panel, group, filled, v);
                }
            }
        }
    }
}

/// A run from an odd column over all of two chips and past them: byte 0 keeps its even column.
#[test]
fn run_from_an_odd_column() {
    for (part, columns) in [(PCF8532, 320), (PCA85133, 160)] {
        for (mode, [filled, _]) in FILLED {
            let width = filled.len();
            let mut panel = Panel::new(part, [2, 0], 0);
            (panel.registers[2], panel.registers[3]) = (mode, 1);
            let data = vec![0xFF; columns / width + 1];
            let answer = panel.send(&[vec![0x70, 0x40], data.clone()].concat());
            let full: Vec<u8> = filled.iter().copied().cycle().take(columns - 1).collect();
            let stored = full.iter().map(|column| column.count_ones() as usize).sum();
            assert_eq!(answer[3..5], [stored, 8 * data.len() - stored]);
            assert_eq!(panel.ram[0], filled[0] << 4);
            for (place, byte) in panel.ram.iter().enumerate().skip(1) {
                assert_eq!(*byte, full[2 * place - 1] | full[2 * place] << 4);
            }
        }
    }
}

/// Each bit of the RAM alone, set by a transfer in 1:4 to its group.
#[test]
fn every_bit() {
    for (part, chips) in [(PCF8532, [2, 1]), (PCA85133, [2, 3])] {
        let length = Panel::new(part, chips, 0).ram.len();
        for bit in 0..8 * length {
            let (column, row) = (bit / 4, bit % 4);
            let columns = WHOLE_COLUMNS[part as usize];
            let chip = column / columns;
            let (group, a) = if chip < 2 { (0, chip) } else { (1, chip - 2) };
            let p = (column % columns) as u8;
            let commands = generate::shape(part).position_commands(a as u8, p);
            let mut panel = Panel::new(part, chips, 0);
            panel.set_and_send(group, &commands, &[0x80 >> row]);
            assert_eq!(panel.others(0), [(bit / 8, 1 << (bit % 8))]);
        }
    }
}

// ---- Pictures --------------------------------------------------------------

/// M, O, AB and BF, and what columns of 0 to 15 show at both phases.
const SHOWN: [([u8; 4], [Shown; 2]); 12] = [
    ([1, 0, 0, 0], [STATIC_BANK_0, STATIC_BANK_0]),
    ([1, 1, 0, 2], [STATIC_BANK_1, DARK]),
    ([1, 0, 1, 1], [STATIC_BANK_0, STATIC_BANK_1]),
    ([1, 1, 1, 3], [STATIC_BANK_1, STATIC_BANK_0]),
    ([2, 1, 1, 0], [MODE_2_BANK_1, MODE_2_BANK_1]),
    ([2, 0, 0, 3], [MODE_2_BANK_0, DARK]),
    ([2, 0, 1, 2], [MODE_2_BANK_0, MODE_2_BANK_1]),
    ([2, 1, 1, 1], [MODE_2_BANK_1, MODE_2_BANK_0]),
    ([3, 1, 0, 0], [MODE_3, MODE_3]),
    ([3, 0, 1, 1], [MODE_3, DARK]),
    ([0, 1, 1, 0], [MODE_4, MODE_4]),
    ([0, 0, 1, 3], [MODE_4, DARK]),
];

/// Every value of a byte: its even column is shown first, then its odd one; a group is shown by its own registers. E = 0 is dark.
#[test]
fn every_byte_shown() {
    for (part, chips) in [(PCF8532, [3, 4]), (PCA85133, [8, 7])] {
        for ([m, o, ab, bf], phases) in SHOWN {
            for (e, group) in [(0, 0), (0, 1), (1, 0), (1, 1)] {
                let mut panel = Panel::new(part, chips, 0);
                panel.ram = (0..panel.ram.len()).map(|place| place as u8).collect();
                let set = &mut panel.registers[SET * group as usize..][..SET];
                set[..9].copy_from_slice(&[e, 0, m, 0, 0, 0, o, ab, bf]);
                let bytes = BYTES[part as usize];
                let first = bytes * [0, chips[0] as usize][group as usize];
                let own = bytes * chips[group as usize] as usize;
                for (phase, (shown, _)) in (0..).zip(phases) {
                    let shown = if e == 0 { DARK.0 } else { shown };
                    let pairs = (first..first + own).map(|place| [place % 16, place / 16 % 16]);
                    let expected: Vec<u8> = pairs.flatten().map(|column| shown[column]).collect();
                    let lit = expected.iter().map(|byte| byte.count_ones() as usize).sum();
                    let (answer, out) = panel.show([group, phase], 2 * own);
                    assert_eq!((answer, out), ([0, 0, lit, 0, 0, 0], expected));
                }
            }
        }
    }
}

// ---- Refusals --------------------------------------------------------------

/// Everything that the three calls take.
#[derive(Clone, Debug)]
struct Given {
    panel: Panel,
    bytes: Vec<u8>,
    bits: u8,
    shown: [u8; 2],
    room: usize,
}

impl Given {
    /// No fault; every bit of the RAM is set.
    fn new(part: u8, chips: [u8; 2]) -> Self {
        Given {
            panel: Panel::new(part, chips, 0xFF),
            bytes: vec![0x70],
            bits: WHOLE,
            shown: [0, 0],
            room: WHOLE_COLUMNS[part as usize % 2] * chips[0] as usize,
        }
    }

    /// Numbers and places of power-on, transfer and picture. Power-on clears the registers; a refused transfer changes nothing, a refused picture leaves its output.
    fn expect(&self, refusals: [(usize, usize); 3]) {
        let [on, sent, shown] = refusals.map(|(number, place)| [number, place, 0, 0, 0, 0]);
        assert_eq!(self.panel.power_on(), (on, [0; REGISTERS]), "{self:?}");
        let mut panel = self.panel.clone();
        let answer = panel.cut(&self.bytes, self.bits);
        assert_eq!(answer[..2], sent[..2], "{self:?}");
        if sent[0] != 0 {
            let none = [4, 8, 4][self.panel.part.min(2) as usize];
            assert_eq!(answer[2..], [0, 0, 0, none]);
            assert_eq!(panel, self.panel);
        }
        let (answer, out) = self.panel.show(self.shown, self.room);
        assert_eq!(answer[..2], shown[..2], "{self:?}");
        if shown[0] != 0 {
            assert_eq!((answer, out), (shown, vec![99; self.room]));
        }
    }

    fn expect_numbers(&self, numbers: [usize; 3]) {
        self.expect(numbers.map(|number| (number, 0)));
    }
}

/// Every value of every byte is taken: 5 does not occur.
#[test]
fn every_byte_taken() {
    for part in [PCF8532, PCA85133] {
        for byte in 0..=255 {
            let mut given = Given::new(part, [1, 1]);
            given.panel.ram.fill(byte);
            given.expect_numbers([0; 3]);
        }
    }
}

/// Half the columns of both groups' chips; the whole number and every other is refused.
#[test]
fn ram_lengths() {
    for part in [PCF8532, PCA85133] {
        for chips in [[0, 0], [1, 0], [0, 2], [3, 4]] {
            let mut given = Given::new(part, chips);
            let right = given.panel.ram.len();
            assert_eq!(
                right,
                [80, 40][part as usize] * (chips[0] + chips[1]) as usize
            );
            for length in (0..=2 * right + 1).chain([4096]) {
                given.panel.ram = vec![0xFF; length];
                given.expect_numbers([if length == right { 0 } else { 4 }; 3]);
            }
        }
    }
}

/// The output is not packed: a byte for each column of the group shown.
#[test]
fn picture_lengths() {
    for (part, columns) in [(PCF8532, 160), (PCA85133, 80)] {
        for group in [0, 1] {
            let mut given = Given::new(part, [2, 3]);
            given.shown = [group, 1];
            let right = columns * [2, 3][group as usize];
            for room in 0..=right + 2 {
                given.room = room;
                given.expect_numbers([0, 0, if room == right { 0 } else { 9 }]);
            }
        }
    }
}

#[test]
fn chip_counts() {
    for (part, most) in [(PCF8532, 4), (PCA85133, 8)] {
        Given::new(part, [most, most]).expect_numbers([0; 3]);
        for chips in [[most + 1, 0], [0, most + 1], [255, most], [most, 255]] {
            Given::new(part, chips).expect_numbers([3; 3]);
        }
    }
}

/// The greatest value of each register, E B M P A I O AB BF, and of the three marks, and one more, in either group.
#[test]
fn registers_in_range() {
    let parts = [
        (PCF8532, [1, 1, 3, 159, 4, 1, 1, 1, 3, 1, 1, 1]),
        (PCA85133, [1, 1, 3, 79, 8, 1, 1, 1, 3, 1, 1, 1]),
    ];
    for (part, greatest) in parts {
        for place in 0..REGISTERS {
            let mut given = Given::new(part, [1, 0]);
            given.panel.registers[place] = greatest[place % SET];
            given.expect_numbers([0; 3]);
            given.panel.registers[place] += 1;
            given.expect_numbers([0, 6, 6]);
        }
    }
}

#[test]
fn unknown_parts() {
    for part in 2..=255 {
        Given::new(part, [1, 1]).expect_numbers([16; 3]);
        let mut given = Given::new(part, [9, 9]);
        given.panel.registers.fill(255);
        given.panel.ram.pop();
        (given.bytes, given.bits) = (vec![], 0);
        (given.shown, given.room) = ([2, 2], 1);
        given.expect_numbers([16; 3]);
    }
}

/// One fault after another is mended: 3, 6, 4, then 1, 2, 19 and the byte at fault, or 8 and 9.
#[test]
fn order_of_refusals() {
    for (part, most) in [(PCF8532, 4), (PCA85133, 8)] {
        let mut given = Given::new(part, [2, most + 1]);
        given.panel.registers.fill(255);
        given.panel.ram = vec![0xFF; 7];
        (given.bytes, given.bits) = (vec![], 0);
        (given.shown, given.room) = ([2, 0], 1);
        given.expect_numbers([3, 3, 3]);
        given.panel.chips = [2, 1];
        given.expect_numbers([4, 6, 6]);
        given.panel.registers = [0; REGISTERS];
        given.expect_numbers([4, 4, 4]);
        given.panel.ram = vec![0xFF; 3 * BYTES[part as usize]];
        given.expect_numbers([0, 1, 8]);
        (given.bytes, given.shown) = (vec![0x70; 4097], [1, 2]);
        given.expect_numbers([0, 2, 8]);
        (given.bytes, given.shown) = (vec![0x70, 0x00, 0xFC], [1, 1]);
        given.expect_numbers([0, 19, 9]);
        (given.bits, given.room) = (WHOLE, WHOLE_COLUMNS[part as usize]);
        given.expect([(0, 0), (7, 2), (0, 0)]);
        given.bytes = vec![0x70, 0x3F];
        given.expect([(0, 0), (17, 1), (0, 0)]);
        (given.bytes, given.panel.registers[SET - 1]) = (vec![0x70, 0x40, 0xA5], 1);
        given.expect([(0, 0), (18, 2), (0, 0)]);
    }
}

// ---- Cuts ------------------------------------------------------------------

/// 1:4 from column 1, three data bytes, of which the third is cut: two are stored in four columns, the halves beside them stay, and the marks refuse data until they are restored.
#[test]
fn cut_data_byte() {
    for (part, restoring) in [
        (PCF8532, &[0x00, 0x41, 0xE0][..]),
        (PCA85133, &[0x01, 0xE0]),
    ] {
        for bits in 1..=7 {
            let mut panel = Panel::new(part, [1, 1], 0x99);
            panel.registers[3] = 1;
            let answer = panel.cut(&[0x70, 0x40, 0x84, 0x21, 0xFF], bits);
            assert_eq!(answer, [0, 0, 4, 16, 0, 0]);
            assert_eq!(panel.others(0x99), [(0, 0x19), (1, 0x42), (2, 0x98)]);
            assert_eq!(panel.registers[..SET], [0, 0, 0, 5, 0, 0, 0, 0, 0, 1, 1, 1]);
            let before = panel.clone();
            let none = NONE[part as usize];
            for bits in 1..=8 {
                assert_eq!(panel.cut(&[0x70, 0x40, 0xFF], bits), [18, 2, 0, 0, 0, none]);
                assert_eq!(panel, before);
            }
            let data = [0x40, 0x08];
            let answer = panel.set_and_send(0, restoring, &data);
            assert_eq!(answer[3..], [16, 0, 0]);
            assert_eq!(panel.registers[9..SET], [0; 3]);
            // 0100 0000, 0000 1000: columns of 2, 0, 0 and 1.
            assert_eq!(panel.others(0x99), [(0, 0x29), (1, 0x00), (2, 0x91)]);
        }
    }
}

// ---- Both forms ------------------------------------------------------------

/// The column of a packed RAM.
fn column(ram: &[u8], place: usize) -> u8 {
    match place % 2 {
        0 => ram[place / 2] & 0x0F,
        _ => ram[place / 2] >> 4,
    }
}

fn columns(ram: &[u8]) -> Vec<u8> {
    (0..2 * ram.len()).map(|place| column(ram, place)).collect()
}

/// Both groups at both phases, of a RAM of either form.
fn pictures(
    panel: &Panel,
    ram: &[u8],
    show: fn(View, &mut [u8]) -> Answer,
) -> Vec<(Answer, Vec<u8>)> {
    let shown = [[0, 0], [0, 1], [1, 0], [1, 1]].into_iter();
    let picture = |[group, phase]: [u8; 2]| {
        let length = WHOLE_COLUMNS[panel.part as usize] * panel.chips[group as usize] as usize;
        let view = View {
            part: panel.part,
            chips0: panel.chips[0],
            chips1: panel.chips[1],
            registers: &panel.registers,
            ram,
            group,
            phase,
        };
        let mut out = vec![99; length];
        (show(view, &mut out), out)
    };
    shown.map(picture).collect()
}

/// Sequences of any transfers, from any RAM, on both forms: answers, registers, columns and pictures are the same after each.
#[test]
fn both_forms_agree() {
    let mut random = Random::new(6);
    for round in 0..400 {
        let part = [PCF8532, PCA85133][round % 2];
        let most = MOST[part as usize] as usize;
        let chips = [(); 2].map(|()| random.below(most + 1) as u8);
        let mut panel = Panel::new(part, chips, 0);
        panel.ram = random.bytes(panel.ram.len());
        let (mut registers, mut ram) = (panel.registers, columns(&panel.ram));
        for _ in 0..20 {
            let bytes = generate::transfer(&mut random, generate::shape(part));
            let bits = generate::bits(&mut random);
            let ([chips0, chips1], sent) = (chips, &bytes[..]);
            let one = transfer(part, chips0, chips1, &mut registers, &mut ram, sent, bits);
            assert_eq!(panel.cut(sent, bits), one.numbers());
            assert_eq!(
                (panel.registers, columns(&panel.ram)),
                (registers, ram.clone())
            );
            let halves = pictures(&panel, &panel.ram, packed::picture);
            assert_eq!(halves, pictures(&panel, &ram, picture));
        }
    }
}
