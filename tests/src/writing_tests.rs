//! What the tests of requests 2 and 12 of paper 02 share: a call of either writer, its bits, what refuses it, and its transfer run in both accounts.

use super::*;
use crate::writer::{write_rows, write_three, Wanted};

/// Room for every transfer; the longest has 2,563 bytes.
pub const ROOM: usize = 2600;
/// Bytes before the data of request 2, the bytes of request 12 that end with a data byte, and the most chips of a group, by part.
pub const HEADS: [usize; 2] = [12, 10];
pub const STEPS: [usize; 2] = [8, 6];
pub const MOST: [u8; 2] = [4, 8];
/// The greatest registers of each part: E B M P A I O AB BF and three marks.
pub const GREATEST: [[u8; SET]; 2] = [
    [1, 1, 3, 159, 4, 1, 1, 1, 3, 1, 1, 1],
    [1, 1, 3, 79, 8, 1, 1, 1, 3, 1, 1, 1],
];

/// The wanted M and I of request 2; request 12 has none.
pub type Setting = Option<[u8; 2]>;
pub const THREE: Setting = None;

/// A call, but for its output.
#[derive(Clone, Debug)]
pub struct Writing {
    pub part: u8,
    pub chips: [u8; 2],
    pub registers: [u8; REGISTERS],
    pub group: u8,
    pub setting: Setting,
    pub rows: Vec<u8>,
}

impl Writing {
    /// A bus from power-on, with chips in group 0 alone; every column is wanted to be `column`.
    pub fn new(part: u8, chips: u8, setting: impl Into<Setting>, column: u8) -> Self {
        Writing::of_group(part, [chips, 0], 0, setting, column)
    }

    pub fn of_group(
        part: u8,
        chips: [u8; 2],
        group: u8,
        setting: impl Into<Setting>,
        column: u8,
    ) -> Self {
        let length = columns_of(part) * chips[group as usize] as usize;
        Writing {
            part,
            chips,
            registers: [0; REGISTERS],
            group,
            setting: setting.into(),
            rows: vec![column; length],
        }
    }

    pub fn write(&self, out: &mut [u8]) -> [usize; ANSWER] {
        let [chips0, chips1] = self.chips;
        let wanted = Wanted {
            part: self.part,
            chips0,
            chips1,
            registers: &self.registers,
            group: self.group,
            rows: &self.rows,
        };
        let answer = match self.setting {
            Some(mode_and_bank) => write_rows(wanted, mode_and_bank, out),
            None => write_three(wanted, out),
        };
        answer.numbers()
    }

    /// The transfer, with room behind it, which stays.
    pub fn bytes(&self) -> Vec<u8> {
        let mut out = vec![0xEE; ROOM];
        let answer = self.write(&mut out);
        let length = answer[2];
        assert_eq!(answer, [0, 0, length, 0, 0, 0], "{self:?}");
        assert_eq!(out[length..], vec![0xEE; ROOM - length]);
        out.truncate(length);
        out
    }

    /// The transfer's data bytes.
    pub fn data(&self) -> Vec<u8> {
        let (mut bytes, part) = (self.bytes(), self.part as usize);
        match self.setting {
            Some(_) => bytes.split_off(HEADS[part]),
            None => {
                let last_of_steps = bytes[3..].iter().skip(STEPS[part] - 1);
                last_of_steps.step_by(STEPS[part]).copied().collect()
            }
        }
    }

    /// The call is refused, and the output stays.
    pub fn refused(&self, room: usize, number: usize, place: usize) {
        let mut out = vec![0xEE; room];
        let answer = self.write(&mut out);
        assert_eq!(answer, [number, place, 0, 0, 0, 0], "{self:?}");
        assert_eq!(out, vec![0xEE; room]);
    }
}

/// Every part, chips of a group, group, and each of these settings; the other group has another number of chips.
pub fn every_writing(settings: &[Setting]) -> Vec<Writing> {
    let mut writings = Vec::new();
    for (part, most) in (0..).zip(MOST) {
        for chips in 0..=most {
            for setting in settings.iter().copied() {
                let other = (chips + 2) % (most + 1);
                writings.push(Writing::of_group(part, [chips, other], 0, setting, 0));
                writings.push(Writing::of_group(part, [other, chips], 1, setting, 0));
            }
        }
    }
    writings
}

// ---- The bytes -------------------------------------------------------------

/// A group's registers are the greatest but for E, B and O; of the other group these are the opposite.
pub fn with_flags(mut writing: Writing, flags: [u8; 3]) -> Writing {
    let own = SET * writing.group as usize;
    for (start, [e, b, o]) in [(own, flags), (SET - own, flags.map(|flag| 1 - flag))] {
        let set = &mut writing.registers[start..start + SET];
        set.copy_from_slice(&GREATEST[writing.part as usize]);
        (set[0], set[1], set[6]) = (e, b, o);
    }
    writing
}

/// In outputs just as long as the transfer and longer, the bytes past it stay.
pub fn hold_output_past_it(settings: &[Setting]) {
    for mut writing in every_writing(settings) {
        writing.rows.fill(15);
        let bytes = writing.bytes();
        for more in [0, 1, 2, 99] {
            let mut out = vec![0xEE; bytes.len() + more];
            assert_eq!(writing.write(&mut out), [0, 0, bytes.len(), 0, 0, 0]);
            assert_eq!(out, [&bytes[..], &vec![0xEE; more]].concat());
        }
    }
}

/// The data byte and the bit in it that a row of a column has, from the most significant; none where the writer does not reach.
fn place_of(setting: Setting, column: usize, row: usize) -> Option<(usize, usize)> {
    let bank = setting.map_or(0, |[_, bank]| bank as usize);
    match setting.map(|[mode, _]| mode) {
        None if row < 3 => Some((column / 2, 3 * (column % 2) + row)),
        Some(1) if row == 2 * bank => Some((column / 8, column % 8)),
        Some(2) if row / 2 == bank => Some((column / 4, 2 * (column % 4) + row % 2)),
        Some(3) if row < 3 && (column % 3, row) != (2, 2) => {
            Some((column / 3, 3 * (column % 3) + row))
        }
        Some(0) => Some((column / 2, 4 * (column % 2) + row)),
        _ => None,
    }
}

/// Each wanted bit alone is a bit of the data, or none.
pub fn hold_each_bit_alone(settings: &[Setting]) {
    for mut writing in every_writing(settings)
        .into_iter()
        .filter(|writing| writing.group == 0)
    {
        for (column, row) in
            (0..writing.rows.len()).flat_map(|column| [0, 1, 2, 3].map(|row| (column, row)))
        {
            writing.rows[column] = 1 << row;
            let data = writing.data();
            let set = (0..8 * data.len()).filter(|bit| data[bit / 8] << (bit % 8) & 0x80 != 0);
            let place = place_of(writing.setting, column, row).map(|(byte, bit)| 8 * byte + bit);
            assert_eq!(set.collect::<Vec<_>>(), Vec::from_iter(place));
            writing.rows[column] = 0;
        }
    }
}

// ---- A group with no chip --------------------------------------------------

/// No byte is written, in an output of no byte or more; the other group may have chips.
pub fn hold_no_chip(settings: &[Setting]) {
    for part in [PCF8532, PCA85133] {
        for (chips, group) in [([0, 0], 0), ([0, 0], 1), ([0, 3], 0), ([3, 0], 1)] {
            for setting in settings.iter().copied() {
                let writing = Writing::of_group(part, chips, group, setting, 0);
                assert_eq!(writing.bytes(), []);
                assert_eq!(writing.write(&mut []), [0; ANSWER]);
            }
        }
    }
}

/// A group with no chip and one thing changed: refused, with no room and with some.
pub fn expect_no_chip_refused(setting: Setting, number: usize, change: fn(&mut Writing)) {
    let mut writing = Writing::of_group(PCF8532, [0, 1], 0, setting, 0);
    change(&mut writing);
    writing.refused(0, number, 0);
    writing.refused(50, number, 0);
}

/// Everything is still refused but 5 and 9: no column is wanted, and no byte is too few.
pub fn hold_no_chip_refused(setting: Setting) {
    let refused = |number, change| expect_no_chip_refused(setting, number, change);
    refused(16, |writing| writing.part = 2);
    refused(3, |writing| writing.chips[1] = 5);
    refused(6, |writing| writing.registers[0] = 2);
    refused(6, |writing| writing.registers[SET] = 2);
    refused(8, |writing| writing.group = 2);
    refused(4, |writing| writing.rows = vec![0; 1]);
    refused(4, |writing| writing.rows = vec![0; 160]);
    refused(4, |writing| writing.rows = vec![16; 1]);
}

// ---- Refusals --------------------------------------------------------------

/// The greatest part is 1, and 16 comes first though all else is wrong.
pub fn hold_unknown_parts(setting: Setting) {
    for part in 2..=255 {
        let mut writing = Writing::new(PCA85133, 1, setting, 0);
        writing.part = part;
        writing.refused(ROOM, 16, 0);
        writing.chips = [9, 9];
        writing.registers.fill(255);
        (writing.group, writing.setting) = (2, setting.map(|_| [4, 2]));
        writing.rows = vec![255; 7];
        writing.refused(3, 16, 0);
    }
}

/// The most chips of a group, and one more in either, whichever is asked for.
pub fn hold_chip_counts(setting: Setting) {
    for (part, most) in (0..).zip(MOST) {
        for group in [0, 1] {
            let writing = |chips| Writing::of_group(part, chips, group, setting, 0);
            writing([most, most]).bytes();
            for chips in [[most + 1, most], [most, most + 1], [255, 0], [0, 255]] {
                writing(chips).refused(ROOM, 3, 0);
            }
        }
    }
}

/// The greatest value of each register of both groups, and one more.
pub fn hold_registers(setting: Setting) {
    let places = |part| (0..REGISTERS).map(move |place| (part, place));
    for (part, place) in [PCF8532, PCA85133].into_iter().flat_map(places) {
        for (chips, group) in [([1, 1], 0), ([1, 1], 1), ([1, 0], 0), ([0, 1], 0)] {
            let mut writing = Writing::of_group(part, chips, group, setting, 0);
            let greatest = GREATEST[part as usize][place % SET];
            writing.registers[place] = greatest;
            writing.bytes();
            for value in [greatest + 1, 255] {
                writing.registers[place] = value;
                writing.refused(ROOM, 6, 0);
            }
        }
    }
}

pub fn hold_groups(setting: Setting) {
    for part in [PCF8532, PCA85133] {
        for group in 0..=255 {
            let mut writing = Writing::of_group(part, [1, 1], 1, setting, 0);
            writing.group = group;
            match group {
                0..=1 => assert_eq!(writing.bytes()[0], [0x70, 0x72][group as usize]),
                _ => writing.refused(ROOM, 8, 0),
            }
        }
    }
}

/// The group's own columns, not both groups', and not a byte more or less.
pub fn hold_wanted_lengths(setting: Setting) {
    for part in [PCF8532, PCA85133] {
        for (chips, group, right) in [([2, 1], 0, 2), ([2, 1], 1, 1), ([0, 3], 1, 3)] {
            let mut writing = Writing::of_group(part, chips, group, setting, 0);
            let columns = columns_of(part);
            assert_eq!(writing.rows.len(), columns * right);
            writing.bytes();
            let length = writing.rows.len();
            for wrong in [0, length - 1, length + 1, length + columns, 2 * length] {
                writing.rows = vec![0; wrong];
                writing.refused(ROOM, 4, 0);
            }
        }
    }
}

/// 15 is taken in each column and 16 refused with the column's index, also where no row of it is sent.
pub fn hold_wanted_columns(settings: &[Setting]) {
    for part in [PCF8532, PCA85133] {
        for setting in settings.iter().copied() {
            let mut writing = Writing::of_group(part, [1, 2], 1, setting, 15);
            writing.bytes();
            let length = writing.rows.len();
            for place in 0..length {
                (writing.rows[length - 1], writing.rows[place]) = (255, 16);
                writing.refused(ROOM, 5, place);
                (writing.rows[length - 1], writing.rows[place]) = (15, 15);
            }
        }
    }
}

/// One byte less than the transfer is refused.
pub fn hold_rooms(settings: &[Setting]) {
    for writing in every_writing(settings) {
        let length = writing.bytes().len();
        assert_eq!(writing.write(&mut vec![0xEE; length])[0], 0);
        for room in (0..length).rev().take(2).chain((0..length).take(1)) {
            writing.refused(room, 9, 0);
        }
    }
}

/// The order is 16, 3, 6, 8, 4, 5, 9: one fault after another is mended; `settings` are mended too, the last being in range.
pub fn hold_order_of_refusals(settings: &[Setting]) {
    for (part, most, columns) in [(PCF8532, 4, 160), (PCA85133, 8, 80)] {
        let mut writing = Writing::new(part, 0, settings[0], 0);
        writing.chips = [1, most + 1];
        writing.registers[REGISTERS - 1] = 2;
        (writing.part, writing.group) = (2, 2);
        writing.rows = vec![16; columns + 1];
        writing.refused(0, 16, 0);
        writing.part = part;
        writing.refused(0, 3, 0);
        writing.chips[1] = most;
        writing.refused(0, 6, 0);
        writing.registers[REGISTERS - 1] = 1;
        for setting in &settings[1..] {
            writing.refused(0, 6, 0);
            writing.setting = *setting;
        }
        writing.refused(0, 8, 0);
        writing.group = 0;
        writing.refused(0, 4, 0);
        writing.rows[..8].fill(15);
        writing.rows.pop();
        writing.refused(0, 5, 8);
        writing.rows.fill(15);
        let length = writing.bytes().len();
        writing.refused(0, 9, 0);
        writing.refused(length - 1, 9, 0);
    }
}

// ---- Run in both accounts --------------------------------------------------

/// A bus after a transfer that was taken: the answer, the registers and the RAM.
pub type After = ([usize; ANSWER], [u8; REGISTERS], Vec<u8>);

impl Writing {
    /// Runs the transfer on its bus with this RAM; the same chips one by one give the same, and hold the same afterwards.
    pub fn run(&self, ram: &[u8]) -> After {
        self.run_bytes(ram, &self.bytes())
    }

    /// The same of other bytes.
    pub fn run_bytes(&self, ram: &[u8], bytes: &[u8]) -> After {
        let ([chips0, chips1], part) = (self.chips, self.part);
        let (mut registers, mut after) = (self.registers, ram.to_vec());
        let mut chips = plain_chips(part, self.chips, &registers, ram);
        let (set, columns) = (&mut registers, &mut after);
        let long = transfer(part, chips0, chips1, set, columns, bytes, WHOLE);
        let plain = plain_transfer(part, &mut chips, bytes, WHOLE);
        assert_eq!(common(long), common(plain), "{self:?}");
        assert_eq!(chips, plain_chips(part, self.chips, &registers, &after));
        (long.numbers(), registers, after)
    }

    /// Columns past the last one that the last byte covers.
    fn overhang(&self) -> usize {
        match self.setting {
            THREE => 1,
            Some([3, _]) => [0, 2, 1][self.rows.len() % 3],
            _ => 0,
        }
    }

    /// All bytes are acknowledged but a last one that overhangs, which loses two bits or five.
    pub fn counted(&self) -> [usize; ANSWER] {
        let (length, overhang) = (self.bytes().len(), self.overhang());
        let bits = 8 * self.data().len();
        let (lost, last) = ([0, 2, 5][overhang], self.chips[self.group as usize] - 1);
        match overhang {
            0 => [0, 0, length, bits, 0, last as usize],
            _ => [0, 0, length - 1, bits - lost, lost, none(self.part)],
        }
    }

    /// M and I are the wanted ones, or M is that of 1:3, A and P are just past the last byte, and nothing is unknown; all else stays.
    fn registers_after(&self) -> [u8; REGISTERS] {
        let mut registers = self.registers;
        let set = &mut registers[SET * self.group as usize..][..SET];
        match self.setting {
            Some([mode, bank]) => (set[2], set[5]) = (mode, bank),
            None => set[2] = 3,
        }
        (set[3], set[4]) = (self.overhang() as u8, self.chips[self.group as usize]);
        set[9..].fill(0);
        registers
    }

    /// Columns of the long RAM.
    pub fn all_columns(&self) -> usize {
        let chips: u8 = self.chips.iter().sum();
        columns_of(self.part) * chips as usize
    }

    /// The group's first column in the long RAM.
    pub fn first_column(&self) -> usize {
        match self.group {
            0 => 0,
            _ => columns_of(self.part) * self.chips[0] as usize,
        }
    }

    /// The rows that the writer reaches are as wanted, all else stays.
    fn ram_after(&self, ram: &[u8]) -> Vec<u8> {
        let mut after = ram.to_vec();
        for (column, wanted) in self.rows.iter().enumerate() {
            let reached = reached(self.setting, column);
            let own = &mut after[self.first_column() + column];
            *own = *own & !reached | wanted & reached;
        }
        after
    }

    /// Runs the transfer, which is held to the paper; gives the bus.
    pub fn expect_run(&self, ram: &[u8]) -> After {
        let after = (self.counted(), self.registers_after(), self.ram_after(ram));
        assert_eq!(self.run(ram), after, "{self:?}");
        after
    }
}

/// The rows of a column that a writer reaches, as bits.
fn reached(setting: Setting, column: usize) -> u8 {
    match setting {
        THREE => 0b0111,
        Some([1, 0]) => 0b0001,
        Some([1, _]) => 0b0100,
        Some([2, 0]) => 0b0011,
        Some([2, _]) => 0b1100,
        Some([3, _]) if column % 3 == 2 => 0b0011,
        Some([3, _]) => 0b0111,
        _ => 0b1111,
    }
}

/// Any registers of a part, from which pointer and counter are known or not.
pub fn any_registers(random: &mut Random, part: u8) -> [u8; REGISTERS] {
    let greatest = GREATEST[part as usize];
    let mut registers = [0; REGISTERS];
    for (place, register) in registers.iter_mut().enumerate() {
        *register = random.below(greatest[place % SET] as usize + 1) as u8;
    }
    registers
}

pub fn any_columns(random: &mut Random, length: usize) -> Vec<u8> {
    (0..length).map(|_| random.byte() & 15).collect()
}

/// The writings of groups with a chip, with any rows and registers, and any RAM for each.
pub fn any_runs(random: &mut Random, settings: &[Setting]) -> Vec<(Writing, Vec<u8>)> {
    let mut runs = Vec::new();
    for mut writing in every_writing(settings) {
        let ram = any_columns(random, writing.all_columns());
        writing.registers = any_registers(random, writing.part);
        writing.rows = any_columns(random, writing.rows.len());
        if !writing.rows.is_empty() {
            runs.push((writing, ram));
        }
    }
    runs
}

/// Every part, chip count and group, with any rows over any RAM from any registers.
pub fn hold_every_run(settings: &[Setting], rounds: usize) {
    let mut random = Random::new(2);
    for _ in 0..rounds {
        for (writing, ram) in any_runs(&mut random, settings) {
            writing.expect_run(&ram);
        }
    }
}

/// From every set of marks, in both groups.
pub fn hold_every_mark(setting: Setting) {
    let mut random = Random::new(22);
    for marks in (0..8).map(|set| [set & 1, set >> 1 & 1, set >> 2]) {
        for (part, group) in [(0, 0), (0, 1), (1, 0), (1, 1)] {
            let mut writing = Writing::of_group(part, [2, 1], group, setting, 9);
            writing.registers = any_registers(&mut random, part);
            let place = SET * group as usize + 9;
            writing.registers[place..place + 3].copy_from_slice(&marks);
            writing.expect_run(&any_columns(&mut random, 3 * columns_of(part)));
        }
    }
}

/// What a bus holds, written to it again, changes no column, nor does the same transfer once more.
pub fn hold_written_again(settings: &[Setting]) {
    let mut random = Random::new(222);
    for (mut writing, ram) in any_runs(&mut random, settings) {
        let (first, own) = (writing.first_column(), writing.rows.len());
        writing.rows = ram[first..first + own].to_vec();
        let (_, registers, after) = writing.run(&ram);
        assert_eq!(after, ram);
        writing.registers = registers;
        assert_eq!(writing.run(&ram), (writing.counted(), registers, ram));
    }
}
