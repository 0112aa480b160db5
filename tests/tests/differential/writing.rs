//! A call of either writer of paper 02, request 2 or 12: by library and by model, with faults, and as the paper has its bytes and what they leave; and the tests that go for both.

use crate::case::{first_refusal, ram_length, refusal_of, Case, MARKS, PARTS};
use crate::fault;
use crate::library::{self, SIZE};
use crate::plain::{self, CHIP};
use humtrellis_tests::generate::{commands_then_data, shape};
use humtrellis_tests::model::{none, ANSWER, REGISTERS, SET, WHOLE};
use humtrellis_tests::random::Random;
use humtrellis_tests::writer::{self, Wanted};
use std::collections::BTreeSet;

/// Bytes before the data of request 2, the bytes of request 12 that end with a data byte, and the most chips of a group, by part.
const HEADS: [usize; 2] = [12, 10];
const STEPS: [usize; 2] = [8, 6];
const MOST: [u8; 2] = [4, 8];
/// Backplanes, and columns of a data byte, by M.
const BACKPLANES: [usize; 4] = [4, 1, 2, 3];
const WIDTHS: [usize; 4] = [2, 8, 4, 3];

/// The wanted M and I of request 2; request 12 has none.
pub type Setting = Option<[u8; 2]>;
pub const THREE: Setting = None;

/// The buffers and numbers of a call; after the call, what they have become.
#[derive(Clone, Debug, PartialEq)]
pub struct Writing {
    pub part: u8,
    pub chips: [u8; 2],
    pub registers: Vec<u8>,
    pub group: u8,
    pub setting: Setting,
    pub wanted: Vec<u8>,
    pub out: Vec<u8>,
    pub answer: Vec<usize>,
}

impl Writing {
    /// A bus from power-on, 0 wanted in every column, and an output just as long as the transfer.
    pub fn new(part: u8, chips: [u8; 2], group: u8, setting: Setting) -> Self {
        let mut writing = Writing {
            part,
            chips,
            registers: vec![0; REGISTERS],
            group,
            setting,
            wanted: vec![],
            out: vec![],
            answer: vec![77; ANSWER],
        };
        writing.wanted = vec![0; writing.columns()];
        writing.out = vec![0xEE; writing.length()];
        writing
    }

    /// The number of the part whose shape the buffers have.
    fn shape(&self) -> usize {
        shape(self.part) as usize
    }

    pub fn own_chips(&self) -> u8 {
        self.chips[self.group as usize % 2]
    }

    /// Columns of the group.
    fn columns(&self) -> usize {
        ram_length(self.part, [self.own_chips(), 0])
    }

    /// Columns from one data byte to the next.
    fn width(&self) -> usize {
        match self.setting {
            Some([mode, _]) => WIDTHS[mode as usize % 4],
            None => 2,
        }
    }

    fn data_bytes(&self) -> usize {
        self.columns().div_ceil(self.width())
    }

    /// The paper's 12 bytes (10) plus 160 (80) × n / w rounded up, or 3 + 640 (240) × n, or none.
    pub fn length(&self) -> usize {
        match (self.setting, self.data_bytes()) {
            (_, 0) => 0,
            (Some(_), data) => HEADS[self.shape()] + data,
            (None, data) => 3 + STEPS[self.shape()] * data,
        }
    }

    fn by_library(&mut self) -> u8 {
        let (part, chips, group, registers) =
            (self.part, self.chips, self.group, &mut self.registers);
        let (wanted, out, answer) = (&mut self.wanted, &mut self.out, &mut self.answer);
        match self.setting {
            Some([mode, bank]) => {
                let numbers = [group, mode, bank];
                library::write_rows(part, chips, registers, numbers, wanted, out, answer)
            }
            None => library::write_three(part, chips, registers, group, wanted, out, answer),
        }
    }

    fn by_model(&mut self) -> u8 {
        let Ok(registers) = <&[u8; REGISTERS]>::try_from(&self.registers[..]) else {
            return SIZE;
        };
        if self.answer.len() != ANSWER {
            return SIZE;
        }
        let wanted = Wanted {
            part: self.part,
            chips0: self.chips[0],
            chips1: self.chips[1],
            registers,
            group: self.group,
            rows: &self.wanted,
        };
        let answer = match self.setting {
            Some(mode_and_bank) => writer::write_rows(wanted, mode_and_bank, &mut self.out),
            None => writer::write_three(wanted, &mut self.out),
        };
        self.answer = answer.numbers().to_vec();
        answer.number as u8
    }

    /// Makes the call both ways, holds all results together, and gives the number returned.
    pub fn compare(&mut self) -> u8 {
        let (given, mut other) = (self.clone(), self.clone());
        let number = self.by_library();
        let expected = other.by_model();
        if number != expected || *self != other {
            panic!(
                "writer differs\n given {given:?}\n library {number} {self:?}\n model {expected} {other:?}"
            );
        }
        number
    }

    /// Compares on a copy, so that this call stays as it is.
    pub fn try_call(&self) -> u8 {
        self.clone().compare()
    }

    /// The library's transfer, of the paper's length; output past it stays.
    pub fn transfer(&self) -> Vec<u8> {
        let (mut call, length) = (self.clone(), self.length());
        assert_eq!(call.compare(), 0);
        assert_eq!(call.answer, [0, 0, length, 0, 0, 0]);
        assert_eq!(call.out.split_off(length), self.out[length..]);
        call.out
    }
}

/// Every part, chips of a group, group, and each of these settings; the other group has any chips.
pub fn every_writing(random: &mut Random, settings: &[Setting]) -> Vec<Writing> {
    let mut writings = Vec::new();
    for (part, most) in (0..).zip(MOST) {
        for (chips, group) in (0..=most).flat_map(|chips| [(chips, 0), (chips, 1)]) {
            for setting in settings.iter().copied() {
                let mut counts = [random.below(most as usize + 1) as u8; 2];
                counts[group as usize] = chips;
                writings.push(Writing::new(part, counts, group, setting));
            }
        }
    }
    writings
}

// ---- Generated calls -------------------------------------------------------

/// A call on the bus of a case, with any rows, and room that is enough.
pub fn on_bus(random: &mut Random, case: Case, setting: Setting) -> Writing {
    let mut writing = Writing::new(case.part, case.chips, case.shown[0], setting);
    writing.registers = case.registers;
    writing.wanted = fault::columns(random, writing.wanted.len());
    let room = writing.out.len() + random.pick(&[0, 0, 1, 40]);
    writing.out = random.bytes(room);
    writing.answer = case.answer;
    writing
}

/// A call without a fault, but perhaps in its part.
fn good_writing(random: &mut Random, setting: Setting) -> Writing {
    let case = fault::good_case(random);
    on_bus(random, case, setting)
}

/// A bus of either part, and a call on it.
pub fn bus_and_writing(random: &mut Random, setting: Setting) -> (Case, Writing) {
    let mut case = fault::good_case(random);
    case.part %= 2;
    let writing = on_bus(random, case.clone(), setting);
    (case, writing)
}

type Fault = fn(&mut Random, &mut Writing);

const FAULTS: [Fault; 6] = [
    wrong_group,
    wrong_mode,
    wrong_bank,
    wrong_length,
    wrong_columns,
    wrong_room,
];

/// A call with any number of faults, in its bus or in what is wanted of it.
pub fn damaged_writing(random: &mut Random, setting: Setting) -> Writing {
    let case = match random.below(2) {
        0 => fault::good_case(random),
        _ => fault::damaged_case(random),
    };
    let mut writing = on_bus(random, case, setting);
    let rarity = random.between(2, 12);
    for fault in FAULTS {
        if random.one_in(rarity) {
            fault(random, &mut writing);
        }
    }
    writing
}

/// The other group, for which the rows are right only if it has as many chips, or none at all.
fn wrong_group(random: &mut Random, writing: &mut Writing) {
    writing.group = random.pick(&[1 - writing.group % 2, 2, 3, 128, 255]);
}

/// A wanted M out of range, where there is one; so the wanted I.
fn wrong_mode(random: &mut Random, writing: &mut Writing) {
    if let Some([mode, _]) = &mut writing.setting {
        *mode = random.pick(&[4, 5, 7, 128, 255]);
    }
}

fn wrong_bank(random: &mut Random, writing: &mut Writing) {
    if let Some([_, bank]) = &mut writing.setting {
        *bank = random.pick(&[2, 3, 128, 255]);
    }
}

fn wrong_length(random: &mut Random, writing: &mut Writing) {
    let length = writing.wanted.len();
    let both = ram_length(writing.part, writing.chips);
    let others = [length.saturating_sub(1), length + 1, 0, 2 * length, both];
    let value = random.byte() & 31;
    writing.wanted.resize(random.pick(&others), value);
}

fn wrong_columns(random: &mut Random, writing: &mut Writing) {
    let length = writing.wanted.len();
    for _ in 0..random.between(1, 3) {
        if length > 0 {
            let place = random.below(length);
            let place = random.pick(&[0, length - 1, place]);
            writing.wanted[place] = random.pick(&[16, 17, 128, 255]);
        }
    }
}

fn wrong_room(random: &mut Random, writing: &mut Writing) {
    let length = writing.length();
    let others = [0, length / 2, length.saturating_sub(1), length, length + 1];
    writing.out.resize(random.pick(&others), 0xEE);
}

/// A call without a fault is taken, unless no part has its number.
pub fn expect_good_call(random: &mut Random, setting: Setting) {
    let writing = good_writing(random, setting);
    assert_eq!(writing.try_call(), refusal_of(writing.part));
}

/// Every refusal is among those that are drawn.
pub fn hold_every_refusal(setting: fn(&mut Random) -> Setting) {
    let drawn = (0..2000).map(|seed| {
        let mut random = Random::new(seed);
        let setting = setting(&mut random);
        damaged_writing(&mut random, setting).compare()
    });
    let met: BTreeSet<u8> = drawn.collect();
    assert_eq!(met, BTreeSet::from([0, 3, 4, 5, 6, 8, 9, 16, SIZE]));
}

// ---- As the paper has it ---------------------------------------------------

impl Writing {
    /// The byte of the transfer that has a wanted bit, and the bit in it; none has it where the writer does not reach.
    pub fn place_of(&self, column: usize, row: usize) -> Option<(usize, u8)> {
        let Some([mode, bank]) = self.setting else {
            let end_of_step = 2 + STEPS[self.shape()] * (column / 2 + 1);
            return (row < 3).then_some((end_of_step, 0x80 >> (3 * (column % 2) + row)));
        };
        let (m, w) = (BACKPLANES[mode as usize], WIDTHS[mode as usize]);
        let first = if m <= 2 { 2 * bank as usize } else { 0 };
        let k = m * (column % w) + row.checked_sub(first)?;
        if row < first + m && k < 8 {
            Some((HEADS[self.shape()] + column / w, 0x80 >> k))
        } else {
            None
        }
    }

    /// Request 2's head and its data, all 0.
    fn plain_run(&self, address: u8, mode_set: u8, bank_select: u8) -> Vec<u8> {
        let pointers = [&[0x00, 0x40][..], &[0x00]][self.shape()];
        let commands = [&[mode_set, bank_select, 0xE0], pointers].concat();
        let mut bytes = commands_then_data(address, &commands, &[]);
        bytes.resize(self.length(), 0);
        bytes
    }

    /// Request 12's head, and device-select, pointer and a data byte of 0 for each even column.
    fn rewriting(&self, address: u8, mode_set: u8) -> Vec<u8> {
        let mut bytes = vec![address, 0x80, mode_set];
        let of_chip = [160, 80][self.shape()];
        for column in (0..self.columns()).step_by(2) {
            let [chip, p] = [column / of_chip, column % of_chip].map(|number| number as u8);
            match self.shape() {
                0 => bytes.extend([0x80, 0xE0 + chip, 0x80, p / 16, 0x80, 0x40 + p % 16]),
                _ => bytes.extend([0x80, 0xE0 + chip, 0x80, p]),
            }
            bytes.extend([0xC0, 0]);
        }
        bytes
    }

    /// The bytes as the paper has them: each wanted bit is at its place, and the other bits of the data are 0.
    fn by_paper(&self) -> Vec<u8> {
        if self.own_chips() == 0 {
            return vec![];
        }
        let set = &self.registers[SET * self.group as usize..];
        let (address, mode_set) = (0x70 + 2 * self.group, 0xC0 + 8 * set[0] + 4 * set[1]);
        let mut bytes = match self.setting {
            Some([m, i]) => self.plain_run(address, mode_set + m, 0xF8 + 2 * i + set[6]),
            None => self.rewriting(address, mode_set + 3),
        };
        for (column, wanted) in self.wanted.iter().enumerate() {
            for row in (0..4).filter(|row| wanted >> row & 1 == 1) {
                if let Some((byte, bit)) = self.place_of(column, row) {
                    bytes[byte] |= bit;
                }
            }
        }
        bytes
    }

    /// Columns past the last one that the last data byte covers.
    fn overhang(&self) -> usize {
        match self.setting {
            Some(_) => self.data_bytes() * self.width() - self.columns(),
            None => 1,
        }
    }

    /// All bytes are acknowledged but a last one that overhangs, which loses the bits of one column or two.
    fn counted(&self) -> [usize; ANSWER] {
        let (length, last) = (self.length(), self.own_chips() as usize - 1);
        let bits = 8 * self.data_bytes();
        match self.overhang() {
            0 => [0, 0, length, bits, 0, last],
            1 => [0, 0, length - 1, bits - 2, 2, none(self.part)],
            _ => [0, 0, length - 1, bits - 5, 5, none(self.part)],
        }
    }

    /// M and I are the wanted ones, or M is that of 1:3, P and A are just past the last byte, no mark is left; all else stays.
    pub fn registers_after(&self) -> Vec<u8> {
        let mut registers = self.registers.clone();
        let set = &mut registers[SET * self.group as usize..][..SET];
        match self.setting {
            Some([mode, bank]) => (set[2], set[5]) = (mode, bank),
            None => set[2] = 3,
        }
        (set[3], set[4]) = (self.overhang() as u8, self.own_chips());
        set[MARKS..].fill(0);
        registers
    }

    /// Each bit that has a place in the data is the wanted one, all others stay.
    pub fn ram_after(&self, ram: &[u8]) -> Vec<u8> {
        let mut after = ram.to_vec();
        let before = [0, self.chips[0]][self.group as usize];
        let own = &mut after[ram_length(self.part, [before, 0])..];
        for (place, wanted) in self.wanted.iter().enumerate() {
            for row in 0..4 {
                if self.place_of(place, row).is_some() {
                    own[place] = own[place] & !(1 << row) | wanted & 1 << row;
                }
            }
        }
        after
    }
}

// ---- The library's transfer run by the library -----------------------------

/// Each chip alone in a list ends as it does among the others.
fn expect_chips_alone(before: &Case, after: &Case) {
    let (mut chips, ends) = (plain::list_of(before), plain::list_of(after));
    for (chip, end) in chips.chunks_mut(CHIP).zip(ends.chunks(CHIP)) {
        assert_eq!(plain::compare(before.part, chip, &before.bytes), 0);
        assert_eq!(chip, end);
    }
}

/// The library writes a transfer and takes it in both accounts: what is wanted is there, and all else stays. Gives the bus.
pub fn expect_run(writing: &Writing, ram: Vec<u8>) -> Case {
    let mut before = Case::new(writing.part, writing.chips);
    before.registers = writing.registers.clone();
    before.bytes = writing.transfer();
    before.ram = ram;
    let mut after = before.clone();
    assert_eq!(plain::compare_accounts(&mut after), 0);
    assert_eq!(after.answer, writing.counted(), "{writing:?}");
    assert_eq!(after.registers, writing.registers_after(), "{writing:?}");
    assert_eq!(after.ram, writing.ram_after(&before.ram), "{writing:?}");
    expect_chips_alone(&before, &after);
    after
}

/// Registers in range, with any marks in half of the sets.
pub fn any_registers(random: &mut Random, part: u8) -> Vec<u8> {
    let mut registers = fault::registers(random, part);
    for set in registers.chunks_mut(SET) {
        if random.one_in(2) {
            set[MARKS..].fill_with(|| random.below(2) as u8);
        }
    }
    registers
}

/// Any rows, registers and RAM for this call, which is run if its group has a chip.
pub fn run_any(random: &mut Random, mut writing: Writing) {
    writing.registers = any_registers(random, writing.part);
    writing.wanted = fault::columns(random, writing.wanted.len());
    writing.out = random.bytes(writing.out.len() + 3);
    let ram = fault::columns(random, ram_length(writing.part, writing.chips));
    assert_eq!(writing.transfer(), writing.by_paper(), "{writing:?}");
    if writing.own_chips() > 0 {
        expect_run(&writing, ram);
    }
}

/// One transfer after another to both groups, in settings that are drawn: each starts where the one before it ended.
pub fn run_sequence(random: &mut Random, setting: fn(&mut Random) -> Setting) {
    let mut case = fault::good_case(random);
    case.part %= 2;
    for _ in 0..12 {
        let mut next = case.clone();
        next.shown[0] = random.below(2) as u8;
        let setting = setting(random);
        let writing = on_bus(random, next, setting);
        if writing.own_chips() > 0 {
            case.bytes = writing.transfer();
            case.bits = WHOLE;
            let expected = writing.ram_after(&case.ram);
            assert_eq!(plain::compare_accounts(&mut case), 0);
            assert_eq!(case.ram, expected);
            assert_eq!(case.registers, writing.registers_after());
        }
    }
}

/// A transfer cut in any byte, and then written and sent whole, whatever marks the cut leaves.
pub fn run_after_a_cut(random: &mut Random, setting: Setting) {
    let (mut case, mut writing) = bus_and_writing(random, setting);
    if writing.own_chips() == 0 {
        return;
    }
    case.bytes = writing.transfer();
    case.bytes.truncate(random.between(1, case.bytes.len()));
    case.bits = random.between(1, 7) as u8;
    assert_eq!(plain::compare_accounts(&mut case), 0);
    writing.registers = case.registers;
    expect_run(&writing, case.ram);
}

/// Each wanted bit turned alone, in one group for each chip count: a bit of the data turns where the writer reaches, and else none.
pub fn hold_every_bit(settings: &[Setting]) {
    let mut random = Random::new(2);
    let mut writings = every_writing(&mut random, settings);
    writings.retain(|writing| writing.group == writing.own_chips() % 2);
    for mut writing in writings {
        writing.wanted = fault::columns(&mut random, writing.wanted.len());
        let bytes = writing.transfer();
        for bit in 0..4 * writing.wanted.len() {
            let mut expected = bytes.clone();
            if let Some((byte, mask)) = writing.place_of(bit / 4, bit % 4) {
                expected[byte] ^= mask;
            }
            let mut turned = writing.clone();
            turned.wanted[bit / 4] ^= 1 << (bit % 4);
            assert_eq!(turned.transfer(), expected);
        }
    }
}

/// Turns every wanted bit that the writer does not reach, one time in two.
fn turn_unreached(random: &mut Random, writing: &mut Writing) {
    for place in 0..writing.wanted.len() {
        for row in 0..4 {
            let reached = writing.place_of(place, row).is_some();
            writing.wanted[place] ^= (!reached && random.one_in(2)) as u8 * (1 << row);
        }
    }
}

/// Any chips, and any number of bits turned where the writer does not reach: the bytes are the same.
pub fn expect_unreached_bits(random: &mut Random, settings: &[Setting]) {
    for mut writing in every_writing(random, settings) {
        writing.registers = any_registers(random, writing.part);
        writing.wanted = fault::columns(random, writing.wanted.len());
        let bytes = writing.transfer();
        turn_unreached(random, &mut writing);
        assert_eq!(writing.transfer(), bytes);
    }
}

/// All registers but these of the group itself: other ones, in range, leave the bytes as they are.
pub fn expect_other_registers(random: &mut Random, setting: Setting, sent: &[usize]) {
    let (_, mut writing) = bus_and_writing(random, setting);
    let bytes = writing.transfer();
    let others = any_registers(random, writing.part);
    for (place, other) in others.into_iter().enumerate() {
        let own = place / SET == writing.group as usize;
        if !own || !sent.contains(&(place % SET)) {
            writing.registers[place] = other;
            assert_eq!(writing.transfer(), bytes);
        }
    }
}

// ---- Refusals --------------------------------------------------------------

/// A refusal's number, and a fault that brings it.
type Refused = (u8, fn(&mut Writing));

/// The paper's order, behind 16.
const ORDER: [Refused; 6] = [
    (3, |writing| writing.chips[1] = 9),
    (6, |writing| writing.registers[SET + 4] = 9),
    (8, |writing| writing.group = 2),
    (4, |writing| writing.wanted.push(0)),
    (5, |writing| writing.wanted[33] = 16),
    (9, |writing| writing.out.truncate(writing.out.len() - 1)),
];

/// M and I, which only request 2 has, are looked at behind the registers.
const OF_SETTING: [Refused; 2] = [
    (6, |writing| {
        writing.setting = writing.setting.map(|[_, bank]| [4, bank])
    }),
    (6, |writing| {
        writing.setting = writing.setting.map(|[mode, _]| [mode, 2])
    }),
];

/// Every part with every set of faults, and what refuses the call.
fn every_fault(setting: Setting) -> Vec<(Writing, u8)> {
    let of_setting = setting.map_or(&[][..], |_| &OF_SETTING);
    let order = [&ORDER[..2], of_setting, &ORDER[2..]].concat();
    let sets = |part| (0..1 << order.len()).map(move |faults| (part, faults));
    let calls = PARTS.into_iter().flat_map(sets);
    let with_faults = |(part, faults)| {
        let mut writing = Writing::new(part, [1, 1], 0, setting);
        let mut expected = refusal_of(part);
        for (index, (number, fault)) in order.iter().enumerate() {
            if faults >> index & 1 == 1 {
                fault(&mut writing);
                expected = first_refusal([expected, *number]);
            }
        }
        (writing, expected)
    };
    calls.map(with_faults).collect()
}

/// Every set of faults at once: 16, 3, 6, 8, 4, 5, 9.
pub fn hold_orders(setting: Setting) {
    for (mut writing, expected) in every_fault(setting) {
        let before = writing.clone();
        assert_eq!(writing.compare(), expected);
        if expected != 0 {
            assert_eq!(writing.out, before.out);
            let place = if expected == 5 { 33 } else { 0 };
            assert_eq!(writing.answer, [expected as usize, place, 0, 0, 0, 0]);
        }
    }
}

/// Registers or an answer of another size come before every refusal, and nothing is written.
pub fn hold_sizes(setting: Setting) {
    let wrong = [
        (REGISTERS - 1, ANSWER),
        (REGISTERS + 1, ANSWER),
        (SET, ANSWER),
        (0, ANSWER),
        (2 * REGISTERS, ANSWER),
        (REGISTERS, ANSWER - 1),
        (REGISTERS, ANSWER + 1),
        (REGISTERS, 0),
        (0, 0),
    ];
    for (writing, _) in every_fault(setting) {
        for (registers, answer) in wrong {
            let mut writing = writing.clone();
            writing.registers.resize(registers, 200);
            writing.answer.resize(answer, 77);
            assert_eq!(writing.try_call(), SIZE);
        }
    }
}

/// Every part there could be, with no other fault.
pub fn hold_parts(setting: Setting) {
    for part in 0..=255 {
        let writing = Writing::new(part, [1, 2], 1, setting);
        assert_eq!(writing.try_call(), refusal_of(part));
    }
}

pub fn hold_chip_counts(setting: Setting) {
    for (part, most) in (0..).zip(MOST) {
        let others = [0, 1, 4, 5, 8, 9, 255];
        for chips in (0..=20).flat_map(|first| others.map(|second| [first, second])) {
            let too_many = chips[0].max(chips[1]) > most;
            for group in [0, 1] {
                let writing = Writing::new(part, chips, group, setting);
                assert_eq!(writing.try_call(), if too_many { 3 } else { 0 });
            }
        }
    }
}

/// Every value of every register of both groups, whichever is asked for and whether or not it has a chip.
pub fn hold_registers(setting: Setting) {
    let greatest = [
        [1, 1, 3, 159, 4, 1, 1, 1, 3, 1, 1, 1],
        [1, 1, 3, 79, 8, 1, 1, 1, 3, 1, 1, 1],
    ];
    for (part, greatest) in (0..).zip(greatest) {
        let values = |place| (0..=255).map(move |value| (place, value));
        for (place, value) in (0..REGISTERS).flat_map(values) {
            let expected = if value > greatest[place % SET] { 6 } else { 0 };
            for (chips, group) in [([1, 0], 0), ([0, 1], 0), ([1, 1], 1)] {
                let mut writing = Writing::new(part, chips, group, setting);
                writing.registers[place] = value;
                assert_eq!(writing.try_call(), expected);
            }
        }
    }
}

pub fn hold_groups(setting: Setting) {
    for (part, group) in (0..=255).flat_map(|group| [(0, group), (1, group)]) {
        let writing = Writing::new(part, [1, 1], group, setting);
        assert_eq!(writing.try_call(), if group > 1 { 8 } else { 0 });
    }
}

/// Every length of the wanted rows up to that of four large chips.
pub fn hold_wanted_lengths(setting: Setting) {
    for part in 0..2 {
        for (chips, group) in [([0, 2], 0), ([1, 2], 0), ([1, 2], 1), ([3, 4], 1)] {
            let writing = Writing::new(part, chips, group, setting);
            for length in 0..=642 {
                let mut other = writing.clone();
                other.wanted = vec![15; length];
                let right = length == writing.wanted.len();
                assert_eq!(other.try_call(), if right { 0 } else { 4 });
            }
        }
    }
}

/// A column over 15 at every place, also where the writer does not reach all of its rows.
pub fn hold_every_wrong_column(setting: Setting) {
    for (part, most) in (0..).zip(MOST) {
        let mut writing = Writing::new(part, [1, most], 1, setting);
        for place in 0..640 {
            writing.wanted[639] = 255;
            writing.wanted[place] = 16;
            let mut refused = writing.clone();
            assert_eq!(refused.compare(), 5);
            assert_eq!(refused.answer, [5, place, 0, 0, 0, 0]);
            writing.wanted[place] = 15;
        }
    }
}

/// Every value of one column.
pub fn hold_every_column_value(settings: &[Setting]) {
    for (part, value) in (0..=255).flat_map(|value| [(0, value), (1, value)]) {
        for setting in settings.iter().copied() {
            for place in [0, 2, 79] {
                let mut writing = Writing::new(part, [1, 0], 0, setting);
                writing.wanted[place] = value;
                assert_eq!(writing.try_call(), if value > 15 { 5 } else { 0 });
            }
        }
    }
}

/// Every room up to some bytes more than the transfer has.
pub fn hold_every_room(settings: &[Setting]) {
    let mut random = Random::new(9);
    for mut writing in every_writing(&mut random, settings) {
        let length = writing.length();
        for room in 0..=length + 3 {
            writing.out = random.bytes(room);
            assert_eq!(writing.try_call(), if room < length { 9 } else { 0 });
        }
    }
}
