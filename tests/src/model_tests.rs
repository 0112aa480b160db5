//! The paper's cases ("Both sides of each edge"), blinking, the worked log, refusals, and the two accounts compared.

#[path = "control_tests.rs"]
mod control;
#[path = "cut_tests.rs"]
mod cut;
#[path = "last_chip_tests.rs"]
mod last_chip;
#[path = "packed_tests.rs"]
mod packed;
#[path = "part_tests.rs"]
mod part;
#[path = "rescue_tests.rs"]
mod rescue;
#[path = "seen_tests.rs"]
mod seen;
#[path = "three_tests.rs"]
mod three;
#[path = "writer_tests.rs"]
mod writer;
#[path = "writing_tests.rs"]
mod writing;

use super::*;
use crate::{generate, random::Random};

/// The parts' numbers in a call.
const PCF8532: u8 = 0;
const PCA85133: u8 = 1;

/// A bus with chips of one part in group 0 only, from power-on.
struct Bus {
    part: u8,
    chips: u8,
    registers: [u8; REGISTERS],
    ram: Vec<u8>,
}

impl Bus {
    /// The PCF8532, of which paper 01 speaks.
    fn new(chips: u8, column: u8) -> Self {
        Bus::of(PCF8532, chips, column)
    }

    fn of(part: u8, chips: u8, column: u8) -> Self {
        Bus {
            part,
            chips,
            registers: [0; REGISTERS],
            ram: vec![column; columns_of(part) * chips as usize],
        }
    }

    /// The long account's answer; the same chips one by one give the same, and hold the same afterwards.
    fn answer(&mut self, bytes: &[u8]) -> Answer {
        self.answer_to(bytes, WHOLE)
    }

    /// The same where the last byte has so many bits.
    fn answer_to(&mut self, bytes: &[u8], bits: u8) -> Answer {
        let mut chips = self.plain_chips();
        let (part, registers, ram) = (self.part, &mut self.registers, &mut self.ram);
        let long = transfer(part, self.chips, 0, registers, ram, bytes, bits);
        let plain = plain_transfer(part, &mut chips, bytes, bits);
        assert_eq!(common(long), common(plain), "{bytes:02X?} {bits}");
        assert_eq!(chips, self.plain_chips(), "{bytes:02X?} {bits}");
        long
    }

    fn send(&mut self, bytes: &[u8]) -> [usize; ANSWER] {
        self.answer(bytes).numbers()
    }

    /// Sends commands one by one, then data; gives the answer.
    fn set_and_send(&mut self, commands: &[u8], data: &[u8]) -> [usize; ANSWER] {
        self.send(&generate::commands_then_data(112, commands, data))
    }

    fn state(&self) -> Registers {
        Registers::from_bytes(&self.registers[..SET])
    }

    /// The columns that are not `column`.
    fn others(&self, column: u8) -> Vec<(usize, u8)> {
        let all = self.ram.iter().copied().enumerate();
        all.filter(|(_, value)| *value != column).collect()
    }

    fn a_and_p(&self) -> (u8, u8) {
        (self.state().a, self.state().p)
    }

    fn plain_chips(&self) -> Vec<Chip> {
        plain_chips(self.part, [self.chips, 0], &self.registers, &self.ram)
    }

    /// Shows the group in a buffer that was all 9.
    fn show(&self, phase: u8) -> ([usize; ANSWER], Vec<u8>) {
        let view = View {
            part: self.part,
            chips0: self.chips,
            chips1: 0,
            registers: &self.registers,
            ram: &self.ram,
            group: 0,
            phase,
        };
        let mut out = vec![9; self.ram.len()];
        (picture(view, &mut out).numbers(), out)
    }

    /// Shows each chip alone, in buffers that were all 9.
    fn show_chips(&self, phase: u8) -> Vec<([usize; ANSWER], Vec<u8>)> {
        let show = |chip| {
            let mut out = vec![9; columns_of(self.part)];
            let answer = plain_picture(self.part, chip, phase, &mut out);
            (answer.numbers(), out)
        };
        self.plain_chips().iter().map(show).collect()
    }
}

#[test]
fn mode_4_over_the_edge() {
    let mut bus = Bus::new(2, 0);
    assert_eq!(bus.set_and_send(&[0x09, 0x4F], &[0xA5]), [0, 0, 7, 8, 0, 1]);
    assert_eq!(bus.others(0), [(159, 5), (160, 10)]);
    assert_eq!(bus.a_and_p(), (1, 1));
}

#[test]
fn mode_3_over_the_edge() {
    let mut bus = Bus::new(2, 0);
    assert_eq!(
        bus.set_and_send(&[0xC3, 0x09, 0x4F], &[0xFF]),
        [0, 0, 9, 8, 0, 1]
    );
    assert_eq!(bus.others(0), [(159, 7), (160, 7), (161, 3)]);
    assert_eq!(bus.a_and_p(), (1, 2));
}

#[test]
fn mode_3_leaves_row_2_of_the_last_column() {
    let mut bus = Bus::new(2, 15);
    bus.set_and_send(&[0xC3, 0x09, 0x4F], &[0x00]);
    assert_eq!(bus.others(15), [(159, 8), (160, 8), (161, 12)]);
}

#[test]
fn static_over_the_edge() {
    let mut bus = Bus::new(2, 0);
    bus.set_and_send(&[0xC1, 0x09, 0x4C], &[0x81]);
    assert_eq!(bus.others(0), [(156, 1), (163, 1)]);
    assert_eq!(bus.a_and_p(), (1, 4));
}

#[test]
fn mode_2_in_the_second_bank() {
    let mut bus = Bus::new(2, 0);
    bus.set_and_send(&[0xC2, 0xFA, 0x09, 0x4E], &[0xFF]);
    assert_eq!(bus.others(0), [(158, 12), (159, 12), (160, 12), (161, 12)]);
}

#[test]
fn mode_3_past_the_last_chip() {
    let mut bus = Bus::new(1, 0);
    assert_eq!(
        bus.set_and_send(&[0xC3, 0x09, 0x4F], &[0xFF]),
        [0, 0, 8, 3, 5, 4]
    );
    assert_eq!(bus.others(0), [(159, 7)]);
}

#[test]
fn past_the_fourth_chip() {
    let mut bus = Bus::new(4, 0);
    let answer = bus.set_and_send(&[0xE3, 0x09, 0x4E], &[0xFF, 0xFF]);
    assert_eq!(answer, [0, 0, 9, 8, 8, 4]);
    assert_eq!(bus.others(0), [(638, 15), (639, 15)]);
    assert_eq!(bus.a_and_p(), (4, 2));
}

#[test]
fn pointer_high_keeps_the_low_nibble() {
    let mut bus = Bus::new(1, 0);
    bus.send(&[0x70, 0x00, 0x09, 0x4F]);
    assert_eq!(bus.a_and_p(), (0, 159));
    bus.send(&[0x70, 0x00, 0x00]);
    assert_eq!(bus.a_and_p(), (0, 15));
}

#[test]
fn edges_of_the_commands() {
    for (taken, refused) in [(0x09, 0x0A), (0xE3, 0xE4), (0xFB, 0xFC)] {
        let mut bus = Bus::new(1, 0);
        assert_eq!(bus.send(&[0x70, 0x00, taken]), [0, 0, 3, 0, 0, 4]);
        let before = bus.registers;
        assert_eq!(bus.send(&[0x70, 0x00, refused]), [7, 2, 0, 0, 0, 4]);
        assert_eq!(bus.registers, before);
    }
    let defined = (0..=255).filter(|byte| Part::Pcf8532.defines(*byte));
    assert_eq!(defined.count(), 66);
}

#[test]
fn alternate_blinking_shows_the_other_bank() {
    let mut bus = Bus::new(1, 12);
    bus.send(&[0x70, 0x00, 0xCA, 0xF8, 0xF5]);
    assert_eq!(bus.show(1), ([0, 0, 320, 0, 0, 0], vec![3; COLUMNS]));
}

/// The customer's glass of request 3 in paper 02: four backplanes, AB = 1.
#[test]
fn alternate_blinking_darkens_four_backplanes() {
    let mut bus = Bus::new(1, 15);
    bus.send(&[0x70, 0x00, 0xC8, 0xF5]);
    assert_eq!(bus.show(0), ([0, 0, 640, 0, 0, 0], vec![15; COLUMNS]));
    assert_eq!(bus.show(1), ([0, 0, 0, 0, 0, 0], vec![0; COLUMNS]));
}

/// What is shown of columns with the values 0 to 15, and its lit elements.
type Shown = ([u8; 16], usize);

const DARK: Shown = ([0; 16], 0);
const STATIC_BANK_0: Shown = ([0, 1, 0, 1, 0, 1, 0, 1, 0, 1, 0, 1, 0, 1, 0, 1], 8);
const STATIC_BANK_1: Shown = ([0, 0, 0, 0, 1, 1, 1, 1, 0, 0, 0, 0, 1, 1, 1, 1], 8);
const MODE_2_BANK_0: Shown = ([0, 1, 2, 3, 0, 1, 2, 3, 0, 1, 2, 3, 0, 1, 2, 3], 16);
const MODE_2_BANK_1: Shown = ([0, 0, 0, 0, 1, 1, 1, 1, 2, 2, 2, 2, 3, 3, 3, 3], 16);
const MODE_3: Shown = ([0, 1, 2, 3, 4, 5, 6, 7, 0, 1, 2, 3, 4, 5, 6, 7], 24);
const MODE_4: Shown = ([0, 1, 2, 3, 4, 5, 6, 7, 8, 9, 10, 11, 12, 13, 14, 15], 32);

/// Two chips with the values 0 to 15 over and over, so many times each, after a mode-set, a bank-select and a blink-select:
/// the group and each chip alone show `expected` at phases 0 and 1.
fn hold_phases((part, times): (u8, usize), commands: [u8; 3], expected: [Shown; 2]) {
    let mut bus = Bus::of(part, 2, 0);
    bus.ram = (0..16).collect::<Vec<u8>>().repeat(2 * times);
    bus.set_and_send(&commands, &[]);
    for (phase, (columns, lit)) in [0, 1].into_iter().zip(expected) {
        let shown = |times| ([0, 0, times * lit, 0, 0, 0], columns.repeat(times));
        let (group, chip) = (shown(2 * times), shown(times));
        assert_eq!(bus.show(phase), group, "{commands:02X?} phase {phase}");
        assert_eq!(bus.show_chips(phase), [chip.clone(), chip]);
    }
}

/// The same of both parts with B = 0 and 1; with E = 0 both phases are dark.
fn hold_blinking(mode: u8, bank: u8, blink: u8, expected: [Shown; 2]) {
    for part in [(PCF8532, 10), (PCA85133, 5)] {
        for b in [0, 4] {
            hold_phases(part, [0xC0 | b | mode, bank, blink], [DARK, DARK]);
            hold_phases(part, [0xC8 | b | mode, bank, blink], expected);
        }
    }
}

/// Paper 02, request 3: with AB = 1 (F4 to F7) as with AB = 0, dark at phase 1 if BF is not 0; banks do not matter.
#[test]
fn modes_3_and_4_blink_alike_with_ab_0_and_1() {
    for (mode, lit) in [(3, MODE_3), (0, MODE_4)] {
        for bank in [0xF8, 0xF9, 0xFA, 0xFB] {
            hold_blinking(mode, bank, 0xF0, [lit, lit]);
            hold_blinking(mode, bank, 0xF1, [lit, DARK]);
            hold_blinking(mode, bank, 0xF2, [lit, DARK]);
            hold_blinking(mode, bank, 0xF3, [lit, DARK]);
            hold_blinking(mode, bank, 0xF4, [lit, lit]);
            hold_blinking(mode, bank, 0xF5, [lit, DARK]);
            hold_blinking(mode, bank, 0xF6, [lit, DARK]);
            hold_blinking(mode, bank, 0xF7, [lit, DARK]);
        }
    }
}

/// Paper 01, as it was: with AB = 0 dark at phase 1 if BF is not 0, with AB = 1 the other bank.
#[test]
fn static_and_mode_2_blink_with_the_other_bank() {
    let banks = [
        (1, STATIC_BANK_0, STATIC_BANK_1),
        (2, MODE_2_BANK_0, MODE_2_BANK_1),
    ];
    for (mode, zero, one) in banks {
        let selects = [
            (0xF8, zero, one),
            (0xF9, one, zero),
            (0xFA, zero, one),
            (0xFB, one, zero),
        ];
        for (bank, own, other) in selects {
            hold_blinking(mode, bank, 0xF0, [own, own]);
            hold_blinking(mode, bank, 0xF1, [own, DARK]);
            hold_blinking(mode, bank, 0xF2, [own, DARK]);
            hold_blinking(mode, bank, 0xF3, [own, DARK]);
            hold_blinking(mode, bank, 0xF4, [own, own]);
            hold_blinking(mode, bank, 0xF5, [own, other]);
            hold_blinking(mode, bank, 0xF6, [own, other]);
            hold_blinking(mode, bank, 0xF7, [own, other]);
        }
    }
}

#[test]
fn addresses_alone() {
    assert_eq!(Bus::new(1, 0).send(&[0x70]), [0, 0, 1, 0, 0, 4]);
    assert_eq!(Bus::new(1, 0).send(&[0x71]), [0, 0, 0, 0, 0, 4]);
    assert_eq!(Bus::new(1, 0).send(&[0x72, 0x00, 0xFF]), [0, 0, 0, 0, 0, 4]);
    assert_eq!(Bus::new(0, 0).send(&[0x70]), [0, 0, 0, 0, 0, 4]);
}

#[test]
fn worked_log() {
    let text =
        "T 0 0 0 9 8 0 1\nT 1 7 2 0 0 0 4\nT 2 0 0 0 0 0 4\nS 0 159 5\nS 0 160 10\nG 0 4\nG 1 0\n";
    assert_eq!(log_text(&generate::WORKED_LOG), text.as_bytes());
}

fn text(log: &[u8]) -> String {
    String::from_utf8(log_text(log)).unwrap()
}

#[test]
fn refused_logs() {
    assert_eq!(text(&[]), "X 12 0\n");
    assert_eq!(text(&[1, 0]), "X 12 0\n");
    assert_eq!(text(&[3, 9, 9]), "X 12 0\n");
    assert_eq!(text(&[1, 0, 5, 0]), "X 3 0\n");
    assert_eq!(text(&[1, 1, 0, 0]), "X 13 3\n");
    assert_eq!(text(&[1, 1, 0, 0, 1, 0x70, 0, 2, 0x70]), "X 13 6\n");
    assert_eq!(text(&[0; 65537]), "X 14 0\n");
    assert_eq!(text(&[0; 65536]), "X 12 0\n");
}

#[test]
fn odd_records() {
    assert_eq!(text(&[1, 4, 4]), "G 0 0\nG 1 0\n");
    assert_eq!(text(&[1, 1, 0, 0, 0]), "T 0 1 0 0 0 0 4\nG 0 0\nG 1 0\n");
    let long = [vec![1, 0, 0, 0x10, 0x01], vec![0x50; 4097]].concat();
    assert_eq!(text(&long), "T 0 2 0 0 0 0 4\nG 0 0\nG 1 0\n");
}

#[test]
fn order_of_transfer_refusals() {
    let long = vec![0x50; 4097];
    let mut wrong = [0; REGISTERS];
    wrong[REGISTERS - 1] = 4;
    let number = |chips: u8, mut registers: [u8; REGISTERS], mut ram: Vec<u8>, bytes: &[u8]| {
        let answer = transfer(PCF8532, chips, 0, &mut registers, &mut ram, bytes, WHOLE);
        (answer.number, answer.place)
    };
    assert_eq!(number(5, wrong, vec![16; 3], &[]), (3, 0));
    assert_eq!(number(1, wrong, vec![16; 3], &[]), (6, 0));
    assert_eq!(number(1, [0; REGISTERS], vec![16; 161], &[]), (4, 0));
    let mut ram = vec![0; COLUMNS];
    ram[17] = 16;
    ram[18] = 255;
    assert_eq!(number(1, [0; REGISTERS], ram, &[]), (5, 17));
    assert_eq!(number(1, [0; REGISTERS], vec![0; COLUMNS], &[]), (1, 0));
    assert_eq!(number(1, [0; REGISTERS], vec![0; COLUMNS], &long), (2, 0));
}

#[test]
fn order_of_plain_refusals() {
    let sent = |chips: &[Chip], bytes: &[u8]| {
        let answer = plain_transfer(PCF8532, &mut chips.to_vec(), bytes, WHOLE);
        answer.numbers()
    };
    let mut bad = Chip::new(0, 3);
    bad.registers.p = 160;
    assert_eq!(sent(&[bad; 9], &[])[0], 10);
    assert_eq!(sent(&[Chip::new(0, 0), bad], &[]), [11, 1, 0, 0, 0, 4]);
    assert_eq!(sent(&[], &[])[0], 1);
    assert_eq!(sent(&[], &[0x70, 0, 0xFF]), [0, 0, 0, 0, 0, 4]);
    let chips = [Chip::new(1, 0)];
    assert_eq!(sent(&chips, &[0x70, 0, 0xFF])[0], 0);
    assert_eq!(sent(&chips, &[0x72, 0, 0xFF]), [7, 2, 0, 0, 0, 4]);
}

#[test]
fn one_plain_chip() {
    let shown = |chip: &Chip, phase, length| {
        let answer = plain_picture(PCF8532, chip, phase, &mut vec![0; length]);
        (answer.number, answer.counts[0])
    };
    let mut chip = Chip::new(0, 4);
    chip.registers.e = 9;
    assert_eq!(shown(&chip, 2, 0), (11, 0));
    assert_eq!(plain_power_on(PCF8532, &mut chip).number, 11);
    assert_eq!(chip.registers, Registers::power_on());
    chip.subaddress = 3;
    chip.registers.e = 9;
    assert_eq!(plain_power_on(PCF8532, &mut chip).number, 0);
    assert_eq!(shown(&chip, 2, 0), (8, 0));
    assert_eq!(shown(&chip, 1, 159), (9, 0));
    chip.registers.e = 1;
    chip.columns[7] = 5;
    assert_eq!(shown(&chip, 1, 160), (0, 2));
}

#[test]
fn plain_acknowledgement_counts_once() {
    let mut chips = [Chip::new(0, 0), Chip::new(0, 0), Chip::new(0, 2)];
    let answer = plain_transfer(PCF8532, &mut chips, &[0x70, 0x40, 0xFF, 0xFF], WHOLE);
    assert_eq!(answer.numbers(), [0, 0, 4, 0, 0, 0]);
    assert_eq!(chips[1].columns[..5], [15, 15, 15, 15, 0]);
    assert_eq!(chips[2].columns, [0; COLUMNS]);
    assert_eq!(chips[2].registers.p, 4);
}

/// What both accounts say of a transfer: number, place, bytes acknowledged, and the last data byte's chip.
fn common(answer: Answer) -> [usize; 4] {
    [answer.number, answer.place, answer.counts[0], answer.chip]
}

/// Columns of a part's chip.
fn columns_of(part: u8) -> usize {
    [160, 80][part as usize]
}

/// What stands behind a PCA85133's columns in these tests; a column could not hold it.
const BEHIND: u8 = 200;

/// The chips of the plain account that stand for a long bus.
fn plain_chips(part: u8, counts: [u8; 2], registers: &[u8; REGISTERS], ram: &[u8]) -> Vec<Chip> {
    let mut chips = Vec::new();
    let mut shares = ram.chunks(columns_of(part));
    for sa0 in 0..2 {
        for (subaddress, columns) in (0..counts[sa0]).zip(&mut shares) {
            let mut chip = Chip::new(sa0 as u8, subaddress);
            chip.columns.fill(BEHIND);
            chip.columns[..columns.len()].copy_from_slice(columns);
            chip.registers = Registers::from_bytes(&registers[SET * sa0..][..SET]);
            chips.push(chip);
        }
    }
    chips
}

#[test]
fn both_accounts_agree() {
    let mut random = Random::new(3);
    for round in 0..600 {
        let part = [PCF8532, PCA85133][round % 2];
        let most = [4, 8][round % 2];
        let counts = [(); 2].map(|()| random.below(most + 1) as u8);
        let mut ram = vec![0; columns_of(part) * (counts[0] + counts[1]) as usize];
        let mut registers = [0; REGISTERS];
        let mut chips = plain_chips(part, counts, &registers, &ram);
        for _ in 0..20 {
            let bytes = generate::transfer(&mut random, generate::shape(part));
            let bits = generate::bits(&mut random);
            let [chips0, chips1] = counts;
            let long = transfer(part, chips0, chips1, &mut registers, &mut ram, &bytes, bits);
            let plain = plain_transfer(part, &mut chips, &bytes, bits);
            assert_eq!(common(long), common(plain));
            assert_eq!(chips, plain_chips(part, counts, &registers, &ram));
        }
    }
}
