//! Request 5 of paper 02: the PCA85133's edges, each part's own limits and unknown parts, by library and model, and held to the paper as well.

use crate::case::{Call, Case};
use crate::chip;
use crate::library::SIZE;
use crate::plain::{self, CHIP};
use humtrellis_tests::generate::commands_then_data;
use humtrellis_tests::model::{Part, ANSWER, COLUMNS, REGISTERS, SET, WHOLE};

const PCA85133: u8 = 1;

/// A bus of PCA85133 chips in group 0; the same chips make a list.
struct Bench(Case);

impl Bench {
    fn new(chips: u8, column: u8) -> Self {
        let mut case = Case::new(PCA85133, [chips, 0]);
        case.ram.fill(column);
        Bench(case)
    }

    /// Sends a transfer to the bus and to the list.
    fn send(&mut self, bytes: &[u8]) -> Vec<usize> {
        self.0.bytes = bytes.to_vec();
        plain::compare_accounts(&mut self.0);
        self.0.answer.clone()
    }

    /// The columns that are not `column`.
    fn others(&self, column: u8) -> Vec<(usize, u8)> {
        let all = self.0.ram.iter().copied().enumerate();
        all.filter(|(_, value)| *value != column).collect()
    }

    fn a_and_p(&self) -> [u8; 2] {
        [self.0.registers[4], self.0.registers[3]]
    }
}

// ---- Edges -----------------------------------------------------------------

/// Chips whose columns all have one value, then commands and data: the columns that change, A and P,
/// and bytes acknowledged, bits stored, bits discarded and the chip.
fn expect_edge(
    (chips, column): (u8, u8),
    (commands, data): (&[u8], &[u8]),
    changed: &[(usize, u8)],
    a_and_p: [u8; 2],
    counted: [usize; 4],
) {
    let mut bench = Bench::new(chips, column);
    let answer = bench.send(&commands_then_data(0x70, commands, data));
    assert_eq!(answer, [&[0, 0], &counted[..]].concat());
    assert_eq!(bench.others(column), changed);
    assert_eq!(bench.a_and_p(), a_and_p);
}

/// Paper 01's starred cases at 80 columns.
#[test]
#[rustfmt::skip]
fn part_edges() {
    expect_edge((2, 0), (&[0x4F], &[0xA5]), &[(79, 5), (80, 10)], [1, 1], [5, 8, 0, 1]);
    expect_edge((2, 0), (&[0xC3, 0x4F], &[0xFF]), &[(79, 7), (80, 7), (81, 3)], [1, 2], [7, 8, 0, 1]);
    expect_edge((2, 15), (&[0xC3, 0x4F], &[0x00]), &[(79, 8), (80, 8), (81, 12)], [1, 2], [7, 8, 0, 1]);
    expect_edge((2, 0), (&[0xC1, 0x4C], &[0x81]), &[(76, 1), (83, 1)], [1, 4], [7, 8, 0, 1]);
    let second_bank = [(78, 12), (79, 12), (80, 12), (81, 12)];
    expect_edge((2, 0), (&[0xC2, 0xFA, 0x4E], &[0xFF]), &second_bank, [1, 2], [9, 8, 0, 1]);
    expect_edge((1, 0), (&[0xC3, 0x4F], &[0xFF]), &[(79, 7)], [1, 2], [6, 3, 5, 8]);
    expect_edge((8, 0), (&[0xE7, 0x4E], &[0xFF, 0xFF]), &[(638, 15), (639, 15)], [8, 2], [7, 8, 8, 8]);
    expect_edge((1, 0), (&[0x4F, 0x00], &[]), &[], [0, 0], [6, 0, 0, 8]);
}

/// Modes, and the columns that FF fills in input banks 0 and 1.
const MODES: [(u8, [&[u8]; 2]); 4] = [
    (1, [&[1; 8], &[4; 8]]),
    (2, [&[3; 4], &[12; 4]]),
    (3, [&[7, 7, 3]; 2]),
    (0, [&[15, 15]; 2]),
];

/// FF from a position on, after these commands, fills these columns; those past the last chip are lost, and then nobody acknowledges it.
fn expect_full_byte(chips: usize, settings: [u8; 2], columns: &[u8], v: usize) {
    let mut bench = Bench::new(chips as u8, 0);
    let place = Part::Pca85133.position_commands((v / 80) as u8, (v % 80) as u8);
    let commands = [&settings, &place[..]].concat();
    let answer = bench.send(&commands_then_data(0x70, &commands, &[0xFF]));
    let filled = (v..80 * chips).zip(columns.iter().copied());
    assert_eq!(bench.others(0), filled.collect::<Vec<_>>());
    let end = v + columns.len();
    let chip = if end <= 80 * chips { (end - 1) / 80 } else { 8 };
    assert_eq!(answer[5], chip);
    assert_eq!(bench.a_and_p(), [(end / 80) as u8, (end % 80) as u8]);
}

/// 1 to 8 chips, each mode and input bank, the last ten positions of each chip.
#[test]
fn part_every_edge() {
    for chips in 1..=8 {
        for (mode, banks) in MODES {
            for (bank, columns) in [0xF8, 0xFA].into_iter().zip(banks) {
                for v in (0..80 * chips).filter(|v| v % 80 >= 70) {
                    expect_full_byte(chips, [0xC0 | mode, bank], columns, v);
                }
            }
        }
    }
}

/// A run that fills eight chips and goes on twice round past them; then nothing is stored until a device-select.
#[test]
fn part_counter_rests() {
    for (mode, banks) in MODES {
        let width = banks[0].len();
        let mut bench = Bench::new(8, 0);
        let data = vec![0xFF; (640 + 160) / width + 1];
        let answer = bench.send(&commands_then_data(0x70, &[0xC0 | mode], &data));
        assert_eq!((answer[3] + answer[4], answer[5]), (8 * data.len(), 8));
        assert_eq!(bench.a_and_p(), [8, (width * data.len() % 80) as u8]);
        let full = bench.0.ram.clone();
        bench.send(&[0x70, 0x40, 0x00]);
        assert_eq!(bench.0.ram, full);
        let answer = bench.send(&commands_then_data(0x70, &[0xE7, 0x00], &[0x00]));
        assert_eq!(answer[5], 7);
        let both = bench.0.ram.iter().zip(&full);
        assert_eq!(both.filter(|(now, before)| now != before).count(), width);
    }
}

// ---- Commands --------------------------------------------------------------

/// True for the bytes that a part's table of commands names.
#[rustfmt::skip]
fn named(part: u8, byte: u8) -> bool {
    match part {
        0 => matches!(byte, 0x00..=0x09 | 0x40..=0x4F | 0xC0..=0xCF | 0xE0..=0xE3 | 0xE8..=0xFB),
        _ => matches!(byte, 0x00..=0x4F | 0xC0..=0xCF | 0xE0..=0xE7 | 0xF0..=0xFB),
    }
}

/// Every byte as a command of each part.
#[test]
fn part_commands() {
    for part in 0..2 {
        let mut case = Case::new(part, [2, 0]);
        for byte in 0..=255 {
            case.bytes = vec![0x70, 0x80, byte];
            let number = if named(part, byte) { 0 } else { 7 };
            assert_eq!(case.try_call(Call::Transfer), number);
            let listed = plain::compare(part, &mut [0; CHIP], &case.bytes);
            assert_eq!(listed, number);
        }
    }
}

/// Each command of pointer and counter, over some of either that stood before.
#[test]
fn part_pointer_and_counter() {
    for before in (0..80 * 9).step_by(7) {
        for command in (0x00..=0x4F).chain(0xE0..=0xE7) {
            let mut bench = Bench::new(1, 0);
            let (a, p) = ((before / 80) as u8, (before % 80) as u8);
            bench.0.registers[3..5].copy_from_slice(&[p, a]);
            bench.send(&[0x70, 0x00, command]);
            let expected = match command {
                0x00..=0x4F => [a, command],
                _ => [command - 0xE0, p],
            };
            assert_eq!(bench.a_and_p(), expected);
        }
    }
}

// ---- Limits ----------------------------------------------------------------

/// What paper 01 and request 5 say of a part.
struct Limits {
    part: u8,
    /// Of a chip.
    columns: usize,
    /// Chips of a group, and subaddresses.
    most: u8,
    /// Chips of a list.
    listed: usize,
    /// Registers, E B M P A I O AB BF and three marks.
    greatest: [u8; SET],
}

const LIMITS: [Limits; 2] = [
    Limits {
        part: 0,
        columns: 160,
        most: 4,
        listed: 8,
        greatest: [1, 1, 3, 159, 4, 1, 1, 1, 3, 1, 1, 1],
    },
    Limits {
        part: 1,
        columns: 80,
        most: 8,
        listed: 16,
        greatest: [1, 1, 3, 79, 8, 1, 1, 1, 3, 1, 1, 1],
    },
];

#[test]
fn part_chip_counts() {
    for Limits { part, most, .. } in LIMITS {
        for chips0 in 0..=20 {
            for chips1 in [0, 1, 4, 5, 8, 9, 255] {
                let number = if chips0.max(chips1) > most { 3 } else { 0 };
                let case = Case::new(part, [chips0, chips1]);
                assert_eq!(case.try_all(), [number; 3]);
            }
        }
    }
}

/// Every length of RAM up to that of four large chips.
#[test]
fn part_ram_lengths() {
    for Limits { part, columns, .. } in LIMITS {
        for chips in [0, 1, 2, 4] {
            for length in 0..=642 {
                let mut case = Case::new(part, [chips, 0]);
                case.ram = vec![0; length];
                let right = length == columns * chips as usize;
                assert_eq!(case.try_all(), [if right { 0 } else { 4 }; 3]);
            }
        }
    }
}

/// Every length of a group's picture up to that of four large chips.
#[test]
fn part_picture_lengths() {
    for Limits { part, columns, .. } in LIMITS {
        for chips in [0, 1, 2, 4] {
            for length in 0..=642 {
                let mut case = Case::new(part, [1, chips]);
                (case.shown, case.out) = ([1, 0], vec![0xEE; length]);
                let right = length == columns * chips as usize;
                assert_eq!(case.compare(Call::Picture), if right { 0 } else { 9 });
            }
        }
    }
}

/// Every length of one chip's picture up to that of two large chips.
#[test]
fn part_chip_picture_lengths() {
    for Limits { part, columns, .. } in LIMITS {
        for length in 0..=322 {
            let mut one = chip::Call::new(part, &[0; CHIP]);
            one.out = vec![0xEE; length];
            assert_eq!(one.picture(), if length == columns { 0 } else { 9 });
        }
    }
}

/// Every value of every register in either group and in a chip: a greater one than its part's greatest is refused.
#[test]
fn part_registers() {
    for Limits { part, greatest, .. } in LIMITS {
        for place in 0..REGISTERS {
            for value in 0..=255 {
                let fits = value <= greatest[place % SET];
                let mut case = Case::new(part, [1, 1]);
                case.registers[place] = value;
                let number = if fits { 0 } else { 6 };
                assert_eq!(case.try_all(), [0, number, number]);
                let mut chip = vec![0; CHIP];
                chip[COLUMNS + 2 + place % SET] = value;
                let number = if fits { 0 } else { 11 };
                assert_eq!(plain::compare(part, &mut chip, &[0x70]), number);
            }
        }
    }
}

#[test]
fn part_subaddresses() {
    for Limits { part, most, .. } in LIMITS {
        for subaddress in 0..=255 {
            let mut one = vec![0; CHIP];
            one[COLUMNS + 1] = subaddress;
            let number = if subaddress < most { 0 } else { 11 };
            assert_eq!(chip::Call::new(part, &one).both(), [number; 2]);
            assert_eq!(plain::compare(part, &mut one, &[0x70]), number);
        }
    }
}

/// Lists of up to 18 chips, sound or with a last chip that is not.
#[test]
fn part_lists() {
    for Limits { part, listed, .. } in LIMITS {
        for count in 1..=18 {
            let mut chips = vec![0; count * CHIP];
            let number = if count > listed { 10 } else { 0 };
            assert_eq!(
                plain::compare(part, &mut chips, &[0x70, 0x40, 0xA5]),
                number
            );
            let mut answer = [77; ANSWER];
            chips[count * CHIP - 1] = 4;
            plain::compare_into(part, &mut chips, &[0x70, 0x40, 0xA5], WHOLE, &mut answer);
            let refusal = if count > listed {
                [10, 0]
            } else {
                [11, count - 1]
            };
            assert_eq!(answer[..2], refusal);
        }
    }
}

/// All eight chips of both groups, in a list turned round: A5 at column 79 of each in turn ends in the next, or is not acknowledged.
#[test]
fn part_sixteen_chips() {
    let list = plain::list_of(&Case::new(PCA85133, [8, 8]));
    let mut chips: Vec<u8> = list.chunks(CHIP).rev().flatten().copied().collect();
    for (first, address) in [(0, 0x70), (8, 0x72)] {
        for own in 0..8 {
            let mut answer = [77; ANSWER];
            let bytes = commands_then_data(address, &[0xE0 | own as u8, 0x4F], &[0xA5]);
            plain::compare_into(PCA85133, &mut chips, &bytes, WHOLE, &mut answer);
            assert_eq!(answer[5], own + 1);
            assert_eq!(chips[CHIP * (15 - first - own) + 79], 5);
        }
    }
}

/// Every place of a chip with 15, 16 and 255: behind its 80 columns a PCA85133 takes and keeps any value.
#[test]
fn part_places_behind() {
    for Limits { part, columns, .. } in LIMITS {
        for place in 0..COLUMNS {
            for value in [15, 16, 255] {
                let mut one = vec![0; CHIP];
                one[place] = value;
                let number = if value > 15 && place < columns { 11 } else { 0 };
                assert_eq!(chip::Call::new(part, &one).both(), [number; 2]);
                let bytes = commands_then_data(0x70, &[0xC9], &[0xFF; 41]);
                assert_eq!(plain::compare(part, &mut one, &bytes), number);
                if place >= columns {
                    assert_eq!(one[place], value);
                }
            }
        }
    }
}

// ---- Unknown parts ---------------------------------------------------------

/// A bus, a list and a chip with every fault at once but wrong sizes.
fn faulty() -> (Case, Vec<u8>, chip::Call) {
    let mut case = Case::new(2, [9, 9]);
    case.registers.fill(255);
    case.ram = vec![255; 7];
    case.bytes.clear();
    case.bits = 0;
    (case.shown, case.out) = ([2, 2], vec![0xEE; 3]);
    let mut one = chip::Call::new(2, &[255; CHIP]);
    (one.phase, one.out) = (2, vec![0xEE; 3]);
    (case, vec![255; 17 * CHIP], one)
}

/// The same without a fault.
fn faultless(part: u8) -> (Case, Vec<u8>, chip::Call) {
    let case = Case::new(part, [1, 1]);
    (case, vec![0; CHIP], chip::Call::new(part, &[0; CHIP]))
}

/// Each number that no part has, with no other fault for the buffers of either part and with every one.
#[test]
fn part_unknown() {
    for (mut case, chips, mut one) in [faultless(0), faultless(1), faulty()] {
        for part in 2..=255 {
            (case.part, one.part) = (part, part);
            assert_eq!(case.try_all(), [16; 3]);
            assert_eq!(one.both(), [16; 2]);
            let (mut after, mut answer) = (chips.clone(), [77; ANSWER]);
            plain::compare_into(part, &mut after, &case.bytes, case.bits, &mut answer);
            assert_eq!((answer, &after), ([16, 0, 0, 0, 0, 4], &chips));
        }
    }
}

/// What an unknown part's calls write: power-on registers and the answer, of which a transfer's ends in 4.
#[test]
fn part_unknown_writes() {
    for (given, _, one) in [faultless(0), faultless(1), faulty()] {
        let calls = [(Call::PowerOn, 0), (Call::Transfer, 4), (Call::Picture, 0)];
        for (call, chip) in calls {
            let mut case = given.clone();
            case.part = 2;
            let mut after = case.clone();
            after.answer = vec![16, 0, 0, 0, 0, chip];
            if let Call::PowerOn = call {
                after.registers.fill(0);
            }
            case.compare(call);
            assert_eq!(case, after);
        }
        let mut powered = one.clone();
        powered.part = 2;
        powered.power_on();
        assert_eq!(powered.chip[..COLUMNS + 2], one.chip[..COLUMNS + 2]);
        assert_eq!(powered.chip[COLUMNS + 2..], [0; SET]);
    }
}

/// Buffers of a wrong size come before an unknown part, and nothing is written.
#[test]
fn part_unknown_sizes() {
    for part in [2, 3, 255] {
        for (registers, answer, chip) in [
            (REGISTERS - 1, ANSWER, CHIP - 1),
            (REGISTERS, ANSWER - 1, CHIP),
            (REGISTERS + 1, ANSWER + 1, CHIP + 1),
        ] {
            let (mut case, _, mut one) = faulty();
            (case.part, one.part) = (part, part);
            case.registers.resize(registers, 0);
            case.answer.resize(answer, 77);
            assert_eq!(case.try_all(), [SIZE; 3]);
            one.chip.resize(chip, 0);
            one.answer.resize(answer, 77);
            assert_eq!(one.both(), [SIZE; 2]);
            let mut list = vec![0; 17 * CHIP + chip];
            let number = plain::compare_into(part, &mut list, &[], 0, &mut vec![77; answer]);
            assert_eq!(number, SIZE);
        }
    }
}
