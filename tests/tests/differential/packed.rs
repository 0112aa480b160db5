//! Request 6 of paper 02: packed RAM, by library and model, against the library's own one-byte form, and held to the paper as well.

use crate::case::{clear_marks, ram_length, refusal_of, Call, Case, MARKS};
use crate::library::{Form, SIZE};
use crate::{every_place, every_setting, fault, for_seeds, patterned};
use humtrellis_tests::generate::{self, commands_then_data, is_data, shape};
use humtrellis_tests::model::{none, Part, ANSWER, REGISTERS, SET, WHOLE};
use humtrellis_tests::random::Random;
use std::collections::BTreeSet;

/// Columns, packed bytes and the most chips of a group, by part.
const COLUMNS: [usize; 2] = [160, 80];
const BYTES: [usize; 2] = [80, 40];
const MOST: [u8; 2] = [4, 8];

/// The same case over packed RAM: two columns in a byte, the even one in the low four bits.
fn packed(case: &Case) -> Case {
    let byte = |pair: &[u8]| pair[0] | pair[1] << 4;
    Case {
        form: Form::Packed,
        ram: case.ram.chunks(2).map(byte).collect(),
        ..case.clone()
    }
}

/// The same case with a byte a column.
fn unpacked(case: &Case) -> Case {
    let column = |place: usize| case.ram[place / 2] >> (4 * (place % 2)) & 15;
    Case {
        form: Form::OneByte,
        ram: (0..2 * case.ram.len()).map(column).collect(),
        ..case.clone()
    }
}

/// A packed bus from power-on, with one value in every byte of RAM.
fn filled(part: u8, chips: [u8; 2], byte: u8) -> Case {
    let mut case = packed(&Case::new(part, chips));
    case.ram.fill(byte);
    case
}

/// Makes a call on a case's packed form, by library and model, and on the case itself, by the library: both give the same number and leave the same.
fn compare_forms(case: &mut Case, call: Call) -> u8 {
    let (given, mut halves) = (case.clone(), packed(case));
    let number = case.by_library(call);
    let number_of_halves = halves.compare(call);
    if number_of_halves != number || unpacked(&halves) != *case {
        panic!("forms differ in {call:?}\n given {given:?}\n one byte {number} {case:?}\n packed {number_of_halves} {halves:?}");
    }
    number
}

/// The same on copies, of all three calls.
fn try_forms(case: &Case) -> [u8; 3] {
    let calls = [Call::PowerOn, Call::Transfer, Call::Picture];
    calls.map(|call| compare_forms(&mut case.clone(), call))
}

fn compare_pictures(case: &Case) {
    for shown in [[0, 0], [0, 1], [1, 0], [1, 1]] {
        let mut case = case.clone();
        case.show(shown);
        assert_eq!(
            compare_forms(&mut case, Call::Picture),
            refusal_of(case.part)
        );
    }
}

// ---- Generated cases -------------------------------------------------------

#[test]
fn packed_good_cases() {
    for_seeds(10_000, |random| {
        try_forms(&fault::good_case(random));
    });
}

/// A packed case with any number of faults, of which RAM has only its length.
fn damaged_case(random: &mut Random) -> Case {
    let mut case = fault::damaged_case(random);
    let right = ram_length(case.part, case.chips) / 2;
    let lengths = [0, right.saturating_sub(1), right + 1, right / 2, 2 * right];
    let length = match random.one_in(8) {
        true => random.pick(&lengths),
        false => right,
    };
    case.form = Form::Packed;
    case.ram = random.bytes(length);
    case
}

#[test]
fn packed_damaged_cases() {
    for_seeds(20_000, |random| {
        damaged_case(random).try_all();
    });
}

/// Every refusal is among those that are drawn, but 5.
#[test]
fn packed_every_refusal() {
    let drawn = (0..4000).flat_map(|seed| damaged_case(&mut Random::new(seed)).try_all());
    let met: BTreeSet<u8> = drawn.collect();
    let numbers = [0, 1, 2, 3, 4, 6, 7, 8, 9, 16, 17, 18, 19, SIZE];
    assert_eq!(met, BTreeSet::from(numbers));
}

/// Power-on, then transfers one after another with the state carried over, and pictures between.
#[test]
fn packed_sequences() {
    for_seeds(150, |random| {
        let mut case = fault::good_case(random);
        compare_forms(&mut case, Call::PowerOn);
        for _ in 0..40 {
            case.bytes = fault::transfer(random, case.part);
            case.bits = generate::bits(random);
            compare_forms(&mut case, Call::Transfer);
            compare_pictures(&case);
        }
    });
}

/// The longest transfers, and longer ones.
#[test]
fn packed_lengths() {
    for_seeds(10, |random| {
        let mut case = fault::good_case(random);
        for length in [0, 1, 2, 3, 1280, 4095, 4096, 4097, 5000] {
            case.bytes = generate::transfer_of_length(random, length);
            compare_forms(&mut case.clone(), Call::Transfer);
        }
    });
}

// ---- As the paper has it ---------------------------------------------------

/// The bytes that are not `byte`.
fn others(case: &Case, byte: u8) -> Vec<(usize, u8)> {
    let all = case.ram.iter().copied().enumerate();
    all.filter(|(_, value)| *value != byte).collect()
}

/// Chips of group 0 whose bytes all have one value, then commands and data: the bytes that change, A and P,
/// and bytes acknowledged, bits stored, bits discarded and the chip.
fn expect_edge(
    (part, chips, byte): (u8, u8, u8),
    (commands, data): (&[u8], &[u8]),
    changed: &[(usize, u8)],
    a_and_p: [u8; 2],
    counted: [usize; 4],
) {
    let mut case = filled(part, [chips, 0], byte);
    case.bytes = commands_then_data(0x70, commands, data);
    assert_eq!(case.compare(Call::Transfer), 0);
    assert_eq!(case.answer, [&[0, 0], &counted[..]].concat());
    assert_eq!(others(&case, byte), changed);
    assert_eq!([case.registers[4], case.registers[3]], a_and_p);
}

/// Paper 01's starred cases, of both parts.
#[test]
#[rustfmt::skip]
fn packed_edges() {
    expect_edge((0, 2, 0), (&[0x09, 0x4F], &[0xA5]), &[(79, 0x50), (80, 0x0A)], [1, 1], [7, 8, 0, 1]);
    expect_edge((0, 2, 0), (&[0xC3, 0x09, 0x4F], &[0xFF]), &[(79, 0x70), (80, 0x37)], [1, 2], [9, 8, 0, 1]);
    expect_edge((0, 2, 255), (&[0xC3, 0x09, 0x4F], &[0x00]), &[(79, 0x8F), (80, 0xC8)], [1, 2], [9, 8, 0, 1]);
    expect_edge((0, 2, 0), (&[0xC1, 0x09, 0x4C], &[0x81]), &[(78, 0x01), (81, 0x10)], [1, 4], [9, 8, 0, 1]);
    expect_edge((0, 2, 0), (&[0xC2, 0xFA, 0x09, 0x4E], &[0xFF]), &[(79, 0xCC), (80, 0xCC)], [1, 2], [11, 8, 0, 1]);
    expect_edge((0, 1, 0), (&[0xC3, 0x09, 0x4F], &[0xFF]), &[(79, 0x70)], [1, 2], [8, 3, 5, 4]);
    expect_edge((0, 4, 0), (&[0xE3, 0x09, 0x4E], &[0xFF, 0xFF]), &[(319, 0xFF)], [4, 2], [9, 8, 8, 4]);
    expect_edge((1, 2, 0), (&[0x4F], &[0xA5]), &[(39, 0x50), (40, 0x0A)], [1, 1], [5, 8, 0, 1]);
    expect_edge((1, 2, 0), (&[0xC3, 0x4F], &[0xFF]), &[(39, 0x70), (40, 0x37)], [1, 2], [7, 8, 0, 1]);
    expect_edge((1, 2, 255), (&[0xC3, 0x4F], &[0x00]), &[(39, 0x8F), (40, 0xC8)], [1, 2], [7, 8, 0, 1]);
    expect_edge((1, 2, 0), (&[0xC1, 0x4C], &[0x81]), &[(38, 0x01), (41, 0x10)], [1, 4], [7, 8, 0, 1]);
    expect_edge((1, 2, 0), (&[0xC2, 0xFA, 0x4E], &[0xFF]), &[(39, 0xCC), (40, 0xCC)], [1, 2], [9, 8, 0, 1]);
    expect_edge((1, 1, 0), (&[0xC3, 0x4F], &[0xFF]), &[(39, 0x70)], [1, 2], [6, 3, 5, 8]);
    expect_edge((1, 8, 0), (&[0xE7, 0x4E], &[0xFF, 0xFF]), &[(319, 0xFF)], [8, 2], [7, 8, 8, 8]);
}

/// A data byte and one more from every pointer, counter, mode and input bank.
#[test]
fn packed_every_position() {
    let mut random = Random::new(6);
    for part in Part::BOTH {
        for (group, chips) in [(0, 1), (1, 2), (0, part.subaddresses())] {
            let mut case = patterned(part, group, chips);
            for set in every_place(part) {
                case.registers[SET * group..][..MARKS].copy_from_slice(&set);
                case.bytes = vec![[0x70, 0x72][group], 0x40, random.byte(), random.byte()];
                assert_eq!(compare_forms(&mut case.clone(), Call::Transfer), 0);
            }
        }
    }
}

/// M and I, and the bits of each column that a data byte covers.
const COVERED: [([u8; 2], &[u8]); 8] = [
    ([1, 0], &[1; 8]),
    ([1, 1], &[4; 8]),
    ([2, 0], &[3; 4]),
    ([2, 1], &[12; 4]),
    ([3, 0], &[7, 7, 3]),
    ([3, 1], &[7, 7, 3]),
    ([0, 0], &[15, 15]),
    ([0, 1], &[15, 15]),
];

/// A run of FF over bytes of 00, or of 00 over FF, from a position of a group on: each column's bits turn in its own half of its own byte,
/// those past the last chip are discarded, and no other bit of the RAM turns.
fn expect_run(mut case: Case, group: usize, covered: &[u8], v: usize, length: usize) {
    let part = case.part as usize;
    let (columns, chips) = (COLUMNS[part], case.chips[group] as usize);
    let set = &mut case.registers[SET * group..][..SET];
    (set[3], set[4]) = ((v % columns) as u8, (v / columns) as u8);
    case.bytes = [vec![[0x70, 0x72][group], 0x40], vec![!case.ram[0]; length]].concat();
    let mut expected = case.ram.clone();
    let first = BYTES[part] * [0, case.chips[0] as usize][group];
    let all = covered.repeat(length);
    let inside = columns * chips - v.min(columns * chips);
    for (column, bits) in (v..).zip(all.iter().take(inside)) {
        expected[first + column / 2] ^= bits << (4 * (column % 2));
    }
    let ones = |bits: &[u8]| bits.iter().map(|byte| byte.count_ones() as usize).sum();
    let stored: usize = ones(&all[..inside.min(all.len())]);
    let discarded = 8 * length - stored;
    let (fitting, end) = (length.min(inside / covered.len()), v + all.len());
    let chip = if fitting == length {
        (end - 1) / columns
    } else {
        none(case.part)
    };
    assert_eq!(case.compare(Call::Transfer), 0);
    let answer = [0, 0, 2 + fitting, stored, discarded, chip];
    assert_eq!((&case.answer[..], &case.ram), (&answer[..], &expected));
}

/// Runs of every length up to eight bytes, and of so many that they go past the last chip, from odd and even columns about each chip's edge.
#[test]
fn packed_runs() {
    for (part, chips, group) in [
        (0, [3, 1], 0),
        (0, [1, 2], 1),
        (1, [3, 2], 0),
        (1, [1, 3], 1),
    ] {
        for ([mode, bank], covered) in COVERED {
            let near = |v: &usize| (v + 9) % COLUMNS[part as usize] < 11;
            let positions = 0..COLUMNS[part as usize] * (MOST[part as usize] as usize + 1);
            for v in positions.filter(near) {
                for length in (1..=8).chain([40, 200]) {
                    let byte = [0x00, 0xFF][(v + length) / 2 % 2];
                    let mut case = filled(part, chips, byte);
                    let set = &mut case.registers[SET * group..][..SET];
                    (set[2], set[5]) = (mode, bank);
                    expect_run(case, group, covered, v, length);
                }
            }
        }
    }
}

/// Every setting, over every value of a byte, for each group and phase.
#[test]
fn packed_every_picture() {
    for (part, chips) in [(Part::Pcf8532, [3, 4]), (Part::Pca85133, [8, 7])] {
        for group in [0, 1] {
            let mut case = Case::new(part.number(), chips);
            for (place, column) in case.ram.iter_mut().enumerate() {
                *column = ((place / 2) >> (4 * (place % 2)) & 15) as u8;
            }
            for set in every_setting(part) {
                case.registers[SET * group..][..MARKS].copy_from_slice(&set);
                for phase in [0, 1] {
                    let mut shown = case.clone();
                    shown.show([group as u8, phase]);
                    assert_eq!(compare_forms(&mut shown, Call::Picture), 0);
                }
            }
        }
    }
}

/// In 1:4 the picture is the RAM: of each byte the low four bits, then the high four.
#[test]
fn packed_halves_shown() {
    for part in 0..2 {
        let mut case = filled(part, [MOST[part as usize], 1], 0);
        case.ram = (0..case.ram.len()).map(|place| place as u8).collect();
        case.registers[0] = 1;
        assert_eq!(case.compare(Call::Picture), 0);
        for (place, pair) in case.out.chunks(2).enumerate() {
            assert_eq!(pair, [place as u8 % 16, place as u8 / 16]);
        }
    }
}

// ---- Cuts and marks --------------------------------------------------------

/// Every cut of a generated transfer: the RAM is what the whole bytes before leave, and a cut data byte leaves the three marks.
#[test]
fn packed_cuts() {
    for_seeds(25, |random| {
        let mut case = fault::good_case(random);
        clear_marks(&mut case.registers, SET);
        case.bytes = generate::good_transfer(random, shape(case.part));
        for place in 1..case.bytes.len() {
            let mut whole = case.clone();
            (whole.bytes, whole.bits) = (case.bytes[..place].to_vec(), WHOLE);
            compare_forms(&mut whole, Call::Transfer);
            let group = (case.bytes[0] == 0x72) as usize;
            if whole.answer[2] > 0 && is_data(&case.bytes, place) {
                whole.registers[SET * group + MARKS..][..3].fill(1);
            }
            for bits in 1..=7 {
                let mut cut = case.clone();
                (cut.bytes, cut.bits) = (case.bytes[..=place].to_vec(), bits);
                compare_forms(&mut cut, Call::Transfer);
                assert_eq!(
                    (&cut.answer, &cut.registers, &cut.ram),
                    (&whole.answer, &whole.registers, &whole.ram)
                );
            }
        }
    });
}

/// Any transfer with every number of bits, from every set of marks of its group.
#[test]
fn packed_marks() {
    for_seeds(60, |random| {
        let mut case = fault::good_case(random);
        for (marks, bits) in (0..8).flat_map(|marks| (0..=9).map(move |bits| (marks, bits))) {
            for set in case.registers.chunks_mut(SET) {
                set[MARKS..].copy_from_slice(&[marks & 1, marks >> 1 & 1, marks >> 2]);
            }
            case.bits = bits;
            compare_forms(&mut case.clone(), Call::Transfer);
        }
    });
}

// ---- Limits ----------------------------------------------------------------

/// Every value of a byte is taken.
#[test]
fn packed_every_byte() {
    for part in 0..2 {
        for byte in 0..=255 {
            assert_eq!(filled(part, [1, 1], byte).try_all(), [0; 3]);
        }
    }
}

/// Half the columns of both groups' chips, and every other length up to twice as many.
#[test]
fn packed_ram_lengths() {
    for part in 0..2 {
        for chips in [[0, 0], [1, 0], [0, 2], [2, 2]] {
            let mut case = filled(part, chips, 0);
            let right = BYTES[part as usize] * (chips[0] + chips[1]) as usize;
            for length in 0..=2 * right + 2 {
                case.ram = vec![0xFF; length];
                let number = if length == right { 0 } else { 4 };
                assert_eq!(case.try_all(), [number; 3]);
            }
        }
    }
}

/// A byte for each column of the group shown, and every other length up to one more than that.
#[test]
fn packed_picture_lengths() {
    for part in 0..2 {
        for chips in 0..=2 {
            let right = COLUMNS[part as usize] * chips as usize;
            for length in 0..=right + 1 {
                let mut case = filled(part, [1, chips], 0x5A);
                (case.shown, case.out) = ([1, 0], vec![0xEE; length]);
                let number = if length == right { 0 } else { 9 };
                assert_eq!(case.compare(Call::Picture), number);
            }
        }
    }
}

#[test]
fn packed_chip_counts() {
    for part in 0..2 {
        for chips0 in 0..=20 {
            for chips1 in [0, 1, 4, 5, 8, 9, 255] {
                let too_many = chips0.max(chips1) > MOST[part as usize];
                let case = filled(part, [chips0, chips1], 0xFF);
                assert_eq!(case.try_all(), [if too_many { 3 } else { 0 }; 3]);
            }
        }
    }
}

/// Every value of every register of both groups.
#[test]
fn packed_registers() {
    let greatest = [
        [1, 1, 3, 159, 4, 1, 1, 1, 3, 1, 1, 1],
        [1, 1, 3, 79, 8, 1, 1, 1, 3, 1, 1, 1],
    ];
    for (part, greatest) in (0..).zip(greatest) {
        for place in 0..REGISTERS {
            for value in 0..=255 {
                let mut case = filled(part, [1, 0], 0xC3);
                case.registers[place] = value;
                let number = if value > greatest[place % SET] { 6 } else { 0 };
                assert_eq!(case.try_all(), [0, number, number]);
            }
        }
    }
}

/// Every number that no part has: power-on still gives power-on registers, and a transfer names chip 4.
#[test]
fn packed_unknown_parts() {
    for part in 2..=255 {
        for (call, chip) in [(Call::PowerOn, 0), (Call::Transfer, 4), (Call::Picture, 0)] {
            let mut case = filled(part, [1, 1], 0xFF);
            case.registers.fill(255);
            let mut after = case.clone();
            after.answer = vec![16, 0, 0, 0, 0, chip];
            if let Call::PowerOn = call {
                after.registers.fill(0);
            }
            assert_eq!(case.compare(call), 16);
            assert_eq!(case, after);
        }
    }
}

/// Registers or an answer of another size come before every refusal, and nothing is written.
#[test]
fn packed_sizes() {
    for part in [0, 1, 2] {
        for (registers, answer) in [
            (REGISTERS - 1, ANSWER),
            (REGISTERS + 1, ANSWER),
            (REGISTERS, ANSWER - 1),
            (REGISTERS, ANSWER + 1),
            (0, 0),
        ] {
            let mut case = filled(part, [9, 9], 0xFF);
            case.registers.resize(registers, 200);
            case.answer.resize(answer, 77);
            assert_eq!(case.try_all(), [SIZE; 3]);
        }
    }
}
