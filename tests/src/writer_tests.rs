//! Request 2 of paper 02: a group's wanted rows become one transfer of either part, which in both accounts puts them there and changes nothing else.

use super::writing::*;
use super::*;

/// Every wanted M and I.
const SETTINGS: [Setting; 8] = [
    Some([1, 0]),
    Some([1, 1]),
    Some([2, 0]),
    Some([2, 1]),
    Some([3, 0]),
    Some([3, 1]),
    Some([0, 0]),
    Some([0, 1]),
];

/// Every part, chips of a group, group, M and I.
fn every_call() -> Vec<(Writing, [u8; 2])> {
    let with_setting = |writing: Writing| writing.setting.map(|setting| (writing, setting));
    let writings = every_writing(&SETTINGS);
    writings.into_iter().filter_map(with_setting).collect()
}

// ---- The bytes -------------------------------------------------------------

/// Wanted columns 0 to 11; all others are 0.
const FIRST: [u8; 12] = [1, 2, 4, 8, 5, 10, 3, 12, 15, 7, 14, 9];

/// M and I, mode-set and bank-select from power-on, and the data up to the columns that are 0.
const EXAMPLES: [([u8; 2], [u8; 2], &[u8]); 8] = [
    // Row 0 of eight columns: 1000 1010, then of four: 1101 0000.
    ([1, 0], [0xC1, 0xF8], &[0x8A, 0xD0]),
    // Row 2: 0010 1001, 1110 0000.
    ([1, 1], [0xC1, 0xFA], &[0x29, 0xE0]),
    // Rows 0 and 1 of four columns: 10 01 00 00, 10 01 11 00, 11 11 01 10.
    ([2, 0], [0xC2, 0xF8], &[0x90, 0x9C, 0xF6]),
    // Rows 2 and 3: 00 00 10 01, 10 01 00 11, 11 10 11 01.
    ([2, 1], [0xC2, 0xFA], &[0x09, 0x93, 0xED]),
    // Rows 0 to 2 of two columns, 0 and 1 of the third: 100 010 00, 000 101 01, 110 001 11, 111 011 10.
    ([3, 0], [0xC3, 0xF8], &[0x88, 0x15, 0xC7, 0xEE]),
    ([3, 1], [0xC3, 0xFA], &[0x88, 0x15, 0xC7, 0xEE]),
    // Rows 0 to 3 of two columns: 1000 0100, 0010 0001, 1010 0101, 1100 0011, 1111 1110, 0111 1001.
    ([0, 0], [0xC0, 0xF8], &[0x84, 0x21, 0xA5, 0xC3, 0xFE, 0x79]),
    ([0, 1], [0xC0, 0xFA], &[0x84, 0x21, 0xA5, 0xC3, 0xFE, 0x79]),
];

/// The whole transfer to one chip of each part, in every mode and both banks.
#[test]
fn examples() {
    for (setting, [mode_set, bank_select], start) in EXAMPLES {
        let settings = [0x70, 0x80, mode_set, 0x80, bank_select];
        let large = [0x80, 0xE0, 0x80, 0x00, 0x80, 0x40, 0x40];
        let small = [0x80, 0xE0, 0x80, 0x00, 0x40];
        let lengths = [[92, 32, 52, 66], [50, 20, 30, 37]].map(|part| part[setting[0] as usize]);
        for (part, place) in (0..).zip([&large[..], &small]) {
            let mut writing = Writing::new(part, 1, setting, 0);
            writing.rows[..12].copy_from_slice(&FIRST);
            let mut expected = [&settings, place, start].concat();
            expected.resize(lengths[part as usize], 0);
            assert_eq!(writing.bytes(), expected);
        }
    }
}

/// Two heads by hand: E 1, B 0, O 1, wanted 1:2 and bank 1 in group 1; E 0, B 1, O 0, wanted 1:4 and bank 0 in group 0.
#[test]
fn two_heads() {
    let mut writing = Writing::of_group(PCF8532, [1, 1], 1, [2, 1], 0);
    writing.registers[SET..SET + 7].copy_from_slice(&[1, 0, 3, 77, 2, 0, 1]);
    let head = [
        0x72, 0x80, 0xCA, 0x80, 0xFB, 0x80, 0xE0, 0x80, 0x00, 0x80, 0x40, 0x40,
    ];
    assert_eq!(writing.bytes()[..12], head);
    let mut writing = Writing::of_group(PCA85133, [1, 1], 0, [0, 0], 0);
    writing.registers[..7].copy_from_slice(&[0, 1, 3, 77, 2, 1, 0]);
    let head = [0x70, 0x80, 0xC4, 0x80, 0xF8, 0x80, 0xE0, 0x80, 0x00, 0x40];
    assert_eq!(writing.bytes()[..10], head);
}

/// Every head: E, B and O are the group's own, M and I the wanted ones.
#[test]
fn heads() {
    for state in 0..2 * 2 * 2 {
        let flags @ [e, b, o] = [state & 1, state >> 1 & 1, state >> 2];
        let with_chips = every_call()
            .into_iter()
            .filter(|(writing, _)| !writing.rows.is_empty());
        for (writing, [mode, bank]) in with_chips {
            let writing = with_flags(writing, flags);
            let address = 0x70 + 2 * writing.group;
            let mode_set = 0xC0 + 8 * e + 4 * b + mode;
            let bank_select = 0xF8 + 2 * bank + o;
            let commands = match writing.part {
                PCF8532 => vec![mode_set, bank_select, 0xE0, 0x00, 0x40],
                _ => vec![mode_set, bank_select, 0xE0, 0x00],
            };
            let head = generate::commands_then_data(address, &commands, &[]);
            assert!(writing.bytes().starts_with(&head));
        }
    }
}

/// Bytes for 0, 1, 2 ... chips by M: 12 (10) and 160 (80) columns a chip over 2, 8, 4 and 3, rounded up.
const LENGTHS: [[&[usize]; 4]; 2] = [
    [
        &[0, 92, 172, 252, 332],
        &[0, 32, 52, 72, 92],
        &[0, 52, 92, 132, 172],
        &[0, 66, 119, 172, 226],
    ],
    [
        &[0, 50, 90, 130, 170, 210, 250, 290, 330],
        &[0, 20, 30, 40, 50, 60, 70, 80, 90],
        &[0, 30, 50, 70, 90, 110, 130, 150, 170],
        &[0, 37, 64, 90, 117, 144, 170, 197, 224],
    ],
];

#[test]
fn lengths() {
    for (writing, [mode, _]) in every_call() {
        let chips = writing.chips[writing.group as usize];
        let by_mode = LENGTHS[writing.part as usize];
        let length = by_mode[mode as usize][chips as usize];
        assert_eq!(writing.bytes().len(), length, "{writing:?}");
    }
}

#[test]
fn output_past_it() {
    hold_output_past_it(&SETTINGS);
}

/// A byte over the edge between two chips in 1:3: of columns 159 to 161, or 78 to 80, the last has no row 2.
#[test]
fn over_the_edge() {
    let mut writing = Writing::new(PCF8532, 2, [3, 0], 0);
    writing.rows[159..162].copy_from_slice(&[1, 4, 6]);
    // 100 001 01
    assert_eq!(writing.data()[52..55], [0x00, 0x85, 0x00]);
    let mut writing = Writing::new(PCA85133, 2, [3, 0], 0);
    writing.rows[78..81].copy_from_slice(&[5, 3, 15]);
    // 101 110 11
    assert_eq!(writing.data()[25..28], [0x00, 0xBB, 0x00]);
}

/// The last byte of 1:3, with 15 wanted in each column of 1, 2, 3 ... chips: three bits of its one column, six of its two, or all.
#[test]
fn past_the_last_column() {
    let large = [0xE0, 0xFC, 0xFF, 0xE0];
    let small = [0xFC, 0xE0, 0xFF, 0xFC, 0xE0, 0xFF, 0xFC, 0xE0];
    for (part, last) in [(PCF8532, &large[..]), (PCA85133, &small)] {
        for (chips, last) in (1..).zip(last) {
            let data = Writing::new(part, chips, [3, 0], 15).data();
            assert!(data[..data.len() - 1].iter().all(|byte| *byte == 0xFF));
            assert_eq!(data.last(), Some(last));
        }
    }
    let mut writing = Writing::new(PCF8532, 1, [3, 1], 0);
    writing.rows[159] = 5;
    assert_eq!(writing.data()[52..], [0x00, 0xA0]);
}

/// Columns of which no row is reached: those of the other bank, row 3 in 1:3, and there row 2 of each third column.
#[test]
fn rows_never_sent() {
    let alike = [([1, 0], 14), ([1, 1], 11), ([2, 0], 12), ([2, 1], 3)];
    for part in [PCF8532, PCA85133] {
        for (setting, column) in alike.into_iter().chain([([3, 0], 8), ([3, 1], 8)]) {
            let data = Writing::new(part, 2, setting, column).data();
            assert!(data.iter().all(|byte| *byte == 0));
        }
        for bank in [0, 1] {
            let mut writing = Writing::new(part, 2, [3, bank], 8);
            for column in writing.rows.iter_mut().skip(2).step_by(3) {
                *column = 12;
            }
            assert!(writing.data().iter().all(|byte| *byte == 0));
            writing.rows.fill(4);
            // 001 001 00 in each byte that is full.
            let length = if part == PCF8532 { 107 } else { 54 };
            assert_eq!(writing.data()[..length - 1], vec![0x24; length - 1]);
        }
    }
}

#[test]
fn each_bit_alone() {
    hold_each_bit_alone(&SETTINGS);
}

#[test]
fn no_chip() {
    hold_no_chip(&SETTINGS);
}

#[test]
fn no_chip_refused() {
    hold_no_chip_refused(Some([0, 0]));
    expect_no_chip_refused(Some([0, 0]), 6, |writing| writing.setting = Some([4, 0]));
    expect_no_chip_refused(Some([0, 0]), 6, |writing| writing.setting = Some([0, 2]));
}

// ---- Refusals --------------------------------------------------------------

#[test]
fn unknown_parts() {
    hold_unknown_parts(Some([1, 0]));
}

#[test]
fn chip_counts() {
    hold_chip_counts(Some([0, 0]));
}

#[test]
fn registers_in_range() {
    hold_registers(Some([2, 1]));
}

/// M up to 3 and I up to 1 are taken, also in 1:3 and 1:4, where I changes the bank-select alone.
#[test]
fn modes_and_banks() {
    let modes = |part| (0..=255).map(move |mode| (part, mode));
    for (part, mode) in [PCF8532, PCA85133].into_iter().flat_map(modes) {
        for bank in [0, 1, 2, 3, 255] {
            let writing = Writing::new(part, 1, [mode, bank], 9);
            match (mode, bank) {
                (0..=3, 0..=1) => assert_eq!(writing.bytes()[4], 0xF8 | bank << 1),
                _ => writing.refused(ROOM, 6, 0),
            }
        }
    }
    for mode in [3, 0] {
        let [first, second] = [0, 1].map(|bank| Writing::new(PCF8532, 1, [mode, bank], 9).data());
        assert_eq!(first, second);
    }
}

#[test]
fn groups() {
    hold_groups(Some([0, 0]));
}

#[test]
fn wanted_lengths() {
    hold_wanted_lengths(Some([3, 0]));
}

#[test]
fn wanted_columns() {
    hold_wanted_columns(&SETTINGS);
}

#[test]
fn rooms() {
    hold_rooms(&SETTINGS);
}

#[test]
fn order_of_refusals() {
    hold_order_of_refusals(&[[4, 2], [1, 2], [4, 1], [1, 1]].map(Some));
}

// ---- Run in both accounts --------------------------------------------------

/// M and I; what 15 everywhere makes of columns of 0, and 0 everywhere of columns of 15; bytes acknowledged, bits stored and discarded, and chip; A and P.
type Run = ([u8; 2], [&'static [u8]; 2], [usize; 4], [u8; 2]);

/// One PCF8532.
#[rustfmt::skip]
const RUNS: [Run; 8] = [
    ([1, 0], [&[1], &[14]], [32, 160, 0, 0], [1, 0]),
    ([1, 1], [&[4], &[11]], [32, 160, 0, 0], [1, 0]),
    ([2, 0], [&[3], &[12]], [52, 320, 0, 0], [1, 0]),
    ([2, 1], [&[12], &[3]], [52, 320, 0, 0], [1, 0]),
    ([3, 0], [&[7, 7, 3], &[8, 8, 12]], [65, 427, 5, 4], [1, 2]),
    ([3, 1], [&[7, 7, 3], &[8, 8, 12]], [65, 427, 5, 4], [1, 2]),
    ([0, 0], [&[15], &[0]], [92, 640, 0, 0], [1, 0]),
    ([0, 1], [&[15], &[0]], [92, 640, 0, 0], [1, 0]),
];

/// From power-on, and from the greatest registers with every mark unknown.
#[test]
fn runs_by_hand() {
    for (setting @ [mode, bank], columns, counted, [a, p]) in RUNS {
        for (wanted, columns) in [15, 0].into_iter().zip(columns) {
            let before = vec![15 - wanted; 160];
            let expected: Vec<u8> = columns.iter().copied().cycle().take(160).collect();
            let answer = [&[0, 0], &counted[..]].concat();
            let mut writing = Writing::new(PCF8532, 1, setting, wanted);
            let (given, registers, ram) = writing.run(&before);
            assert_eq!((&given[..], &ram), (&answer[..], &expected));
            assert_eq!(registers[..SET], [0, 0, mode, p, a, bank, 0, 0, 0, 0, 0, 0]);
            writing.registers[..SET].copy_from_slice(&GREATEST[0]);
            let (given, registers, ram) = writing.run(&before);
            assert_eq!((&given[..], &ram), (&answer[..], &expected));
            assert_eq!(registers[..SET], [1, 1, mode, p, a, bank, 1, 1, 3, 0, 0, 0]);
            assert_eq!(registers[SET..], [0; SET]);
        }
    }
}

/// In 1:3 the last of 27 bytes overhangs one PCA85133 by a column; in 1:4 the last of 320 ends with the eighth.
#[test]
fn small_runs_by_hand() {
    let (answer, registers, ram) = Writing::new(PCA85133, 1, [3, 0], 15).run(&[0; 80]);
    assert_eq!(answer, [0, 0, 36, 214, 2, 8]);
    assert_eq!(registers[..SET], [0, 0, 3, 1, 1, 0, 0, 0, 0, 0, 0, 0]);
    assert_eq!(ram, [[7, 7, 3].repeat(26), vec![7, 7]].concat());
    let (answer, registers, ram) = Writing::new(PCA85133, 8, [0, 1], 9).run(&[6; 640]);
    assert_eq!(answer, [0, 0, 330, 2560, 0, 7]);
    assert_eq!(registers[..SET], [0, 0, 0, 0, 8, 1, 0, 0, 0, 0, 0, 0]);
    assert_eq!(ram, [9; 640]);
}

#[test]
fn every_run() {
    hold_every_run(&SETTINGS, 12);
}

#[test]
fn every_mark() {
    hold_every_mark(Some([3, 0]));
}

#[test]
fn written_again() {
    hold_written_again(&SETTINGS);
}
