//! Request 12 of paper 02: rows 0 to 2 of every column of a group become one transfer of either part, which in both accounts puts them there and changes nothing else.

use super::writing::*;
use super::*;

/// Every part, chips of a group and group, with 0 wanted.
fn every_three() -> Vec<Writing> {
    every_writing(&[THREE])
}

// ---- The bytes -------------------------------------------------------------

/// Part, chips, an even column of the group, what is wanted there and in the next one, and where in the transfer these bytes stand.
type Step = (u8, u8, usize, [u8; 2], usize, &'static [u8]);

#[rustfmt::skip]
const STEPS_BY_HAND: [Step; 15] = [
    // Columns 0, 2 and 4 of a PCF8532: 100 010 00, 001 111 00, and 101 010 00, without row 3 of column 5.
    (PCF8532, 1, 0, [1, 2], 3, &[0x80, 0xE0, 0x80, 0x00, 0x80, 0x40, 0xC0, 0x88]),
    (PCF8532, 1, 2, [4, 7], 11, &[0x80, 0xE0, 0x80, 0x00, 0x80, 0x42, 0xC0, 0x3C]),
    (PCF8532, 1, 4, [5, 10], 19, &[0x80, 0xE0, 0x80, 0x00, 0x80, 0x44, 0xC0, 0xA8]),
    // Columns 14 and 16, either side of pointer high: 011 100 00, 110 001 00.
    (PCF8532, 1, 14, [6, 1], 59, &[0x80, 0xE0, 0x80, 0x00, 0x80, 0x4E, 0xC0, 0x70]),
    (PCF8532, 1, 16, [3, 4], 67, &[0x80, 0xE0, 0x80, 0x01, 0x80, 0x40, 0xC0, 0xC4]),
    // Column 38 of the second chip, behind 80 + 19 steps of 8 bytes: 010 110 00.
    (PCF8532, 2, 198, [2, 3], 795, &[0x80, 0xE1, 0x80, 0x02, 0x80, 0x46, 0xC0, 0x58]),
    // The last of the first chip, and the first of the second: 110 001 00, 111 000 00.
    (PCF8532, 2, 158, [3, 12], 635, &[0x80, 0xE0, 0x80, 0x09, 0x80, 0x4E, 0xC0, 0xC4]),
    (PCF8532, 2, 160, [15, 8], 643, &[0x80, 0xE1, 0x80, 0x00, 0x80, 0x40, 0xC0, 0xE0]),
    // The last of the last: 101 111 00.
    (PCF8532, 2, 318, [5, 7], 1275, &[0x80, 0xE1, 0x80, 0x09, 0x80, 0x4E, 0xC0, 0xBC]),
    (PCF8532, 4, 638, [5, 7], 2555, &[0x80, 0xE3, 0x80, 0x09, 0x80, 0x4E, 0xC0, 0xBC]),
    // A PCA85133's columns 0 and 2, then column 44 of the seventh, behind 240 + 22 steps of 6 bytes: 001 100 00.
    (PCA85133, 1, 0, [1, 2], 3, &[0x80, 0xE0, 0x80, 0x00, 0xC0, 0x88]),
    (PCA85133, 1, 2, [4, 7], 9, &[0x80, 0xE0, 0x80, 0x02, 0xC0, 0x3C]),
    (PCA85133, 8, 524, [4, 1], 1575, &[0x80, 0xE6, 0x80, 0x2C, 0xC0, 0x30]),
    // The last of the seventh, and of the eighth: 000 101 00, 111 011 00.
    (PCA85133, 8, 558, [8, 13], 1677, &[0x80, 0xE6, 0x80, 0x4E, 0xC0, 0x14]),
    (PCA85133, 8, 638, [15, 14], 1917, &[0x80, 0xE7, 0x80, 0x4E, 0xC0, 0xEC]),
];

/// The bytes of a step; all other data is 0 where no other row is wanted.
#[test]
fn steps_by_hand() {
    for (part, chips, column, wanted, place, step) in STEPS_BY_HAND {
        let mut writing = Writing::new(part, chips, THREE, 0);
        writing.rows[column..column + 2].copy_from_slice(&wanted);
        assert_eq!(writing.bytes()[place..place + step.len()], *step);
        let mut data = writing.data();
        data[column / 2] = 0;
        assert!(data.iter().all(|byte| *byte == 0));
    }
}

/// The last steps end their transfers.
#[test]
fn last_steps() {
    for (part, chips, column, _, place, step) in STEPS_BY_HAND {
        let writing = Writing::new(part, chips, THREE, 0);
        let last = column + 2 == writing.rows.len();
        assert_eq!(place + step.len() == writing.bytes().len(), last);
    }
}

/// Rows 0 to 2 as bits of a byte, row 0 first, for each column from 0 to 7.
const ROWS: [u8; 8] = [0b000, 0b100, 0b010, 0b110, 0b001, 0b101, 0b011, 0b111];

/// The whole transfer from power-on, step by step: chips rise, and in each its even columns.
fn whole(writing: &Writing) -> Vec<u8> {
    let mut bytes = vec![0x70 + 2 * writing.group, 0x80, 0xC3];
    for (pair, columns) in writing.rows.chunks(2).enumerate() {
        let [chip, p] = [
            2 * pair / columns_of(writing.part),
            2 * pair % columns_of(writing.part),
        ];
        bytes.extend([0x80, 0xE0 + chip as u8]);
        match writing.part {
            PCF8532 => bytes.extend([0x80, p as u8 / 16, 0x80, 0x40 + p as u8 % 16]),
            _ => bytes.extend([0x80, p as u8]),
        }
        let [first, second] = [0, 1].map(|place| ROWS[columns[place] as usize % 8]);
        bytes.extend([0xC0, first * 32 + second * 4]);
    }
    bytes
}

#[test]
fn whole_transfers() {
    let mut random = Random::new(12);
    for (mut writing, _) in any_runs(&mut random, &[THREE]) {
        writing.registers = [0; REGISTERS];
        assert_eq!(writing.bytes(), whole(&writing));
    }
}

/// Two heads by hand, up to the first data byte, with no bank-select: E 1, B 0, M 2, I 1, O 1 in group 1; E 0, B 1, M 1, I 1, O 0 in group 0.
#[test]
fn two_heads() {
    let mut writing = Writing::of_group(PCF8532, [1, 1], 1, THREE, 0);
    writing.registers[SET..SET + 7].copy_from_slice(&[1, 0, 2, 77, 2, 1, 1]);
    let head = [
        0x72, 0x80, 0xCB, 0x80, 0xE0, 0x80, 0x00, 0x80, 0x40, 0xC0, 0x00,
    ];
    assert_eq!(writing.bytes()[..11], head);
    let mut writing = Writing::of_group(PCA85133, [1, 1], 0, THREE, 0);
    writing.registers[..7].copy_from_slice(&[0, 1, 1, 77, 2, 1, 0]);
    let head = [0x70, 0x80, 0xC7, 0x80, 0xE0, 0x80, 0x00, 0xC0, 0x00];
    assert_eq!(writing.bytes()[..9], head);
}

/// E and B are the group's own, M is that of 1:3 whatever the registers have, and nothing else of them is sent.
#[test]
fn heads() {
    for state in 0..2 * 2 * 2 * 4 {
        let flags @ [e, b, _] = [state & 1, state >> 1 & 1, state >> 2 & 1];
        for writing in every_three() {
            let whole = whole(&writing);
            let own = SET * writing.group as usize;
            let mut writing = with_flags(writing, flags);
            writing.registers[own + 2] = state >> 3;
            if !writing.rows.is_empty() {
                let address = [0x70, 0x72][writing.group as usize];
                let head = [address, 0x80, 0xC3 + 8 * e + 4 * b];
                assert_eq!(writing.bytes(), [&head, &whole[3..]].concat());
            }
        }
    }
}

/// Bytes for 0, 1, 2 ... chips: 3 and 640 (240) a chip.
const LENGTHS: [&[usize]; 2] = [
    &[0, 643, 1283, 1923, 2563],
    &[0, 243, 483, 723, 963, 1203, 1443, 1683, 1923],
];

#[test]
fn lengths() {
    for writing in every_three() {
        let chips = writing.chips[writing.group as usize];
        let length = LENGTHS[writing.part as usize][chips as usize];
        assert_eq!(writing.bytes().len(), length, "{writing:?}");
    }
}

#[test]
fn output_past_it() {
    hold_output_past_it(&[THREE]);
}

/// Table 9 of data sheet 002: which bit of which byte ends in a column, row by row; the table's a1 and a0 are those that b7 and b6 overwrite.
const TABLE_9: [[&str; 10]; 3] = [
    ["a7", "a4", "b7", "b4", "c7", "c4", "d7", "d4", "e7", "e4"],
    ["a6", "a3", "b6", "b3", "c6", "c3", "d6", "d3", "e6", "e3"],
    ["a5", "a2", "b5", "b2", "c5", "c2", "d5", "d2", "e5", "e2"],
];

#[test]
fn table_9() {
    for part in [PCF8532, PCA85133] {
        for (row, column) in (0..3).flat_map(|row| (0..10).map(move |column| (row, column))) {
            let [byte, bit] = *TABLE_9[row][column].as_bytes() else {
                panic!("a letter and a digit");
            };
            let mut writing = Writing::new(part, 1, THREE, 0);
            writing.rows[column] = 1 << row;
            let mut expected = vec![0; columns_of(part) / 2];
            expected[(byte - b'a') as usize] = 1 << (bit - b'0');
            assert_eq!(writing.data(), expected);
        }
    }
}

#[test]
fn each_bit_alone() {
    hold_each_bit_alone(&[THREE]);
}

/// With 15 wanted everywhere each byte is 111 111 00, also the last of a chip and the last of all.
#[test]
fn spare_bits() {
    for mut writing in every_three() {
        writing.rows.fill(15);
        if !writing.rows.is_empty() {
            assert_eq!(writing.data(), vec![0xFC; writing.rows.len() / 2]);
        }
    }
}

#[test]
fn row_3_is_ignored() {
    let mut random = Random::new(3);
    for (mut writing, _) in any_runs(&mut random, &[THREE]) {
        let bytes = writing.bytes();
        for change in [
            |column| column | 8,
            |column| column & 7,
            |column| column ^ 8,
        ] {
            writing
                .rows
                .iter_mut()
                .for_each(|column| *column = change(*column));
            assert_eq!(writing.bytes(), bytes);
        }
        writing.rows.fill(8);
        assert!(writing.data().iter().all(|byte| *byte == 0));
    }
}

#[test]
fn no_chip() {
    hold_no_chip(&[THREE]);
}

#[test]
fn no_chip_refused() {
    hold_no_chip_refused(THREE);
}

// ---- Refusals --------------------------------------------------------------

#[test]
fn unknown_parts() {
    hold_unknown_parts(THREE);
}

#[test]
fn chip_counts() {
    hold_chip_counts(THREE);
}

#[test]
fn registers_in_range() {
    hold_registers(THREE);
}

#[test]
fn groups() {
    hold_groups(THREE);
}

#[test]
fn wanted_lengths() {
    hold_wanted_lengths(THREE);
}

#[test]
fn wanted_columns() {
    hold_wanted_columns(&[THREE]);
}

#[test]
fn rooms() {
    hold_rooms(&[THREE]);
}

#[test]
fn order_of_refusals() {
    hold_order_of_refusals(&[THREE]);
}

// ---- Run in both accounts --------------------------------------------------

/// Part and chips; bytes acknowledged, bits stored and discarded, and no chip: 8 bits for each two columns, of which the last byte loses two; A, and P is 1.
#[rustfmt::skip]
const RUNS: [(u8, u8, [usize; 4], u8); 6] = [
    (PCF8532, 1, [642, 638, 2, 4], 1),
    (PCF8532, 2, [1282, 1278, 2, 4], 2),
    (PCF8532, 4, [2562, 2558, 2, 4], 4),
    (PCA85133, 1, [242, 318, 2, 8], 1),
    (PCA85133, 5, [1202, 1598, 2, 8], 5),
    (PCA85133, 8, [1922, 2558, 2, 8], 8),
];

/// 15 over columns of 0 and 0 over columns of 15, from power-on, and from the greatest registers with every mark unknown.
#[test]
fn runs_by_hand() {
    for (part, chips, counted, a) in RUNS {
        for (wanted, before, expected) in [(15, 0, 7), (0, 15, 8)] {
            let mut writing = Writing::new(part, chips, THREE, wanted);
            let before = vec![before; writing.rows.len()];
            let expected = vec![expected; writing.rows.len()];
            let answer = [&[0, 0], &counted[..]].concat();
            let (given, registers, ram) = writing.run(&before);
            assert_eq!((&given[..], &ram), (&answer[..], &expected));
            assert_eq!(registers[..SET], [0, 0, 3, 1, a, 0, 0, 0, 0, 0, 0, 0]);
            writing.registers[..SET].copy_from_slice(&GREATEST[part as usize]);
            let (given, registers, ram) = writing.run(&before);
            assert_eq!((&given[..], &ram), (&answer[..], &expected));
            assert_eq!(registers[..SET], [1, 1, 3, 1, a, 1, 1, 1, 3, 0, 0, 0]);
            assert_eq!(registers[SET..], [0; SET]);
        }
    }
}

/// After the first chip's last byte: rows 0 and 1 of the second chip's first column are cleared, and it is that chip which acknowledged.
#[test]
fn into_the_next_chip() {
    for (part, columns, length) in [(PCF8532, 160, 643), (PCA85133, 80, 243)] {
        let writing = Writing::new(part, 2, THREE, 15);
        let (answer, registers, ram) =
            writing.run_bytes(&vec![15; 2 * columns], &writing.bytes()[..length]);
        assert_eq!(answer, [0, 0, length, 4 * columns, 0, 1]);
        assert_eq!(registers[..5], [0, 0, 3, 1, 1]);
        assert_eq!(ram[columns - 1..columns + 2], [15, 12, 15]);
        let (_, _, ram) = writing.run(&vec![15; 2 * columns]);
        assert_eq!(ram, vec![15; 2 * columns]);
    }
}

/// The last byte alone is not acknowledged; without it all others are.
#[test]
fn without_the_last_byte() {
    for (part, chips, counted, _) in RUNS {
        let writing = Writing::new(part, chips, THREE, 9);
        let (bytes, ram) = (writing.bytes(), vec![0; writing.rows.len()]);
        let (answer, ..) = writing.run_bytes(&ram, &bytes[..bytes.len() - 1]);
        let [acknowledged, stored, ..] = counted;
        let last = chips as usize - 1;
        assert_eq!(answer, [0, 0, acknowledged, stored - 6, 0, last]);
    }
}

#[test]
fn every_run() {
    hold_every_run(&[THREE], 12);
}

#[test]
fn every_mark() {
    hold_every_mark(THREE);
}

#[test]
fn written_again() {
    hold_written_again(&[THREE]);
}

/// Each byte overwrites the spare bits of the one before, and those of the last are lost: with other spare bits the bus ends alike.
#[test]
fn other_spare_bits() {
    let mut random = Random::new(9);
    for (writing, ram) in any_runs(&mut random, &[THREE]) {
        let (mut bytes, step) = (writing.bytes(), STEPS[writing.part as usize]);
        let after = writing.run_bytes(&ram, &bytes);
        for byte in bytes[3..].iter_mut().skip(step - 1).step_by(step) {
            *byte |= random.byte() & 3;
        }
        assert_eq!(writing.run_bytes(&ram, &bytes), after);
    }
}

/// The display on and not blinking: every element is lit just where it is wanted.
#[test]
fn every_element() {
    let mut random = Random::new(1);
    for (mut writing, ram) in any_runs(&mut random, &[THREE]) {
        let own = SET * writing.group as usize;
        (writing.registers[own], writing.registers[own + 8]) = (1, 0);
        let (_, registers, ram) = writing.run(&ram);
        let view = View {
            part: writing.part,
            chips0: writing.chips[0],
            chips1: writing.chips[1],
            registers: &registers,
            ram: &ram,
            group: writing.group,
            phase: 0,
        };
        let mut out = vec![0xEE; writing.rows.len()];
        let wanted: Vec<u8> = writing.rows.iter().map(|column| column & 7).collect();
        let lit: u32 = wanted.iter().map(|column| column.count_ones()).sum();
        let answer = picture(view, &mut out).numbers();
        assert_eq!((answer, out), ([0, 0, lit as usize, 0, 0, 0], wanted));
    }
}

// ---- Both writers in turn --------------------------------------------------

/// Settings and columns wanted one after the other, and the columns that they leave, over and over.
type Turn = (Setting, u8, &'static [u8]);

/// Over RAM of 0: what a plain run leaves is filled, row 3 stays as the run had it, and a plain run after it leaves row 2 of each third column.
#[rustfmt::skip]
const TURNS: [Turn; 9] = [
    (Some([3, 0]), 15, &[7, 7, 3]),
    (THREE, 15, &[7]),
    (Some([3, 1]), 0, &[0, 0, 4]),
    (THREE, 2, &[2]),
    (Some([0, 0]), 15, &[15]),
    (THREE, 0, &[8]),
    (Some([2, 0]), 3, &[11]),
    (THREE, 5, &[13]),
    (Some([1, 1]), 0, &[9]),
];

#[test]
fn writers_in_turn() {
    for (part, chips, columns) in [(PCF8532, 2, 320), (PCA85133, 7, 560)] {
        let (mut registers, mut ram) = ([0; REGISTERS], vec![0; columns]);
        for (setting, wanted, expected) in TURNS {
            let mut writing = Writing::new(part, chips, setting, wanted);
            writing.registers = registers;
            (_, registers, ram) = writing.expect_run(&ram);
            let repeated = expected.iter().copied().cycle().take(columns);
            assert_eq!(ram, repeated.collect::<Vec<_>>());
        }
    }
}
