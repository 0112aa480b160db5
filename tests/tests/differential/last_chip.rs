//! The chip that acknowledged a transfer's last data byte, the sixth number of an answer, in both accounts.

use crate::case::{Call, Case, MARKS};
use crate::plain::{self, CHIP};
use crate::{every_place, fault, for_seeds};
use humtrellis_tests::generate::{self, commands_then_data};
use humtrellis_tests::model::{none, Part, ANSWER, COLUMNS, WHOLE};

/// A plain chip of group 0 with its own mode, counter and pointer.
fn chip(subaddress: usize, [m, a, p]: [usize; 3]) -> Vec<u8> {
    let mut chip = vec![0; CHIP];
    for (place, value) in [(1, subaddress), (4, m), (5, p), (6, a)] {
        chip[COLUMNS + place] = value as u8;
    }
    chip
}

/// The counter at the last column of a byte: it rises where the pointer comes to the end of the columns, and stops at the part's number for none.
fn last_counter(part: Part, [m, a, p]: [usize; 3]) -> usize {
    let width = [2, 8, 4, 3][m];
    let (columns, rest) = [(160, 4), (80, 8)][part as usize];
    if p + width > columns {
        rest.min(a + 1)
    } else {
        a
    }
}

/// The chip at a subaddress, if it is one of so many.
fn present(part: u8, chips: usize, subaddress: usize) -> usize {
    if subaddress < chips {
        subaddress
    } else {
        none(part)
    }
}

/// Both accounts take a transfer and name this chip.
fn expect(case: &Case, list: &[Vec<u8>], bytes: &[u8], chip: usize) {
    let mut case = case.clone();
    case.bytes = bytes.to_vec();
    assert_eq!(case.compare(Call::Transfer), 0);
    assert_eq!(case.answer[5], chip);
    assert_eq!(of_list(case.part, &list.concat(), bytes, WHOLE), chip);
}

fn of_list(part: u8, chips: &[u8], bytes: &[u8], bits: u8) -> usize {
    let mut answer = [77; ANSWER];
    plain::compare_into(part, &mut chips.to_vec(), bytes, bits, &mut answer);
    answer[5]
}

/// One data byte from every mode, counter and pointer, to each number of chips.
#[test]
fn last_chip_every_position() {
    for part in Part::BOTH {
        for chips in 1..=part.subaddresses() as usize {
            let mut case = Case::new(part.number(), [chips as u8, 0]);
            for set in every_place(part).filter(|set| set[5] == 0) {
                let place = [set[2], set[4], set[3]].map(usize::from);
                let list: Vec<_> = (0..chips).map(|own| chip(own, place)).collect();
                case.registers[..MARKS].copy_from_slice(&set);
                let expected = present(case.part, chips, last_counter(part, place));
                expect(&case, &list, &[0x70, 0x40, 0xA5], expected);
            }
        }
    }
}

/// Subaddresses, counters and pointers for pairs of chips.
const PAIRS: [([usize; 4], [usize; 5], [usize; 3]); 2] = [
    ([0, 1, 2, 3], [0, 1, 2, 3, 4], [152, 157, 159]),
    ([0, 3, 4, 7], [0, 3, 4, 7, 8], [72, 77, 79]),
];

/// Chips of each subaddress, mode, counter and pointer for pairs.
fn chips_for_pairs(part: Part) -> Vec<(usize, [usize; 3])> {
    let (subaddresses, counters, pointers) = PAIRS[part as usize];
    let chip = |state: usize| {
        let place = [
            state / 4 % 4,
            counters[state / 16 % 5],
            pointers[state / 80],
        ];
        (subaddresses[state % 4], place)
    };
    (0..4 * 4 * 5 * 3).map(chip).collect()
}

/// Pairs of unequal chips, the second of which may have the smaller subaddress: modes, counters and pointers on both sides of the edge.
#[test]
fn last_chip_of_pairs() {
    for part in Part::BOTH {
        let chips = chips_for_pairs(part);
        for (first, second) in chips.iter().flat_map(|x| chips.iter().map(move |y| (x, y))) {
            let both = [first, second].map(|(own, place)| chip(*own, *place));
            let answering = [first, second].into_iter();
            let answering = answering.filter(|(own, place)| last_counter(part, *place) == *own);
            let smallest = answering.map(|(own, _)| *own).min();
            let expected = smallest.unwrap_or(none(part.number()));
            let data = [0x70, 0x40, 0xA5];
            let named = of_list(part.number(), &both.concat(), &data, WHOLE);
            assert_eq!(named, expected);
        }
    }
}

/// Any list and transfer: the chip is the same with the list turned round.
#[test]
fn last_chip_of_lists() {
    for_seeds(20_000, |random| {
        let part = generate::part(random);
        let chips = plain::list(random, part);
        let turned: Vec<_> = chips.chunks(CHIP).rev().flatten().copied().collect();
        let (bytes, bits) = (fault::transfer(random, part), generate::bits(random));
        let named = of_list(part, &chips, &bytes, bits);
        assert_eq!(of_list(part, &turned, &bytes, bits), named);
    });
}

/// Four device-selects and data bytes, and an end: the transfer, and the chip of the last data byte.
fn ordered(part: u8, order: usize) -> (Vec<u8>, usize) {
    let ends: [&[u8]; 6] = [&[], &[0x40], &[0x80], &[0xC0], &[0x00, 0xE0], &[0x00, 0xE1]];
    let (mut bytes, mut counter, mut last) = (vec![0x70], 0, none(part));
    for step in [order % 4, order / 4 % 4, order / 16 % 4, order / 64 % 4] {
        if step == 3 {
            bytes.extend([0xC0, 0xA5]);
            last = present(part, 2, counter);
        } else {
            bytes.extend([0x80, 0xE0 | step as u8]);
            counter = step;
        }
    }
    bytes.extend(ends[order / 256]);
    (bytes, last)
}

/// Device-selects and data bytes in every order, with every kind of end, to two chips: the last data byte counts.
#[test]
fn last_chip_every_order() {
    let list = [chip(0, [0; 3]), chip(1, [0; 3])];
    for part in 0..2 {
        let case = Case::new(part, [2, 0]);
        for order in 0..4 * 4 * 4 * 4 * 6 {
            let (bytes, expected) = ordered(part, order);
            expect(&case, &list, &bytes, expected);
        }
    }
}

/// A run of each length over three chips in each mode.
#[test]
fn last_chip_of_runs() {
    let list = [0, 1, 2].map(|own| chip(own, [0; 3]));
    for (part, columns) in [(0, 160), (1, 80)] {
        let case = Case::new(part, [3, 0]);
        for (mode, width) in [(1, 8), (2, 4), (3, 3), (0, 2)] {
            for length in 1..=3 * columns / width + 2 {
                let bytes = commands_then_data(0x70, &[0xC0 | mode], &vec![0x5A; length]);
                let last = (width * length - 1) / columns;
                expect(&case, &list, &bytes, present(part, 3, last));
            }
        }
    }
}
