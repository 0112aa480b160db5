//! The plain account: transfers over chips of 174 bytes.

use crate::case::{first_refusal, refusal_of, Call, Case};
use crate::library;
use crate::{fault, for_seeds, orders};
use humtrellis_tests::generate::{self, shape};
use humtrellis_tests::model::{self, Chip, Part, Registers, ANSWER, COLUMNS, SET, WHOLE};
use humtrellis_tests::random::Random;

/// Bytes of a chip.
pub const CHIP: usize = 174;

pub fn chip_of(bytes: &[u8]) -> Chip {
    let mut chip = Chip::new(bytes[COLUMNS], bytes[COLUMNS + 1]);
    chip.columns.copy_from_slice(&bytes[..COLUMNS]);
    chip.registers = Registers::from_bytes(&bytes[COLUMNS + 2..]);
    chip
}

pub fn bytes_of(chip: &Chip) -> Vec<u8> {
    let registers = chip.registers.to_bytes();
    [&chip.columns[..], &[chip.sa0, chip.subaddress], &registers].concat()
}

fn by_model(part: u8, chips: &mut [u8], sent: &[u8], bits: u8, answer: &mut [usize]) -> u8 {
    if answer.len() != ANSWER || chips.len() % CHIP != 0 {
        return library::SIZE;
    }
    let mut list: Vec<Chip> = chips.chunks(CHIP).map(chip_of).collect();
    let result = model::plain_transfer(part, &mut list, sent, bits);
    for (place, chip) in list.iter().enumerate() {
        chips[CHIP * place..][..CHIP].copy_from_slice(&bytes_of(chip));
    }
    answer.copy_from_slice(&result.numbers());
    result.number as u8
}

/// Makes the call both ways on `chips` and holds all results together; the last byte is whole.
pub fn compare(part: u8, chips: &mut [u8], sent: &[u8]) -> u8 {
    compare_bits(part, chips, sent, WHOLE)
}

/// The same where the last byte has so many bits.
pub fn compare_bits(part: u8, chips: &mut [u8], sent: &[u8], bits: u8) -> u8 {
    compare_into(part, chips, sent, bits, &mut [77; ANSWER])
}

/// The same, with the answer in the caller's buffer.
pub fn compare_into(part: u8, chips: &mut [u8], sent: &[u8], bits: u8, answer: &mut [usize]) -> u8 {
    let given = chips.to_vec();
    let mut others = chips.to_vec();
    let mut expected = answer.to_vec();
    let mut lent = sent.to_vec();
    let number = library::plain_transfer(part, chips, &mut lent, bits, answer);
    let expected_number = by_model(part, &mut others, sent, bits, &mut expected);
    let same = number == expected_number && answer == expected && *chips == others && lent == sent;
    assert!(
        same,
        "plain differs\n part {part} chips {given:?}\n sent {sent:?} bits {bits}\n library {number} {answer:?} {chips:?}\n model {expected_number} {expected:?} {others:?}"
    );
    number
}

/// The plain chips that stand for a bus; behind a PCA85133's columns stand bytes that no column could hold.
pub fn list_of(case: &Case) -> Vec<u8> {
    let mut list = Vec::new();
    let mut shares = case.ram.chunks(shape(case.part).columns());
    for (sa0, set) in (0..2).zip(case.registers.chunks(SET)) {
        for (subaddress, columns) in (0..case.chips[sa0]).zip(&mut shares) {
            list.extend(columns);
            list.extend((columns.len()..COLUMNS).map(|place| 255 - place as u8 % 80));
            list.extend([sa0 as u8, subaddress]);
            list.extend(set);
        }
    }
    list
}

/// Sends a case's transfer to its bus and to the list of its chips: both answer and end alike, and no byte behind a chip's columns is written.
pub fn compare_accounts(case: &mut Case) -> u8 {
    let (mut list, mut answer) = (list_of(case), [77; ANSWER]);
    let number = case.compare(Call::Transfer);
    compare_into(case.part, &mut list, &case.bytes, case.bits, &mut answer);
    assert!(
        list == list_of(case),
        "accounts differ\n {case:?}\n {list:?}"
    );
    for same in [0, 1, 2, 5] {
        assert_eq!(answer[same], case.answer[same]);
    }
    number
}

/// A chip with these registers; behind the columns that its part has, any bytes.
fn chip(random: &mut Random, part: Part, set: &[u8]) -> Vec<u8> {
    let mut bytes = fault::columns(random, part.columns());
    bytes.extend(random.bytes(COLUMNS - part.columns()));
    let subaddress = random.below(part.subaddresses().into());
    bytes.extend([random.below(2) as u8, subaddress as u8]);
    bytes.extend(set);
    bytes
}

/// Chips with equal registers or each with its own; gaps and repeated subaddresses.
pub fn chips(random: &mut Random, part: u8, count: usize) -> Vec<u8> {
    let common = fault::registers(random, part);
    let equal = random.one_in(2);
    let mut chips = Vec::new();
    for _ in 0..count {
        let own = fault::registers(random, part);
        let set = if equal { &common } else { &own };
        chips.extend(chip(random, shape(part), &set[..SET]));
    }
    chips
}

/// A list of no chip up to the most of its part.
pub fn list(random: &mut Random, part: u8) -> Vec<u8> {
    let count = random.below(shape(part).most_chips() + 1);
    chips(random, part, count)
}

#[test]
fn plain_sequences() {
    for_seeds(1500, |random| {
        let part = generate::part(random);
        let mut chips = list(random, part);
        for _ in 0..30 {
            let sent = fault::transfer(random, part);
            compare_bits(part, &mut chips, &sent, generate::bits(random));
        }
    });
}

#[test]
fn plain_damaged() {
    for_seeds(30_000, |random| {
        let part = generate::part(random);
        let count = random.below(shape(part).most_chips() + 3);
        let mut chips = chips(random, part, count);
        for _ in 0..random.below(4) {
            if !chips.is_empty() {
                let place = random.below(chips.len());
                let head = place / CHIP * CHIP + COLUMNS + random.below(2 + SET);
                let (any, small) = (random.byte(), random.below(3) as u8);
                chips[random.pick(&[place, head])] = random.pick(&[any, small]);
            }
        }
        let sent = fault::transfer(random, part);
        let length = match random.one_in(4) {
            true => random.pick(&[0, ANSWER - 1, ANSWER + 1]),
            false => ANSWER,
        };
        let bits = generate::bits(random);
        compare_into(part, &mut chips, &sent, bits, &mut vec![77; length]);
    });
}

/// Every set of faults at once: 16, 10, 11, 1, 2, 19, then 7, 17 and 18.
#[test]
fn plain_orders() {
    for (part, most) in [(0, 8), (1, 16), (2, 8), (255, 16)] {
        for (count, many) in [(1, 0), (most, 0), (most + 1, 10), (most + 2, 10)] {
            for (mark, misfit) in [(0, 0), (1, 0), (2, 11), (9, 11)] {
                for (sent, bits, numbers) in orders::transfers() {
                    let mut chips = vec![0; count * CHIP];
                    chips[count * CHIP - 1] = mark;
                    let number = numbers[(mark > 0) as usize];
                    let expected = first_refusal([refusal_of(part), many, misfit, number]);
                    assert_eq!(compare_bits(part, &mut chips, &sent, bits), expected);
                }
            }
        }
    }
}

/// Lists that end inside a chip, and too many chips, whole or not.
#[test]
fn plain_every_length() {
    for (part, most) in [(0, 8), (1, 16), (2, 1)] {
        for length in 0..=(most + 3) * CHIP {
            for value in [0, 1] {
                let mut chips = vec![value; length];
                compare(part, &mut chips, &[0x70, 0x40, 0xA5]);
            }
        }
    }
}

/// Every value of every field of a chip, and of the places about the end of either part's columns.
#[test]
fn plain_every_field() {
    for part in 0..2 {
        for place in (78..82).chain(COLUMNS - 2..CHIP) {
            for value in 0..=255 {
                let mut chips = vec![0; 2 * CHIP];
                chips[CHIP + place] = value;
                compare(part, &mut chips, &[0x70, 0x80, 0x03, 0x40, 0xA5, 0x5A]);
            }
        }
    }
}
