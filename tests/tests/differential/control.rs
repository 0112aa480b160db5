//! Stray bits of control bytes: a hearing account refuses them with 17 and their place, as it does an undefined command with 7.

use crate::case::{clear_marks, refusal_of, Call, Case, PARTS};
use crate::plain::{self, CHIP};
use crate::{fault, for_seeds};
use humtrellis_tests::generate::{self, shape};
use humtrellis_tests::model::{none, ANSWER, COLUMNS, SET, WHOLE};

/// A bus, and a list of plain chips of the same part that gets the same transfers.
struct Both {
    case: Case,
    chips: Vec<u8>,
}

impl Both {
    /// Two chips of group 0 in each.
    fn new(part: u8) -> Self {
        Both {
            case: Case::new(part, [2, 0]),
            chips: vec![0; 2 * CHIP],
        }
    }

    /// Sends a transfer to copies of both: refused where a chip hears it or the part is unknown, and nothing changed anywhere.
    fn expect_refused(&self, bytes: &[u8], refusal: (u8, usize)) {
        let group = (bytes[0] == 0x72) as u8;
        let by_long = self.case.chips[group as usize] > 0;
        let by_plain = self.chips.chunks(CHIP).any(|chip| chip[COLUMNS] == group);
        let number = |heard| match (refusal_of(self.case.part), heard) {
            (0, true) => refusal,
            (number, _) => (number, 0),
        };
        self.expect_same_bus(bytes, number(by_long));
        self.expect_same_chips(bytes, number(by_plain));
    }

    fn expect_same_bus(&self, bytes: &[u8], (number, place): (u8, usize)) {
        let mut case = self.case.clone();
        case.bytes = bytes.to_vec();
        let mut after = case.clone();
        after.answer = vec![number.into(), place, 0, 0, 0, none(case.part)];
        assert_eq!(case.compare(Call::Transfer), number);
        assert_eq!(case, after);
    }

    fn expect_same_chips(&self, bytes: &[u8], (number, place): (u8, usize)) {
        let (mut chips, mut answer) = (self.chips.clone(), [77; ANSWER]);
        let part = self.case.part;
        let returned = plain::compare_into(part, &mut chips, bytes, WHOLE, &mut answer);
        assert_eq!((returned, &chips), (number, &self.chips));
        assert_eq!(answer, [number.into(), place, 0, 0, 0, none(part)]);
    }

    /// Only an unknown part refuses this transfer.
    fn expect_taken(&self, bytes: &[u8]) {
        let mut case = self.case.clone();
        case.bytes = bytes.to_vec();
        let (part, mut chips) = (case.part, self.chips.clone());
        assert_eq!(case.compare(Call::Transfer), refusal_of(part));
        assert_eq!(plain::compare(part, &mut chips, bytes), refusal_of(part));
    }
}

/// Each stray bit of each control byte of a generated transfer.
#[test]
fn control_every_bit() {
    for_seeds(1500, |random| {
        let mut case = fault::good_case(random);
        let part = case.part;
        let mut chips = plain::list(random, part);
        case.bits = WHOLE;
        clear_marks(&mut case.registers, SET);
        clear_marks(&mut chips, CHIP);
        let both = Both { case, chips };
        let bytes = generate::good_transfer(random, shape(part));
        both.expect_taken(&bytes);
        for place in generate::control_places(&bytes) {
            for bit in 0..6 {
                let mut stray = bytes.clone();
                stray[place] |= 1 << bit;
                both.expect_refused(&stray, (17, place));
            }
        }
    });
}

/// Every value of a first, a later and a last control byte.
#[test]
fn control_every_value() {
    let around: [(&[u8], &[u8]); 4] = [
        (&[0x70], &[0xC8, 0x40]),
        (&[0x70, 0xC0, 0x3F], &[0xC8]),
        (&[0x70, 0x80, 0xC8], &[]),
        (&[0x70], &[]),
    ];
    for both in PARTS.map(Both::new) {
        for value in 0..=255 {
            for (before, behind) in around {
                let bytes = [before, &[value], behind].concat();
                match value & 0x3F {
                    0 => both.expect_taken(&bytes),
                    _ => both.expect_refused(&bytes, (17, before.len())),
                }
            }
        }
    }
}

/// Bytes after an address, and what refuses each where it is wrong: 17 a control byte, 7 a command, nothing data.
#[rustfmt::skip]
const FORMS: [([u8; 7], [u8; 7]); 5] = [
    ([0x80, 0x41, 0x80, 0x42, 0x00, 0xC8, 0xE1], [17, 7, 17, 7, 17, 7, 7]),
    ([0xC0, 0x3F, 0x80, 0x42, 0x40, 0x3F, 0x81], [17, 0, 17, 7, 17, 0, 0]),
    ([0x80, 0x41, 0xC0, 0x3F, 0x80, 0xC8, 0x40], [17, 7, 17, 0, 17, 7, 17]),
    ([0x00, 0x41, 0x42, 0xC8, 0xE1, 0xF9, 0x4F], [17, 7, 7, 7, 7, 7, 7]),
    ([0x40, 0x01, 0x42, 0x3F, 0x81, 0xC1, 0x7F], [17, 0, 0, 0, 0, 0, 0]),
];

/// One of these forms with the wrong bytes that the bits of `faults` name: 3C makes each byte wrong for either part, and data have no wrong bits.
fn expect_first_fault(both: &Both, (bytes, numbers): ([u8; 7], [u8; 7]), faults: u8) {
    let wrong = (1..8).filter(|place| faults >> (place - 1) & 1 != 0);
    let mut sent = [&[0x70][..], &bytes].concat();
    wrong.clone().for_each(|place| sent[place] |= 0x3C);
    let mut refusals = wrong.map(|place| (numbers[place - 1], place));
    match refusals.find(|(number, _)| *number != 0) {
        Some(first) => both.expect_refused(&sent, first),
        None => both.expect_taken(&sent),
    }
}

/// Every set of wrong bytes at once, the first of which counts.
#[test]
fn control_orders() {
    for both in PARTS.map(Both::new) {
        for form in FORMS {
            for faults in 0..128 {
                expect_first_fault(&both, form, faults);
            }
        }
    }
}
