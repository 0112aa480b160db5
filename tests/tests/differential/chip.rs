//! One plain chip: power-on and picture.

use crate::case::{first_refusal, refusal_of, MARKS};
use crate::library::{self, SIZE};
use crate::plain::{bytes_of, chip_of, chips, CHIP};
use crate::{every_setting, fault, for_seeds, plain};
use humtrellis_tests::generate::{self, shape};
use humtrellis_tests::model::{self, Part, ANSWER, COLUMNS, SET};
use humtrellis_tests::random::Random;

/// A call, with its part and the bytes of its chip first.
#[derive(Clone, Debug, PartialEq)]
pub struct Call {
    pub part: u8,
    pub chip: Vec<u8>,
    pub phase: u8,
    pub out: Vec<u8>,
    pub answer: Vec<usize>,
}

impl Call {
    pub fn new(part: u8, chip: &[u8]) -> Self {
        Call {
            part,
            chip: chip.to_vec(),
            phase: 0,
            out: vec![0xEE; shape(part).columns()],
            answer: vec![77; ANSWER],
        }
    }

    fn sizes_fit(&self) -> bool {
        self.chip.len() == CHIP && self.answer.len() == ANSWER
    }

    fn power_on_by_model(&mut self) -> u8 {
        if !self.sizes_fit() {
            return SIZE;
        }
        let mut chip = chip_of(&self.chip);
        let answer = model::plain_power_on(self.part, &mut chip);
        self.chip = bytes_of(&chip);
        self.answer = answer.numbers().to_vec();
        answer.number as u8
    }

    fn picture_by_model(&mut self) -> u8 {
        if !self.sizes_fit() {
            return SIZE;
        }
        let (chip, phase) = (chip_of(&self.chip), self.phase);
        let answer = model::plain_picture(self.part, &chip, phase, &mut self.out);
        self.answer = answer.numbers().to_vec();
        answer.number as u8
    }

    /// Holds a call's number and buffers to the model's.
    fn hold(&self, what: &str, given: &Call, number: u8, other: &Call, expected: u8) {
        assert!(
            number == expected && self == other,
            "{what} differs\n given {given:?}\n library {number} {self:?}\n model {expected} {other:?}"
        );
    }

    /// Powers the chip on both ways.
    pub fn power_on(&mut self) -> u8 {
        let (given, mut other) = (self.clone(), self.clone());
        let number = library::chip_power_on(self.part, &mut self.chip, &mut self.answer);
        let expected = other.power_on_by_model();
        self.hold("chip power-on", &given, number, &other, expected);
        number
    }

    /// Shows the chip both ways.
    pub fn picture(&mut self) -> u8 {
        let (given, mut other) = (self.clone(), self.clone());
        let (chip, out, answer) = (&mut self.chip, &mut self.out, &mut self.answer);
        let number = library::chip_picture(self.part, chip, self.phase, out, answer);
        let expected = other.picture_by_model();
        self.hold("chip picture", &given, number, &other, expected);
        number
    }

    /// Both calls, each on a copy.
    pub fn both(&self) -> [u8; 2] {
        [self.clone().power_on(), self.clone().picture()]
    }
}

/// A chip whose columns have every value.
fn patterned() -> Vec<u8> {
    let mut chip = vec![0; CHIP];
    for (place, column) in chip[..COLUMNS].iter_mut().enumerate() {
        *column = (place * 7 % 16) as u8;
    }
    chip
}

/// The greatest value of each byte of a chip: columns, SA0, subaddress, E B M P A I O AB BF and three marks; a PCA85133 has 80 columns and 80 bytes of any value.
fn limits(part: Part) -> Vec<u8> {
    match part {
        Part::Pcf8532 => {
            let rest = [1, 3, 1, 1, 3, 159, 4, 1, 1, 1, 3, 1, 1, 1];
            [&[15; 160][..], &rest].concat()
        }
        Part::Pca85133 => {
            let body = [[15; 80], [255; 80]].concat();
            [&body[..], &[1, 7, 1, 1, 3, 79, 8, 1, 1, 1, 3, 1, 1, 1]].concat()
        }
    }
}

/// Power-on, then transfers with the state carried over, and both phases between.
#[test]
fn chip_sequences() {
    for_seeds(1500, |random| {
        let part = generate::part(random);
        let mut call = Call::new(part, &chips(random, part, 1));
        assert_eq!(call.power_on(), refusal_of(part));
        for _ in 0..30 {
            let (bytes, bits) = (fault::transfer(random, part), generate::bits(random));
            plain::compare_bits(part, &mut call.chip, &bytes, bits);
            for phase in 0..2 {
                call.phase = phase;
                assert_eq!(call.picture(), refusal_of(part));
            }
        }
    });
}

/// Any bytes changed, any sizes, any phase, any part.
#[test]
fn chip_damaged() {
    for_seeds(30_000, |random| {
        let part = generate::part(random);
        let mut call = Call::new(part, &chips(random, part, 1));
        for _ in 0..random.below(4) {
            let any = random.below(CHIP);
            let field = COLUMNS + random.below(2 + SET);
            call.chip[random.pick(&[any, field])] = random.byte();
        }
        call.phase = random.pick(&[0, 0, 0, 1, 1, 1, 2, 255]);
        let out = about(random, shape(part).columns());
        call.out = random.bytes(out);
        call.chip.resize(about(random, CHIP), 1);
        call.answer.resize(about(random, ANSWER), 3);
        if random.one_in(8) {
            call.part = 1 - part % 2;
        }
        call.both();
    });
}

/// Mostly the right length, now and then another.
fn about(random: &mut Random, right: usize) -> usize {
    match random.one_in(6) {
        true => random.pick(&[0, right - 1, right + 1, 2 * right]),
        false => right,
    }
}

/// Every value of every byte of a chip: power-on refuses identity and columns alone, a picture the registers too.
#[test]
fn chip_every_field() {
    for part in Part::BOTH {
        for (place, limit) in limits(part).into_iter().enumerate() {
            for value in 0..=255 {
                let mut chip = patterned();
                chip[COLUMNS + 2] = 1;
                chip[place] = value;
                let wrong = value > limit;
                let on = if wrong && place < COLUMNS + 2 { 11 } else { 0 };
                let shown = if wrong { 11 } else { 0 };
                assert_eq!(Call::new(part.number(), &chip).both(), [on, shown]);
            }
        }
    }
}

/// Power-on, taken and refused, of a chip whose registers are all out of range: they become 0, the rest stays.
#[test]
fn chip_power_on_registers() {
    for (part, sa0, number) in [
        (0, 1, 0),
        (0, 2, 11),
        (1, 1, 0),
        (1, 2, 11),
        (2, 1, 16),
        (255, 2, 16),
    ] {
        let mut chip = patterned();
        chip[COLUMNS..].fill(255);
        chip[COLUMNS] = sa0;
        chip[COLUMNS + 1] = 2;
        let mut call = Call::new(part, &chip);
        assert_eq!(call.power_on(), number);
        assert_eq!(call.chip[..COLUMNS + 2], chip[..COLUMNS + 2]);
        assert_eq!(call.chip[COLUMNS + 2..], [0; SET]);
        assert_eq!(call.answer, [number as usize, 0, 0, 0, 0, 0]);
    }
}

/// Every mode, bank and blink setting, on and off, at both phases.
#[test]
fn chip_every_picture() {
    for part in Part::BOTH {
        for set in every_setting(part) {
            let mut call = Call::new(part.number(), &patterned());
            call.chip[COLUMNS + 2..][..MARKS].copy_from_slice(&set);
            for phase in 0..2 {
                call.phase = phase;
                assert_eq!(call.clone().picture(), 0);
            }
        }
    }
}

/// Each of these bytes changed alone, with every phase and room: the number of power-on, and those of a picture in order.
fn expect_orders(part: u8, right: usize, fields: &[(usize, u8, [u8; 2])]) {
    for &(place, value, [on, misfit]) in fields {
        for (phase, view) in [(0, 0), (1, 0), (2, 8), (255, 8)] {
            for length in [right, 0, right - 1, right + 1, 2 * right, right / 2] {
                let mut call = Call::new(part, &patterned());
                call.chip[place] = value;
                call.phase = phase;
                call.out = vec![0xEE; length];
                let room = if length == right { 0 } else { 9 };
                let on = first_refusal([refusal_of(part), on]);
                let shown = first_refusal([refusal_of(part), misfit, view, room]);
                assert_eq!(call.both(), [on, shown]);
            }
        }
    }
}

/// Every set of faults at once: 16, 11, 8, 9; a register out of range matters to a picture alone.
#[test]
fn chip_orders() {
    let large = [
        (0, 0, [0, 0]),
        (0, 16, [11, 11]),
        (159, 255, [11, 11]),
        (160, 2, [11, 11]),
        (161, 4, [11, 11]),
        (165, 160, [0, 11]),
        (170, 4, [0, 11]),
        (171, 1, [0, 0]),
        (171, 2, [0, 11]),
        (173, 2, [0, 11]),
    ];
    let small = [
        (0, 0, [0, 0]),
        (79, 16, [11, 11]),
        (80, 16, [0, 0]),
        (159, 255, [0, 0]),
        (160, 2, [11, 11]),
        (161, 8, [11, 11]),
        (165, 80, [0, 11]),
        (166, 9, [0, 11]),
        (172, 1, [0, 0]),
        (172, 2, [0, 11]),
    ];
    expect_orders(0, 160, &large);
    expect_orders(1, 80, &small);
    expect_orders(2, 160, &large);
    expect_orders(255, 80, &small);
}

/// A chip or an answer of a wrong size comes before every refusal, and nothing is written.
#[test]
fn chip_sizes() {
    let calls = [
        (0, 0, 0, 160),
        (0, 255, 2, 0),
        (1, 0, 0, 80),
        (1, 255, 2, 0),
        (2, 0, 0, 160),
        (255, 255, 2, 0),
    ];
    for size in 0..=2 * CHIP + 1 {
        for answer in [0, ANSWER - 1, ANSWER, ANSWER + 1, 2 * ANSWER] {
            for (part, value, phase, out) in calls {
                let mut call = Call::new(part, &vec![value; size]);
                (call.phase, call.out) = (phase, vec![0xEE; out]);
                call.answer = vec![77; answer];
                if (size, answer) != (CHIP, ANSWER) {
                    assert_eq!(call.both(), [SIZE; 2]);
                }
            }
        }
    }
}
