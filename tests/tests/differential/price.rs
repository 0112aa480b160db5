//! Request 1 of paper 02: prices as data bytes and back, by library and model, held to the paper's figures, and sent to the glass.

use crate::case::{first_refusal, Call as Bus, Case};
use crate::for_seeds;
use crate::library::{self, SIZE};
use humtrellis_tests::model::ANSWER;
use humtrellis_tests::price;
use humtrellis_tests::price_texts::{
    self, damage, every_text, figures, ALPHABET, BYTES, EVERY_DIGIT, LAYOUTS, LIT,
    TYPOGRAPHIC_MINUS,
};
use humtrellis_tests::random::Random;
use std::collections::BTreeSet;

#[derive(Clone, Copy, Debug, PartialEq)]
enum Call {
    Write,
    Read,
}

/// A call's buffers and mode; after the call, what they have become. Writing is given a text and reading data bytes.
#[derive(Clone, Debug, PartialEq)]
struct Price {
    call: Call,
    mode: u8,
    given: Vec<u8>,
    out: Vec<u8>,
    answer: Vec<usize>,
}

impl Price {
    /// A call with an output of the least length.
    fn new(call: Call, mode: u8, given: &[u8]) -> Self {
        let room = match call {
            Call::Write => 80,
            Call::Read => 160,
        };
        Price {
            call,
            mode,
            given: given.to_vec(),
            out: vec![0xEE; room],
            answer: vec![77; ANSWER],
        }
    }

    fn by_library(&mut self) -> u8 {
        let (mode, given) = (self.mode, &mut self.given);
        let (out, answer) = (&mut self.out, &mut self.answer);
        match self.call {
            Call::Write => library::price_write(mode, given, out, answer),
            Call::Read => library::price_read(mode, given, out, answer),
        }
    }

    fn by_model(&mut self) -> u8 {
        if self.answer.len() != ANSWER {
            return SIZE;
        }
        let answer = match self.call {
            Call::Write => price::write(self.mode, &self.given, &mut self.out),
            Call::Read => price::read(self.mode, &self.given, &mut self.out),
        };
        self.answer = answer.numbers().to_vec();
        answer.number as u8
    }

    /// Makes the call both ways, holds all results together, and gives the number returned.
    fn compare(&mut self) -> u8 {
        let (given, mut other) = (self.clone(), self.clone());
        let number = self.by_library();
        let expected = other.by_model();
        if number != expected || *self != other {
            panic!(
                "price differs\n given {given:?}\n library {number} {self:?}\n model {expected} {other:?}"
            );
        }
        number
    }

    /// The call is taken and writes this; the bytes behind it stay.
    fn gives(mut self, result: &[u8]) {
        let before = self.out.clone();
        assert_eq!(self.compare(), 0);
        assert_eq!(self.answer, [0, 0, result.len(), 0, 0, 0]);
        assert_eq!(self.out[..result.len()], *result);
        assert_eq!(self.out[result.len()..], before[result.len()..]);
    }

    /// The call is refused, and its output stays.
    fn refused(mut self, [number, place]: [usize; 2]) {
        let mut after = self.clone();
        after.answer = vec![number, place, 0, 0, 0, 0];
        assert_eq!(self.compare(), number as u8);
        assert_eq!(self, after);
    }
}

fn write(mode: u8, text: &[u8]) -> Price {
    Price::new(Call::Write, mode, text)
}

fn read(mode: u8, segments: &[u8]) -> Price {
    Price::new(Call::Read, mode, segments)
}

// ---- Figures ---------------------------------------------------------------

/// Each figure alone, and each pair of them.
#[test]
fn price_figures() {
    for mode in 0..4 {
        let figures = figures(mode);
        write(mode, b"").gives(b"");
        read(mode, b"").gives(b"");
        for (texts, byte) in &figures {
            for text in texts {
                write(mode, text).gives(&[*byte]);
            }
            read(mode, &[*byte]).gives(texts[0]);
            for (others, other) in &figures {
                for text in others.iter().map(|text| [texts[0], text].concat()) {
                    write(mode, &text).gives(&[*byte, *other]);
                }
                read(mode, &[*byte, *other]).gives(&[texts[0], others[0]].concat());
            }
        }
    }
}

/// Every byte alone, and behind and before a digit: 22 are read in each mode.
#[test]
fn price_every_byte_read() {
    for mode in 0..4 {
        let (digits, _, _) = BYTES[mode as usize];
        let bytes: BTreeSet<u8> = figures(mode).iter().map(|figure| figure.1).collect();
        assert_eq!(bytes.len(), 22);
        for byte in 0..=255 {
            let around = [
                (vec![byte], 0),
                (vec![digits[3], byte], 1),
                (vec![byte, digits[3]], 0),
                (vec![byte, byte], 0),
            ];
            for (segments, place) in around {
                match bytes.contains(&byte) {
                    true => assert_eq!(read(mode, &segments).compare(), 0),
                    false => read(mode, &segments).refused([15, place]),
                }
            }
        }
    }
}

/// Every text up to three bytes of the alphabet in every mode.
#[test]
fn price_short_texts() {
    for text in (0..=3).flat_map(|length| every_text(ALPHABET, length)) {
        for mode in 0..4 {
            write(mode, &text).compare();
        }
    }
}

/// Every text of four bytes, each in one mode.
#[test]
fn price_texts_of_four() {
    let mut random = Random::new(4);
    for text in every_text(ALPHABET, 4) {
        write(random.below(4) as u8, &text).compare();
    }
}

/// Every byte alone, and behind a digit, a point, a space, a minus and the starts of the typographic one.
#[test]
fn price_every_byte_written() {
    let (whole, begun) = (
        [&b""[..], b"7", b"7.", b" ", b"-", TYPOGRAPHIC_MINUS],
        [&b"\xE2"[..], b"\xE2\x88"],
    );
    for start in whole.into_iter().chain(begun) {
        for (mode, byte) in (0..=255).flat_map(|byte| (0..4).map(move |mode| (mode, byte))) {
            let sound = match byte {
                b'0'..=b'9' | b' ' | b'-' => whole.contains(&start),
                b'.' => start == b"7",
                0x92 => start == b"\xE2\x88",
                _ => false,
            };
            let number = write(mode, &[start, &[byte]].concat()).compare();
            assert_eq!(number, if sound { 0 } else { 15 });
        }
    }
}

/// A broken minus is refused at its first byte, a stray byte of it at itself, a point where no digit stands directly before.
#[test]
fn price_refused_texts() {
    let texts: [(&[u8], usize); 12] = [
        (b".5", 0),
        (b"1..", 2),
        (b"-.5", 1),
        (b" .5", 1),
        (b"\xE2\x88\x92.5", 3),
        (b"12,5", 2),
        (b"1\xE2", 1),
        (b"1\xE2\x88", 1),
        (b"1\xE2\x88\x93", 1),
        (b"1\xE2\x92\x88", 1),
        (b"\x88\x92", 0),
        (b"1\x92", 1),
    ];
    for (text, place) in texts {
        for mode in 0..4 {
            write(mode, text).refused([15, place]);
        }
    }
}

// ---- Generated prices ------------------------------------------------------

/// Sound prices up to 80 bytes: written, read back with the plain minus, and written again.
#[test]
fn price_written_and_read() {
    for_seeds(3000, |random| {
        let (mode, limit) = (random.below(4) as u8, random.pick(&[5, 40, 80, 80]));
        let price = price_texts::price(random, mode, limit);
        let room = random.pick(&[160, 161, 200]);
        let mut writing = write(mode, &price.text);
        writing.out = random.bytes(room - 80);
        writing.gives(&price.segments);
        let mut reading = read(mode, &price.segments);
        reading.out = random.bytes(room);
        reading.gives(&price.plain);
        write(mode, &price.plain).gives(&price.segments);
    });
}

/// A call with any of the faults: over-long, a mode out of range, too little room, bytes that are none of these, an answer of another size.
fn damaged(random: &mut Random) -> Price {
    let (mode, limit) = (random.below(4) as u8, random.pick(&[3, 40, 78, 80, 81, 90]));
    let price = price_texts::price(random, mode, limit);
    let mut call = match random.below(2) {
        0 => write(mode, &price.text),
        _ => read(mode, &price.segments),
    };
    if random.one_in(2) {
        damage(random, &mut call.given);
    }
    if random.one_in(8) {
        let length = random.between(79, 90);
        call.given.resize(length, b'8');
    }
    if random.one_in(6) {
        call.mode = random.pick(&[0, 1, 2, 3, 4, 5, 128, 255]);
    }
    if random.one_in(6) {
        call.out = vec![0xEE; random.pick(&[0, 79, 80, 81, 159, 160, 161])];
    }
    if random.one_in(40) {
        call.answer.resize(random.pick(&[0, 5, 7, 12]), 3);
    }
    call
}

#[test]
fn price_damaged() {
    for_seeds(20_000, |random| {
        damaged(random).compare();
    });
}

/// Every refusal is among those that are drawn.
#[test]
fn price_every_refusal() {
    let drawn = (0..2000).map(|seed| damaged(&mut Random::new(seed)).compare());
    let met: BTreeSet<u8> = drawn.collect();
    assert_eq!(met, BTreeSet::from([0, 2, 6, 9, 15, SIZE]));
}

/// Any bytes to read, mostly ones of the mode.
#[test]
fn price_segments() {
    for_seeds(5000, |random| {
        let mode = random.below(4) as u8;
        let length = random.below(84);
        let figures = figures(mode);
        let rarity = random.between(1, 200);
        let byte = |_| match random.one_in(rarity) {
            true => random.byte(),
            false => figures[random.below(figures.len())].1,
        };
        let segments: Vec<u8> = (0..length).map(byte).collect();
        read(mode, &segments).compare();
    });
}

/// A byte that is none of these at each place; of two, the first counts.
#[test]
fn price_every_place() {
    for mode in 0..4 {
        let (digits, _, point) = BYTES[mode as usize];
        for place in 0..80 {
            let (mut text, mut segments) = (vec![b'6'; 80], vec![digits[6]; 80]);
            (text[79], segments[79]) = (b'/', point);
            (text[place], segments[place]) = (b':', point);
            write(mode, &text).refused([15, place]);
            read(mode, &segments).refused([15, place]);
        }
    }
}

// ---- Limits ----------------------------------------------------------------

/// Every length up to some past 80: digits, digits with points, and typographic minuses, of which 26 fit.
#[test]
fn price_lengths() {
    for mode in 0..4 {
        let (digits, minus, point) = BYTES[mode as usize];
        for length in 0..=90 {
            let (text, segments) = (vec![b'8'; length], vec![digits[8] | point; length]);
            if length > 80 {
                write(mode, &text).refused([2, 0]);
                read(mode, &segments).refused([2, 0]);
                write(mode, &vec![b'?'; length]).refused([2, 0]);
                read(mode, &vec![point; length]).refused([2, 0]);
                continue;
            }
            write(mode, &text).gives(&vec![digits[8]; length]);
            read(mode, &segments).gives(&b"8.".repeat(length));
            write(mode, &b"8.".repeat(length)[..length / 2 * 2]).gives(&segments[..length / 2]);
            let minuses = TYPOGRAPHIC_MINUS.repeat(27);
            match length % 3 {
                0 => write(mode, &minuses[..length]).gives(&vec![minus; length / 3]),
                _ => write(mode, &minuses[..length]).refused([15, length / 3 * 3]),
            }
        }
    }
}

/// Every output up to some bytes past 160, however short the result is; 79, 80, 81 and 159, 160, 161 are among them.
#[test]
fn price_rooms() {
    for room in 0..=170 {
        for count in [0, 1, 80] {
            let (mut writing, mut reading) =
                (write(1, &vec![b'1'; count]), read(1, &vec![0xC1; count]));
            (writing.out, reading.out) = (vec![0xEE; room], vec![0xEE; room]);
            match room < 80 {
                true => writing.refused([9, 0]),
                false => writing.gives(&vec![0xC0; count]),
            }
            match room < 160 {
                true => reading.refused([9, 0]),
                false => reading.gives(&b"1.".repeat(count)),
            }
        }
    }
}

#[test]
fn price_modes() {
    for mode in 0..=255 {
        let number = if mode > 3 { 6 } else { 0 };
        assert_eq!(write(mode, b"-4").compare(), number);
        assert_eq!(read(mode, &[0]).compare(), number);
    }
}

/// A refusal's number, and a fault that brings it.
type Refused = (u8, fn(&mut Price));

/// The paper's order, of both calls in 1:3.
const ORDER: [Refused; 4] = [
    (2, |call| call.given.push(0)),
    (6, |call| call.mode = 4),
    (9, |call| call.out.truncate(call.out.len() - 1)),
    (15, |call| call.given[41..50].fill(b'@')),
];

/// Both calls with every set of faults, and what refuses each.
fn every_fault() -> Vec<(Price, u8)> {
    let mut calls = Vec::new();
    for faults in 0..16 {
        for mut call in [write(3, &[b'7'; 80]), read(3, &[0xB0; 80])] {
            let mut numbers = [0; 4];
            for (index, (number, fault)) in ORDER.into_iter().enumerate() {
                if faults >> index & 1 == 1 {
                    fault(&mut call);
                    numbers[index] = number;
                }
            }
            calls.push((call, first_refusal(numbers)));
        }
    }
    calls
}

#[test]
fn price_orders() {
    for (mut call, number) in every_fault() {
        match number {
            0 => assert_eq!(call.compare(), 0),
            15 => call.refused([15, 41]),
            _ => call.refused([number.into(), 0]),
        }
    }
}

/// An answer of another size comes before every refusal, and nothing is written.
#[test]
fn price_sizes() {
    for (call, _) in every_fault() {
        for size in [0, 1, ANSWER - 1, ANSWER + 1, 2 * ANSWER] {
            let mut call = call.clone();
            call.answer.resize(size, 77);
            let before = call.clone();
            assert_eq!(call.compare(), SIZE);
            assert_eq!(call, before);
        }
    }
}

// ---- On the glass ----------------------------------------------------------

/// The library's bytes, sent by the library to either group of either part in their mode, light the elements that the data sheet's figure names.
#[test]
fn price_on_the_glass() {
    for (mode, layout) in (0..).zip(LAYOUTS) {
        let mut writing = write(mode, EVERY_DIGIT);
        assert_eq!(writing.compare(), 0);
        let segments = &writing.out[..LIT.len()];
        for (part, group) in [(0, 0), (0, 1), (1, 0), (1, 1)] {
            let mut case = Case::new(part, [2, 2]);
            let start = [0x70 + 2 * group, 0x80, 0xC8 | mode, 0x40];
            case.bytes = [&start, segments].concat();
            assert_eq!(case.compare(Bus::Transfer), 0);
            case.show([group, 0]);
            assert_eq!(case.compare(Bus::Picture), 0);
            for (columns, lit) in case.out.chunks(layout[0].len()).zip(LIT) {
                for (row, names) in layout.iter().enumerate() {
                    for (column, name) in columns.iter().zip(names.chars()) {
                        assert_eq!(column >> row & 1 == 1, lit.contains(name));
                    }
                }
            }
        }
    }
}
