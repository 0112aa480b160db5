//! Request 1 of paper 02: prices as data bytes of each mode, and back.

use super::*;
use crate::model::{self, View, ANSWER, REGISTERS, WHOLE};
use crate::price_texts::{
    every_text, figures, price, BYTES, EVERY_DIGIT, LAYOUTS, LIT, TYPOGRAPHIC_MINUS,
};
use crate::random::Random;

// ---- By hand ---------------------------------------------------------------

/// What writing answers, and its output, which was all 9; so reading.
fn wrote(mode: u8, text: &[u8], room: usize) -> ([usize; ANSWER], Vec<u8>) {
    let mut out = vec![9; room];
    (write(mode, text, &mut out).numbers(), out)
}

fn did_read(mode: u8, segments: &[u8], room: usize) -> ([usize; ANSWER], Vec<u8>) {
    let mut out = vec![9; room];
    (read(mode, segments, &mut out).numbers(), out)
}

/// The answer and the output where so much is written over bytes of 9.
fn result(written: &[u8], room: usize) -> ([usize; ANSWER], Vec<u8>) {
    let mut out = written.to_vec();
    out.resize(room, 9);
    ([0, 0, written.len(), 0, 0, 0], out)
}

/// The answer and the output, which stays, of a refusal.
fn refusal(number: usize, place: usize, room: usize) -> ([usize; ANSWER], Vec<u8>) {
    ([number, place, 0, 0, 0, 0], vec![9; room])
}

fn expect_written(mode: u8, text: &[u8], segments: &[u8]) {
    for room in [80, 81, 160, 300] {
        assert_eq!(
            wrote(mode, text, room),
            result(segments, room),
            "{text:02X?}"
        );
    }
}

fn expect_read(mode: u8, segments: &[u8], text: &[u8]) {
    for room in [160, 161, 300] {
        assert_eq!(
            did_read(mode, segments, room),
            result(text, room),
            "{segments:02X?}"
        );
    }
}

/// Prices, and their data bytes by M.
#[rustfmt::skip]
const PRICES: [(&str, [&[u8]; 4]); 6] = [
    ("-4", [&[0x02, 0x6A], &[0x08, 0xD8], &[0x10, 0x74], &[0x04, 0xA6]]),
    ("\u{2212}4", [&[0x02, 0x6A], &[0x08, 0xD8], &[0x10, 0x74], &[0x04, 0xA6]]),
    ("4", [&[0x6A], &[0xD8], &[0x74], &[0xA6]]),
    ("3.50", [&[0xF3, 0xCB, 0xED], &[0xEB, 0xBA, 0xF6], &[0xD7, 0xB6, 0xEE], &[0xFC, 0x3E, 0xBB]]),
    (" 1.", [&[0x00, 0x70], &[0x00, 0xC1], &[0x00, 0x45], &[0x00, 0xE0]]),
    ("8.9.", [&[0xFF, 0xFB], &[0xFF, 0xFB], &[0xFF, 0xF7], &[0xFF, 0xFE]]),
];

/// The price of the incident and others, in every mode.
#[test]
fn prices() {
    for (text, modes) in PRICES {
        for (mode, segments) in (0..).zip(modes) {
            expect_written(mode, text.as_bytes(), segments);
            let plain = text.replace('\u{2212}', "-");
            expect_read(mode, segments, plain.as_bytes());
        }
    }
}

#[test]
fn every_figure() {
    for mode in 0..4 {
        for (texts, byte) in figures(mode) {
            for text in &texts {
                expect_written(mode, text, &[byte]);
            }
            expect_read(mode, &[byte], texts[0]);
        }
    }
}

#[test]
fn nothing() {
    for mode in 0..4 {
        expect_written(mode, b"", &[]);
        expect_read(mode, &[], b"");
    }
}

/// Every byte in every mode: 22 are read, of which one is a space and one a minus; DP alone, and g with DP, are not among them.
#[test]
fn every_byte_read() {
    for mode in 0..4 {
        let figures = figures(mode);
        let (_, minus, point) = BYTES[mode as usize];
        let mut count = 0;
        for byte in 0..=255 {
            match figures.iter().find(|figure| figure.1 == byte) {
                Some((texts, _)) => {
                    expect_read(mode, &[byte], texts[0]);
                    count += 1;
                }
                None => assert_eq!(did_read(mode, &[byte], 160), refusal(15, 0, 160)),
            }
        }
        assert_eq!(count, 22);
        assert_eq!(did_read(mode, &[point], 160).0[0], 15);
        assert_eq!(did_read(mode, &[minus | point], 160).0[0], 15);
    }
}

// ---- Texts -----------------------------------------------------------------

/// The bytes that a text gives, or the place that refuses it: as far as figures, one after the other, make the text's start.
fn by_figures(mode: u8, text: &[u8]) -> Result<Vec<u8>, usize> {
    let figures = figures(mode);
    let mut ways = vec![None; text.len() + 1];
    ways[0] = Some(Vec::new());
    for at in 0..text.len() {
        let Some(bytes) = ways[at].clone() else {
            continue;
        };
        for (texts, byte) in &figures {
            for figure in texts.iter().filter(|figure| text[at..].starts_with(figure)) {
                ways[at + figure.len()] = Some([&bytes[..], &[*byte]].concat());
            }
        }
    }
    let reached = ways.iter().rposition(Option::is_some).expect("the start");
    match ways.pop().expect("the end") {
        Some(bytes) => Ok(bytes),
        None => Err(reached),
    }
}

/// A text is written as its figures are, or refused where they end.
fn expect_text(mode: u8, text: &[u8]) {
    let expected = match by_figures(mode, text) {
        Ok(bytes) => result(&bytes, 80),
        Err(place) => refusal(15, place, 80),
    };
    assert_eq!(wrote(mode, text, 80), expected, "{text:02X?}");
}

/// Bytes of texts, and some that begin none.
const ALPHABET: &[u8] = b"059 -.\xE2\x88\x92/:\0";

/// Every text up to four bytes of the alphabet.
#[test]
fn short_texts() {
    for text in (0..=4).flat_map(|length| every_text(ALPHABET, length)) {
        for mode in 0..4 {
            expect_text(mode, &text);
        }
    }
}

/// Every byte alone, and behind a digit, a point, a space, a minus and the starts of the typographic one.
#[test]
fn every_byte_written() {
    let starts: [&[u8]; 8] = [
        b"",
        b"7",
        b"7.",
        b" ",
        b"-",
        TYPOGRAPHIC_MINUS,
        b"\xE2",
        b"\xE2\x88",
    ];
    for start in starts {
        for (mode, byte) in (0..=255).flat_map(|byte| (0..4).map(move |mode| (mode, byte))) {
            expect_text(mode, &[start, &[byte]].concat());
        }
    }
}

/// The paper's refusals, and those that are read from it, with their places.
#[test]
fn refused_texts() {
    let texts: [(&[u8], usize); 17] = [
        (b".", 0),
        (b".5", 0),
        (b"1..", 2),
        (b"1. .", 3),
        (b"-.5", 1),
        (b" .5", 1),
        (b"\xE2\x88\x92.5", 3),
        (b"12,5", 2),
        (b"1\xE2", 1),
        (b"1\xE2\x88", 1),
        (b"1\xE2\x88\x93", 1),
        (b"1\xE2\x92\x88", 1),
        (b"\x88\x92", 0),
        (b"1\x92", 1),
        (b"\xE2\xE2\x88\x92", 0),
        (b"\xE2\x88\x92\x92", 3),
        (b"1\n", 1),
    ];
    for (text, place) in texts {
        for mode in 0..4 {
            assert_eq!(wrote(mode, text, 80), refusal(15, place, 80), "{text:02X?}");
        }
    }
}

/// Written and read back, a text is the same with the plain minus; read and written again, bytes are the same.
#[test]
fn written_and_read() {
    for seed in 0..3000 {
        let (mut random, mode) = (Random::new(seed), (seed % 4) as u8);
        let limit = random.pick(&[5, 40, 80, 80]);
        let price = price(&mut random, mode, limit);
        expect_written(mode, &price.text, &price.segments);
        expect_read(mode, &price.segments, &price.plain);
        expect_written(mode, &price.plain, &price.segments);
    }
}

/// Each byte of a text changed to any of the alphabet.
#[test]
fn changed_texts() {
    for seed in 0..16 {
        let mode = (seed % 4) as u8;
        let price = price(&mut Random::new(seed), mode, 80);
        for place in 0..price.text.len() {
            for byte in ALPHABET {
                let mut other = price.text.clone();
                other[place] = *byte;
                expect_text(mode, &other);
            }
        }
    }
}

/// A byte that is none of these at each place of the segments; of two, the first counts.
#[test]
fn changed_segments() {
    for mode in 0..4 {
        let (digits, _, point) = BYTES[mode as usize];
        for place in 0..80 {
            let mut segments = vec![digits[place % 10]; 80];
            segments[79] = point;
            segments[place] = point;
            assert_eq!(did_read(mode, &segments, 160), refusal(15, place, 160));
        }
    }
}

// ---- Limits ----------------------------------------------------------------

/// 80 bytes and 81, of which a typographic minus has three; 80 digits with points are read as 160 bytes.
#[test]
fn lengths() {
    for mode in 0..4 {
        let (digits, minus, point) = BYTES[mode as usize];
        expect_written(mode, &[b'8'; 80], &[digits[8]; 80]);
        assert_eq!(wrote(mode, &[b'8'; 81], 80), refusal(2, 0, 80));
        assert_eq!(wrote(mode, &[b'?'; 81], 80), refusal(2, 0, 80));
        expect_written(mode, &b"8.".repeat(40), &[digits[8] | point; 40]);
        let long = TYPOGRAPHIC_MINUS.repeat(27);
        assert_eq!(wrote(mode, &long, 80), refusal(2, 0, 80));
        assert_eq!(wrote(mode, &long[..80], 80), refusal(15, 78, 80));
        expect_written(mode, &long[..78], &[minus; 26]);
        expect_read(mode, &[digits[8] | point; 80], &b"8.".repeat(80));
        assert_eq!(did_read(mode, &[digits[8]; 81], 160), refusal(2, 0, 160));
        assert_eq!(did_read(mode, &[point; 81], 160), refusal(2, 0, 160));
    }
}

#[test]
fn modes() {
    for mode in 0..=255 {
        let number = if mode > 3 { 6 } else { 0 };
        assert_eq!(wrote(mode, b"1", 80).0[0], number);
        assert_eq!(did_read(mode, &[0], 160).0[0], number);
    }
}

/// The room goes by 80 and 160, however short the result is.
#[test]
fn rooms() {
    for room in 0..200 {
        for text in [&b""[..], b"1", b"12345678"] {
            let written = match room {
                0..=79 => refusal(9, 0, room),
                _ => result(&by_figures(1, text).expect("a price"), room),
            };
            assert_eq!(wrote(1, text, room), written);
            let segments = by_figures(1, text).expect("a price");
            let read = match room {
                0..=159 => refusal(9, 0, room),
                _ => result(text, room),
            };
            assert_eq!(did_read(1, &segments, room), read);
        }
    }
}

/// Every set of faults: 2, 6, 9, 15.
#[test]
fn order_of_refusals() {
    for faults in 0..16 {
        let fault = |bit: usize| faults >> bit & 1 == 1;
        let length = if fault(0) { 81 } else { 80 };
        let mode = if fault(1) { 4 } else { 3 };
        let less = if fault(2) { 1 } else { 0 };
        let mut text = vec![b'7'; length];
        let mut segments = vec![0xB0; length];
        if fault(3) {
            (text[5], segments[5]) = (b'.', 0x40);
            (text[4], segments[7]) = (b' ', 0x40);
        }
        let first = [(0, 2), (1, 6), (2, 9), (3, 15)]
            .into_iter()
            .find(|(bit, _)| fault(*bit));
        let number = first.map_or(0, |(_, number)| number);
        let place = if number == 15 { 5 } else { 0 };
        let written = wrote(mode, &text, 80 - less).0;
        let read = did_read(mode, &segments, 160 - less).0;
        assert_eq!((written[0], written[1]), (number, place));
        assert_eq!((read[0], read[1]), (number, place));
    }
}

// ---- On the glass ----------------------------------------------------------

/// Sent to one chip in its mode, each figure lights the elements that the data sheet's figure names.
#[test]
fn lit_on_the_glass() {
    for (mode, layout) in (0..).zip(LAYOUTS) {
        let (answer, segments) = wrote(mode, EVERY_DIGIT, 80);
        assert_eq!(answer[2], LIT.len());
        let start = [0x70, 0x80, 0xC8 | mode, 0x40];
        let transfer = [&start, &segments[..answer[2]]].concat();
        let (mut registers, mut ram) = ([0; REGISTERS], [0; 160]);
        let sent = model::transfer(0, 1, 0, &mut registers, &mut ram, &transfer, WHOLE);
        assert_eq!(sent.number, 0);
        let view = View {
            part: 0,
            chips0: 1,
            chips1: 0,
            registers: &registers,
            ram: &ram,
            group: 0,
            phase: 0,
        };
        let mut out = [0; 160];
        model::picture(view, &mut out);
        for (columns, lit) in out.chunks(layout[0].len()).zip(LIT) {
            for (row, names) in layout.iter().enumerate() {
                for (column, name) in columns.iter().zip(names.chars()) {
                    assert_eq!(column >> row & 1 == 1, lit.contains(name));
                }
            }
        }
    }
}
