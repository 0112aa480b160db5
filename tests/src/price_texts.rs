//! Prices for request 1 of paper 02: every figure's data byte worked out by hand, where its segments are on the glass, and generators of texts and data bytes.

use crate::random::Random;

/// The data bytes of the digits 0 to 9, of a minus, and what a point adds, by M: bit by bit from the orders of data sheet 003, figure 13.
#[rustfmt::skip]
pub const BYTES: [([u8; 10], u8, u8); 4] = [
    // 1:4, a c b DP f e g d.
    ([0xED, 0x60, 0xA7, 0xE3, 0x6A, 0xCB, 0xCF, 0xE0, 0xEF, 0xEB], 0x02, 0x10),
    // Static, c b a f g e d DP.
    ([0xF6, 0xC0, 0x6E, 0xEA, 0xD8, 0xBA, 0xBE, 0xE0, 0xFE, 0xFA], 0x08, 0x01),
    // 1:2, a b f g e c d DP.
    ([0xEE, 0x44, 0xDA, 0xD6, 0x74, 0xB6, 0xBE, 0xC4, 0xFE, 0xF6], 0x10, 0x01),
    // 1:3, b DP c a d g f e.
    ([0xBB, 0xA0, 0x9D, 0xBC, 0xA6, 0x3E, 0x3F, 0xB0, 0xBF, 0xBE], 0x04, 0x40),
];

pub const TYPOGRAPHIC_MINUS: &[u8] = b"\xE2\x88\x92";

/// The elements that a data byte covers, by M, as the figure draws them: a string for each backplane, a character for each column. P is DP and x is no element.
pub const LAYOUTS: [&[&str]; 4] = [
    &["af", "ce", "bg", "Pd"],
    &["cbafgedP"],
    &["afed", "bgcP"],
    &["baf", "Pde", "cgx"],
];

/// A text with every figure but the space, and the segments that each lights.
pub const EVERY_DIGIT: &[u8] = b"-0123456789.8";
#[rustfmt::skip]
pub const LIT: [&str; 12] = [
    "g", "abcdef", "bc", "abdeg", "abcdg", "bcfg", "acdfg", "acdefg", "abc", "abcdefg", "abcdfgP", "abcdefg",
];

/// A figure: the texts that write it, of which the first is read, and its data byte.
pub type Figure = (Vec<&'static [u8]>, u8);

/// The 22 figures of a mode: space, minus, and the digits without and with a point.
pub fn figures(mode: u8) -> Vec<Figure> {
    let (digits, minus, point) = BYTES[mode as usize];
    let texts = b"0.1.2.3.4.5.6.7.8.9.".chunks(2);
    let mut figures: Vec<Figure> = vec![(vec![b" "], 0), (vec![b"-", TYPOGRAPHIC_MINUS], minus)];
    for (byte, text) in digits.into_iter().zip(texts) {
        figures.push((vec![&text[..1]], byte));
        figures.push((vec![text], byte | point));
    }
    figures
}

/// Bytes of texts, and some that begin none.
pub const ALPHABET: &[u8] = b"0123456789 -.\xE2\x88\x92/:,\xFF";

/// Every text of so many bytes, each of these.
pub fn every_text(alphabet: &'static [u8], length: u32) -> impl Iterator<Item = Vec<u8>> {
    let letters = alphabet.len();
    let text = move |number: usize| {
        let byte = |place| alphabet[number / letters.pow(place) % letters];
        (0..length).map(byte).collect()
    };
    (0..letters.pow(length)).map(text)
}

/// A price: a text, what is read of it, and its data bytes.
pub struct Price {
    pub text: Vec<u8>,
    pub plain: Vec<u8>,
    pub segments: Vec<u8>,
}

/// Any figures, as long as the text has at most so many bytes.
pub fn price(random: &mut Random, mode: u8, limit: usize) -> Price {
    let figures = figures(mode);
    let (mut text, mut plain, mut segments) = (Vec::new(), Vec::new(), Vec::new());
    loop {
        let (texts, byte) = &figures[random.below(figures.len())];
        let figure = random.pick(texts);
        if text.len() + figure.len() > limit {
            return Price {
                text,
                plain,
                segments,
            };
        }
        text.extend(figure);
        plain.extend(texts[0]);
        segments.push(*byte);
    }
}

/// Changes some bytes to any of the alphabet, puts some in and takes some out.
pub fn damage(random: &mut Random, text: &mut Vec<u8>) {
    for _ in 0..random.between(1, 3) {
        let (place, byte) = (random.below(text.len() + 1), random.pick(ALPHABET));
        let inside = place < text.len();
        match random.below(3) {
            0 if inside => text[place] = byte,
            1 if inside => drop(text.drain(place..=place)),
            _ => text.insert(place, byte),
        }
    }
}
