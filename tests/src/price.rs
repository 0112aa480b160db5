//! Request 1 of paper 02 ("Write a price on the glass"): a text becomes 7-segment data bytes, and such bytes a text.

use crate::model::{answer, refuse_if, Answer, Check, Refusal};

/// Most bytes of a text, and of the segments that are read.
pub const LIMIT: usize = 80;
/// Bytes that the output has at least: written, each byte of a text gives at most one; read, each byte gives at most two.
pub const SEGMENTS_ROOM: usize = 80;
pub const TEXT_ROOM: usize = 160;

/// The segments of a data byte by M, from the most significant bit on (data sheet 003, figure 13): 1:4, static, 1:2 and 1:3. P is DP.
const ORDERS: [&str; 4] = ["acbPfegd", "cbafgedP", "abfgecdP", "bPcadgfe"];

/// The segments that each digit lights.
const DIGITS: [&str; 10] = [
    "abcdef", "bc", "abdeg", "abcdg", "bcfg", "acdfg", "acdefg", "abc", "abcdefg", "abcdfg",
];
const SPACE: &str = "";
const MINUS: &str = "g";
const POINT: &str = "P";

/// The data byte that lights these segments, in a mode that is in range.
fn data_byte(mode: u8, lit: &str) -> u8 {
    let mut byte = 0;
    for (k, segment) in ORDERS[mode as usize].chars().enumerate() {
        if lit.contains(segment) {
            byte |= 1 << (7 - k);
        }
    }
    byte
}

fn check(mode: u8, given: &[u8], out: &[u8], room: usize) -> Check {
    refuse_if(given.len() > LIMIT, 2)?;
    refuse_if(mode > 3, 6)?;
    refuse_if(out.len() < room, 9)
}

/// Puts the result at the start of the output, whose other bytes stay; the first count is the bytes written.
fn put(result: &[u8], out: &mut [u8]) -> [usize; 3] {
    out[..result.len()].copy_from_slice(result);
    [result.len(), 0, 0]
}

/// Turns a text into data bytes.
pub fn write(mode: u8, text: &[u8], out: &mut [u8]) -> Answer {
    answer(written(mode, text, out))
}

fn written(mode: u8, text: &[u8], out: &mut [u8]) -> Result<[usize; 3], Refusal> {
    check(mode, text, out, SEGMENTS_ROOM)?;
    let lit = lit_by(text)?;
    let bytes: Vec<u8> = lit.iter().map(|lit| data_byte(mode, lit)).collect();
    Ok(put(&bytes, out))
}

/// The segments that a text lights, figure by figure; a point joins the digit directly before it.
fn lit_by(text: &[u8]) -> Result<Vec<String>, Refusal> {
    let mut figures: Vec<String> = Vec::new();
    let (mut at, mut after_digit) = (0, false);
    while at < text.len() {
        let (lit, length) = match text[at..] {
            [digit @ b'0'..=b'9', ..] => (DIGITS[(digit - b'0') as usize], 1),
            [b' ', ..] => (SPACE, 1),
            [b'-', ..] => (MINUS, 1),
            [0xE2, 0x88, 0x92, ..] => (MINUS, 3),
            [b'.', ..] if after_digit => (POINT, 1),
            _ => return Err((15, at)),
        };
        match figures.last_mut() {
            Some(digit) if lit == POINT => digit.push_str(POINT),
            _ => figures.push(lit.to_string()),
        }
        after_digit = text[at].is_ascii_digit();
        at += length;
    }
    Ok(figures)
}

/// Turns data bytes into the text, with the plain minus.
pub fn read(mode: u8, segments: &[u8], out: &mut [u8]) -> Answer {
    answer(taken(mode, segments, out))
}

fn taken(mode: u8, segments: &[u8], out: &mut [u8]) -> Result<[usize; 3], Refusal> {
    check(mode, segments, out, TEXT_ROOM)?;
    let mut text = String::new();
    for (place, byte) in segments.iter().enumerate() {
        text += &text_of(mode, *byte).ok_or((15, place))?;
    }
    Ok(put(text.as_bytes(), out))
}

/// The text that a data byte stands for, if it is one that a text gives: a point is lit with a digit only.
fn text_of(mode: u8, byte: u8) -> Option<String> {
    if byte == data_byte(mode, SPACE) {
        return Some(" ".to_string());
    }
    if byte == data_byte(mode, MINUS) {
        return Some("-".to_string());
    }
    let point = data_byte(mode, POINT);
    let without = |lit: &&str| data_byte(mode, lit) == byte & !point;
    let digit = DIGITS.iter().position(without)?;
    let end = if byte & point == 0 { "" } else { "." };
    Some(format!("{digit}{end}"))
}

#[cfg(test)]
#[path = "price_tests.rs"]
mod tests;
