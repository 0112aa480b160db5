//! A price on the glass, text to data bytes and back: a table of 256 entries for each mode, built at compile time.

use super::{written, Refusal, ANSWER};

/// Most bytes of a text or of data bytes, and the least that the output of a text has.
const MOST: usize = 80;
/// The least that the output of data bytes has: each is at most two of a text.
const TEXT: usize = 2 * MOST;

/// The segments of a data byte by M, the most significant bit first (data sheet 003, figure 13): 1:4, static, 1:2 and 1:3. P is the point.
const ORDERS: [&[u8]; 4] = [b"acbPfegd", b"cbafgedP", b"abfgecdP", b"bPcadgfe"];
const DIGITS: [&[u8]; 10] = [
    b"abcdef", b"bc", b"abdeg", b"abcdg", b"bcfg", b"acdfg", b"acdefg", b"abc", b"abcdefg",
    b"abcdfg",
];
const MINUS: &[u8] = b"g";
const POINT: &[u8] = b"P";
const TYPOGRAPHIC_MINUS: [u8; 3] = [0xE2, 0x88, 0x92];

/// Of an entry: its byte is a whole symbol; a point may join it.
const SYMBOL: u16 = 0x100;
const DIGIT: u16 = 0x200;

const fn data_byte(mode: usize, lit: &[u8]) -> u8 {
    let mut byte = 0;
    let mut at = 0;
    while at < 8 * lit.len() {
        if ORDERS[mode][at % 8] == lit[at / 8] {
            byte |= 0x80 >> (at % 8);
        }
        at += 1;
    }
    byte
}

/// For each byte that begins a symbol its data byte and marks, by M.
static SEGMENTS: [[u16; 256]; 4] = {
    let mut table = [[0; 256]; 4];
    let mut mode = 0;
    while mode < 4 {
        let minus = data_byte(mode, MINUS) as u16;
        table[mode][b' ' as usize] = SYMBOL;
        table[mode][b'-' as usize] = SYMBOL | minus;
        table[mode][TYPOGRAPHIC_MINUS[0] as usize] = minus;
        let mut digit = 0;
        while digit < 10 {
            let byte = data_byte(mode, DIGITS[digit]) as u16;
            table[mode][b'0' as usize + digit] = SYMBOL | DIGIT | byte;
            digit += 1;
        }
        mode += 1;
    }
    table
};

static POINTS: [u8; 4] = [
    data_byte(0, POINT),
    data_byte(1, POINT),
    data_byte(2, POINT),
    data_byte(3, POINT),
];

/// For each data byte the one or two bytes of its text, by M; a first 0 where it is no symbol's, a second 0 where there is one.
static SYMBOLS: [[[u8; 2]; 256]; 4] = {
    let mut table = [[[0; 2]; 256]; 4];
    let mut mode = 0;
    while mode < 4 {
        let mut byte = 0;
        // Of the texts, those of one byte and those of a digit and a point.
        while byte < 128 {
            let entry = SEGMENTS[mode][byte];
            if entry & SYMBOL != 0 {
                table[mode][entry as usize & 0xFF] = [byte as u8, 0];
            }
            if entry & DIGIT != 0 {
                table[mode][entry as usize & 0xFF | POINTS[mode] as usize] = [byte as u8, b'.'];
            }
            byte += 1;
        }
        mode += 1;
    }
    table
};

/// 2, 6 and 9.
fn check(mode: u8, given: &[u8], room: usize, least: usize) -> Result<(), Refusal> {
    match (given.len() > MOST, mode > 3, room < least) {
        (true, ..) => Err((2, 0)),
        (_, true, _) => Err((6, 0)),
        (.., true) => Err((9, 0)),
        _ => Ok(()),
    }
}

#[inline(never)]
pub fn price_write(mode: u8, text: &[u8], out: &mut [u8], answer: &mut [usize; ANSWER]) {
    let checked = check(mode, text, out.len(), MOST);
    *answer = written(checked.and_then(|()| write(mode as usize, text, out)));
}

/// The data bytes go to the output at the end, since a refused text leaves it as it was.
fn write(mode: usize, text: &[u8], out: &mut [u8]) -> Result<usize, Refusal> {
    let (entries, point) = (&SEGMENTS[mode], POINTS[mode]);
    let mut bytes = [0; MOST];
    let (mut at, mut length) = (0, 0);
    while let Some(first) = text.get(at) {
        let entry = entries[*first as usize];
        let joined = entry & DIGIT != 0 && text.get(at + 1) == Some(&b'.');
        bytes[length] = entry as u8 | if joined { point } else { 0 };
        at += match entry & SYMBOL {
            0 if text[at..].starts_with(&TYPOGRAPHIC_MINUS) => 3,
            0 => return Err((15, at)),
            _ => 1 + joined as usize,
        };
        length += 1;
    }
    out[..length].copy_from_slice(&bytes[..length]);
    Ok(length)
}

#[inline(never)]
pub fn price_read(mode: u8, segments: &[u8], out: &mut [u8], answer: &mut [usize; ANSWER]) {
    let checked = check(mode, segments, out.len(), TEXT);
    *answer = written(checked.and_then(|()| read(mode as usize, segments, out)));
}

/// Each symbol as two bytes, of which the next one overwrites a 0.
fn read(mode: usize, segments: &[u8], out: &mut [u8]) -> Result<usize, Refusal> {
    let entries = &SYMBOLS[mode];
    let mut text = [0; TEXT];
    let mut length = 0;
    for (place, byte) in segments.iter().enumerate() {
        let symbol = entries[*byte as usize];
        if symbol[0] == 0 {
            return Err((15, place));
        }
        text[length..length + 2].copy_from_slice(&symbol);
        length += 1 + (symbol[1] != 0) as usize;
    }
    out[..length].copy_from_slice(&text[..length]);
    Ok(length)
}
