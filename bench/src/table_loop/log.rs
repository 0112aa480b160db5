//! The replay of a bus log: the checks of the whole log, its transfers over a bus of its own, then what is lit.

use super::held::Bytes;
use super::part::{Part, Pcf8532};
use super::text::Text;
use super::{group_range, picture, transfer, Refusal, SET};

/// Bytes that hold the text of any log.
const ROOM: usize = 700_000;
/// Most bytes of a log.
const LONGEST: usize = 65_536;
/// Version, and the chips of both groups.
const HEAD: usize = 3;
/// Logs have whole bytes only.
const WHOLE: u8 = 8;
/// Columns of a full group.
const COLUMNS: usize = Pcf8532::COLUMNS * Pcf8532::MOST;

#[inline(never)]
pub fn replay(log: &[u8], out: &mut [u8]) -> usize {
    if out.len() < ROOM {
        return 0;
    }
    let mut text = Text::new(out);
    match check(log) {
        Err((number, place)) => text.put_line(b'X', [number, place]),
        Ok(()) => play(log, &mut text),
    }
    text.length
}

/// 14, 12 and 3, then 13 or 20 of the first faulty record.
fn check(log: &[u8]) -> Result<(), Refusal> {
    if log.len() > LONGEST {
        return Err((14, 0));
    }
    let [1 | 2, chips0, chips1, records @ ..] = log else {
        return Err((12, 0));
    };
    if (*chips0).max(*chips1) as usize > Pcf8532::MOST {
        return Err((3, 0));
    }
    let mut rest = records;
    while !rest.is_empty() {
        let place = log.len() - rest.len();
        let (body, next) = first_record(rest).ok_or((13, place))?;
        if body.len() < seen_bytes(log) {
            return Err((20, place));
        }
        rest = next;
    }
    Ok(())
}

/// In version 2 the bytes before each transfer, which say what the analyser saw.
fn seen_bytes(log: &[u8]) -> usize {
    match log[0] {
        1 => 0,
        _ => 2,
    }
}

/// The body of the first record and the records behind it, unless it is cut short.
fn first_record(records: &[u8]) -> Option<(&[u8], &[u8])> {
    let (length, rest) = records.split_first_chunk()?;
    rest.split_at_checked(u16::from_be_bytes(*length) as usize)
}

/// Of a log that passed its checks.
fn play(log: &[u8], text: &mut Text) {
    let chips = [log[1], log[2]];
    let mut registers = [0; 2 * SET];
    let mut columns = [0; 2 * COLUMNS];
    let ram = &mut columns[..Pcf8532::COLUMNS * (chips[0] + chips[1]) as usize];
    let mut rest = &log[HEAD..];
    let mut index = 0;
    while let Some((body, next)) = first_record(rest) {
        let (seen, bytes) = body.split_at(seen_bytes(log));
        let answer = transfer::send::<Pcf8532, Bytes>(chips, &mut registers, ram, bytes, WHOLE);
        let [number, place, acknowledged, stored, discarded, last] = answer;
        let numbers = [index, number, place, acknowledged, stored, discarded, last];
        text.put_line(b'T', numbers);
        if let [high, low] = seen {
            let seen = u16::from_be_bytes([*high, *low]) as usize;
            put_seen(text, index, seen, acknowledged);
        }
        (rest, index) = (next, index + 1);
    }
    put_lit(chips, &registers, ram, text);
}

/// Only where the analyser saw another count.
fn put_seen(text: &mut Text, index: usize, seen: usize, acknowledged: usize) {
    if seen != acknowledged {
        text.put_line(b'A', [index, seen, acknowledged]);
    }
}

/// The lit columns of both groups, then their counts.
fn put_lit(chips: [u8; 2], registers: &[u8; 2 * SET], ram: &[u8], text: &mut Text) {
    let mut lit = [0; 2];
    for (group, set) in registers.as_chunks::<SET>().0.iter().enumerate() {
        let own = &ram[group_range::<Pcf8532, Bytes>(chips, group)];
        let mut shown = [0; COLUMNS];
        let (shift, rows) = picture::shown(set, 0);
        lit[group] = picture::show_words(own, shift, rows, &mut shown);
        put_columns(text, group, &shown[..own.len()]);
    }
    text.put_line(b'G', [0, lit[0]]);
    text.put_line(b'G', [1, lit[1]]);
}

/// A line for each lit column; dark ones are passed eight at a time.
fn put_columns(text: &mut Text, group: usize, shown: &[u8]) {
    for (index, eight) in shown.as_chunks::<8>().0.iter().enumerate() {
        if *eight == [0; 8] {
            continue;
        }
        for (place, value) in eight.iter().enumerate().filter(|(_, value)| **value != 0) {
            text.put_line(b'S', [group, 8 * index + place, *value as usize]);
        }
    }
}
