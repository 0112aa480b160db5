//! What all ways must share: the answer of a call, and what it leaves.

use crate::library::Numbers;
use crate::samples::{Bus, Writing};
use crate::ways::{answer_of, Picture, Transfer, Writer};
use std::fmt::Debug;

/// The answer and what is left, if every way has the same.
pub fn agreed<Way: Copy, Answer: PartialEq + Debug, Left: PartialEq>(
    what: &str,
    ways: &[(&str, Way)],
    mut outcome: impl FnMut(Way) -> (Answer, Left),
) -> Result<(Answer, Left), String> {
    let first = outcome(ways[0].1);
    for (name, way) in &ways[1..] {
        let other = outcome(*way);
        if other != first {
            let (answer, others) = (first.0, other.0);
            return Err(format!(
                "{what}: library and {name} differ (answers {answer:?} and {others:?})"
            ));
        }
    }
    Ok(first)
}

/// What is timed must be taken, or refused as its row says: what it left.
pub fn answered<Left>(
    what: &str,
    number: usize,
    (answer, left): (Numbers, Left),
) -> Result<Left, String> {
    match answer[0] == number {
        true => Ok(left),
        false => Err(format!("{what}: {answer:?}, and not {number}")),
    }
}

pub fn transferred(transfer: Transfer, before: &Bus, bytes: &[u8], bits: u8) -> (Numbers, Bus) {
    let mut bus = before.clone();
    let answer = answer_of(|answer| transfer(&mut bus, bytes, bits, answer));
    (answer, bus)
}

pub fn pictured(
    picture: Picture,
    bus: &Bus,
    [group, phase]: [u8; 2],
    length: usize,
) -> (Numbers, Vec<u8>) {
    let mut out = vec![0xEE; length];
    let answer = answer_of(|answer| picture(&bus.view(group, phase), &mut out, answer));
    (answer, out)
}

pub fn written(writer: Writer, writing: &Writing, length: usize) -> (Numbers, Vec<u8>) {
    let mut out = vec![0xEE; length];
    let answer = answer_of(|answer| writer(&writing.asked(), &mut out, answer));
    (answer, out)
}
