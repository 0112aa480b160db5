//! Logs of version 2, with the acknowledged bytes that an analyser saw: the library's text against the model's.

use crate::for_seeds;
use crate::replay::{compare, compare_bits, compare_torn};
use humtrellis_tests::generate::{self, WORKED_SEEN_LOG};
use humtrellis_tests::model::{log_text, LOG_LIMIT, TRANSFER_LIMIT};
use humtrellis_tests::random::Random;

/// Holds the library's text to the model's, and that to the paper: a refusal alone, or lines before the totals of a dark bus.
fn expect(log: &[u8], lines: &str) {
    compare(log);
    let totals = match lines.starts_with('X') {
        true => "",
        false => "G 0 0\nG 1 0\n",
    };
    let expected = format!("{lines}{totals}");
    assert!(log_text(log) == expected.as_bytes(), "{log:?}\n{expected}");
}

#[test]
fn seen_paper() {
    compare_torn(&WORKED_SEEN_LOG);
    compare_bits(&WORKED_SEEN_LOG);
}

/// Both worked logs under every version byte, whole and without a record.
#[test]
fn seen_every_version() {
    for version in 0..=255 {
        for log in [&generate::WORKED_LOG[..], &WORKED_SEEN_LOG, &[0, 4, 4]] {
            let log = [&[version], &log[1..]].concat();
            match version {
                1 | 2 => compare(&log),
                _ => expect(&log, "X 12 0\n"),
            }
        }
    }
}

/// Every count that two bytes can say, seen of a transfer of one acknowledged byte, of none, and of a refused one.
#[test]
fn seen_every_count() {
    for (bytes, answer, modelled) in [
        (vec![0x70], "0 0 1 0 0 4", 1),
        (vec![0x71], "0 0 0 0 0 4", 0),
        (vec![], "1 0 0 0 0 4", 0),
    ] {
        for first in (0..=u16::MAX).step_by(8192) {
            let (mut records, mut lines) = (Vec::new(), String::new());
            for (index, seen) in (first..=first + 8191).enumerate() {
                records.push((seen, bytes.clone()));
                lines += &format!("T {index} {answer}\n");
                if seen != modelled {
                    lines += &format!("A {index} {seen} {modelled}\n");
                }
            }
            expect(&generate::seen_log_of(1, 0, &records), &lines);
        }
    }
}

/// Heads, and what refuses each.
const HEADS: [([u8; 3], usize); 4] = [
    ([2, 1, 0], 0),
    ([2, 1, 5], 3),
    ([3, 1, 0], 12),
    ([0, 5, 0], 12),
];

/// Records, and what refuses each in version 2: bodies that have room for the bytes seen, bodies that have not, and a cut one.
const RECORDS: [(&[u8], usize); 5] = [
    (&[0, 2, 0, 0], 0),
    (&[0, 3, 0, 1, 0x70], 0),
    (&[0, 0], 20),
    (&[0, 1, 0], 20),
    (&[0xFF, 0xFF, 0], 13),
];

/// Ends of a log: none, and a record cut in its length field, before the one byte that it has, and between two.
const ENDS: [(&[u8], usize); 4] = [(&[], 0), (&[0], 13), (&[0, 1], 13), (&[0, 2, 0], 13)];

/// Three records of each kind between each head and each end: the first fault counts.
#[test]
fn seen_every_order() {
    for order in 0..4 * 5 * 5 * 5 * 4 {
        let (head, number) = HEADS[order % 4];
        let (mut log, mut refusal) = (head.to_vec(), (number, 0));
        let kinds = [order / 4 % 5, order / 20 % 5, order / 100 % 5];
        let records = kinds.map(|kind| RECORDS[kind]).into_iter();
        for (record, number) in records.chain([ENDS[order / 500]]) {
            if refusal.0 == 0 {
                refusal = (number, log.len());
            }
            log.extend(record);
        }
        match refusal {
            (0, _) => compare(&log),
            (number, place) => expect(&log, &format!("X {number} {place}\n")),
        }
    }
}

/// Bodies of each length near nothing and near the limit in both versions, heard and unheard.
#[test]
fn seen_every_length() {
    let lengths = (0..=12).chain(TRANSFER_LIMIT - 2..=TRANSFER_LIMIT + 4);
    for length in lengths {
        for start in [
            [0, 1, 0x70, 0x40],
            [0x10, 0, 0x71, 0x40],
            [0x70, 0x40, 0x70, 0],
        ] {
            let mut body = start.to_vec();
            body.resize(length, 0x45);
            for version in [1, 2] {
                let length = (length as u16).to_be_bytes();
                compare(&[&[version, 2, 0], &length[..], &body, &[0, 2, 0, 0]].concat());
            }
        }
    }
}

#[test]
fn seen_generated() {
    for_seeds(1000, |random| compare(&generate::seen_log(random)));
}

/// A few generated logs, torn at each offset.
#[test]
fn seen_torn() {
    let logs = (0..).map(|seed| generate::seen_log(&mut Random::new(seed)));
    let short = logs.filter(|log| (150..400).contains(&log.len()));
    short.take(8).for_each(|log| compare_torn(&log));
}

#[test]
fn seen_long() {
    let mut random = Random::new(8);
    for length in [LOG_LIMIT - 1, LOG_LIMIT, LOG_LIMIT + 1] {
        compare(&generate::seen_log_of_length(&mut random, length));
        compare(&vec![2; length]);
    }
    compare(&generate::seen_log_of_long_text());
}
