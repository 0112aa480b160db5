//! Logs: the library's text against the model's.

use crate::{for_seeds, library};
use humtrellis::raw::TEXT;
use humtrellis_tests::generate;
use humtrellis_tests::model::{log_text, LOG_LIMIT};
use humtrellis_tests::random::Random;

/// Replays a log into a buffer with room enough and holds the text to the model's; the rest of the buffer stays.
pub fn compare(log: &[u8]) {
    text(log);
}

/// The same, and gives the text.
pub fn text(log: &[u8]) -> String {
    let mut out = vec![0xEE; TEXT + 1];
    let mut lent = log.to_vec();
    let length = library::replay(&mut lent, &mut out);
    let expected = log_text(log);
    let same = length == expected.len() && out[..length] == expected && lent == log;
    let same = same && out[length..].iter().all(|&byte| byte == 0xEE);
    assert!(
        same,
        "replay differs\n log {log:?}\n model\n{}",
        String::from_utf8_lossy(&expected)
    );
    out.truncate(length);
    String::from_utf8(out).expect("text")
}

/// A log, and what is left of it when it is torn at each offset.
pub fn compare_torn(log: &[u8]) {
    for length in 0..=log.len() {
        compare(&log[..length]);
    }
}

/// A log with each bit turned: of its head, its lengths, its control bytes, commands and data.
pub fn turned(log: &[u8]) -> impl Iterator<Item = Vec<u8>> + '_ {
    (0..8 * log.len()).map(|bit| {
        let mut log = log.to_vec();
        log[bit / 8] ^= 1 << (bit % 8);
        log
    })
}

pub fn compare_bits(log: &[u8]) {
    turned(log).for_each(|log| compare(&log));
}

#[test]
fn replay_paper() {
    compare_torn(&generate::WORKED_LOG);
    compare_bits(&generate::WORKED_LOG);
}

/// One byte less is refused with 0 and nothing is written; the longest texts have room too.
#[test]
fn replay_small_buffer() {
    let logs = [
        generate::WORKED_LOG.to_vec(),
        generate::WORKED_SEEN_LOG.to_vec(),
        vec![],
        vec![1, 0, 0],
        vec![2, 0, 0, 0, 0],
        generate::log_of_long_text(),
        generate::seen_log_of_long_text(),
    ];
    for mut log in logs {
        for room in [0, 1, 100, TEXT - 1] {
            let mut out = vec![0xEE; room];
            assert_eq!(library::replay(&mut log, &mut out), 0);
            assert!(out.iter().all(|&byte| byte == 0xEE));
        }
        let mut out = vec![0xEE; TEXT];
        let length = library::replay(&mut log, &mut out);
        assert_eq!(out[..length], log_text(&log));
    }
}

#[test]
fn replay_generated() {
    for_seeds(2000, |random| compare(&generate::log(random)));
}

#[test]
fn replay_long() {
    let mut random = Random::new(5);
    for length in [LOG_LIMIT - 1, LOG_LIMIT, LOG_LIMIT + 1] {
        compare(&generate::log_of_length(&mut random, length));
        compare(&vec![1; length]);
    }
    compare(&generate::log_of_long_text());
}
