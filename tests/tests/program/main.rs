//! The programs as a user runs them: their output, their statuses, and that they lose no input and no output silently.

mod build;
mod input;
mod output;
mod rescue;
mod run;
mod usage;

use humtrellis_tests::model::LOG_LIMIT;
use humtrellis_tests::{generate, random::Random};
use run::{lines, log_file, run, text_of, Ended};

/// Replays a log by name and on standard input, and holds text and status to the model.
fn compare(name: &str, log: &[u8]) {
    let file = log_file(name, log);
    let text = text_of(log);
    let (status, err) = match text.starts_with('X') {
        true => (1, "replay: the log is refused\n"),
        false => (0, ""),
    };
    let expected = Ended::new(status, &text, err);
    assert_eq!(run(&format!("bin/replay '{file}'")), expected);
    assert_eq!(run(&format!("bin/replay <'{file}'")), expected);
}

#[test]
fn examples() {
    for name in ["minus", "minus-lost", "seen"] {
        let text = lines(&format!("examples/{name}.txt"));
        let expected = Ended::new(0, &text, "");
        assert_eq!(run(&format!("bin/replay examples/{name}.log")), expected);
        assert_eq!(run(&format!("bin/replay <examples/{name}.log")), expected);
    }
}

#[test]
fn generated_logs() {
    for seed in 0..20 {
        compare("generated", &generate::log(&mut Random::new(seed)));
        compare("seen", &generate::seen_log(&mut Random::new(seed)));
    }
}

#[test]
fn every_cut() {
    for log in [&generate::WORKED_LOG[..], &generate::WORKED_SEEN_LOG] {
        for length in 0..=log.len() {
            compare("cut", &log[..length]);
        }
    }
}

#[test]
fn longest_and_too_long() {
    for length in [LOG_LIMIT, LOG_LIMIT + 1, 3 * LOG_LIMIT] {
        compare("zeros", &vec![0; length]);
    }
    for of_length in [generate::log_of_length, generate::seen_log_of_length] {
        compare("longest", &of_length(&mut Random::new(6), LOG_LIMIT));
    }
    for log in long_texts() {
        compare("long_text", &log);
    }
}

/// A log of each version with about the longest text.
fn long_texts() -> [Vec<u8>; 2] {
    [
        generate::log_of_long_text(),
        generate::seen_log_of_long_text(),
    ]
}

/// A stack of 1,024 KiB is enough, for the longest text too.
#[test]
fn small_stack() {
    let [first, second] = long_texts();
    for log in [generate::WORKED_LOG.to_vec(), first, second] {
        let file = log_file("small_stack", &log);
        let ended = run(&format!("ulimit -s 1024; bin/replay '{file}'"));
        assert_eq!(ended, Ended::new(0, &text_of(&log), ""));
    }
}
