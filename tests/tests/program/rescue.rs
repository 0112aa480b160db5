//! bin/rescue: the rescued log on standard output, the report on standard error, its statuses, and its output read by bin/replay.

use crate::run::{log_file, run, scratch, text_of, Ended};
use humtrellis_tests::generate::{self, WORKED_LOG, WORKED_SEEN_LOG};
use humtrellis_tests::model::{self, LOG_LIMIT};
use humtrellis_tests::random::Random;
use std::fs;

/// What the program is to do with a log: its status, what it writes, and its report.
struct Expected {
    status: i32,
    sound: Vec<u8>,
    report: String,
}

impl Expected {
    fn rescued(sound: &[u8], report: &str) -> Self {
        let (sound, report) = (sound.to_vec(), format!("R {report}\n"));
        Expected {
            status: 0,
            sound,
            report,
        }
    }

    fn refused(number: usize) -> Self {
        Expected {
            status: 1,
            sound: Vec::new(),
            report: format!("X {number} 0\n"),
        }
    }

    fn by_model(log: &[u8]) -> Self {
        let mut sound = vec![0; log.len()];
        let [number, _, records, kept, dropped, tear] = model::rescue(log, &mut sound);
        match number {
            0 => Expected::rescued(
                &sound[..kept],
                &format!("{records} {kept} {dropped} {tear}"),
            ),
            _ => Expected::refused(number),
        }
    }

    /// Rescues a log by name and on standard input.
    fn hold(&self, name: &str, log: &[u8]) {
        let (file, out) = (log_file(name, log), scratch(&format!("{name}.sound")));
        for line in [
            format!("bin/rescue '{file}' >'{out}'"),
            format!("bin/rescue <'{file}' >'{out}'"),
        ] {
            assert_eq!(run(&line), Ended::new(self.status, "", &self.report));
            assert!(fs::read(&out).expect("an output") == self.sound, "{line}");
        }
    }
}

fn compare(name: &str, log: &[u8]) {
    Expected::by_model(log).hold(name, log);
}

#[test]
fn sound() {
    Expected::rescued(&WORKED_LOG, "3 22 0 22").hold("sound", &WORKED_LOG);
    Expected::rescued(&WORKED_SEEN_LOG, "3 28 0 28").hold("sound", &WORKED_SEEN_LOG);
    Expected::rescued(&[1, 4, 4], "0 3 0 3").hold("sound", &[1, 4, 4]);
}

/// Cut in its last record, in its length field, and in front of it; and bodies under two bytes.
#[test]
fn torn() {
    let kept = &WORKED_LOG[..19];
    Expected::rescued(kept, "2 19 2 19").hold("torn", &WORKED_LOG[..21]);
    Expected::rescued(kept, "2 19 1 19").hold("torn", &WORKED_LOG[..20]);
    Expected::rescued(kept, "2 19 0 19").hold("torn", kept);
    Expected::rescued(&WORKED_SEEN_LOG[..23], "2 23 4 23").hold("torn", &WORKED_SEEN_LOG[..27]);
    Expected::rescued(&[1, 1, 0, 0, 0], "1 5 0 5").hold("torn", &[1, 1, 0, 0, 0]);
    Expected::rescued(&[2, 1, 0], "0 3 2 3").hold("torn", &[2, 1, 0, 0, 0]);
}

#[test]
fn every_tear() {
    for log in [&WORKED_LOG[..], &WORKED_SEEN_LOG] {
        for length in 0..log.len() {
            compare("every_tear", &log[..length]);
        }
    }
}

#[test]
fn refused() {
    let mut long = vec![0; LOG_LIMIT + 1];
    Expected::refused(14).hold("refused", &long);
    Expected::refused(12).hold("refused", &long[..LOG_LIMIT]);
    long[0] = 1;
    Expected::refused(14).hold("refused", &[&long[..], &long].concat());
    for log in [&[][..], &[1], &[2, 0], &[3, 5, 0]] {
        Expected::refused(12).hold("refused", log);
    }
    Expected::refused(3).hold("refused", &[1, 5, 0]);
    Expected::refused(3).hold("refused", &[2, 0, 5, 0]);
}

#[test]
fn generated() {
    for seed in 0..10 {
        compare(
            "generated_tear",
            &generate::torn_log(&mut Random::new(seed)),
        );
        compare("generated_rescue", &generate::log(&mut Random::new(seed)));
    }
    for of_length in [generate::log_of_length, generate::seen_log_of_length] {
        let log = of_length(&mut Random::new(6), LOG_LIMIT);
        compare("longest_rescue", &log);
        compare("longest_rescue", &log[..LOG_LIMIT - 1]);
    }
}

/// The replay shows what the log says up to the tear; a refused log gives it nothing to read.
#[test]
fn into_replay() {
    let longest = generate::log_of_length(&mut Random::new(6), LOG_LIMIT);
    for log in [
        &WORKED_LOG[..],
        &WORKED_LOG[..18],
        &WORKED_SEEN_LOG[..27],
        &longest[..LOG_LIMIT - 1],
    ] {
        let (file, expected) = (log_file("into_replay", log), Expected::by_model(log));
        let piped = Ended::new(0, &text_of(&expected.sound), &expected.report);
        assert_eq!(run(&format!("bin/rescue '{file}' | bin/replay")), piped);
        assert_eq!(run(&format!("bin/rescue <'{file}' | bin/replay")), piped);
    }
    let ended = run("bin/rescue </dev/null 2>/dev/null | bin/replay");
    assert_eq!((ended.status, ended.out.as_str()), (1, "X 12 0\n"));
}

/// Whatever fails: status 2, nothing on standard output, and standard error says something.
#[test]
fn failures() {
    for line in [
        "bin/rescue missing.log",
        "bin/rescue /",
        "bin/rescue </",
        "bin/rescue <&-",
        "bin/rescue one two",
        "bin/rescue examples/minus.log >/dev/full",
        "bin/rescue examples/minus.log >&-",
    ] {
        let ended = run(line);
        assert_eq!((ended.status, ended.out.as_str()), (2, ""), "{line}");
        assert!(
            !ended.err.is_empty() && !ended.err.starts_with('X'),
            "{line}"
        );
    }
}
