//! Input that is not read to its end: nothing on standard output, and never status 0.

use crate::run::{command, impatient_pipe, lines, run, text_of, Ended};
use humtrellis_tests::generate::WORKED_LOG;
use std::io::Write;
use std::process::Stdio;
use std::time::Duration;

/// A pipe that does not wait and has only a part of the log yet: also one that ends with a record.
#[test]
fn not_finished() {
    for length in 0..=WORKED_LOG.len() {
        let mut pipe = impatient_pipe("not_finished.pipe");
        pipe.write_all(&WORKED_LOG[..length])
            .expect("a part of a log");
        let ended = Ended::of(command("bin/replay").stdin(pipe).output().expect("bash"));
        ended.expect_failure(
            "replay: standard input could not be read: Resource temporarily unavailable",
        );
    }
}

#[test]
fn slow_writer() {
    let mut replay = command("bin/replay");
    replay
        .stdin(Stdio::piped())
        .stdout(Stdio::piped())
        .stderr(Stdio::piped());
    let mut child = replay.spawn().expect("bash");
    let mut input = child.stdin.take().expect("a pipe");
    for byte in WORKED_LOG {
        input.write_all(&[byte]).expect("a reader");
        std::thread::sleep(Duration::from_millis(5));
    }
    drop(input);
    let ended = Ended::of(child.wait_with_output().expect("an end"));
    assert_eq!(ended, Ended::new(0, &text_of(&WORKED_LOG), ""));
}

#[test]
fn folder() {
    run("bin/replay </").expect_failure("replay: standard input could not be read: Is a directory");
    run("bin/replay /").expect_failure("replay: / could not be read: Is a directory");
}

#[test]
fn closed() {
    run("bin/replay <&-").expect_failure("bin/replay: standard input is closed");
    run("bin/replay 0>/dev/null")
        .expect_failure("replay: standard input could not be read: Bad file descriptor");
    let alone = "replay: standard input could not be read: Bad file descriptor\n";
    assert_eq!(run("target/bin/replay <&-"), Ended::new(0, "", alone));
    let named = run("bin/replay examples/minus.log <&-");
    assert_eq!(named, Ended::new(0, &lines("examples/minus.txt"), ""));
}

/// A file that opens, and whose first byte cannot be read.
#[test]
fn read_fails() {
    run("bin/replay /proc/self/mem")
        .expect_failure("replay: /proc/self/mem could not be read: Input/output error");
}

#[test]
fn missing() {
    run("bin/replay missing.log").expect_failure("bin/replay: missing.log: there is no such file");
}

/// A file that is there and does not open: a session without a terminal has no /dev/tty.
#[test]
fn does_not_open() {
    let ended = run("setsid -w bin/replay /dev/tty");
    assert_eq!((ended.status, ended.out.as_str()), (2, ""));
    let why = "/dev/tty: No such device or address\n";
    assert!(ended.err.ends_with(why), "{}", ended.err);
}
