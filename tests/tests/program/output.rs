//! Output that cannot be written: never silent, and never status 0.

use crate::run::{command, impatient_pipe, lines, log_file, run, scratch, text_of, Ended};
use humtrellis_tests::generate::log_of_long_text;
use std::io::Read;
use std::process::{Command, Stdio};
use std::time::Duration;

#[test]
fn full() {
    let full = "replay: standard output could not be written: No space left on device";
    run("bin/replay examples/minus.log >/dev/full").expect_failure(full);
    run("bin/replay </dev/null >/dev/full").expect_failure(full);
    run("bin/replay --help >/dev/full 2>/dev/null").expect_status(2);
}

#[test]
fn closed() {
    run("bin/replay examples/minus.log >&-")
        .expect_failure("bin/replay: standard output is closed");
    let alone = "replay: standard output could not be written: Bad file descriptor\n";
    assert_eq!(
        run("target/bin/replay <examples/minus.log >&-"),
        Ended::new(0, "", alone)
    );
}

/// A pipe that is full and does not wait has a part of the text; the status says so.
#[test]
fn does_not_wait() {
    let log = log_of_long_text();
    let file = log_file("does_not_wait", &log);
    let mut pipe = impatient_pipe("does_not_wait.pipe");
    let mut replay = command(&format!("bin/replay '{file}'"));
    replay.stdout(pipe.try_clone().expect("a copy"));
    let ended = Ended::of(replay.output().expect("bash"));
    ended.expect_failure(
        "replay: standard output could not be written: Resource temporarily unavailable",
    );
    let (mut part, text) = (vec![0; 1 << 20], text_of(&log));
    let length = pipe.read(&mut part).expect("a part of the text");
    assert!(length < text.len() && text.as_bytes().starts_with(&part[..length]));
}

#[test]
fn slow_reader() {
    let log = log_of_long_text();
    let file = log_file("slow_reader", &log);
    let mut replay = command(&format!("bin/replay '{file}'"));
    let mut child = replay.stdout(Stdio::piped()).spawn().expect("bash");
    std::thread::sleep(Duration::from_millis(300));
    let mut text = String::new();
    let mut out = child.stdout.take().expect("a pipe");
    out.read_to_string(&mut text).expect("text");
    assert_eq!(child.wait().expect("an end").code(), Some(0));
    assert_eq!(text, text_of(&log));
}

/// A reader that goes away ends the program by a signal, as any other; nothing wrong is said.
#[test]
fn reader_goes_away() {
    let log = log_of_long_text();
    let file = log_file("reader_goes_away", &log);
    let line = format!("bin/replay '{file}' | head -1; exit ${{PIPESTATUS[0]}}");
    let first = text_of(&log).lines().next().expect("a line").to_string() + "\n";
    assert_eq!(run(&line), Ended::new(141, &first, ""));
    let broken = "replay: standard output could not be written: Broken pipe\n";
    assert_eq!(
        run(&format!("trap '' PIPE; {line}")),
        Ended::new(2, &first, broken)
    );
}

/// A standard error that is closed or full changes no status.
#[test]
fn no_standard_error() {
    let text = lines("examples/minus.txt");
    for nowhere in ["2>&-", "2>/dev/full"] {
        assert_eq!(
            run(&format!("bin/replay examples/minus.log {nowhere}")),
            Ended::new(0, &text, "")
        );
        assert_eq!(
            run(&format!("bin/replay </dev/null {nowhere}")),
            Ended::new(1, "X 12 0\n", "")
        );
        run(&format!(
            "bin/replay examples/minus.log >/dev/full {nowhere}"
        ))
        .expect_status(2);
        run(&format!("bin/replay missing {nowhere}")).expect_status(2);
    }
}

/// A file system that tells a lost write late, when the file is asked to settle, played by an `fsync` that fails.
#[test]
fn lost_at_close() {
    let (source, library) = (scratch("fsync.c"), scratch("fsync.so"));
    let fsync = "#include <errno.h>\nint fsync(int fd) { (void)fd; errno = EDQUOT; return -1; }\n";
    std::fs::write(&source, fsync).expect("a source");
    let compiled = Command::new("cc")
        .args(["-shared", "-fPIC", &source, "-o", &library])
        .status();
    assert!(compiled.expect("cc").success());
    let ended = run(&format!(
        "LD_PRELOAD='{library}' target/bin/replay <examples/minus.log >'{}'",
        scratch("lost_at_close.txt")
    ));
    assert_eq!(
        ended.err,
        "replay: standard output could not be written: Disk quota exceeded\n"
    );
}
