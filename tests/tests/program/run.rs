//! A line of bash, run in the repository's root: what it ends with and what it writes.

use humtrellis_tests::model::log_text;
use std::fs::{self, File, OpenOptions};
use std::os::unix::fs::OpenOptionsExt;
use std::path::Path;
use std::process::{Command, Output, Stdio};
use std::sync::Once;

pub const ROOT: &str = concat!(env!("CARGO_MANIFEST_DIR"), "/..");

/// Linux's flag for reads and writes that do not wait.
const O_NONBLOCK: i32 = 0o4000;

/// The first calls build the programs; they are made once, before any other.
static BUILT: Once = Once::new();

#[derive(Debug, PartialEq)]
pub struct Ended {
    pub status: i32,
    pub out: String,
    pub err: String,
}

impl Ended {
    pub fn new(status: i32, out: &str, err: &str) -> Self {
        let (out, err) = (out.to_string(), err.to_string());
        Ended { status, out, err }
    }

    pub fn of(output: Output) -> Self {
        let text = |bytes| String::from_utf8(bytes).expect("text");
        let status = output.status.code().expect("a status");
        Ended {
            status,
            out: text(output.stdout),
            err: text(output.stderr),
        }
    }

    pub fn expect_status(&self, status: i32) {
        assert_eq!(self.status, status, "{self:?}");
    }

    /// Nothing on standard output, status 2, and a message that names what failed.
    pub fn expect_failure(&self, message: &str) {
        assert_eq!(*self, Ended::new(2, "", &format!("{message}\n")));
    }
}

/// A line of bash over programs that are built; one that hangs ends with status 124.
pub fn command(line: &str) -> Command {
    BUILT.call_once(|| {
        for program in ["bin/replay", "bin/rescue"] {
            let first = bash(3600, &format!("{program} examples/minus.log >/dev/null"));
            Ended::of(output(first)).expect_status(0);
        }
    });
    bash(60, line)
}

fn bash(seconds: u32, line: &str) -> Command {
    let mut command = Command::new("timeout");
    command.args([&seconds.to_string(), "bash", "-c", line]);
    command
        .env("LC_ALL", "C")
        .current_dir(ROOT)
        .stdin(Stdio::null());
    command
}

fn output(mut command: Command) -> Output {
    command.output().expect("timeout and bash")
}

pub fn run(line: &str) -> Ended {
    Ended::of(output(command(line)))
}

/// The lines of a file of the repository.
pub fn lines(name: &str) -> String {
    fs::read_to_string(Path::new(ROOT).join(name)).expect(name)
}

pub fn text_of(log: &[u8]) -> String {
    String::from_utf8(log_text(log)).expect("text")
}

/// A path for a test's own file or folder.
pub fn scratch(name: &str) -> String {
    format!("{}/{name}", env!("CARGO_TARGET_TMPDIR"))
}

/// A file with a log.
pub fn log_file(name: &str, log: &[u8]) -> String {
    let path = scratch(&format!("{name}.log"));
    fs::write(&path, log).expect("a log");
    path
}

/// A pipe whose reads and writes do not wait; both ends are the one file.
pub fn impatient_pipe(name: &str) -> File {
    let path = scratch(name);
    let _ = fs::remove_file(&path);
    let made = Command::new("mkfifo").arg(&path).status();
    assert!(made.expect("mkfifo").success());
    let mut options = OpenOptions::new();
    options.read(true).write(true).custom_flags(O_NONBLOCK);
    options.open(&path).expect("a pipe")
}
