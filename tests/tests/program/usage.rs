//! Help and wrong usage of each program, and their one script called by a link.

use crate::run::{lines, run, scratch, Ended, ROOT};
use std::fs;
use std::os::unix::fs::symlink;

/// The programs that take a log by name or on standard input.
const READERS: [&str; 2] = ["bin/replay", "bin/rescue"];

fn usage(program: &str) -> String {
    let words = if program == "bin/hex" { "LOG GROUP" } else { "[FILE]" };
    format!("usage: {program} {words}")
}

#[test]
fn help() {
    for program in ["bin/replay", "bin/rescue", "bin/hex"] {
        for option in ["-h", "--help"] {
            let ended = run(&format!("{program} {option}"));
            assert_eq!((ended.status, ended.err.as_str()), (0, ""));
            assert!(ended.out.starts_with(&usage(program)), "{}", ended.out);
        }
    }
}

/// Words that a program does not take: its usage on standard error, and nothing else.
fn refuses(program: &str, words: &str) {
    let ended = run(&format!("{program} {words}"));
    assert_eq!((ended.status, ended.out.as_str()), (2, ""), "{program} {words}");
    assert!(ended.err.starts_with(&usage(program)), "{program} {words}: {}", ended.err);
}

#[test]
fn wrong() {
    for program in READERS {
        for words in ["one two", "-x", "--", "-", "--help more"] {
            refuses(program, words);
        }
    }
    for words in ["", "one", "one 2", "one -1", "one zero", "one 0 more", "-x 0", "--help more"] {
        refuses("bin/hex", words);
    }
}

/// Nobody types a log: a terminal as standard input shows how to call the program.
#[test]
fn terminal_as_input() {
    for program in READERS {
        let ended = run(&format!("script -qec {program} /dev/null </dev/null"));
        assert_eq!(ended.status, 2);
        assert!(ended.out.starts_with(&usage(program)), "{}", ended.out);
    }
}

/// Links to bin/replay, absolute, relative and to a link, called from another folder.
#[test]
fn links() {
    let folder = scratch("links");
    let _ = fs::remove_dir_all(&folder);
    fs::create_dir(&folder).expect("a folder");
    let program = fs::canonicalize(ROOT).expect("a path").join("bin/replay");
    symlink(&program, format!("{folder}/absolute")).expect("a link");
    let from = fs::canonicalize(&folder).expect("a path");
    let up = "../".repeat(from.components().count() - 1);
    symlink(
        format!("{up}{}", program.display()),
        format!("{folder}/relative"),
    )
    .expect("a link");
    symlink("relative", format!("{folder}/second")).expect("a link");
    fs::copy(
        format!("{ROOT}/examples/minus.log"),
        format!("{folder}/a b.log"),
    )
    .expect("a log");
    let expected = Ended::new(0, &lines("examples/minus.txt"), "");
    for name in ["absolute", "relative", "second"] {
        assert_eq!(
            run(&format!("cd '{folder}' && ./{name} 'a b.log'")),
            expected
        );
        assert_eq!(
            run(&format!(
                "cd / && PATH='{folder}':$PATH && {name} <'{folder}/a b.log'"
            )),
            expected
        );
    }
}
