//! The first run, in a repository of its own whose `rt` only talks: what is shown, and that nothing is lost.

use crate::run::{lines, run, scratch, Ended, ROOT};
use std::fs;
use std::os::unix::fs::PermissionsExt;

/// Says what rt says, reads its standard input, and gives MADE for the program where there is none.
const RT: &str = "#!/bin/sh
echo \"${PWD##*/} $*\" >>../../asked
echo 'crate first: modules loaded=0 checked=1'
echo 'logic=proved functions=0'
echo 'fn second::half: proved'
echo 'crate second: modules loaded=1 checked=0'
echo 'logic=proved functions=1'
cat
[ -n \"$MADE\" ] || { echo 'logic=not-proved'; exit 1; }
mkdir -p out
[ -e out/replay ] || cp \"$MADE\" out/replay
echo 'crate replay: modules loaded=2 checked=1'
echo 'logic=proved functions=2'
";
/// Three of these four crates make the program.
const CRATES: &str =
    "# replay: other\nfirst: # other\nsecond: first\nother: second\nreplay: first second io\n";
const BEGUN: &str = "bin/replay: proving and building the program, which can take some minutes\n";

fn write_tool(path: &str, text: &str) {
    fs::write(path, text).expect("a tool");
    fs::set_permissions(path, fs::Permissions::from_mode(0o755)).expect("a mode");
}

fn repository(name: &str) -> String {
    let folder = scratch(name);
    let _ = fs::remove_dir_all(&folder);
    for part in ["bin", "crates/replay", "tools", "target/bin"] {
        fs::create_dir_all(format!("{folder}/{part}")).expect("a folder");
    }
    fs::write(format!("{folder}/crates.txt"), CRATES).expect("crates.txt");
    for script in ["replay", "program"] {
        fs::copy(
            format!("{ROOT}/bin/{script}"),
            format!("{folder}/bin/{script}"),
        )
        .expect("a script");
    }
    fs::copy(
        format!("{ROOT}/examples/minus.log"),
        format!("{folder}/log"),
    )
    .expect("a log");
    write_tool(&format!("{folder}/tools/rt"), RT);
    folder
}

fn run_in(folder: &str, line: &str) -> Ended {
    let program = format!("{ROOT}/target/bin/replay");
    run(&format!(
        "cd '{folder}' && export MADE='{program}' PATH=\"$PWD/tools:$PATH\" && {line}"
    ))
}

#[test]
fn first_run() {
    let folder = repository("first_run");
    let text = lines("examples/minus.txt");
    let (built, ready) = (Ended::new(0, &text, BEGUN), Ended::new(0, &text, ""));
    assert_eq!(run_in(&folder, "bin/replay <log"), built);
    assert_eq!(run_in(&folder, "bin/replay <log"), ready);
    assert_eq!(run_in(&folder, "touch crates/new; bin/replay log"), built);
    assert_eq!(run_in(&folder, "bin/replay log"), ready);
    assert_eq!(run_in(&folder, "rm crates/new; bin/replay log"), built);
    assert_eq!(run_in(&folder, "cat asked").out, "replay run\n".repeat(3));
}

#[test]
fn first_run_on_a_terminal() {
    let folder = repository("first_run_on_a_terminal");
    let ended = run_in(&folder, "script -qec 'bin/replay log' /dev/null </dev/null");
    let shown = [
        BEGUN,
        "bin/replay: crate 1 of 3: first proved\n",
        "bin/replay: crate 2 of 3: second proved\n",
        "bin/replay: crate 3 of 3: replay proved\n",
        &lines("examples/minus.txt"),
    ];
    assert_eq!(
        (ended.status, ended.out.replace('\r', "")),
        (0, shown.concat())
    );
}

#[test]
fn not_proved() {
    let folder = repository("not_proved");
    let ended = run_in(&folder, "MADE= bin/replay <log");
    let said = [
        BEGUN,
        "crate first: modules loaded=0 checked=1\nlogic=proved functions=0\nfn second::half: proved\n",
        "crate second: modules loaded=1 checked=0\nlogic=proved functions=1\nlogic=not-proved\n",
        "bin/replay: the program could not be proved and built",
    ];
    ended.expect_failure(&said.concat());
}

/// An `rt` that takes the program for made, though its file is gone.
#[test]
fn not_made() {
    let folder = repository("not_made");
    let ended = run_in(&folder, "MADE=/dev/null bin/replay log");
    let message = "bin/replay: rt has proved the program and made none: remove crates/replay/out and run again";
    ended.expect_failure(&format!("{BEGUN}{message}"));
}

/// A PATH with the tools that the script needs, and no `rt`.
#[test]
fn no_toolchain() {
    let folder = repository("no_toolchain");
    let tools =
        "for tool in env bash dirname readlink find; do ln -s \"$(command -v $tool)\" none; done";
    let ended = run_in(
        &folder,
        &format!("mkdir none; {tools}; PATH=$PWD/none bin/replay log"),
    );
    ended.expect_failure("bin/replay: the Rattle toolchain (rt) is not on PATH");
}

/// A program that a signal ends says nothing itself.
#[test]
fn ended_by_a_signal() {
    let folder = repository("ended_by_a_signal");
    write_tool(
        &format!("{folder}/target/bin/replay"),
        "#!/bin/sh\nkill -SEGV $$\n",
    );
    let ended = run_in(&folder, "bin/replay log");
    ended.expect_failure("bin/replay: the program ended with status 139");
}

/// A program for another processor: the shell says that it cannot run it, and the script why.
#[test]
fn other_processor() {
    let folder = repository("other_processor");
    write_tool(&format!("{folder}/target/bin/replay"), "\x7fELF\0");
    let ended = run_in(&folder, "bin/replay log");
    ended.expect_status(2);
    let message = "bin/replay: the program is for x86-64 Linux, which this machine does not run\n";
    assert!(ended.err.ends_with(message), "{ended:?}");
}
