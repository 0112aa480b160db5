//! The transfer for every element of a full group in 1:3.

use crate::measure::writer_call;
use crate::report;
use crate::same::{agreed, answered, written};
use crate::samples::{self, part_name, Setup};
use crate::timing::figures;
use crate::ways::THREE_WRITERS;

/// The M bits of 1:3.
const MODE: u8 = 3;
/// Columns that a data byte is for.
const WIDTH: usize = 2;

fn setups() -> impl Iterator<Item = Setup> {
    let three = |setup: &Setup| setup.mode.bits == MODE;
    samples::filled().into_iter().filter(three)
}

fn data_bytes(setup: Setup) -> usize {
    setup.columns() / WIDTH
}

/// The address, mode-set, then each data byte and the commands before it, all with a control byte.
fn all_bytes(setup: Setup) -> usize {
    let commands = setup.part.position_commands(0, 0).len();
    3 + data_bytes(setup) * 2 * (commands + 1)
}

pub fn check() -> Result<(), String> {
    for setup in setups() {
        let what = format!("every element, {}", setup.name());
        for writing in setup.writings() {
            let outcome = agreed(&what, &THREE_WRITERS, |way| {
                written(way, &writing, all_bytes(setup))
            })?;
            answered(&what, 0, outcome)?;
        }
    }
    Ok(())
}

fn row(setup: Setup) -> report::Row {
    let (data, all) = (data_bytes(setup), all_bytes(setup));
    let writings = setup.writings();
    let calls = THREE_WRITERS.map(|(_, way)| writer_call(way, &writings, all));
    let bytes = format!("{data}/{all}");
    let name = format!("{:8} | {bytes:>14}", part_name(setup.part));
    (name, figures(calls).map(|figure| figure.per(data)))
}

pub fn run() -> Vec<report::Target> {
    let title =
        "The transfer for every element of four PCF8532 or eight PCA85133 in 1:3: ns a data byte";
    let rows: Vec<report::Row> = setups().map(row).collect();
    report::rows(title, "part     | data/all bytes", &rows)
}
