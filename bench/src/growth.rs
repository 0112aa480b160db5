//! How the cost of a library call grows with its input: the bytes of a transfer, the chips, plain chips, and the bytes of a log.

mod inputs;

use crate::logs::{long_runs, short_transfers};
use crate::report;
use crate::samples::part_name;
use crate::timing::figures;
use humtrellis_tests::model::Part;
use inputs::{Input, Listed, Logged, Sent, Shown};

const TRANSFER_BYTES: &[usize] = &[1, 4, 16, 64, 256, 1_024, 4_096];
const CHIPS: &[usize] = &[1, 2, 4, 8];
const PLAIN_CHIPS: &[usize] = &[1, 2, 4, 8, 16];
/// A head alone, then logs with records.
const LOG_BYTES: &[usize] = &[3, 16, 64, 256, 1_024, 4_096, 16_384, 65_536];

/// One kind of call, with its input at each size.
struct Series {
    name: String,
    sizes: &'static [usize],
    input: Box<dyn Fn(usize) -> Box<dyn Input>>,
}

fn series<Made: Input + 'static>(
    name: String,
    sizes: &'static [usize],
    input: impl Fn(usize) -> Made + 'static,
) -> Series {
    Series {
        name,
        sizes,
        input: Box::new(move |size| Box::new(input(size))),
    }
}

impl Series {
    fn check(&self) -> Result<(), String> {
        let check = |size: &usize| {
            let what = format!("{}, of {size}", self.name);
            (self.input)(*size).check(&what)
        };
        self.sizes.iter().try_for_each(check)
    }

    fn grown(&self) -> report::Grown {
        let figure = |size: &usize| {
            let input = (self.input)(*size);
            let [figure] = figures([input.call()]);
            (*size, figure)
        };
        (self.name.clone(), self.sizes.iter().map(figure).collect())
    }
}

/// To a full group.
fn transfers(part: Part) -> [Series; 3] {
    let series = |kind, make: inputs::Make| {
        let name = format!("{}, {kind}", part_name(part));
        series(name, TRANSFER_BYTES, move |length| {
            Sent::new(part, length, make)
        })
    };
    [
        series("a run of data", inputs::data_run),
        series("a run of commands", inputs::command_run),
        series("commands and data in turn", inputs::in_turn),
    ]
}

/// Of one call, which is about the first group and checks the RAM of both.
fn chips(part: Part) -> [Series; 2] {
    let name = |what| format!("{}, {what}", part_name(part));
    [
        series(name("the first group filled"), CHIPS, move |chips| {
            Sent::filling(part, chips as u8)
        }),
        series(name("the first group shown"), CHIPS, move |chips| {
            Shown::new(part, chips as u8)
        }),
    ]
}

/// As many as a list may have.
fn plain_chips(part: Part) -> Series {
    let most = part.most_chips();
    let fitting = PLAIN_CHIPS.iter().filter(|chips| **chips <= most);
    let sizes = &PLAIN_CHIPS[..fitting.count()];
    let name = format!("{}, a run of 40 data bytes", part_name(part));
    series(name, sizes, move |chips| Listed::new(part, chips))
}

fn logs() -> Vec<Series> {
    vec![
        series("one byte, refused by 12".to_string(), &[1], |length| {
            Logged::new(length, long_runs)
        }),
        series("a log of long runs".to_string(), LOG_BYTES, |length| {
            Logged::new(length, long_runs)
        }),
        series(
            "a log of short transfers".to_string(),
            LOG_BYTES,
            |length| Logged::new(length, short_transfers),
        ),
    ]
}

/// Each table: what grows, and one of it.
fn tables() -> [(&'static str, &'static str, Vec<Series>); 4] {
    let parts = || Part::BOTH.into_iter();
    [
        (
            "the bytes of a transfer",
            "byte",
            parts().flat_map(transfers).collect(),
        ),
        ("the chips", "chip", parts().flat_map(chips).collect()),
        (
            "the plain chips",
            "chip",
            parts().map(plain_chips).collect(),
        ),
        ("the bytes of a log", "byte", logs()),
    ]
}

pub fn check() -> Result<(), String> {
    let mut series = tables().into_iter().flat_map(|(_, _, series)| series);
    series.try_for_each(|series| series.check())
}

pub fn run() {
    for (what, unit, series) in tables() {
        let grown: Vec<report::Grown> = series.iter().map(Series::grown).collect();
        report::growth(what, unit, &grown);
    }
}
