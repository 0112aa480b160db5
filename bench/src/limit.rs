//! How far library and loop are from the memory's limit: a copy of as many bytes.

use crate::measure::{picture_call, transfer_call};
use crate::samples::{filled, part_name, Setup};
use crate::timing::{figures, Call};
use crate::ways::{PICTURES, REPLAYS, TRANSFERS};
use crate::{replay, report};
use humtrellis_tests::model::LOG_LIMIT;
use humtrellis_tests::random::Random;
use std::hint::black_box;

/// The M bits of 1:4, in which a call writes every row of its columns.
const MODE: u8 = 0;

fn copy_call(bytes: usize) -> Call<'static> {
    let (source, mut target) = (vec![5u8; bytes], vec![0u8; bytes]);
    Box::new(move |_| {
        target.copy_from_slice(black_box(&source));
        black_box(&mut target);
    })
}

/// Library, loop and copy: nanoseconds a byte.
fn row(name: String, bytes: usize, [library, by_hand]: [Call; 2]) -> report::Row {
    let figures = figures([library, by_hand, copy_call(bytes)]);
    let name = format!("{name:32} | {bytes:6}");
    (name, figures.map(|figure| figure.per(bytes)))
}

/// The columns that a transfer fills, and those that a picture shows.
fn rows_of(setup: Setup) -> [report::Row; 2] {
    let (part, columns) = (part_name(setup.part), setup.columns());
    let (transfers, buses) = (setup.transfers(0), setup.shown_buses());
    let bus = || setup.bus(&mut Random::new(0));
    let [(_, library), _, (_, by_hand)] = TRANSFERS;
    let filled = [library, by_hand].map(|way| transfer_call(way, bus(), &transfers));
    let [(_, library), .., (_, by_words)] = PICTURES;
    let shown = [library, by_words].map(|way| picture_call(way, &buses));
    [
        row(format!("{part}, columns filled in 1:4"), columns, filled),
        row(format!("{part}, columns shown in 1:4"), columns, shown),
    ]
}

pub fn run() {
    let four = |setup: &Setup| setup.mode.bits == MODE;
    let mut rows: Vec<_> = filled()
        .into_iter()
        .filter(four)
        .flat_map(rows_of)
        .collect();
    let logs = replay::of_long_runs();
    let [(_, library), _, (_, by_hand)] = REPLAYS;
    let replayed = [library, by_hand].map(|way| logs.call(way));
    rows.push(row(
        "a log of long runs, replayed".to_string(),
        LOG_LIMIT,
        replayed,
    ));
    report::limit(&rows);
}
