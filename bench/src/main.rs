//! Times the proved library, the independent model and a table loop side by side; docs/SPEED.md says what is printed. `agree`: only holds their answers against each other.

mod accounts;
mod agree;
mod growth;
mod images;
mod library;
mod limit;
mod logs;
mod measure;
mod model;
mod prices;
mod replay;
mod report;
mod same;
mod samples;
mod short;
mod table_loop;
mod three;
mod timing;
mod ways;

use std::process::ExitCode;

fn time() -> Result<(), String> {
    let filled = samples::filled();
    let shown = samples::shown();
    let mut targets = report::transfers(&measure::all(&filled, measure::transfers));
    targets.extend(short::run());
    targets.extend(report::pictures(&measure::all(&shown, measure::pictures)));
    targets.extend(report::writings(&measure::all(&filled, measure::writings)));
    targets.extend(three::run());
    targets.extend(prices::run());
    for start in samples::STARTS {
        let rows = measure::all(&filled, |setup| measure::packed_transfers(setup, start));
        let what = format!("a transfer from column {start} on, a data byte");
        targets.extend(report::packed(&what, &rows));
    }
    let rows = measure::all(&shown, measure::packed_pictures);
    targets.extend(report::packed("a picture, a column", &rows));
    targets.extend(replay::run());
    images::run()?;
    targets.extend(accounts::run());
    limit::run();
    growth::run();
    report::targets(&targets);
    Ok(())
}

fn run() -> Result<(), String> {
    let differs = |message| format!("{message}; nothing that differs is timed");
    match std::env::args().nth(1).as_deref() {
        None => agree::check().and_then(|()| time()).map_err(differs),
        Some("agree") => agree::check().map_err(differs),
        Some(other) => Err(format!(
            "bench: {other} is none of its arguments; the one that it takes is agree"
        )),
    }
}

/// A missed target is a measurement, not a failure; different answers are one.
fn main() -> ExitCode {
    match run() {
        Ok(()) => ExitCode::SUCCESS,
        Err(message) => {
            eprintln!("{message}");
            ExitCode::FAILURE
        }
    }
}
