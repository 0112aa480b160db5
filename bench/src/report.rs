//! The printed tables and targets.

mod tables;

pub use tables::{accounts, growth, limit, rows, Grown, Row};

use crate::measure;
use crate::samples::{around_data, around_written_data, part_name, Setup};
use crate::timing::{Figure, SAMPLES};
use humtrellis_tests::model::Part;

/// The most that the writer is to take, in nanoseconds a data byte.
const WRITER_LIMIT: f64 = 3.0;
/// The most that the packed form is to take, of the one-byte form.
const PACKED_LIMIT: f64 = 1.5;
/// What most rows are held to.
const BY_HAND: &str = "library/loop";

fn ratio(library: Figure, other: Figure) -> f64 {
    library.median / other.median
}

fn spread(figure: &Figure) -> String {
    format!("{:.3} to {:.3}", figure.lowest, figure.highest)
}

/// What each row begins with.
fn row_name(setup: &Setup) -> String {
    format!("{:8} | {:6}", part_name(setup.part), setup.mode.name)
}

/// `around` says how many bytes of a part's transfer are not data.
fn data_and_all_bytes(setup: &Setup, around: fn(Part) -> usize) -> String {
    let data = setup.data_bytes();
    format!("{data}/{}", data + around(setup.part))
}

fn print_medians(rows: &[measure::Row<3>], around: fn(Part) -> usize) {
    println!("part     | mode   | data/all bytes | library |   model |    loop | library/model | library/loop");
    for (setup, [a, b, c]) in rows {
        println!(
            "{} | {:>14} | {:7.3} | {:7.3} | {:7.3} | {:13.2} | {:12.2}",
            row_name(setup),
            data_and_all_bytes(setup, around),
            a.median,
            b.median,
            c.median,
            ratio(*a, *b),
            ratio(*a, *c)
        );
    }
    println!();
}

fn print_spread(rows: &[measure::Row<3>]) {
    println!(
        "part     | mode   | {:>18} | {:>18} | {:>18}",
        "library", "model", "loop"
    );
    for (setup, figures) in rows {
        let [a, b, c] = figures.each_ref().map(spread);
        println!("{} | {a:>18} | {b:>18} | {c:>18}", row_name(setup));
    }
    println!();
}

/// The figures of library, model and loop, of transfers with so many bytes around their data.
fn print_data_bytes(rows: &[measure::Row<3>], around: fn(Part) -> usize) {
    print_medians(rows, around);
    println!("The same: lowest and highest sample");
    print_spread(rows);
}

pub fn transfers(rows: &[measure::Row<3>]) -> Vec<Target> {
    println!("A transfer that fills four PCF8532 or eight PCA85133: ns a data byte, median of {SAMPLES} samples");
    print_data_bytes(rows, around_data);
    let target = |(setup, [a, _, c]): &measure::Row<3>| {
        against(&format!("transfer, {}", setup.name()), BY_HAND, *a, *c)
    };
    rows.iter().map(target).collect()
}

pub fn writings(rows: &[measure::Row<3>]) -> Vec<Target> {
    println!("The transfer for wanted rows of four PCF8532 or eight PCA85133: ns a data byte, median of {SAMPLES} samples");
    print_data_bytes(rows, around_written_data);
    let targets = |(setup, [a, _, c]): &measure::Row<3>| {
        let name = format!("wanted rows, {}", setup.name());
        let time = Target {
            name: format!("{name}: library, ns a data byte"),
            value: a.median,
            limit: WRITER_LIMIT,
        };
        [against(&name, BY_HAND, *a, *c), time]
    };
    rows.iter().flat_map(targets).collect()
}

/// The figures of library, model, loop by columns and loop by words.
pub fn pictures(rows: &[measure::Row<4>]) -> Vec<Target> {
    println!(
        "A picture: ns a column, median of {SAMPLES} samples, and the library's lowest and highest"
    );
    println!("part     | mode   | chips | columns | library |   model | by columns | by words | library/by columns | library/by words |        library");
    for (setup, [a, b, c, d]) in rows {
        println!(
            "{} | {:5} | {:7} | {:7.3} | {:7.3} | {:10.3} | {:8.3} | {:18.2} | {:16.2} | {}",
            row_name(setup),
            setup.chip_count(),
            setup.columns(),
            a.median,
            b.median,
            c.median,
            d.median,
            ratio(*a, *c),
            ratio(*a, *d),
            spread(a)
        );
    }
    println!();
    let target = |(setup, [a, _, c, _]): &measure::Row<4>| {
        let name = format!("picture, {} columns, {}", setup.columns(), setup.name());
        against(&name, "library/by columns", *a, *c)
    };
    rows.iter().map(target).collect()
}

/// The figures of the packed form, the one-byte form and the packed loop; `what` says of which.
pub fn packed(what: &str, rows: &[measure::Row<3>]) -> Vec<Target> {
    println!(
        "Packed, {what}: ns, median of {SAMPLES} samples, and the library's lowest and highest"
    );
    println!("part     | mode   | chips | columns |  packed | one-byte |    loop | packed/one-byte | packed/loop |         packed");
    for (setup, [a, b, c]) in rows {
        println!(
            "{} | {:5} | {:7} | {:7.3} | {:8.3} | {:7.3} | {:15.2} | {:11.2} | {}",
            row_name(setup),
            setup.chip_count(),
            setup.columns(),
            a.median,
            b.median,
            c.median,
            ratio(*a, *b),
            ratio(*a, *c),
            spread(a)
        );
    }
    println!();
    let targets = |(setup, [a, b, c]): &measure::Row<3>| {
        let name = format!(
            "packed, {what}, {} columns, {}",
            setup.columns(),
            setup.name()
        );
        let form = Target {
            name: format!("{name}: packed/one-byte"),
            value: ratio(*a, *b),
            limit: PACKED_LIMIT,
        };
        [against(&name, BY_HAND, *a, *c), form]
    };
    rows.iter().flat_map(targets).collect()
}

/// The most that reading a RAM image is to take, in milliseconds.
const IMAGE_LIMIT: f64 = 2.0;

pub fn image(length: usize, figure: Figure) {
    let milliseconds = figure.per(1_000_000);
    let (median, spread) = (milliseconds.median, spread(&milliseconds));
    let verdict = if median <= IMAGE_LIMIT {
        "met"
    } else {
        "missed"
    };
    println!("A RAM image of {length} bytes read: ms, median of {SAMPLES} samples, lowest and highest; under {IMAGE_LIMIT}");
    println!("library | {median:7.3} | {spread} | {verdict}");
    println!();
}

/// What a row is to come to at most: a ratio, or a time.
pub struct Target {
    name: String,
    value: f64,
    limit: f64,
}

/// No slower than the other way; `what` says which.
fn against(name: &str, what: &str, library: Figure, other: Figure) -> Target {
    Target {
        name: format!("{name}: {what}"),
        value: ratio(library, other),
        limit: 1.0,
    }
}

/// Near is up to a tenth more.
pub fn targets(targets: &[Target]) {
    println!("Targets: verdict, measured, at most");
    for Target { name, value, limit } in targets {
        let verdict = match value / limit {
            over if over <= 1.0 => "met",
            over if over <= 1.1 => "near",
            _ => "missed",
        };
        println!("{verdict:6} | {value:6.2} | {limit:5} | {name}");
    }
}
