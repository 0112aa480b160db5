//! Tables of whole calls, of the two accounts, of the memory's limit and of growth.

use super::{against, ratio, row_name, spread, Target, BY_HAND};
use crate::measure;
use crate::timing::{Figure, SAMPLES};

/// What a row begins with, and its figures.
pub type Row = (String, [Figure; 3]);
/// A kind of call, and its figure at each size.
pub type Grown = (String, Vec<(usize, Figure)>);

/// Library, model and loop; `head` stands over what each row begins with.
pub fn rows(title: &str, head: &str, rows: &[Row]) -> Vec<Target> {
    println!("{title}, median of {SAMPLES} samples, and the library's lowest and highest");
    println!(
        "{head} |    library |      model |       loop | library/model | library/loop | library"
    );
    for (name, [a, b, c]) in rows {
        println!(
            "{name} | {:10.3} | {:10.3} | {:10.3} | {:13.2} | {:12.2} | {}",
            a.median,
            b.median,
            c.median,
            ratio(*a, *b),
            ratio(*a, *c),
            spread(a)
        );
    }
    println!();
    let (what, _) = title.rsplit_once(':').unwrap_or((title, ""));
    let target = |(name, [a, _, c]): &Row| {
        let parts: Vec<&str> = name.split('|').map(str::trim).collect();
        against(&format!("{what}, {}", parts.join(", ")), BY_HAND, *a, *c)
    };
    rows.iter().map(target).collect()
}

/// Plain account, long account and the model's plain one.
pub fn accounts(rows: &[measure::Row<3>]) -> Vec<Target> {
    println!("The plain account of four PCF8532 or eight PCA85133 that a transfer fills: ns a data byte, median of {SAMPLES} samples, and the plain one's lowest and highest");
    println!("part     | mode   |      plain |       long |      model | plain/long | plain/model | plain");
    for (setup, [a, b, c]) in rows {
        println!(
            "{} | {:10.3} | {:10.3} | {:10.3} | {:10.2} | {:11.2} | {}",
            row_name(setup),
            a.median,
            b.median,
            c.median,
            ratio(*a, *b),
            ratio(*a, *c),
            spread(a)
        );
    }
    println!();
    let target = |(setup, [a, _, c]): &measure::Row<3>| {
        let name = format!("plain account, {}", setup.name());
        against(&name, "plain/model", *a, *c)
    };
    rows.iter().map(target).collect()
}

/// Library, loop and a copy of the same bytes.
pub fn limit(rows: &[Row]) {
    println!("Against a copy of the same bytes: ns a byte, median of {SAMPLES} samples");
    println!(
        "{:32} |  bytes | library |    loop |    copy | library/copy | loop/copy",
        "call"
    );
    for (name, [a, b, c]) in rows {
        println!(
            "{name} | {:7.3} | {:7.3} | {:7.3} | {:12.2} | {:9.2}",
            a.median,
            b.median,
            c.median,
            ratio(*a, *c),
            ratio(*b, *c)
        );
    }
    println!();
}

/// The last column says how the figure of one byte or chip changes from row to row; above 1 a call grows faster than its input.
pub fn growth(what: &str, unit: &str, kinds: &[Grown]) {
    println!("How cost grows with {what}: library, ns a call and ns a {unit}, median of {SAMPLES} samples");
    println!(
        "{:40} | {unit}s |   ns a call | ns a {unit} | of the row before",
        "call"
    );
    for (name, sizes) in kinds {
        let mut before = None;
        for (size, figure) in sizes {
            let each = figure.per(*size);
            let change = before.map_or("-".to_string(), |before| {
                format!("{:.2}", ratio(each, before))
            });
            println!(
                "{name:40} | {size:5} | {:11.1} | {:9.3} | {change:>17}",
                figure.median, each.median
            );
            before = Some(each);
        }
    }
    println!();
}
