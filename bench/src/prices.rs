//! A price's text to data bytes and back.

use crate::library::Numbers;
use crate::report;
use crate::same::{agreed, answered};
use crate::samples::{Mode, MODES, TURNS};
use crate::timing::{figures, Call};
use crate::ways::{answer_of, Price, PRICE_READERS, PRICE_WRITERS};
use humtrellis::raw::{PRICE, PRICE_TEXT};
use humtrellis_tests::price_texts::{self, damage};
use humtrellis_tests::random::Random;
use std::hint::black_box;

/// The most bytes of a text: a price as it is on a panel, and the longest.
const LIMITS: [usize; 2] = [6, PRICE];
/// Prices of any kind, each way.
const GENERATED: u64 = 20_000;

fn prices(mode: Mode, limit: usize) -> Vec<price_texts::Price> {
    let random = &mut Random::new(64 + mode.bits as u64);
    (0..TURNS)
        .map(|_| price_texts::price(random, mode.bits, limit))
        .collect()
}

fn done(way: Price, mode: u8, given: &[u8], room: usize) -> (Numbers, Vec<u8>) {
    let mut out = vec![0xEE; room];
    let answer = answer_of(|answer| way(mode, given, &mut out, answer));
    (answer, out)
}

fn timed(mode: Mode, limit: usize) -> Result<(), String> {
    for price in prices(mode, limit) {
        let what = format!("price, {}", mode.name);
        let outcome = agreed(&what, &PRICE_WRITERS, |way| {
            done(way, mode.bits, &price.text, PRICE)
        })?;
        answered(&what, 0, outcome)?;
        let outcome = agreed(&what, &PRICE_READERS, |way| {
            done(way, mode.bits, &price.segments, PRICE_TEXT)
        })?;
        answered(&what, 0, outcome)?;
    }
    Ok(())
}

/// Any figures, often damaged, now and then too many, in another mode or none, or with a byte of room too few.
fn generated(seed: u64) -> Result<(), String> {
    let random = &mut Random::new(seed);
    let (mode, limit) = (
        random.below(4) as u8,
        random.pick(&[6, 20, PRICE, PRICE + 8]),
    );
    let mut price = price_texts::price(random, mode, limit);
    if random.one_in(2) {
        damage(random, &mut price.text);
        let place = random.below(price.segments.len().max(1));
        price.segments.splice(place..place, [random.byte()]);
    }
    let mode = match random.below(16) {
        0 => random.pick(&[0, 1, 2, 3, 4, 255]),
        _ => mode,
    };
    let less = random.one_in(16) as usize;
    let what = format!("generated price {seed}");
    agreed(&what, &PRICE_WRITERS, |way| {
        done(way, mode, &price.text, PRICE - less)
    })?;
    agreed(&what, &PRICE_READERS, |way| {
        done(way, mode, &price.segments, PRICE_TEXT - less)
    })?;
    Ok(())
}

pub fn check() -> Result<(), String> {
    for mode in MODES {
        for limit in LIMITS {
            timed(mode, limit)?;
        }
    }
    (0..GENERATED).try_for_each(generated)
}

fn call<'a>(way: Price, mode: u8, given: &'a [Vec<u8>], room: usize) -> Call<'a> {
    let mut out = vec![0; room];
    let mut answer = Numbers::default();
    Box::new(move |turn| {
        let given = black_box(given[turn % TURNS].as_slice());
        way(mode, given, &mut out, &mut answer);
        black_box(&answer);
    })
}

/// Written and read; as many bytes as the longest of the texts or of their data bytes.
fn rows(mode: Mode, limit: usize) -> [report::Row; 2] {
    let (texts, segments): (Vec<_>, Vec<_>) = prices(mode, limit)
        .into_iter()
        .map(|price| (price.text, price.segments))
        .unzip();
    let row = |what, ways: [(&str, Price); 3], given: &[Vec<u8>], room| {
        let calls = ways.map(|(_, way)| call(way, mode.bits, given, room));
        let longest = given.iter().map(Vec::len).max().unwrap_or(0);
        let name = format!("{what:7} | {:6} | {longest:5}", mode.name);
        (name, figures(calls))
    };
    [
        row("written", PRICE_WRITERS, &texts, PRICE),
        row("read", PRICE_READERS, &segments, PRICE_TEXT),
    ]
}

pub fn run() -> Vec<report::Target> {
    let limits = |mode| LIMITS.into_iter().flat_map(move |limit| rows(mode, limit));
    let rows: Vec<report::Row> = MODES.into_iter().flat_map(limits).collect();
    let title = "A price, of up to so many bytes of text written or of data bytes read: ns a call";
    report::rows(title, "price   | mode   | bytes", &rows)
}
