//! The replay of logs: of the greatest length, with long runs and with short transfers, and of many small ones.

use crate::logs::{long_runs, short_transfers, Make};
use crate::report;
use crate::same::agreed;
use crate::samples::TURNS;
use crate::timing::{figures, Call};
use crate::ways::{Replay, REPLAYS};
use humtrellis::raw::TEXT;
use humtrellis_tests::generate;
use humtrellis_tests::model::LOG_LIMIT;
use humtrellis_tests::random::Random;
use std::hint::black_box;

/// Logs that are replayed one after the other in one call.
const MANY: usize = 1_000;
/// Logs of any kind.
const GENERATED: u64 = 4_000;

pub struct Logs {
    name: &'static str,
    /// What takes turns: a log, or many small ones.
    turns: Vec<Vec<Vec<u8>>>,
}

impl Logs {
    fn longest(name: &'static str, make: Make) -> Self {
        let log = |seed| vec![make(&mut Random::new(32 + seed), LOG_LIMIT)];
        let turns = (0..TURNS as u64).map(log).collect();
        Logs { name, turns }
    }

    fn small() -> Self {
        let random = &mut Random::new(40);
        let mut log = |_| {
            let length = random.between(20, 120);
            short_transfers(random, length)
        };
        let turns = vec![(0..MANY).map(&mut log).collect()];
        Logs {
            name: "1,000 small logs",
            turns,
        }
    }

    fn bytes(&self) -> usize {
        self.turns[0].iter().map(Vec::len).sum()
    }

    pub fn call(&self, way: Replay) -> Call<'_> {
        let mut out = vec![0; TEXT];
        Box::new(move |turn| {
            for log in &self.turns[turn % self.turns.len()] {
                black_box(way(black_box(log), &mut out));
            }
        })
    }

    fn row(&self) -> report::Row {
        let calls = REPLAYS.map(|(_, way)| self.call(way));
        let name = format!("{:24} | {:6}", self.name, self.bytes());
        (name, figures(calls).map(|figure| figure.per(1_000_000)))
    }
}

pub fn of_long_runs() -> Logs {
    Logs::longest("a log of long runs", long_runs)
}

fn all() -> [Logs; 3] {
    let short = Logs::longest("a log of short transfers", short_transfers);
    [of_long_runs(), short, Logs::small()]
}

/// The text that all ways write of a log.
pub fn agreed_text(what: &str, log: &[u8], out: &mut [u8]) -> Result<Vec<u8>, String> {
    let outcome = agreed(what, &REPLAYS, |way| {
        let length = way(log, out);
        (length, out[..length].to_vec())
    })?;
    Ok(outcome.1)
}

pub fn check() -> Result<(), String> {
    let out = &mut vec![0; TEXT];
    for logs in all() {
        for log in logs.turns.iter().flatten() {
            let text = agreed_text(logs.name, log, out)?;
            if !text.starts_with(b"T") {
                return Err(format!("{}: a log is refused", logs.name));
            }
        }
    }
    for seed in 0..GENERATED {
        let random = &mut Random::new(seed);
        let log = match random.below(8) {
            0 => generate::torn_log(random),
            _ => generate::log(random),
        };
        agreed_text(&format!("generated log {seed}"), &log, out)?;
    }
    let too_long = generate::too_long_log(&mut Random::new(0));
    agreed_text("a log that is too long", &too_long, out)?;
    agreed_text("a log without room", &too_long, &mut out[1..])?;
    Ok(())
}

pub fn run() -> Vec<report::Target> {
    let head = format!("{:24} |  bytes", "replay");
    let rows = all().map(|logs| logs.row());
    report::rows("The replay of logs: ms", &head, &rows)
}
