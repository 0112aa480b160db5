//! Samples of several ways, taken in turn so that noise hits all alike.

use std::sync::LazyLock;
use std::time::{Duration, Instant};

/// Samples behind each figure.
pub const SAMPLES: usize = 15;
/// About how long a sample lasts: 10 ms, or as BENCH_MICROSECONDS says, for a run that is looked at for its rows alone.
static SAMPLE: LazyLock<Duration> = LazyLock::new(|| {
    let asked = std::env::var("BENCH_MICROSECONDS");
    let microseconds = asked.map_or(10_000, |text| {
        text.parse().expect("BENCH_MICROSECONDS is a number")
    });
    Duration::from_micros(microseconds)
});

/// Nanoseconds for one call: the median sample, the lowest and the highest.
#[derive(Clone, Copy)]
pub struct Figure {
    pub median: f64,
    pub lowest: f64,
    pub highest: f64,
}

impl Figure {
    fn of(mut samples: Vec<f64>) -> Self {
        samples.sort_by(f64::total_cmp);
        Figure {
            median: samples[samples.len() / 2],
            lowest: samples[0],
            highest: samples[samples.len() - 1],
        }
    }

    /// The figure of one of so many parts of a call.
    pub fn per(self, parts: usize) -> Self {
        let part = |time: f64| time / parts as f64;
        Figure {
            median: part(self.median),
            lowest: part(self.lowest),
            highest: part(self.highest),
        }
    }
}

/// One call; the number says whose turn it is among the inputs.
pub type Call<'a> = Box<dyn FnMut(usize) + 'a>;

fn time(call: &mut Call, calls: usize) -> Duration {
    let start = Instant::now();
    for turn in 0..calls {
        call(turn);
    }
    start.elapsed()
}

/// The calls that make a sample last.
fn calls_in_sample(call: &mut Call) -> usize {
    let mut calls = 1;
    loop {
        let taken = time(call, calls);
        if taken * 4 >= *SAMPLE {
            let share = SAMPLE.as_secs_f64() / taken.as_secs_f64();
            return (calls as f64 * share).ceil() as usize;
        }
        calls *= 2;
    }
}

/// The figures of several calls, each sampled once a round.
pub fn figures<const COUNT: usize>(mut calls: [Call; COUNT]) -> [Figure; COUNT] {
    let counts = calls.each_mut().map(calls_in_sample);
    let mut samples = [const { Vec::new() }; COUNT];
    for _ in 0..SAMPLES {
        for way in 0..COUNT {
            let taken = time(&mut calls[way], counts[way]);
            samples[way].push(taken.as_secs_f64() * 1e9 / counts[way] as f64);
        }
    }
    samples.map(Figure::of)
}
