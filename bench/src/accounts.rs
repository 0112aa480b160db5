//! The plain account against the long one on the same work: a transfer that fills a full group, chip by chip and as one RAM.

use crate::library::Numbers;
use crate::measure::{self, transfer_call};
use crate::report;
use crate::same::{agreed, answered, transferred};
use crate::samples::{self, Bus, Setup, TURNS};
use crate::timing::{figures, Call, Figure};
use crate::ways::{answer_of, Plain, PLAIN, TRANSFERS};
use humtrellis::raw::{ACKNOWLEDGED, ACKNOWLEDGED_BY, CHIP, CHIP_REGISTERS, CHIP_SUBADDRESS};
use humtrellis_tests::generate::shape;
use humtrellis_tests::model::{SET, WHOLE};
use humtrellis_tests::random::Random;
use std::hint::black_box;

/// The chips of a bus with one group, each with its columns and the group's registers.
fn plain_chips(bus: &Bus) -> Vec<u8> {
    let columns = shape(bus.part).columns();
    let mut chips = vec![0; CHIP * bus.chips[0] as usize];
    let each = chips.as_chunks_mut::<CHIP>().0.iter_mut();
    for (subaddress, (chip, own)) in each.zip(bus.ram.chunks(columns)).enumerate() {
        chip[..columns].copy_from_slice(own);
        chip[CHIP_SUBADDRESS] = subaddress as u8;
        chip[CHIP_REGISTERS..].copy_from_slice(&bus.registers[..SET]);
    }
    chips
}

pub fn plain_call<'a>(
    way: Plain,
    part: u8,
    mut chips: Vec<u8>,
    transfers: &'a [Vec<u8>],
) -> Call<'a> {
    let mut answer = Numbers::default();
    Box::new(move |turn| {
        let bytes = black_box(transfers[turn % TURNS].as_slice());
        way(part, &mut chips, bytes, WHOLE, &mut answer);
        black_box(&answer);
    })
}

/// A plain transfer by both ways: its answer and its chips.
pub fn agreed_plain(
    what: &str,
    part: u8,
    chips: &[u8],
    bytes: &[u8],
) -> Result<(Numbers, Vec<u8>), String> {
    agreed(what, &PLAIN, |way| {
        let mut chips = chips.to_vec();
        let answer = answer_of(|answer| way(part, &mut chips, bytes, WHOLE, answer));
        (answer, chips)
    })
}

/// The plain chips must hold what the long RAM holds, and acknowledge the same.
fn check_setup(setup: Setup) -> Result<(), String> {
    let what = format!("both accounts, {}", setup.name());
    let mut bus = setup.bus(&mut Random::new(0));
    for bytes in setup.transfers(0) {
        let plain = agreed_plain(&what, bus.part, &plain_chips(&bus), &bytes)?;
        let long = agreed(&what, &TRANSFERS, |way| {
            transferred(way, &bus, &bytes, WHOLE)
        })?;
        let acknowledged = |answer: Numbers| [answer[ACKNOWLEDGED], answer[ACKNOWLEDGED_BY]];
        let same = acknowledged(plain.0) == acknowledged(long.0);
        bus = answered(&what, 0, long)?;
        if !same || plain.1 != plain_chips(&bus) {
            return Err(format!("{what}: they differ"));
        }
    }
    Ok(())
}

pub fn check() -> Result<(), String> {
    samples::filled().into_iter().try_for_each(check_setup)
}

/// The library's plain account, its long one and the model's plain one: nanoseconds a data byte.
fn measure(setup: Setup) -> [Figure; 3] {
    let transfers = setup.transfers(0);
    let bus = setup.bus(&mut Random::new(0));
    let plain = |way| plain_call(way, bus.part, plain_chips(&bus), &transfers);
    let [(_, library), (_, model)] = PLAIN;
    let long = transfer_call(TRANSFERS[0].1, bus.clone(), &transfers);
    let calls = [plain(library), long, plain(model)];
    figures(calls).map(|figure| figure.per(setup.data_bytes()))
}

pub fn run() -> Vec<report::Target> {
    report::accounts(&measure::all(&samples::filled(), measure))
}
