//! Before anything is timed: all ways must give the same answers, registers, columns, pictures and transfers for wanted rows.

use crate::same::{agreed, answered, pictured, transferred, written};
use crate::samples::{self, Bus, Setup, Writing, STARTS};
use crate::ways::{PACKED_PICTURES, PACKED_TRANSFERS, PICTURES, THREE_WRITERS, TRANSFERS, WRITERS};
use crate::{accounts, growth, prices, replay, short, three};
use humtrellis::raw::THREE;
use humtrellis_tests::generate::{self, shape};
use humtrellis_tests::model::{REGISTERS, SET, WHOLE};
use humtrellis_tests::random::Random;

/// Buses of any kind, each with transfers of any kind.
const GENERATED: u64 = 40_000;
/// More bytes than any transfer for wanted rows has.
const ROOM: usize = 360;

fn timed_transfers(setup: Setup) -> Result<(), String> {
    let what = format!("transfer, {}", setup.name());
    let mut bus = setup.bus(&mut Random::new(0));
    for bytes in setup.transfers(0) {
        let outcome = agreed(&what, &TRANSFERS, |way| {
            transferred(way, &bus, &bytes, WHOLE)
        })?;
        bus = answered(&what, 0, outcome)?;
    }
    for start in STARTS {
        let mut bus = bus.packed();
        for bytes in setup.transfers(start) {
            let outcome = agreed(&format!("packed {what}"), &PACKED_TRANSFERS, |way| {
                transferred(way, &bus, &bytes, WHOLE)
            })?;
            bus = answered(&what, 0, outcome)?;
        }
    }
    Ok(())
}

fn timed_pictures(setup: Setup) -> Result<(), String> {
    let what = format!("picture, {}", setup.name());
    for bus in setup.shown_buses() {
        for group in 0..2 {
            let outcome = agreed(&what, &PICTURES, |way| {
                pictured(way, &bus, [group as u8, 0], bus.columns(group))
            })?;
            answered(&what, 0, outcome)?;
            let packed = bus.packed();
            let outcome = agreed(&format!("packed {what}"), &PACKED_PICTURES, |way| {
                pictured(way, &packed, [group as u8, 0], bus.columns(group))
            })?;
            answered(&what, 0, outcome)?;
        }
    }
    Ok(())
}

fn timed_writings(setup: Setup) -> Result<(), String> {
    let what = format!("wanted rows, {}", setup.name());
    for writing in setup.writings() {
        let outcome = agreed(&what, &WRITERS, |way| {
            written(way, &writing, setup.written_bytes())
        })?;
        answered(&what, 0, outcome)?;
    }
    Ok(())
}

/// Now and then a chip too many, a register at its greatest or of any value, marks, a column of any value, columns too few, or another part.
fn damage(random: &mut Random, bus: &mut Bus) {
    let part = shape(bus.part);
    let (register, column) = (random.below(REGISTERS), random.below(bus.ram.len().max(1)));
    let greatest = part.greatest()[register % SET];
    match random.below(40) {
        0 => bus.chips[random.below(2)] = part.subaddresses() + 1,
        1 => bus.registers[register] = greatest + random.below(2) as u8,
        2 => bus.registers[register] = random.byte(),
        3 | 4 if column < bus.ram.len() => bus.ram[column] = random.byte(),
        5 => bus.ram.truncate(column),
        6 => bus.part = generate::part(random),
        7 => bus.registers[SET - 1 - random.below(3)] = 1,
        8 => bus.registers[REGISTERS - 1 - random.below(3)] = 1,
        _ => {}
    }
}

/// Refusals, cut runs, cut bytes, unknown marks, both groups and every bank, so that no way is fast by leaving something out.
fn generated(seed: u64) -> Result<(), String> {
    let random = &mut Random::new(seed);
    let number = generate::part(random);
    let part = shape(number);
    let chips = [0; 2].map(|_| random.between(0, part.subaddresses().into()) as u8);
    let mut bus = Bus::new(random, number, chips);
    for _ in 0..4 {
        let bytes = match random.below(50) {
            0 => generate::long_transfer(random),
            _ => generate::transfer(random, part),
        };
        let bits = generate::bits(random);
        let what = format!("generated transfer {seed}");
        let packed = bus.packed();
        agreed(&format!("{what}, packed"), &PACKED_TRANSFERS, |way| {
            transferred(way, &packed, &bytes, bits)
        })?;
        let outcome = agreed(&what, &TRANSFERS, |way| {
            transferred(way, &bus, &bytes, bits)
        })?;
        bus = outcome.1;
        damage(random, &mut bus);
    }
    let view = [0; 2].map(|_| random.below(20) as u8 % 3);
    let length = match random.below(10) {
        0 => part.columns() * random.below(9),
        _ => bus.columns(view[0] as usize % 2),
    };
    let what = format!("generated picture {seed}");
    agreed(&what, &PICTURES, |way| pictured(way, &bus, view, length))?;
    let packed = bus.packed();
    agreed(&format!("{what}, packed"), &PACKED_PICTURES, |way| {
        pictured(way, &packed, view, length)
    })?;
    generated_rows(seed, random, bus)
}

/// Rows of any value for a group of a bus.
fn any_writing(random: &mut Random, bus: Bus) -> Writing {
    let group = random.below(2);
    Writing {
        rows: samples::any_columns(random, bus.columns(group)),
        bus,
        group: group as u8,
        mode: random.below(4) as u8,
        bank: random.below(2) as u8,
    }
}

/// Now and then the other group or none, a mode or bank too great, rows too few or one too many, or a row of any value.
fn damage_writing(random: &mut Random, writing: &mut Writing) {
    let length = writing.rows.len();
    match random.below(24) {
        0 => writing.group = random.pick(&[0, 1, 2, 3, 255]),
        1 => writing.mode = random.pick(&[4, 5, 255]),
        2 => writing.bank = random.pick(&[2, 3, 255]),
        3 => writing.rows.resize(random.below(length + 2), 0),
        4 | 5 if length > 0 => writing.rows[random.below(length)] = random.byte(),
        _ => {}
    }
}

/// With more room than any transfer needs, then with room for just the transfer or a byte less.
fn generated_rows(seed: u64, random: &mut Random, bus: Bus) -> Result<(), String> {
    let mut writing = any_writing(random, bus);
    for _ in 0..2 {
        damage_writing(random, &mut writing);
    }
    let what = format!("generated rows {seed}");
    let (answer, _) = agreed(&what, &WRITERS, |way| written(way, &writing, ROOM))?;
    let room = answer[2].saturating_sub(random.below(2));
    agreed(&what, &WRITERS, |way| written(way, &writing, room))?;
    let what = format!("generated elements {seed}");
    let (answer, _) = agreed(&what, &THREE_WRITERS, |way| written(way, &writing, THREE))?;
    let room = answer[2].saturating_sub(random.below(2));
    agreed(&what, &THREE_WRITERS, |way| written(way, &writing, room))?;
    Ok(())
}

pub fn check() -> Result<(), String> {
    for setup in samples::filled() {
        timed_transfers(setup)?;
    }
    for setup in samples::shown() {
        timed_pictures(setup)?;
    }
    for setup in samples::filled() {
        timed_writings(setup)?;
    }
    for seed in 0..GENERATED {
        generated(seed)?;
    }
    short::check()?;
    three::check()?;
    prices::check()?;
    replay::check()?;
    accounts::check()?;
    growth::check()
}
