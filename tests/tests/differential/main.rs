//! The proved library against the model: every number returned and every byte of every buffer.
//! Fixed seeds; SOAK=seconds goes on with other seeds, FEWER=n tries an n-th of them.

mod case;
mod chip;
mod control;
mod cut;
mod fault;
mod hex;
mod last_chip;
mod library;
mod merge;
mod orders;
mod packed;
mod part;
mod plain;
mod price;
mod replay;
mod rescue;
mod seen;
mod stops;
mod three;
mod writer;
mod writing;

use case::{refusal_of, Call, Case, MARKS};
use humtrellis_tests::generate::{self, shape};
use humtrellis_tests::model::{Part, REGISTERS, SET, WHOLE};
use humtrellis_tests::random::Random;
use std::time::{Duration, Instant};

/// Runs a test for each seed below `count`, or an n-th of them where FEWER says so, then for more seeds as long as SOAK says.
pub fn for_seeds(count: u64, test: fn(&mut Random)) {
    let end = Instant::now() + Duration::from_secs(setting("SOAK", 0));
    let enough = count.div_ceil(setting("FEWER", 1));
    let mut seed = 0;
    while seed < enough || Instant::now() < end {
        test(&mut Random::new(seed));
        seed += 1;
    }
}

/// A number from the environment.
fn setting(name: &str, default: u64) -> u64 {
    std::env::var(name).map_or(default, |text| text.parse().unwrap_or_else(|_| panic!("{name}: a number")))
}

#[test]
fn good_cases() {
    for_seeds(150_000, |random| {
        let case = fault::good_case(random);
        case.try_all();
    });
}

#[test]
fn damaged_cases() {
    for_seeds(300_000, |random| {
        let case = fault::damaged_case(random);
        case.try_all();
    });
}

/// Power-on, then transfers one after another with the state carried over, and pictures between.
#[test]
fn sequences() {
    for_seeds(1500, |random| {
        let mut case = fault::good_case(random);
        case.compare(Call::PowerOn);
        for _ in 0..60 {
            case.bytes = fault::transfer(random, case.part);
            case.bits = generate::bits(random);
            case.compare(Call::Transfer);
            compare_pictures(&case);
        }
    });
}

fn compare_pictures(case: &Case) {
    for shown in [[0, 0], [0, 1], [1, 0], [1, 1]] {
        compare_picture(case, shown);
    }
}

/// The picture of a group at a phase, and its answer.
fn compare_picture(case: &Case, shown: [u8; 2]) -> (Vec<u8>, Vec<usize>) {
    let mut case = case.clone();
    case.show(shown);
    assert_eq!(case.compare(Call::Picture), refusal_of(case.part));
    (case.out, case.answer)
}

/// A case of `chips` in one group, the other having one chip, with RAM of a pattern that differs from chip to chip.
fn patterned(part: Part, group: usize, chips: u8) -> Case {
    let mut counts = [1, 1];
    counts[group] = chips;
    let mut case = Case::new(part.number(), counts);
    for (place, column) in case.ram.iter_mut().enumerate() {
        *column = ((place * 7 + place / 16) % 16) as u8;
    }
    case
}

/// Registers with every M, P, A and I.
fn every_place(part: Part) -> impl Iterator<Item = [u8; MARKS]> {
    let (columns, counters) = (part.columns(), part.subaddresses() as usize + 1);
    (0..columns * counters * 4 * 2).map(move |state| {
        let (p, rest) = (state % columns, state / columns);
        let (a, rest) = (rest % counters, rest / counters);
        [1, 0, rest % 4, p, a, rest / 4, 0, 0, 0].map(|value| value as u8)
    })
}

/// A data byte from every pointer, counter, mode and input bank.
#[test]
fn every_position() {
    let mut random = Random::new(1);
    for part in Part::BOTH {
        for chips in 0..=part.subaddresses() {
            let group = chips as usize % 2;
            let address = [0x70, 0x72][group];
            let mut case = patterned(part, group, chips);
            for set in every_place(part) {
                case.registers[SET * group..][..MARKS].copy_from_slice(&set);
                case.bytes = vec![address, 0x40, random.byte(), random.byte()];
                assert_eq!(case.try_call(Call::Transfer), 0);
            }
        }
    }
}

/// Transfers with one byte as address, control byte, command and data, and another one as a command.
fn with_byte(address: u8, byte: u8, other: u8) -> [Vec<u8>; 7] {
    [
        vec![byte, 0x00, other],
        vec![address, byte],
        vec![address, byte, other],
        vec![address, byte, other, 0x40, 0xA5],
        vec![address, 0x80, byte, 0x40, 0x3C],
        vec![address, 0x00, other, byte, other],
        vec![address, 0xC0, byte, 0x80, byte, 0x40],
    ]
}

/// Every command byte, control byte and address byte.
#[test]
fn every_byte() {
    let mut random = Random::new(2);
    for (part, chips) in [
        (0, [1, 0]),
        (0, [0, 1]),
        (0, [2, 3]),
        (1, [1, 0]),
        (1, [0, 1]),
        (1, [5, 8]),
    ] {
        let mut case = Case::new(part, chips);
        for byte in 0..=255 {
            case.registers = fault::registers(&mut random, part);
            let other = generate::command(&mut random, shape(part));
            for address in [0x70, 0x72] {
                for bytes in with_byte(address, byte, other) {
                    case.bytes = bytes;
                    for bits in [WHOLE, random.between(1, 7) as u8] {
                        case.bits = bits;
                        case.try_call(Call::Transfer);
                    }
                }
            }
        }
    }
}

/// Every value of every register.
#[test]
fn every_register() {
    for part in Part::BOTH {
        for place in 0..REGISTERS {
            for value in 0..=255 {
                let mut case = patterned(part, 0, 1);
                case.registers[place] = value;
                case.bytes = vec![[0x70, 0x72][place / SET], 0x80, 0x03, 0x40, 0xA5];
                case.shown = [(place / SET) as u8, 1];
                case.try_all();
            }
        }
    }
}

/// Registers with every E, B, M, I, O, AB and BF; P and A vary too.
pub fn every_setting(part: Part) -> impl Iterator<Item = [u8; MARKS]> {
    let (columns, counters) = (part.columns(), part.subaddresses() as usize + 1);
    (0..2 * 2 * 4 * 2 * 2 * 2 * 4).map(move |state| {
        let (e, b, m) = (state % 2, state / 2 % 2, state / 4 % 4);
        let (i, o) = (state / 16 % 2, state / 32 % 2);
        let (ab, bf) = (state / 64 % 2, state / 128);
        [e, b, m, state % columns, state % counters, i, o, ab, bf].map(|value| value as u8)
    })
}

/// Every setting in a group of no chip up to the most, over all column values, at both phases.
#[test]
fn every_picture() {
    for part in Part::BOTH {
        for (group, chips) in (0..=part.subaddresses()).flat_map(|chips| [(0, chips), (1, chips)]) {
            let mut case = patterned(part, group, chips);
            for set in every_setting(part) {
                case.registers[SET * group..][..MARKS].copy_from_slice(&set);
                compare_pictures(&case);
            }
        }
    }
}

/// A column over 15 at every place of the RAM.
#[test]
fn every_wrong_column() {
    for (part, chips) in [(0, [4, 4]), (1, [8, 8])] {
        for place in 0..1280 {
            let mut case = Case::new(part, chips);
            case.ram[place] = 16;
            case.ram[1279] = 255;
            assert_eq!(case.try_all(), [5, 5, 5]);
        }
    }
}

/// Transfers of every length near the limits, and long runs.
#[test]
fn every_length() {
    for_seeds(40, |random| {
        let mut case = fault::good_case(random);
        for length in [0, 1, 2, 3, 1280, 4094, 4095, 4096, 4097, 5000, 70_000] {
            case.bytes = generate::transfer_of_length(random, length);
            case.try_call(Call::Transfer);
        }
    });
}
