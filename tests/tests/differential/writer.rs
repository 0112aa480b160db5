//! Request 2 of paper 02: the transfer that puts a group's wanted rows into its RAM, by library and model; then run by the library in both accounts, and held to the paper as well.

use crate::for_seeds;
use crate::writing::*;
use humtrellis_tests::random::Random;

/// Every wanted M and I.
const SETTINGS: [Setting; 8] = [
    Some([0, 0]),
    Some([0, 1]),
    Some([1, 0]),
    Some([1, 1]),
    Some([2, 0]),
    Some([2, 1]),
    Some([3, 0]),
    Some([3, 1]),
];

pub fn any_setting(random: &mut Random) -> Setting {
    random.pick(&SETTINGS)
}

#[test]
fn writer_good_calls() {
    for_seeds(80_000, |random| {
        let setting = any_setting(random);
        expect_good_call(random, setting);
    });
}

#[test]
fn writer_damaged_calls() {
    for_seeds(120_000, |random| {
        let setting = any_setting(random);
        damaged_writing(random, setting).compare();
    });
}

#[test]
fn writer_every_refusal() {
    hold_every_refusal(any_setting);
}

// ---- The library's transfer run by the library -----------------------------

/// Every part, chip count, group, M and I.
#[test]
fn writer_every_setting() {
    for_seeds(10, |random| {
        for writing in every_writing(random, &SETTINGS) {
            run_any(random, writing);
        }
    });
}

#[test]
fn writer_runs() {
    for_seeds(5000, |random| {
        let setting = any_setting(random);
        let (_, writing) = bus_and_writing(random, setting);
        run_any(random, writing);
    });
}

/// Any modes and banks.
#[test]
fn writer_sequences() {
    for_seeds(300, |random| run_sequence(random, any_setting));
}

#[test]
fn writer_after_a_cut() {
    for_seeds(2000, |random| {
        let setting = any_setting(random);
        run_after_a_cut(random, setting);
    });
}

#[test]
fn writer_every_bit() {
    hold_every_bit(&SETTINGS);
}

#[test]
fn writer_unreached_bits() {
    for_seeds(20, |random| expect_unreached_bits(random, &SETTINGS));
}

/// All but E, B and O: pointer, counter, M, I, marks and blinking, and all of the other group's.
#[test]
fn writer_other_registers() {
    for_seeds(1000, |random| {
        let setting = any_setting(random);
        expect_other_registers(random, setting, &[0, 1, 6]);
    });
}

// ---- Refusals --------------------------------------------------------------

#[test]
fn writer_orders() {
    hold_orders(Some([2, 1]));
}

#[test]
fn writer_sizes() {
    hold_sizes(Some([2, 1]));
}

#[test]
fn writer_parts() {
    hold_parts(Some([3, 0]));
}

#[test]
fn writer_chip_counts() {
    hold_chip_counts(Some([1, 0]));
}

#[test]
fn writer_registers() {
    hold_registers(Some([1, 1]));
}

/// Every wanted M with a few I and every I with a few M, on both sides of their edges; every group.
#[test]
fn writer_modes_banks_and_groups() {
    let few = [0, 1, 2, 3, 4, 255];
    let pairs = |any| {
        few.into_iter()
            .flat_map(move |one| [[any, one], [one, any]])
    };
    for part in 0..2 {
        for setting @ [mode, bank] in (0..=255).flat_map(pairs) {
            let expected = if mode > 3 || bank > 1 { 6 } else { 0 };
            let writing = Writing::new(part, [1, 0], 0, Some(setting));
            assert_eq!(writing.try_call(), expected);
        }
    }
    hold_groups(Some([0, 0]));
}

#[test]
fn writer_wanted_lengths() {
    hold_wanted_lengths(Some([2, 0]));
}

#[test]
fn writer_every_wrong_column() {
    hold_every_wrong_column(Some([1, 0]));
    hold_every_wrong_column(Some([3, 1]));
}

#[test]
fn writer_every_column_value() {
    hold_every_column_value(&SETTINGS);
}

#[test]
fn writer_every_room() {
    hold_every_room(&SETTINGS);
}
