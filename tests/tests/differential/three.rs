//! Request 12 of paper 02: the transfer that sets rows 0 to 2 of every column of a group, by library and model; then run by the library in both accounts, and held to the paper as well.

use crate::writer::any_setting;
use crate::writing::*;
use crate::{compare_picture, for_seeds, plain};
use humtrellis_tests::model::{SET, WHOLE};
use humtrellis_tests::random::Random;

#[test]
fn three_good_calls() {
    for_seeds(20_000, |random| expect_good_call(random, THREE));
}

#[test]
fn three_damaged_calls() {
    for_seeds(60_000, |random| {
        damaged_writing(random, THREE).compare();
    });
}

#[test]
fn three_every_refusal() {
    hold_every_refusal(|_| THREE);
}

// ---- The library's transfer run by the library -----------------------------

/// Every part, chip count and group.
#[test]
fn three_every_chip_count() {
    for_seeds(20, |random| {
        for writing in every_writing(random, &[THREE]) {
            run_any(random, writing);
        }
    });
}

#[test]
fn three_runs() {
    for_seeds(1000, |random| {
        let (_, writing) = bus_and_writing(random, THREE);
        run_any(random, writing);
    });
}

/// Either writer as often as the other.
fn any_writer(random: &mut Random) -> Setting {
    match random.below(2) {
        0 => THREE,
        _ => any_setting(random),
    }
}

/// Both writers mixed, in any modes and banks.
#[test]
fn three_and_rows_sequences() {
    for_seeds(300, |random| run_sequence(random, any_writer));
}

/// Behind a plain run of the same rows in 1:3 the rest is filled, and such a run behind that finds every row as it is.
#[test]
fn three_between_plain_runs() {
    for_seeds(300, |random| {
        let (case, mut three) = bus_and_writing(random, THREE);
        if three.own_chips() == 0 {
            return;
        }
        let filled = three.ram_after(&case.ram);
        let mut run = three.clone();
        run.setting = Some([3, random.below(2) as u8]);
        let after = expect_run(&run, case.ram);
        three.registers = after.registers;
        let after = expect_run(&three, after.ram);
        assert_eq!(after.ram, filled);
        run.registers = after.registers;
        assert_eq!(expect_run(&run, after.ram).ram, filled);
    });
}

#[test]
fn three_after_a_cut() {
    for_seeds(500, |random| run_after_a_cut(random, THREE));
}

/// The last two bits of each data byte are overwritten by the next one, and lost in the last: other ones leave the same bus and the same answer.
#[test]
fn three_spare_bits() {
    for_seeds(300, |random| {
        let (mut case, writing) = bus_and_writing(random, THREE);
        if writing.own_chips() == 0 {
            return;
        }
        (case.bytes, case.bits) = (writing.transfer(), WHOLE);
        for column in 0..writing.wanted.len() {
            if let Some((byte, _)) = writing.place_of(column, 0) {
                case.bytes[byte] |= random.byte() & 3;
            }
        }
        let after = expect_run(&writing, case.ram.clone());
        assert_eq!(plain::compare_accounts(&mut case), 0);
        assert_eq!(case.registers, after.registers);
        assert_eq!((case.ram, case.answer), (after.ram, after.answer));
    });
}

/// With the display on and not blinking, each element is lit just where it is wanted.
#[test]
fn three_every_element() {
    for_seeds(300, |random| {
        let (case, mut writing) = bus_and_writing(random, THREE);
        let own = SET * writing.group as usize;
        (writing.registers[own], writing.registers[own + 8]) = (1, 0);
        if writing.own_chips() > 0 {
            let after = expect_run(&writing, case.ram);
            let (picture, answer) = compare_picture(&after, [writing.group, 0]);
            let wanted: Vec<u8> = writing.wanted.iter().map(|column| column & 7).collect();
            let lit: u32 = wanted.iter().map(|column| column.count_ones()).sum();
            assert_eq!((picture, answer[2]), (wanted, lit as usize));
        }
    });
}

#[test]
fn three_every_bit() {
    hold_every_bit(&[THREE]);
}

/// Bit 3 of any wanted columns turned: the bytes are the same.
#[test]
fn three_row_3() {
    for_seeds(60, |random| expect_unreached_bits(random, &[THREE]));
}

/// All but E and B: pointer, counter, M, banks, marks and blinking, and all of the other group's.
#[test]
fn three_other_registers() {
    for_seeds(500, |random| expect_other_registers(random, THREE, &[0, 1]));
}

// ---- Refusals --------------------------------------------------------------

#[test]
fn three_orders() {
    hold_orders(THREE);
}

#[test]
fn three_sizes() {
    hold_sizes(THREE);
}

#[test]
fn three_parts() {
    hold_parts(THREE);
}

#[test]
fn three_chip_counts() {
    hold_chip_counts(THREE);
}

#[test]
fn three_registers() {
    hold_registers(THREE);
}

#[test]
fn three_groups() {
    hold_groups(THREE);
}

#[test]
fn three_wanted_lengths() {
    hold_wanted_lengths(THREE);
}

#[test]
fn three_every_wrong_column() {
    hold_every_wrong_column(THREE);
}

#[test]
fn three_every_column_value() {
    hold_every_column_value(&[THREE]);
}

#[test]
fn three_every_room() {
    hold_every_room(&[THREE]);
}
