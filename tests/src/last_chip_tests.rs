//! Request 4 of paper 02: the chip that acknowledged a transfer's last data byte, in both accounts.

use super::*;

/// The chip that both accounts name for a transfer to so many chips of group 0.
fn chip(chips: u8, bytes: &[u8]) -> usize {
    Bus::new(chips, 0).answer(bytes).chip
}

/// A data byte in a mode, from a counter and a pointer.
fn byte_at(mode: u8, a: u8, p: u8) -> Vec<u8> {
    let commands = [0xC0 | mode, 0xE0 | a, p / 16, 0x40 | (p % 16)];
    generate::commands_then_data(0x70, &commands, &[0xA5])
}

#[test]
fn each_chip() {
    for chips in 0..=4 {
        for a in 0..4 {
            let expected = if a < chips { a.into() } else { 4 };
            assert_eq!(chip(chips, &byte_at(0, a, 0)), expected);
        }
    }
    let bytes = [0x72, 0x80, 0xE2, 0x40, 0xA5];
    let (registers, ram) = (&mut [0; REGISTERS], &mut [0; 640]);
    let group1 = transfer(PCF8532, 1, 3, registers, ram, &bytes, WHOLE);
    assert_eq!(group1.chip, 2);
}

/// A byte that begins in one chip and ends in the next: the last column counts, not the first.
#[test]
fn last_column() {
    for (mode, inside) in [(1, 152), (2, 156), (3, 157), (0, 158)] {
        assert_eq!(chip(2, &byte_at(mode, 0, inside)), 0);
        assert_eq!(chip(4, &byte_at(mode, 3, inside)), 3);
        for p in inside + 1..160 {
            assert_eq!(chip(2, &byte_at(mode, 0, p)), 1);
            assert_eq!(chip(1, &byte_at(mode, 0, p)), 4);
            assert_eq!(chip(4, &byte_at(mode, 3, p)), 4);
        }
    }
}

#[test]
fn last_byte() {
    let mut bytes = byte_at(0, 0, 156);
    for expected in [0, 0, 1, 1] {
        assert_eq!(chip(2, &bytes), expected);
        bytes.push(0xA5);
    }
    assert_eq!(
        chip(2, &[0x70, 0x80, 0xE1, 0xC0, 0, 0x80, 0xE0, 0xC0, 0]),
        0
    );
    assert_eq!(chip(2, &[0x70, 0xC0, 0, 0x80, 0xE1, 0x40, 0]), 1);
    assert_eq!(chip(2, &[0x70, 0xC0, 0, 0x80, 0xE1, 0xC0, 0, 0xC0, 0]), 1);
}

/// Control bytes and commands behind the last data byte change nothing.
#[test]
fn commands_behind() {
    let data = [0x70, 0x80, 0xE1, 0xC0, 0xA5];
    let behind: [&[u8]; 7] = [
        &[],
        &[0x00],
        &[0x40],
        &[0x80],
        &[0xC0],
        &[0x80, 0xE0, 0x80, 0xC9],
        &[0x00, 0xE3, 0x09, 0x4F, 0xC1],
    ];
    for bytes in behind {
        assert_eq!(chip(2, &[&data, bytes].concat()), 1);
    }
}

/// An unacknowledged last byte gives none, though earlier ones were acknowledged, and the other way round.
#[test]
fn not_acknowledged() {
    let mut bytes = byte_at(0, 1, 158);
    assert_eq!(chip(2, &bytes), 1);
    bytes.push(0xA5);
    assert_eq!(chip(2, &bytes), 4);
    assert_eq!(chip(2, &[0x70, 0xC0, 0, 0x80, 0xE2, 0x40, 0]), 4);
    assert_eq!(
        chip(2, &[0x70, 0xC0, 0, 0x80, 0xE3, 0xC0, 0, 0x00, 0xE0]),
        4
    );
    assert_eq!(
        chip(2, &[0x70, 0x80, 0xE3, 0xC0, 0, 0x80, 0xE0, 0x40, 0]),
        0
    );
}

#[test]
fn no_data_byte() {
    let transfers: [&[u8]; 5] = [
        &[0x70],
        &[0x70, 0x40],
        &[0x70, 0xC0],
        &[0x70, 0x00, 0xE1, 0xC8],
        &[0x70, 0x80, 0xE1, 0x40],
    ];
    for bytes in transfers {
        assert_eq!(chip(2, bytes), 4);
    }
}

#[test]
fn unheard() {
    for address in [0x71, 0x72, 0x73, 0x50] {
        assert_eq!(chip(2, &[address, 0x40, 0xA5]), 4);
    }
    assert_eq!(chip(0, &[0x70, 0x40, 0xA5]), 4);
    let mut other = [Chip::new(1, 0)];
    let unheard = plain_transfer(PCF8532, &mut other, &[0x70, 0x40, 0xA5], WHOLE);
    assert_eq!(unheard.chip, 4);
}

/// Refused transfers of the long account, each with a data byte that a chip would acknowledge, but for the empty one.
#[test]
fn refused_transfers() {
    let data = [0x70, 0xC0, 0xA5];
    let refused = |chips, registers: [u8; REGISTERS], column, bytes: &[u8]| {
        let (mut registers, mut ram) = (registers, vec![column; COLUMNS]);
        let answer = transfer(PCF8532, chips, 0, &mut registers, &mut ram, bytes, WHOLE);
        answer.numbers()
    };
    let zeros = [0; REGISTERS];
    let long = [&[0x70, 0x40][..], &[0; 4095]].concat();
    assert_eq!(refused(5, zeros, 0, &data), [3, 0, 0, 0, 0, 4]);
    assert_eq!(refused(1, [9; REGISTERS], 0, &data), [6, 0, 0, 0, 0, 4]);
    assert_eq!(refused(2, zeros, 0, &data), [4, 0, 0, 0, 0, 4]);
    assert_eq!(refused(1, zeros, 16, &data), [5, 0, 0, 0, 0, 4]);
    assert_eq!(refused(1, zeros, 0, &[]), [1, 0, 0, 0, 0, 4]);
    assert_eq!(refused(1, zeros, 0, &long), [2, 0, 0, 0, 0, 4]);
    let undefined = [&data[..], &[0x00, 0xFC]].concat();
    assert_eq!(refused(1, zeros, 0, &undefined), [7, 4, 0, 0, 0, 4]);
    let stray = [&data[..], &[0x01]].concat();
    assert_eq!(refused(1, zeros, 0, &stray), [17, 3, 0, 0, 0, 4]);
}

/// The same in the plain account.
#[test]
fn refused_plain_transfers() {
    let good = Chip::new(0, 0);
    let refused = |chips: &[Chip], bytes: &[u8]| {
        let answer = plain_transfer(PCF8532, &mut chips.to_vec(), bytes, WHOLE);
        answer.numbers()
    };
    let long = [&[0x70, 0x40][..], &[0; 4095]].concat();
    let data = [0x70, 0xC0, 0xA5];
    assert_eq!(refused(&[good; 9], &data), [10, 0, 0, 0, 0, 4]);
    assert_eq!(
        refused(&[good, Chip::new(0, 4)], &data),
        [11, 1, 0, 0, 0, 4]
    );
    assert_eq!(refused(&[good], &[]), [1, 0, 0, 0, 0, 4]);
    assert_eq!(refused(&[good], &long), [2, 0, 0, 0, 0, 4]);
    assert_eq!(
        refused(&[good], &[0x70, 0xC0, 0, 0, 0xFC]),
        [7, 4, 0, 0, 0, 4]
    );
    assert_eq!(refused(&[good], &[0x70, 0xC0, 0, 1]), [17, 3, 0, 0, 0, 4]);
}

/// A plain chip with its own mode, counter and pointer.
fn unequal(sa0: u8, subaddress: u8, m: u8, a: u8, p: u8) -> Chip {
    let mut chip = Chip::new(sa0, subaddress);
    (chip.registers.m, chip.registers.a, chip.registers.p) = (m, a, p);
    chip
}

/// The chip that a list names for data bytes to group 0, whichever way round it stands.
fn chip_of_list(list: &[Chip], count: usize) -> usize {
    let bytes = [vec![0x70, 0x40], vec![0xA5; count]].concat();
    let mut turned: Vec<Chip> = list.iter().rev().copied().collect();
    let named = |list: &mut [Chip]| plain_transfer(PCF8532, list, &bytes, WHOLE).chip;
    let number = named(&mut list.to_vec());
    assert_eq!(named(&mut turned), number);
    number
}

/// The smallest subaddress of those that acknowledge: not the list's first, not one that stays silent, not one of group 1.
#[test]
fn smallest_of_several() {
    let list = [
        unequal(0, 3, 0, 3, 0),
        unequal(0, 1, 0, 2, 0),
        unequal(1, 0, 0, 0, 0),
        unequal(0, 2, 0, 2, 9),
    ];
    assert_eq!(chip_of_list(&list, 1), 2);
    assert_eq!(chip_of_list(&list[..3], 1), 3);
    assert_eq!(chip_of_list(&list[1..3], 1), 4);
    assert_eq!(chip_of_list(&[unequal(0, 1, 0, 1, 5); 3], 1), 1);
}

/// Each chip goes by its own last column: subaddress 0 in static is passed at 153, subaddress 2 in 1:4 reached at 159.
#[test]
fn own_last_columns() {
    let (passed, reached) = (unequal(0, 0, 1, 0, 153), unequal(0, 2, 0, 1, 159));
    assert_eq!(chip_of_list(&[reached, passed], 1), 2);
    assert_eq!(chip_of_list(&[unequal(0, 0, 1, 0, 152), reached], 1), 0);
    assert_eq!(chip_of_list(&[unequal(0, 0, 1, 0, 152), reached], 2), 2);
    assert_eq!(chip_of_list(&[unequal(0, 2, 0, 1, 157), passed], 1), 4);
    assert_eq!(chip_of_list(&[unequal(0, 3, 0, 3, 158)], 2), 4);
}

/// A power-on and a picture have no chip: their last number is 0, refused or not.
#[test]
fn no_transfer() {
    let mut registers = [0; REGISTERS];
    let on = |chips, registers: &mut _| {
        let answer = power_on(PCF8532, chips, 0, &[0; COLUMNS], registers);
        answer.numbers()
    };
    assert_eq!(on(1, &mut registers), [0; 6]);
    assert_eq!(on(5, &mut registers), [3, 0, 0, 0, 0, 0]);
    assert_eq!(Bus::new(1, 0).show(0).0, [0; 6]);
    assert_eq!(Bus::new(1, 0).show(2).0, [8, 0, 0, 0, 0, 0]);
    let mut chip = Chip::new(0, 3);
    let shown = |length| plain_picture(PCF8532, &chip, 0, &mut vec![0; length]).numbers();
    assert_eq!(shown(160), [0; 6]);
    assert_eq!(shown(0), [9, 0, 0, 0, 0, 0]);
    assert_eq!(plain_power_on(PCF8532, &mut chip).numbers(), [0; 6]);
    chip.subaddress = 4;
    let refused = plain_power_on(PCF8532, &mut chip);
    assert_eq!(refused.numbers(), [11, 0, 0, 0, 0, 0]);
}

#[test]
fn log_lines() {
    let transfers = [
        vec![0x70, 0x80, 0xE1, 0x40, 0xA5],
        vec![0x72, 0x40, 0xA5],
        vec![0x72, 0x80, 0xE1, 0x40, 0xA5],
        vec![0x70, 0xC0, 0xA5, 0x00, 0xE0],
        vec![],
        vec![0x70, 0xC0, 0xA5, 0x01],
        vec![0x71, 0x40, 0xA5],
    ];
    let lines = [
        "T 0 0 0 5 8 0 1\n",
        "T 1 0 0 3 8 0 0\n",
        "T 2 0 0 4 0 8 4\n",
        "T 3 0 0 5 8 0 1\n",
        "T 4 1 0 0 0 0 4\n",
        "T 5 17 3 0 0 0 4\n",
        "T 6 0 0 0 0 0 4\n",
        "G 0 0\nG 1 0\n",
    ];
    assert_eq!(text(&generate::log_of(2, 1, &transfers)), lines.concat());
}
