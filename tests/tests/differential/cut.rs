//! Request 8 of paper 02: transfers that end inside their last byte, and what the marks refuse afterwards, by library and model, in both accounts, and held to the paper as well.

use crate::case::{clear_marks, refusal_of, Call, Case, MARKS, PARTS};
use crate::plain::{self, CHIP};
use crate::{fault, for_seeds};
use humtrellis_tests::generate::{self, commands_then_data, is_data, shape};
use humtrellis_tests::model::{none, ANSWER, COLUMNS, SET, TRANSFER_LIMIT, WHOLE};

/// Bits of a cut byte.
const CUTS: std::ops::RangeInclusive<u8> = 1..=7;

/// Every set of three marks.
fn every_mark() -> impl Iterator<Item = [u8; 3]> {
    (0..8).map(|set| [set & 1, set >> 1 & 1, set >> 2])
}

// ---- Every cut -------------------------------------------------------------

/// The whole bytes before a place; before byte 0 none has come, and one that nobody hears stands for that.
fn whole_before(bytes: &[u8], place: usize) -> Vec<u8> {
    match place {
        0 => vec![0x50],
        _ => bytes[..place].to_vec(),
    }
}

/// A case of known pointers and counters, cut in one of its bytes: the bus, and the list of its chips, end as after the whole bytes before, but for the marks.
fn expect_cuts(case: &Case, place: usize) {
    let mut whole = case.clone();
    whole.bytes = whole_before(&case.bytes, place);
    whole.bits = WHOLE;
    plain::compare_accounts(&mut whole);
    let (group, heard) = ((case.bytes[0] == 0x72) as usize, whole.answer[2] > 0);
    let mut registers = whole.registers.clone();
    if heard && is_data(&case.bytes, place) {
        registers[SET * group + MARKS..][..3].fill(1);
    }
    for bits in CUTS {
        let mut cut = case.clone();
        cut.bytes.truncate(place + 1);
        cut.bits = bits;
        plain::compare_accounts(&mut cut);
        assert_eq!((&cut.answer, &cut.ram), (&whole.answer, &whole.ram));
        assert_eq!(cut.registers, registers);
    }
}

/// The same of any chips: those that hear get the marks, selected or not.
fn expect_list_cuts(part: u8, chips: &[u8], bytes: &[u8], place: usize) {
    let (mut whole, mut answer) = (chips.to_vec(), [77; ANSWER]);
    let before = whole_before(bytes, place);
    plain::compare_into(part, &mut whole, &before, WHOLE, &mut answer);
    let group = (bytes[0] == 0x72) as u8;
    if answer[2] > 0 && is_data(bytes, place) {
        let hearing = whole.chunks_mut(CHIP).filter(|chip| chip[COLUMNS] == group);
        hearing.for_each(|chip| chip[CHIP - 3..].fill(1));
    }
    for bits in CUTS {
        let (mut cut, mut cut_answer) = (chips.to_vec(), [77; ANSWER]);
        plain::compare_into(part, &mut cut, &bytes[..=place], bits, &mut cut_answer);
        assert_eq!((cut_answer, &cut), (answer, &whole));
    }
}

/// Every cut of a generated transfer.
#[test]
fn cut_everywhere() {
    for_seeds(130, |random| {
        let mut case = fault::good_case(random);
        let part = case.part;
        let mut chips = plain::list(random, part);
        clear_marks(&mut case.registers, SET);
        clear_marks(&mut chips, CHIP);
        case.bytes = generate::good_transfer(random, shape(part));
        for place in 0..case.bytes.len() {
            expect_cuts(&case, place);
            expect_list_cuts(part, &chips, &case.bytes, place);
        }
    });
}

/// Every cut of any transfer, with a fault or without, from any marks.
#[test]
fn cut_anywhere() {
    for_seeds(400, |random| {
        let case = fault::good_case(random);
        let part = case.part;
        let chips = plain::list(random, part);
        let bytes = generate::transfer(random, shape(part));
        for (length, bits) in (0..=bytes.len()).flat_map(|x| (0..=9).map(move |y| (x, y))) {
            let mut cut = case.clone();
            (cut.bytes, cut.bits) = (bytes[..length].to_vec(), bits);
            plain::compare_accounts(&mut cut);
            plain::compare_bits(part, &mut chips.clone(), &cut.bytes, bits);
        }
    });
}

/// Transfers one after another, cut ones among them: what the bus holds is what its chips hold one by one.
#[test]
fn cut_sequences() {
    for_seeds(500, |random| {
        let mut case = fault::good_case(random);
        case.compare(Call::PowerOn);
        for _ in 0..40 {
            case.bytes = fault::transfer(random, case.part);
            case.bits = generate::bits(random);
            plain::compare_accounts(&mut case);
        }
    });
}

/// The longest transfers and longer ones, with every number of bits that a byte has, and others.
#[test]
fn cut_lengths() {
    for part in 0..2 {
        for address in [0x70, 0x71] {
            for length in TRANSFER_LIMIT - 1..=TRANSFER_LIMIT + 1 {
                for bits in (0..=9).chain([255]) {
                    let mut case = Case::new(part, [2, 1]);
                    case.bytes = [vec![address, 0x40], vec![0xA5; length - 2]].concat();
                    case.bits = bits;
                    let expected = match (length, bits) {
                        (4097, _) => 2,
                        (_, 1..=8) => 0,
                        _ => 19,
                    };
                    assert_eq!(plain::compare_accounts(&mut case), expected);
                }
            }
        }
    }
}

/// Every number of bits for a byte of each kind, heard or not, from known and unknown marks.
#[test]
fn cut_bit_counts() {
    let transfers: [(&[u8], usize); 7] = [
        (&[0x70], 0),
        (&[0x70, 0x3F], 17),
        (&[0x70, 0x00, 0xFC], 7),
        (&[0x70, 0x80, 0xE0], 0),
        (&[0x70, 0x40, 0xA5], 18),
        (&[0x71, 0x40, 0xA5], 0),
        (&[0x72, 0x00, 0xFC], 0),
    ];
    for part in PARTS {
        for (bytes, whole) in transfers {
            for (bits, mark) in (0..=255).flat_map(|bits| [(bits, 0), (bits, 1)]) {
                let mut case = Case::new(part, [1, 0]);
                case.registers[MARKS..SET].fill(mark);
                (case.bytes, case.bits) = (bytes.to_vec(), bits);
                let refusal = match (refusal_of(part), bits, whole) {
                    (16, _, _) => [16, 0],
                    (_, 1..=8, 18) if mark == 1 => [18, 2],
                    (_, 1..=7, _) | (_, 8, 18) => [0, 0],
                    (_, 8, 0) => [0, 0],
                    (_, 8, _) => [whole, bytes.len() - 1],
                    _ => [19, 0],
                };
                plain::compare_accounts(&mut case);
                assert_eq!(case.answer[..2], refusal);
            }
        }
    }
}

// ---- Marks -----------------------------------------------------------------

/// Commands, and the marks that each restores.
type Restoring = [(u8, [bool; 3]); 4];

const LARGE: Restoring = [
    (0x05, [true, false, false]),
    (0x43, [false, true, false]),
    (0xE1, [false, false, true]),
    (0xC8, [false; 3]),
];

const SMALL: Restoring = [
    (0x05, [true, true, false]),
    (0x43, [true, true, false]),
    (0xE1, [false, false, true]),
    (0xC8, [false; 3]),
];

/// What marks become by a command.
fn restored(marks: [u8; 3], by: [bool; 3]) -> [u8; 3] {
    [0, 1, 2].map(|mark| if by[mark] { 0 } else { marks[mark] })
}

/// Some of these commands, then a data byte, whole or cut, as one transfer: refused with the data byte's place while a mark is left, and then all is as it was.
fn expect_data(case: &Case, commands: &[(u8, [bool; 3])]) {
    let group = (case.bytes[0] == 0x72) as usize;
    let place = SET * group + MARKS;
    let marks = case.registers[place..place + 3].try_into().expect("marks");
    let left = commands
        .iter()
        .fold(marks, |marks, (_, by)| restored(marks, *by));
    let bytes: Vec<u8> = commands.iter().map(|(command, _)| *command).collect();
    for bits in [8, 1, 7] {
        let mut sent = case.clone();
        sent.bytes = commands_then_data(case.bytes[0], &bytes, &[0xA5]);
        sent.bits = bits;
        let mut after = sent.clone();
        if plain::compare_accounts(&mut sent) == 0 {
            assert_eq!(left, [0; 3]);
            assert_eq!(sent.registers[place..place + 3], [(bits < 8) as u8; 3]);
        } else {
            assert_ne!(left, [0; 3]);
            let place = sent.bytes.len() - 1;
            after.answer = vec![18, place, 0, 0, 0, none(case.part)];
            assert_eq!(sent, after);
        }
    }
    let mut sent = case.clone();
    sent.bytes = [&[case.bytes[0], 0x00], &bytes[..]].concat();
    assert_eq!(plain::compare_accounts(&mut sent), 0);
    assert_eq!(sent.registers[place..place + 3], left);
}

/// From every set of marks of both groups, no command up to three of these in every order.
#[test]
fn cut_restored() {
    for (part, commands) in [(0, LARGE), (1, SMALL)] {
        for (own, other) in every_mark().flat_map(|x| every_mark().map(move |y| (x, y))) {
            for (group, address) in [(0, 0x70), (1, 0x72)] {
                let mut case = Case::new(part, [2, 2]);
                case.bytes[0] = address;
                case.registers[SET * group + MARKS..][..3].copy_from_slice(&own);
                case.registers[SET * (1 - group) + MARKS..][..3].copy_from_slice(&other);
                for order in 0..64 {
                    let order = [order % 4, order / 4 % 4, order / 16];
                    let order = order.map(|index| commands[index]);
                    for count in 0..=3 {
                        expect_data(&case, &order[..count]);
                    }
                }
            }
        }
    }
}

/// Three chips, each with its own marks: data is refused where one that hears has an unknown mark, and a cut data byte leaves the others' marks.
#[test]
fn cut_unequal_chips() {
    let marks: Vec<[u8; 3]> = every_mark().collect();
    for part in 0..2 {
        for state in 0..8 * 8 * 8 * 8 {
            let own = [state, state / 8, state / 64].map(|set| marks[set % 8]);
            let mut chips = vec![0; 3 * CHIP];
            for (index, chip) in chips.chunks_mut(CHIP).enumerate() {
                chip[COLUMNS] = (state >> (9 + index) & 1) as u8;
                chip[COLUMNS + 1] = index as u8;
                chip[CHIP - 3..].copy_from_slice(&own[index]);
            }
            for (group, address) in [(0, 0x70), (1, 0x72)] {
                let unknown = |chip: &[u8]| chip[COLUMNS] == group && chip[CHIP - 3..] != [0; 3];
                let refused = chips.chunks(CHIP).any(unknown);
                let data = [address, 0x40, 0xA5];
                for bits in [8, 4] {
                    let number = plain::compare_bits(part, &mut chips.clone(), &data, bits);
                    assert_eq!(number, if refused { 18 } else { 0 });
                }
                if !refused {
                    expect_list_cuts(part, &chips, &data, 2);
                }
            }
        }
    }
}
