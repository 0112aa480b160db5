//! Request 14 of paper 02: transfers to different groups end alike in either order, so that two loggers' transfers, and their logs, may be merged in any way that keeps each group's order.

use crate::case::{ram_length, Call, Case};
use crate::{compare_picture, fault, for_seeds, replay};
use humtrellis_tests::generate;
use humtrellis_tests::model::{ANSWER, SET};
use humtrellis_tests::random::Random;
use std::collections::HashSet;

/// A transfer: its bytes, and the bits of the last one.
type Sent = (Vec<u8>, u8);

/// Sends a transfer by library and model, and gives its answer.
fn send(case: &mut Case, (bytes, bits): &Sent) -> Vec<usize> {
    (case.bytes, case.bits) = (bytes.clone(), *bits);
    case.compare(Call::Transfer);
    case.answer.clone()
}

/// What the bus has of a group: its registers, its RAM, and its pictures at both phases with their answers.
#[derive(Debug, PartialEq)]
struct Group {
    set: Vec<u8>,
    ram: Vec<u8>,
    pictures: [(Vec<u8>, Vec<usize>); 2],
}

fn groups(case: &Case) -> [Group; 2] {
    let (ram0, ram1) = case.ram.split_at(ram_length(case.part, [case.chips[0], 0]));
    [(0, ram0), (1, ram1)].map(|(group, ram)| Group {
        set: case.registers[SET * group..][..SET].to_vec(),
        ram: ram.to_vec(),
        pictures: [0, 1].map(|phase| compare_picture(case, [group as u8, phase])),
    })
}

/// A group's transfers, each with its answer, and the group after all of them.
#[derive(Debug)]
struct Sequence {
    sent: Vec<(Sent, Vec<usize>)>,
    end: Group,
}

/// Sends both groups' transfers in this order: each is answered and each group ends as its sequence says.
fn expect_merge(start: &Case, sequences: &[Sequence; 2], order: &[usize]) {
    let mut case = start.clone();
    let mut left = [0, 1].map(|group| sequences[group].sent.iter());
    for (step, group) in order.iter().enumerate() {
        let (sent, answer) = left[*group].next().expect("a transfer");
        let given = send(&mut case, sent);
        assert!(
            given == *answer,
            "answer {given:?} at step {step} of {order:?}\n start {start:?}\n {sequences:?}"
        );
    }
    assert!(left.iter().all(|left| left.len() == 0));
    let ends = groups(&case);
    assert!(
        ends.iter()
            .eq(sequences.iter().map(|sequence| &sequence.end)),
        "ends differ after {order:?}\n {ends:?}\n start {start:?}\n {sequences:?}"
    );
}

/// Every merge of two sequences of these lengths.
fn every_merge(lengths: [usize; 2]) -> impl Iterator<Item = Vec<usize>> {
    let steps = lengths[0] + lengths[1];
    let orders =
        (0..1 << steps).map(move |bits: usize| (0..steps).map(|x| bits >> x & 1).collect());
    orders.filter(move |order: &Vec<usize>| order.iter().sum::<usize>() == lengths[1])
}

// ---- Generated transfers ---------------------------------------------------

/// A transfer that calls this group or nobody, now and then cut in byte 0.
fn transfer(random: &mut Random, part: u8, group: usize) -> Sent {
    if random.one_in(24) {
        return (vec![random.pick(&[0x70, 0x72])], random.between(1, 7) as u8);
    }
    let mut bytes = fault::transfer(random, part);
    generate::call_group(&mut bytes, group);
    (bytes, generate::bits(random))
}

/// So many transfers of a group alone, from where the bus starts; the other group stays.
fn sequence(random: &mut Random, start: &Case, group: usize, count: usize) -> Sequence {
    let mut case = start.clone();
    let transfers = (0..count).map(|_| transfer(random, start.part, group));
    let answered = |sent| {
        let answer = send(&mut case, &sent);
        (sent, answer)
    };
    let sent = transfers.map(answered).collect();
    let [own, other] = by_group(groups(&case), group);
    let [_, before] = by_group(groups(start), group);
    assert_eq!(other, before);
    Sequence { sent, end: own }
}

/// A group's own first, then the other's.
fn by_group<T>([first, second]: [T; 2], group: usize) -> [T; 2] {
    match group {
        0 => [first, second],
        _ => [second, first],
    }
}

/// A bus from any registers and RAM, and a sequence of so many transfers for each group.
fn generated(random: &mut Random, lengths: [usize; 2]) -> (Case, [Sequence; 2]) {
    let start = fault::good_case(random);
    let sequences = [0, 1].map(|group| sequence(random, &start, group, lengths[group]));
    (start, sequences)
}

#[test]
fn merge_sequences() {
    for_seeds(400, |random| {
        let lengths = [(); 2].map(|()| random.between(1, 12));
        let (start, sequences) = generated(random, lengths);
        for _ in 0..8 {
            expect_merge(&start, &sequences, &generate::merge(random, lengths));
        }
    });
}

/// Two transfers in either order, and three of each group in all twenty.
#[test]
fn merge_everywhere() {
    for_seeds(150, |random| {
        for lengths in [[1, 1], [1, 1], [3, 3]] {
            let (start, sequences) = generated(random, lengths);
            every_merge(lengths).for_each(|order| expect_merge(&start, &sequences, &order));
        }
    });
}

/// The merges that are drawn are those that there are, and all of them.
#[test]
fn merge_orders() {
    let mut random = Random::new(14);
    for (lengths, count) in [
        ([0, 0], 1),
        ([0, 3], 1),
        ([1, 1], 2),
        ([2, 1], 3),
        ([3, 4], 35),
    ] {
        let every: HashSet<_> = every_merge(lengths).collect();
        let drawn = (0..200 * count).map(|_| generate::merge(&mut random, lengths));
        assert_eq!(drawn.collect::<HashSet<_>>(), every);
        assert_eq!(every.len(), count);
    }
}

// ---- By hand ---------------------------------------------------------------

/// A column value that all have but those named.
type Columns = (u8, &'static [(usize, u8)]);

fn columns(length: usize, (value, others): Columns) -> Vec<u8> {
    let mut columns = vec![value; length];
    for (place, other) in others {
        columns[*place] = *other;
    }
    columns
}

/// The bytes of a transfer behind its address, the bits of its last byte, and its answer.
type Answered = (&'static [u8], u8, [usize; ANSWER]);

/// A group that gets some transfers, and what the paper says of them, of the group's registers and RAM afterwards, and of its pictures.
struct Side {
    chips: u8,
    sets: [[u8; SET]; 2],
    ram: [Columns; 2],
    sent: &'static [Answered],
    shown: [Columns; 2],
}

const DARK: Columns = (0, &[]);
const ZERO: [u8; SET] = [0; SET];

impl Side {
    /// A side that none of its transfers changes, with all columns shown alike at either phase.
    const fn kept(
        chips: u8,
        set: [u8; SET],
        value: u8,
        sent: &'static [Answered],
        shown: u8,
    ) -> Self {
        Side {
            chips,
            sets: [set; 2],
            ram: [(value, &[]); 2],
            sent,
            shown: [(shown, &[]); 2],
        }
    }

    fn sequence(&self, part: u8, group: usize) -> Sequence {
        let address = [0x70, 0x72][group];
        let sent = self.sent.iter().map(|(bytes, bits, answer)| {
            let bytes = [&[address], *bytes].concat();
            ((bytes, *bits), answer.to_vec())
        });
        let length = ram_length(part, [self.chips, 0]);
        let pictures = self.shown.map(|shown| {
            let picture = columns(length, shown);
            let lit = picture.iter().map(|value| value.count_ones() as usize);
            let answer = vec![0, 0, lit.sum(), 0, 0, 0];
            (picture, answer)
        });
        let end = Group {
            set: self.sets[1].to_vec(),
            ram: columns(length, self.ram[1]),
            pictures,
        };
        let sent = sent.collect();
        Sequence { sent, end }
    }
}

/// Every pair of sides, each also with itself, in every merge.
fn expect_sides(part: u8, sides: &[Side]) {
    for (first, second) in sides.iter().flat_map(|x| sides.iter().map(move |y| (x, y))) {
        let mut case = Case::new(part, [first.chips, second.chips]);
        case.registers = [first.sets[0], second.sets[0]].concat();
        let rams =
            [first, second].map(|side| columns(ram_length(part, [side.chips, 0]), side.ram[0]));
        case.ram = rams.concat();
        let sequences = [first.sequence(part, 0), second.sequence(part, 1)];
        let lengths = [first.sent.len(), second.sent.len()];
        every_merge(lengths).for_each(|order| expect_merge(&case, &sequences, &order));
    }
}

#[test]
fn merge_large() {
    let edge: Columns = (0, &[(159, 5), (160, 10)]);
    let ends: Columns = (0, &[(156, 1), (163, 1)]);
    let last: Columns = (0, &[(159, 7)]);
    let start: Columns = (0, &[(0, 3), (1, 3)]);
    let lost = [1, 0, 1, 37, 2, 0, 0, 0, 0, 1, 1, 1];
    let sides = [
        // Data over a chip's edge.
        Side {
            chips: 2,
            sets: [ZERO, [1, 0, 0, 1, 1, 0, 0, 0, 0, 0, 0, 0]],
            ram: [DARK, edge],
            sent: &[(
                &[0x80, 0xC8, 0x80, 0x09, 0x80, 0x4F, 0x40, 0xA5],
                8,
                [0, 0, 9, 8, 0, 1],
            )],
            shown: [edge; 2],
        },
        // A cut data byte behind a whole one.
        Side {
            chips: 1,
            sets: [ZERO, [1, 0, 2, 4, 0, 0, 0, 0, 0, 1, 1, 1]],
            ram: [DARK, start],
            sent: &[(&[0x80, 0xCA, 0x40, 0xF0, 0x3C], 5, [0, 0, 5, 8, 0, 0])],
            shown: [start; 2],
        },
        // A cut data byte; then data is refused while device-select is missing, and at last taken.
        Side {
            chips: 2,
            sets: [ZERO, [1, 0, 1, 4, 1, 0, 0, 0, 0, 0, 0, 0]],
            ram: [DARK, ends],
            sent: &[
                (&[0x80, 0xC9, 0x40, 0xFF], 1, [0, 0, 4, 0, 0, 4]),
                (
                    &[0x80, 0x09, 0x80, 0x4C, 0x40, 0xFF],
                    8,
                    [18, 6, 0, 0, 0, 4],
                ),
                (
                    &[0x80, 0x09, 0x80, 0x4C, 0x80, 0xE0, 0x40, 0x81],
                    8,
                    [0, 0, 9, 8, 0, 1],
                ),
            ],
            shown: [ends; 2],
        },
        // All marks unknown, and the three commands in front of the data.
        Side {
            chips: 2,
            sets: [lost, [1, 0, 1, 4, 1, 0, 0, 0, 0, 0, 0, 0]],
            ram: [DARK, ends],
            sent: &[(
                &[0x80, 0x09, 0x80, 0x4C, 0x80, 0xE0, 0x40, 0x81],
                8,
                [0, 0, 9, 8, 0, 1],
            )],
            shown: [ends; 2],
        },
        // A mark is left: data, whole or cut, is refused, and the commands before it too.
        Side::kept(
            3,
            lost,
            9,
            &[
                (
                    &[0x80, 0xE1, 0x80, 0x43, 0x40, 0xA5],
                    8,
                    [18, 6, 0, 0, 0, 4],
                ),
                (
                    &[0x80, 0xE1, 0x80, 0x03, 0xC0, 0xA5],
                    3,
                    [18, 6, 0, 0, 0, 4],
                ),
                (
                    &[0x80, 0x09, 0x80, 0x43, 0x40, 0xA5, 0xA5],
                    8,
                    [18, 6, 0, 0, 0, 4],
                ),
            ],
            1,
        ),
        // An undefined command, a stray control bit, and bits that no byte has.
        Side::kept(
            1,
            [1, 1, 0, 159, 4, 1, 1, 0, 0, 0, 0, 0],
            15,
            &[
                (&[0x80, 0xC0, 0x00, 0xF9, 0xFC], 8, [7, 5, 0, 0, 0, 4]),
                (&[0x80, 0xC0, 0x41, 0xFF], 8, [17, 3, 0, 0, 0, 4]),
                (&[0x80, 0xC0, 0x40, 0xFF], 9, [19, 0, 0, 0, 0, 4]),
            ],
            15,
        ),
        // Cut, an undefined command and a stray control bit do nothing and are not refused; nor does a cut address.
        Side {
            chips: 4,
            sets: [ZERO, [1, 0, 1, 0, 0, 0, 0, 0, 0, 0, 0, 0]],
            ram: [(6, &[]); 2],
            sent: &[
                (&[0x00, 0xC9, 0xFC], 7, [0, 0, 3, 0, 0, 4]),
                (&[0x3F], 1, [0, 0, 1, 0, 0, 4]),
                (&[], 4, [0, 0, 0, 0, 0, 4]),
            ],
            shown: [DARK; 2],
        },
        // No chip hears: nothing but the bits is looked at.
        Side::kept(
            0,
            lost,
            0,
            &[
                (&[0x3F, 0xFC, 0x40, 0xA5], 8, [0, 0, 0, 0, 0, 4]),
                (&[0x40, 0xA5], 4, [0, 0, 0, 0, 0, 4]),
                (&[0x40, 0xA5], 0, [19, 0, 0, 0, 0, 4]),
            ],
            0,
        ),
        // The other bank at phase 1.
        Side {
            chips: 1,
            sets: [ZERO, [1, 0, 2, 0, 0, 0, 0, 1, 1, 0, 0, 0]],
            ram: [(12, &[]); 2],
            sent: &[(&[0x00, 0xCA, 0xF5, 0xF8], 8, [0, 0, 5, 0, 0, 4])],
            shown: [DARK, (3, &[])],
        },
        // Past the last chip's end; then a cut data byte there, and blinking.
        Side {
            chips: 1,
            sets: [ZERO, [1, 0, 3, 2, 1, 0, 0, 1, 2, 1, 1, 1]],
            ram: [DARK, last],
            sent: &[
                (
                    &[0x80, 0xCB, 0x80, 0x09, 0x80, 0x4F, 0x40, 0xFF],
                    8,
                    [0, 0, 8, 3, 5, 4],
                ),
                (&[0x80, 0xF6, 0x40, 0xFF], 7, [0, 0, 4, 0, 0, 4]),
            ],
            shown: [last, DARK],
        },
    ];
    expect_sides(0, &sides);
}

#[test]
fn merge_small() {
    let edge: Columns = (0, &[(79, 5), (80, 10)]);
    let start: Columns = (0, &[(0, 3), (1, 3)]);
    let last: Columns = (0, &[(79, 7)]);
    let seventh: Columns = (2, &[(560, 15), (561, 15)]);
    let lost = [1, 0, 0, 37, 2, 0, 0, 0, 0, 1, 1, 1];
    let sides = [
        // Data over a chip's edge.
        Side {
            chips: 2,
            sets: [ZERO, [1, 0, 0, 1, 1, 0, 0, 0, 0, 0, 0, 0]],
            ram: [DARK, edge],
            sent: &[(&[0x80, 0xC8, 0x80, 0x4F, 0x40, 0xA5], 8, [0, 0, 7, 8, 0, 1])],
            shown: [edge; 2],
        },
        // A cut data byte behind a whole one, then data that is refused.
        Side {
            chips: 1,
            sets: [ZERO, [1, 0, 2, 4, 0, 0, 0, 0, 0, 1, 1, 1]],
            ram: [DARK, start],
            sent: &[
                (&[0x80, 0xCA, 0x40, 0xF0, 0x3C], 5, [0, 0, 5, 8, 0, 0]),
                (&[0x40, 0xF0], 8, [18, 2, 0, 0, 0, 8]),
            ],
            shown: [start; 2],
        },
        // All marks unknown: the one pointer command and device-select restore them.
        Side {
            chips: 8,
            sets: [lost, [1, 0, 0, 2, 7, 0, 0, 0, 0, 0, 0, 0]],
            ram: [(2, &[]), seventh],
            sent: &[
                (&[0x80, 0xE7, 0x40, 0xFF], 8, [18, 4, 0, 0, 0, 8]),
                (&[0x80, 0x00, 0x40, 0xFF], 2, [18, 4, 0, 0, 0, 8]),
                (&[0x80, 0x00, 0x80, 0xE7, 0x40, 0xFF], 8, [0, 0, 7, 8, 0, 7]),
            ],
            shown: [seventh; 2],
        },
        // An undefined command, a stray control bit, and bits that no byte has.
        Side::kept(
            5,
            [1, 1, 3, 79, 8, 1, 1, 0, 0, 0, 0, 0],
            15,
            &[
                (&[0x00, 0x50], 8, [7, 2, 0, 0, 0, 8]),
                (&[0x80, 0xE8], 8, [7, 2, 0, 0, 0, 8]),
                (&[0xBF, 0x00], 8, [17, 1, 0, 0, 0, 8]),
                (&[0x40, 0xFF], 0, [19, 0, 0, 0, 0, 8]),
            ],
            7,
        ),
        // No chip hears: nothing but the bits is looked at.
        Side::kept(
            0,
            [0, 0, 0, 79, 8, 0, 0, 0, 0, 0, 1, 0],
            0,
            &[
                (&[0x3F, 0xFC, 0x40, 0xA5], 8, [0, 0, 0, 0, 0, 8]),
                (&[0x40, 0xA5], 4, [0, 0, 0, 0, 0, 8]),
                (&[0x40, 0xA5], 9, [19, 0, 0, 0, 0, 8]),
            ],
            0,
        ),
        // The counter rests: all is discarded.
        Side {
            chips: 8,
            sets: [
                [1, 0, 0, 78, 8, 0, 0, 0, 1, 0, 0, 0],
                [1, 0, 0, 2, 8, 0, 0, 0, 1, 0, 0, 0],
            ],
            ram: [(5, &[]); 2],
            sent: &[(&[0x40, 0xFF, 0xFF], 8, [0, 0, 2, 0, 16, 8])],
            shown: [(5, &[]), DARK],
        },
        // Past the last chip's end, then a cut data byte.
        Side {
            chips: 1,
            sets: [ZERO, [1, 0, 3, 2, 1, 0, 0, 0, 0, 1, 1, 1]],
            ram: [DARK, last],
            sent: &[
                (&[0x80, 0xCB, 0x80, 0x4F, 0x40, 0xFF], 8, [0, 0, 6, 3, 5, 8]),
                (&[0xC0, 0xFF], 7, [0, 0, 2, 0, 0, 8]),
            ],
            shown: [last; 2],
        },
    ];
    expect_sides(1, &sides);
}

// ---- Logs ------------------------------------------------------------------

/// A record's line under another index.
fn renumbered(line: &str, index: usize) -> String {
    let [kind, _, rest] =
        <[&str; 3]>::try_from(line.splitn(3, ' ').collect::<Vec<_>>()).expect("three words");
    format!("{kind} {index} {rest}\n")
}

/// The text of a merged log: each record's lines from its own log, and of each group what its own log ends with.
fn merged_text(texts: &[String; 2], order: &[usize]) -> String {
    let mut left = [0, 1].map(|group| texts[group].lines().peekable());
    let mut text = String::new();
    for (index, group) in order.iter().enumerate() {
        let lines = &mut left[*group];
        text += &renumbered(
            lines
                .next_if(|line| line.starts_with('T'))
                .expect("a record"),
            index,
        );
        if let Some(line) = lines.next_if(|line| line.starts_with('A')) {
            text += &renumbered(line, index);
        }
    }
    let ends = left.map(Iterator::collect::<Vec<_>>);
    for kind in ["S", "G"] {
        for (group, end) in ends.iter().enumerate() {
            let start = format!("{kind} {group} ");
            let lines = end.iter().filter(|line| line.starts_with(&start));
            lines.for_each(|line| text += &format!("{line}\n"));
        }
    }
    text
}

/// Two loggers' logs of one head, and their merges.
#[test]
fn merge_logs() {
    for_seeds(60, |random| {
        let (version, chips, bodies) = generate::bodies_by_group(random);
        let texts = [0, 1].map(|group| {
            let text = replay::text(&generate::log_of_bodies(version, chips, &bodies[group]));
            let other = 1 - group;
            assert!(
                !text.contains(&format!("S {other} ")) && text.contains(&format!("G {other} 0\n"))
            );
            text
        });
        for _ in 0..6 {
            let order = generate::merge(random, [bodies[0].len(), bodies[1].len()]);
            let mut left = [0, 1].map(|group| bodies[group].iter().cloned());
            let merged: Vec<_> = order
                .iter()
                .map(|group| left[*group].next().expect("a body"))
                .collect();
            let log = generate::log_of_bodies(version, chips, &merged);
            assert_eq!(replay::text(&log), merged_text(&texts, &order));
        }
    });
}
