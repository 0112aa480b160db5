//! Request 13 of paper 02: Intel HEX files written and read, by library and model, and held to the paper as well.

use crate::case::{first_refusal, refusal_of, PARTS};
use crate::library::{self, SIZE};
use crate::{fault, for_seeds};
use humtrellis_tests::generate::{self, shape};
use humtrellis_tests::hex::{self, FILE_LIMIT};
use humtrellis_tests::hex_files::{
    damaged_file, file_of, records_of, shuffle, sound_file, with_faults, Record, ORDER, REFUSED,
    TAKEN,
};
use humtrellis_tests::model::ANSWER;
use humtrellis_tests::random::Random;
use std::collections::BTreeSet;

const PCA85133: u8 = 1;
/// The most chips of a group, by part.
const MOST: [u8; 2] = [4, 8];

#[derive(Clone, Copy, Debug, PartialEq)]
enum Call {
    Write,
    Read,
}

/// A call's numbers and buffers; after the call, what they have become. Writing is given a RAM and reading a file; the other one is its output.
#[derive(Clone, Debug, PartialEq)]
struct Exchange {
    call: Call,
    part: u8,
    chips: u8,
    given: Vec<u8>,
    out: Vec<u8>,
    answer: Vec<usize>,
}

/// Columns of so many chips.
fn columns_of(part: u8, chips: u8) -> usize {
    shape(part).columns() * chips as usize
}

/// Characters of the file that so many chips have: 44 for sixteen columns, and 12.
fn length_of(part: u8, chips: u8) -> usize {
    44 * columns_of(part, chips) / 16 + 12
}

impl Exchange {
    /// Writing, into an output just as long as the file.
    fn write(part: u8, chips: u8, ram: &[u8]) -> Self {
        Exchange {
            call: Call::Write,
            part,
            chips,
            given: ram.to_vec(),
            out: vec![0xEE; length_of(part, chips)],
            answer: vec![77; ANSWER],
        }
    }

    /// Reading, into a RAM of the right length.
    fn read(part: u8, chips: u8, file: &[u8]) -> Self {
        Exchange {
            call: Call::Read,
            part,
            chips,
            given: file.to_vec(),
            out: vec![0xEE; columns_of(part, chips)],
            answer: vec![77; ANSWER],
        }
    }

    fn by_library(&mut self) -> u8 {
        let (part, chips, given) = (self.part, self.chips, &mut self.given);
        let (out, answer) = (&mut self.out, &mut self.answer);
        match self.call {
            Call::Write => library::hex_write(part, chips, given, out, answer),
            Call::Read => library::hex_read(part, chips, given, out, answer),
        }
    }

    fn by_model(&mut self) -> u8 {
        if self.answer.len() != ANSWER {
            return SIZE;
        }
        let (part, chips, out) = (self.part, self.chips, &mut self.out);
        let answer = match self.call {
            Call::Write => hex::write(part, chips, &self.given, out),
            Call::Read => hex::read(part, chips, &self.given, out),
        };
        self.answer = answer.numbers().to_vec();
        answer.number as u8
    }

    /// Makes the call both ways, holds all results together, and gives the number returned.
    fn compare(&mut self) -> u8 {
        let (given, mut other) = (self.clone(), self.clone());
        let number = self.by_library();
        let expected = other.by_model();
        if number != expected || *self != other {
            let text = String::from_utf8_lossy(&given.given);
            panic!(
                "HEX differs\n given {given:?}\n {text}\n library {number} {self:?}\n model {expected} {other:?}"
            );
        }
        number
    }

    /// The call is taken, so many bytes are written, and those behind them stay. Gives what is written.
    fn taken(mut self, length: usize) -> Vec<u8> {
        let before = self.out.clone();
        assert_eq!(self.compare(), 0);
        assert_eq!(self.answer, [0, 0, length, 0, 0, 0]);
        assert_eq!(self.out.split_off(length), before[length..]);
        self.out
    }

    /// The call is refused, and its output stays.
    fn refused(mut self, [number, place]: [usize; 2]) {
        let mut after = self.clone();
        after.answer = vec![number, place, 0, 0, 0, 0];
        assert_eq!(self.compare(), number as u8);
        assert_eq!(self, after);
    }
}

/// Reads a file for one PCA85133.
fn for_one(file: &[u8]) -> Exchange {
    Exchange::read(PCA85133, 1, file)
}

/// Every part, and every number of its chips in a group.
fn every_group() -> impl Iterator<Item = (u8, u8)> {
    let groups = |part: u8| (0..=MOST[part as usize]).map(move |chips| (part, chips));
    (0..2).flat_map(groups)
}

/// Columns with the values 0 to 15 over and over.
fn steps(columns: usize) -> Vec<u8> {
    (0..columns).map(|column| (column % 16) as u8).collect()
}

/// The table's first file, of one PCA85133: five lines of 44 characters, and one of 12.
fn sound() -> Vec<u8> {
    TAKEN[0].2.concat().into_bytes()
}

// ---- The table -------------------------------------------------------------

#[test]
fn hex_table() {
    for (_, chips, pieces, _) in TAKEN {
        let ram = steps(80 * chips as usize);
        let reading = Exchange::read(PCA85133, chips, pieces.concat().as_bytes());
        assert_eq!(reading.taken(ram.len()), ram);
    }
    for (_, chips, pieces, refusal) in REFUSED {
        Exchange::read(PCA85133, chips, pieces.concat().as_bytes()).refused(refusal);
    }
    let writing = Exchange::write(PCA85133, 1, &steps(80));
    assert_eq!(writing.taken(232), sound());
}

// ---- Written and read ------------------------------------------------------

/// What the library writes, it reads back, with either line end and its lines in any order.
fn expect_back(random: &mut Random, part: u8, chips: u8) {
    let ram = fault::columns(random, columns_of(part, chips));
    let mut writing = Exchange::write(part, chips, &ram);
    let room = writing.out.len() + random.pick(&[0, 0, 1, 50]);
    writing.out = random.bytes(room);
    let file = writing.taken(length_of(part, chips));
    assert_eq!(Exchange::read(part, chips, &file).taken(ram.len()), ram);
    let mut lines: Vec<&[u8]> = file.split_inclusive(|byte| *byte == b'\n').collect();
    let end = lines.pop().expect("an end record");
    shuffle(random, &mut lines);
    let mut other = [&lines.concat(), end].concat();
    for place in (0..other.len()).rev() {
        if other[place] == b'\n' && random.one_in(2) {
            other.insert(place, b'\r');
        }
    }
    assert_eq!(Exchange::read(part, chips, &other).taken(ram.len()), ram);
}

#[test]
fn hex_written_and_read() {
    for_seeds(30, |random| {
        for (part, chips) in every_group() {
            expect_back(random, part, chips);
        }
    });
}

/// A part, mostly one that there is, chips and RAM of a group.
fn group(random: &mut Random) -> (u8, u8, Vec<u8>) {
    let part = generate::part(random);
    let chips = random.below(shape(part).subaddresses() as usize + 1) as u8;
    (part, chips, fault::columns(random, columns_of(part, chips)))
}

#[test]
fn hex_sound_files() {
    for_seeds(1500, |random| {
        let (part, chips, ram) = group(random);
        let reading = Exchange::read(part, chips, &sound_file(random, &ram));
        match refusal_of(part) {
            0 => assert_eq!(reading.taken(ram.len()), ram),
            number => reading.refused([number.into(), 0]),
        }
    });
}

/// Records of every length, in any order.
#[test]
fn hex_every_record_length() {
    let mut random = Random::new(13);
    for length in 1..=255 {
        let (part, chips) = [(0, 2), (1, 4)][length % 2];
        let ram = fault::columns(&mut random, 320);
        let mut records = records_of(&ram, length);
        shuffle(&mut random, &mut records);
        records.push(Record::end());
        let reading = Exchange::read(part, chips, &file_of(&records));
        assert_eq!(reading.taken(320), ram);
    }
}

/// A file with so many faults, and an output that now and then is not of its length.
fn damaged_reading(random: &mut Random, faults: usize) -> Exchange {
    let (part, chips, ram) = group(random);
    let mut reading = Exchange::read(part, chips, &damaged_file(random, &ram, faults));
    let length = reading.out.len();
    reading.out = random.bytes(length);
    match random.below(60) {
        0 => reading.out.push(7),
        1 => drop(reading.out.pop()),
        2 => reading.chips = random.byte(),
        3 => reading.answer.resize(random.pick(&[0, 5, 7, 12]), 3),
        _ => {}
    }
    reading
}

#[test]
fn hex_one_fault() {
    for_seeds(4000, |random| {
        damaged_reading(random, 1).compare();
    });
}

#[test]
fn hex_several_faults() {
    for_seeds(4000, |random| {
        let faults = random.between(2, 6);
        damaged_reading(random, faults).compare();
    });
}

/// Every refusal is among those that are drawn, but 14.
#[test]
fn hex_every_refusal() {
    let drawn = (0..1500).map(|seed| damaged_reading(&mut Random::new(seed), 1).compare());
    let met: BTreeSet<u8> = drawn.collect();
    let numbers = [0, 3, 4, 5, 16, 21, 22, 23, 24, 25, 26, 27, SIZE];
    assert_eq!(met, BTreeSet::from(numbers));
}

// ---- As the paper has it ---------------------------------------------------

/// Characters that a file has, and others next to them.
const CHARACTERS: &[u8] = b"0159AF/@Gaf: \r\n\0\xFF";

/// Another character at each place of the first and last line, and some others at each place of the file.
#[test]
fn hex_every_character() {
    let file = sound();
    for place in 0..file.len() {
        let every: Vec<u8> = (0..=255).collect();
        let full = !(12..220).contains(&place);
        for character in if full { &every } else { CHARACTERS } {
            let mut other = file.clone();
            other[place] = *character;
            let number = for_one(&other).compare();
            assert_eq!(number == 0, *character == file[place]);
        }
    }
}

/// Every cut: between two lines there is no end record, in a line the line is faulty.
#[test]
fn hex_every_cut() {
    let file = sound();
    for length in 0..file.len() {
        let refusal = match length % 44 {
            0 => [27, 0],
            _ => [21, length / 44 * 44],
        };
        for_one(&file[..length]).refused(refusal);
    }
    let file = TAKEN[1].2.concat().into_bytes();
    for length in 0..file.len() {
        for_one(&file[..length]).compare();
    }
}

/// Any byte behind the end record's line is not read.
#[test]
fn hex_every_byte_after() {
    for byte in 0..=255 {
        for_one(&[&sound()[..], &[byte]].concat()).refused([27, 0]);
        Exchange::read(0, 0, &[b":00000001FF\r\n", &[byte][..]].concat()).refused([27, 0]);
    }
}

/// Every set of faults in one record, the first of which counts; with none, the next record's is met.
#[test]
fn hex_every_set_of_faults() {
    for faults in 0..64 {
        let mut file = file_of(&with_faults(faults));
        let next = file.len();
        file.extend(b"?\n");
        let first = (0..6).find(|bit| faults >> bit & 1 == 1);
        let refusal = first.map_or([21, next], |bit| [ORDER[bit], 14]);
        for_one(&file).refused(refusal);
    }
}

/// Two records with any faults each: the first that has one decides.
#[test]
fn hex_first_faulty_record() {
    for (faults, others) in (0..64).flat_map(|x| (0..64).map(move |y| (x, y))) {
        let [before, first] = with_faults(faults);
        let [_, mut second] = with_faults(others);
        second.address -= 40;
        let file = file_of(&[before, first, second, Record::end()]);
        let number = for_one(&file).compare();
        if let Some(bit) = (0..6).find(|bit| faults >> bit & 1 == 1) {
            assert_eq!(number as usize, ORDER[bit]);
        }
    }
}

/// Every type and every wrong checksum.
#[test]
fn hex_every_type_and_checksum() {
    for value in 0..=255 {
        let kind = file_of(&[Record::new(3, value, &[1, 2]), Record::end()]);
        let refusal = match value {
            0 => [26, 0],
            1 => [21, 0],
            _ => [23, 0],
        };
        for_one(&kind).refused(refusal);
        let mut record = Record::new(5, 0, &[7; 3]);
        record.slip = value;
        let number = if value == 0 { 27 } else { 22 };
        for_one(&file_of(&[record])).refused([number, 0]);
    }
}

/// Every length that the field can say of records of 0 to 3 bytes: only the right one has the form.
#[test]
fn hex_every_length_field() {
    for (bytes, length) in (0..=3).flat_map(|bytes| (0..=255).map(move |length| (bytes, length))) {
        let right = Record::new(0, 0, &[7; 3][..bytes]).text();
        let text = format!(":{length:02X}{}", &right[3..]);
        let number = if length == bytes { 27 } else { 21 };
        for_one(text.as_bytes()).refused([number, 0]);
    }
}

/// One, two and no byte at addresses about the last of a group, the greatest, and others between.
#[test]
fn hex_addresses() {
    let addresses = (0..330).chain(640..650).chain(65530..=65535);
    for address in addresses.chain((1000..60000).step_by(997)) {
        for (part, chips) in [(0, 0), (1, 1), (0, 2), (1, 8)] {
            let columns = columns_of(part, chips);
            for length in 0..=2 {
                let record = Record::new(address, 0, &[1; 2][..length]);
                let file = file_of(&[record, Record::end()]);
                let reading = Exchange::read(part, chips, &file);
                match (length, address as usize) {
                    (0, _) if columns == 0 => drop(reading.taken(0)),
                    (0, _) => reading.refused([26, 0]),
                    (_, first) if first + length > columns => reading.refused([24, 0]),
                    (_, 0) => reading.refused([26, length]),
                    _ => reading.refused([26, 0]),
                }
            }
        }
    }
}

/// Each address missing from a file of single bytes, and each given twice.
#[test]
fn hex_every_address_missing_or_twice() {
    for address in 0..80 {
        let mut records = records_of(&steps(80), 1);
        let again = records.remove(address);
        records.push(Record::end());
        for_one(&file_of(&records)).refused([26, address]);
        records.insert(0, again.clone());
        assert_eq!(for_one(&file_of(&records)).taken(80), steps(80));
        records.insert(80, again);
        for_one(&file_of(&records)).refused([25, 80 * 14]);
    }
}

/// Every value of a column, written and read.
#[test]
fn hex_every_value() {
    for (value, place) in (0..=255).flat_map(|value| [0, 41, 79].map(|place| (value, place))) {
        let mut ram = steps(80);
        ram[place] = value;
        let file = file_of(&[records_of(&ram, 16), vec![Record::end()]].concat());
        let writing = Exchange::write(PCA85133, 1, &ram);
        if value < 16 {
            assert_eq!(writing.taken(232), file);
            assert_eq!(for_one(&file).taken(80), ram);
        } else {
            writing.refused([5, place]);
            for_one(&file).refused([5, place / 16 * 44]);
        }
    }
}

/// A value over 15 at every place of a RAM that is written; the first counts.
#[test]
fn hex_every_wrong_column() {
    for (part, chips) in [(0, 4), (1, 8)] {
        let mut ram = steps(640);
        for place in (0..640).rev() {
            ram[place] = 16;
            Exchange::write(part, chips, &ram).refused([5, place]);
        }
    }
}

/// The longest files, and one byte more.
#[test]
fn hex_file_lengths() {
    let mut file = b":0000000000\n".repeat((FILE_LIMIT - 232) / 12);
    file.extend(sound());
    assert_eq!(file.len(), 65536);
    assert_eq!(for_one(&file).taken(80), steps(80));
    file.insert(11, b'\r');
    for_one(&file).refused([14, 0]);
    for_one(&vec![b':'; 65536]).refused([21, 0]);
    for_one(&vec![b':'; 65537]).refused([14, 0]);
    for_one(&vec![b'\n'; 100_000]).refused([14, 0]);
}

// ---- Refusals of a call ----------------------------------------------------

/// A refusal's number, and a fault that brings it.
type Refused = (u8, fn(&mut Exchange));

/// The paper's orders, behind 16.
const WRITING: [Refused; 4] = [
    (3, |exchange| exchange.chips = 9),
    (4, |exchange| exchange.given.push(0)),
    (5, |exchange| exchange.given[33] = 16),
    (9, |exchange| exchange.out.truncate(3)),
];
const READING: [Refused; 4] = [
    (3, |exchange| exchange.chips = 9),
    (14, |exchange| exchange.given.resize(65537, b'?')),
    (4, |exchange| exchange.out.push(0xEE)),
    (22, |exchange| exchange.given[10] = b'E'),
];

/// Both calls on every part with every set of faults, and what refuses each.
fn every_fault() -> Vec<(Exchange, u8)> {
    let mut calls = Vec::new();
    for (part, faults) in PARTS.into_iter().flat_map(|x| (0..16).map(move |y| (x, y))) {
        let ram = steps(columns_of(part, 1));
        let file = b":00000001FF\n";
        let both = [
            (Exchange::write(part, 1, &ram), WRITING, 0),
            (Exchange::read(part, 1, file), READING, 26),
        ];
        for (mut exchange, order, with_none) in both {
            let mut numbers = [refusal_of(part), 0, 0, 0, 0, with_none];
            for (index, (number, fault)) in order.into_iter().enumerate() {
                if faults >> index & 1 == 1 {
                    fault(&mut exchange);
                    numbers[index + 1] = number;
                }
            }
            calls.push((exchange, first_refusal(numbers)));
        }
    }
    calls
}

/// Every set of faults at once: 16, 3, 4, 5, 9 when writing; 16, 3, 14, 4, then the file when reading.
#[test]
fn hex_orders() {
    for (exchange, number) in every_fault() {
        let length = length_of(exchange.part, 1);
        match number {
            0 => drop(exchange.taken(length)),
            5 => exchange.refused([5, 33]),
            _ => exchange.refused([number.into(), 0]),
        }
    }
}

/// An answer of another size comes before every refusal, and nothing is written.
#[test]
fn hex_sizes() {
    for (exchange, _) in every_fault() {
        for size in [0, 1, ANSWER - 1, ANSWER + 1, 2 * ANSWER] {
            let mut exchange = exchange.clone();
            exchange.answer.resize(size, 77);
            let before = exchange.clone();
            assert_eq!(exchange.compare(), SIZE);
            assert_eq!(exchange, before);
        }
    }
}

/// Every number of a part, with no other fault.
#[test]
fn hex_parts() {
    for part in 0..=255 {
        let ram = steps(columns_of(part, 1));
        let file = file_of(&[records_of(&ram, 80), vec![Record::end()]].concat());
        let expected = refusal_of(part);
        assert_eq!(Exchange::write(part, 1, &ram).compare(), expected);
        assert_eq!(Exchange::read(part, 1, &file).compare(), expected);
    }
}

#[test]
fn hex_chip_counts() {
    let counts = (0..=20).chain([64, 127, 128, 254, 255]);
    for (part, chips) in counts.flat_map(|chips| [(0, chips), (1, chips)]) {
        let ram = steps(columns_of(part, chips));
        let too_many = chips > MOST[part as usize];
        let file = file_of(&[records_of(&ram, 200), vec![Record::end()]].concat());
        let expected = if too_many { 3 } else { 0 };
        assert_eq!(Exchange::write(part, chips, &ram).compare(), expected);
        assert_eq!(Exchange::read(part, chips, &file).compare(), expected);
    }
}

/// Every length of a RAM up to that of four large chips, written and read.
#[test]
fn hex_ram_lengths() {
    for (part, chips) in [(0, 0), (0, 1), (1, 3), (0, 4)] {
        let ram = steps(columns_of(part, chips));
        let file = file_of(&[records_of(&ram, 64), vec![Record::end()]].concat());
        for length in 0..=642 {
            let expected = if length == ram.len() { 0 } else { 4 };
            let writing = Exchange::write(part, chips, &steps(length));
            assert_eq!(writing.clone().compare(), expected);
            let mut reading = Exchange::read(part, chips, &file);
            reading.out = vec![0xEE; length];
            assert_eq!(reading.compare(), expected);
        }
    }
}

/// Every room up to some bytes more than the file has, and for more chips than one those about its length.
#[test]
fn hex_every_room() {
    for (part, chips) in every_group() {
        let ram = steps(columns_of(part, chips));
        let mut writing = Exchange::write(part, chips, &ram);
        let length = writing.out.len();
        let least = if chips > 1 { length - 3 } else { 0 };
        for room in (0..1).chain(least..=length + 3) {
            writing.out = vec![0xEE; room];
            match room < length {
                true => writing.clone().refused([9, 0]),
                false => drop(writing.clone().taken(length)),
            }
        }
    }
}
