//! Request 13 of paper 02: Intel HEX files as they are written, read and refused.

use super::*;
use crate::hex_files::{
    self, file_of, records_of, shuffle, with_faults, Record, ORDER, REFUSED, TAKEN,
};
use crate::model::ANSWER;
use crate::random::Random;
use std::collections::BTreeSet;

const PCF8532: u8 = 0;
const PCA85133: u8 = 1;
/// Columns of a chip and the most chips of a group, by part.
const COLUMNS: [usize; 2] = [160, 80];
const MOST: [u8; 2] = [4, 8];

/// Every part, and every number of its chips in a group.
fn every_group() -> impl Iterator<Item = (u8, u8, usize)> {
    let groups = |part: u8| (0..=MOST[part as usize]).map(move |chips| (part, chips));
    let all = [PCF8532, PCA85133].into_iter().flat_map(groups);
    all.map(|(part, chips)| (part, chips, COLUMNS[part as usize] * chips as usize))
}

/// Columns with the values 0 to 15 over and over.
fn steps(columns: usize) -> Vec<u8> {
    (0..columns).map(|column| (column % 16) as u8).collect()
}

fn any_ram(random: &mut Random, columns: usize) -> Vec<u8> {
    (0..columns).map(|_| random.byte() % 16).collect()
}

// ---- Writing ---------------------------------------------------------------

/// What writing answers, and its output, which was all 9.
fn wrote(part: u8, chips: u8, ram: &[u8], room: usize) -> ([usize; ANSWER], Vec<u8>) {
    let mut out = vec![9; room];
    (write(part, chips, ram, &mut out).numbers(), out)
}

/// The file that is written, with room behind it, which stays.
fn file_for(part: u8, chips: u8, ram: &[u8]) -> String {
    let (answer, mut out) = wrote(part, chips, ram, 2000);
    assert_eq!(answer, [0, 0, answer[2], 0, 0, 0]);
    assert!(out.split_off(answer[2]).iter().all(|byte| *byte == 9));
    String::from_utf8(out).unwrap()
}

/// Writing is refused, and the output stays.
fn expect_unwritten(part: u8, chips: u8, ram: &[u8], room: usize, refusal: [usize; 2]) {
    let expected = ([refusal[0], refusal[1], 0, 0, 0, 0], vec![9; room]);
    assert_eq!(wrote(part, chips, ram, room), expected);
}

/// The table's first file, and those of no chip and of four large chips with one column that is not 0.
#[test]
fn written_by_hand() {
    let (_, chips, pieces, _) = TAKEN[0];
    assert_eq!(file_for(PCA85133, chips, &steps(80)), pieces.concat());
    for part in [PCF8532, PCA85133] {
        assert_eq!(file_for(part, 0, &[]), ":00000001FF\n");
    }
    let mut ram = vec![0; 640];
    ram[0x27F] = 15;
    let file = file_for(PCF8532, 4, &ram);
    let lines: Vec<&str> = file.lines().collect();
    let zeros = "00".repeat(16);
    assert_eq!(lines.len(), 41);
    assert_eq!(lines[0], format!(":10000000{zeros}F0"));
    assert_eq!(lines[1], format!(":10001000{zeros}E0"));
    assert_eq!(lines[15], format!(":1000F000{zeros}00"));
    assert_eq!(lines[16], format!(":10010000{zeros}EF"));
    assert_eq!(lines[39], format!(":10027000{}0F6F", "00".repeat(15)));
    assert_eq!(lines[40], ":00000001FF");
}

/// Ten lines of 44 characters for a large chip, five for a small one, and the end's twelve.
#[test]
fn written_lengths() {
    for (part, chips, columns) in every_group() {
        let file = file_for(part, chips, &steps(columns));
        assert_eq!(file.len(), [440, 220][part as usize] * chips as usize + 12);
        for line in file.split_inclusive('\n') {
            assert!(line.len() == 44 || line == ":00000001FF\n");
            assert_eq!(line.to_uppercase(), line);
        }
    }
}

/// Each column alone in the file: its two digits and its line's checksum.
#[test]
fn written_columns() {
    let blank = file_for(PCF8532, 2, &[0; 320]);
    for column in 0..320 {
        for value in 1..16 {
            let mut ram = vec![0; 320];
            ram[column] = value;
            let (line, place) = (44 * (column / 16), 9 + 2 * (column % 16));
            let mut expected = blank.clone();
            let digits = format!("{value:02X}");
            expected.replace_range(line + place..line + place + 2, &digits);
            let high_and_low = column / 16 * 16 / 256 + column / 16 * 16 % 256;
            let checksum = (1024 - 16 - high_and_low - value as usize) % 256;
            expected.replace_range(line + 41..line + 43, &format!("{checksum:02X}"));
            assert_eq!(file_for(PCF8532, 2, &ram), expected);
        }
    }
}

/// An output just as long as the file, and every shorter one.
#[test]
fn written_rooms() {
    for (part, chips, columns) in every_group() {
        let ram = steps(columns);
        let length = file_for(part, chips, &ram).len();
        assert_eq!(wrote(part, chips, &ram, length).0, [0, 0, length, 0, 0, 0]);
        for room in [0, 1, 11, 12, length / 2, length - 1] {
            if room < length {
                expect_unwritten(part, chips, &ram, room, [9, 0]);
            }
        }
    }
}

/// A value over 15 at every place; the first counts.
#[test]
fn written_values() {
    for (part, chips) in [(PCF8532, 2), (PCA85133, 4)] {
        let mut ram = steps(320);
        for place in (0..320).rev() {
            for value in [255, 17, 16] {
                ram[place] = value;
                expect_unwritten(part, chips, &ram, 2000, [5, place]);
            }
        }
    }
}

/// One fault after another is mended: 16, 3, 4, 5, 9.
#[test]
fn order_of_writing() {
    for (part, most) in [(PCF8532, 4), (PCA85133, 8)] {
        let columns = COLUMNS[part as usize];
        for unknown in [2, 3, 255] {
            expect_unwritten(unknown, most + 1, &[16; 3], 0, [16, 0]);
            expect_unwritten(unknown, 1, &steps(columns), 2000, [16, 0]);
        }
        for chips in [most + 1, 9, 255] {
            expect_unwritten(part, chips, &[16; 3], 0, [3, 0]);
            expect_unwritten(part, chips, &steps(columns * chips as usize), 2000, [3, 0]);
        }
        for length in [0, 1, columns - 1, columns + 1, 2 * columns] {
            expect_unwritten(part, 1, &vec![16; length], 0, [4, 0]);
        }
        expect_unwritten(part, 1, &vec![16; columns], 0, [5, 0]);
        expect_unwritten(part, 1, &vec![15; columns], 0, [9, 0]);
    }
}

// ---- Reading ---------------------------------------------------------------

/// What reading answers, and its output, which was all 99.
fn did_read(part: u8, chips: u8, file: &[u8], length: usize) -> ([usize; ANSWER], Vec<u8>) {
    let mut ram = vec![99; length];
    (read(part, chips, file, &mut ram).numbers(), ram)
}

/// A file is taken and gives this RAM.
fn expect_ram(part: u8, chips: u8, file: &[u8], ram: &[u8]) {
    let expected = ([0, 0, ram.len(), 0, 0, 0], ram.to_vec());
    let text = String::from_utf8_lossy(file);
    assert_eq!(did_read(part, chips, file, ram.len()), expected, "{text}");
}

/// A file is refused, and the output, of the right length, stays.
fn expect_refused(part: u8, chips: u8, file: &[u8], refusal: [usize; 2]) {
    let columns = COLUMNS[part as usize] * chips as usize;
    let expected = ([refusal[0], refusal[1], 0, 0, 0, 0], vec![99; columns]);
    let text = String::from_utf8_lossy(file);
    assert_eq!(did_read(part, chips, file, columns), expected, "{text}");
}

/// The table's first file, of one PCA85133.
fn sound() -> Vec<u8> {
    TAKEN[0].2.concat().into_bytes()
}

#[test]
fn table() {
    for (_, chips, pieces, _) in TAKEN {
        let ram = steps(80 * chips as usize);
        expect_ram(PCA85133, chips, pieces.concat().as_bytes(), &ram);
    }
    for (_, chips, pieces, refusal) in REFUSED {
        expect_refused(PCA85133, chips, pieces.concat().as_bytes(), refusal);
    }
}

/// The table has each refusal of a file.
#[test]
fn table_has_all() {
    let numbers: BTreeSet<usize> = REFUSED.iter().map(|file| file.3[0]).collect();
    assert_eq!(numbers, BTreeSet::from([5, 21, 22, 23, 24, 25, 26, 27]));
}

#[test]
fn written_and_read() {
    let mut random = Random::new(13);
    for (part, chips, columns) in every_group() {
        for _ in 0..20 {
            let ram = any_ram(&mut random, columns);
            let file = file_for(part, chips, &ram);
            expect_ram(part, chips, file.as_bytes(), &ram);
        }
    }
}

/// Records of every length there is, in any order, with either line end.
#[test]
fn every_record_length() {
    let mut random = Random::new(14);
    for (part, chips) in [(PCF8532, 4), (PCA85133, 7)] {
        let columns = COLUMNS[part as usize] * chips as usize;
        for length in 1..=255 {
            let ram = any_ram(&mut random, columns);
            let mut records = records_of(&ram, length);
            shuffle(&mut random, &mut records);
            records.push(Record::end());
            for line_end in ["\n", "\r\n"] {
                records
                    .iter_mut()
                    .for_each(|record| record.line_end = line_end);
                expect_ram(part, chips, &file_of(&records), &ram);
            }
        }
    }
}

/// What refuses the sound file with another character at this place: its five lines of 43 characters and LF, then the end record at 220.
fn refusal_of_character(place: usize, character: u8) -> [usize; 2] {
    let (line, place) = (place / 44 * 44, place % 44);
    let digit = character.is_ascii_digit() || (b'A'..=b'F').contains(&character);
    let last = if line == 220 { 11 } else { 43 };
    let number = match (line, place) {
        _ if !digit || place == 0 || place == last => 21,
        // The length.
        (_, 1 | 2) => 21,
        // The end record's address, and a data record that becomes an end record of 16 bytes.
        (220, 3..=6) => 21,
        (0..=176, 8) if character == b'1' => 21,
        _ => 22,
    };
    [number, line]
}

/// Every character of the sound file changed to every other.
#[test]
fn every_character() {
    let file = sound();
    assert_eq!(file.len(), 232);
    for place in 0..file.len() {
        for character in (0..=255).filter(|character| *character != file[place]) {
            let mut other = file.clone();
            other[place] = character;
            let refusal = refusal_of_character(place, character);
            expect_refused(PCA85133, 1, &other, refusal);
        }
    }
}

/// Cut between lines there is no end record; cut in a line, the line is faulty.
#[test]
fn every_cut() {
    let file = sound();
    for length in 0..file.len() {
        let refusal = match length % 44 {
            0 => [27, 0],
            _ => [21, length / 44 * 44],
        };
        expect_refused(PCA85133, 1, &file[..length], refusal);
    }
}

/// Any byte behind the end record's line is not read.
#[test]
fn every_byte_after() {
    for byte in 0..=255 {
        expect_refused(PCA85133, 1, &[&sound()[..], &[byte]].concat(), [27, 0]);
        expect_refused(
            PCA85133,
            0,
            &[b":00000001FF\r\n", &[byte][..]].concat(),
            [27, 0],
        );
    }
}

/// Every type: a data record, an end record with an address and bytes, or one that is unknown.
#[test]
fn every_type() {
    for kind in 0..=255 {
        let file = file_of(&[Record::new(3, kind, &[1, 2]), Record::end()]);
        let refusal = match kind {
            0 => [26, 0],
            1 => [21, 0],
            _ => [23, 0],
        };
        expect_refused(PCA85133, 1, &file, refusal);
        let blank = file_of(&[Record::new(0, kind, &[]), Record::end()]);
        match kind {
            0 => expect_ram(PCA85133, 0, &blank, &[]),
            1 => expect_refused(PCA85133, 0, &blank, [27, 0]),
            _ => expect_refused(PCA85133, 0, &blank, [23, 0]),
        }
    }
}

/// Every wrong checksum, of a data record, an end record and one of an unknown type.
#[test]
fn every_checksum() {
    let all = records_of(&steps(80), 255).remove(0);
    for record in [all, Record::end(), Record::new(0x1234, 7, &[0x56])] {
        for slip in 1..=255 {
            let file = file_of(&[Record {
                slip,
                ..record.clone()
            }]);
            expect_refused(PCA85133, 1, &file, [22, 0]);
        }
    }
}

/// Every length that the field can say of records of 0 to 3 bytes: only the right one has the form.
#[test]
fn every_length_field() {
    for (bytes, length) in (0..=3).flat_map(|bytes| (0..=255).map(move |length| (bytes, length))) {
        let right = Record::new(0, 0, &[7; 3][..bytes]).text();
        let text = format!(":{length:02X}{}", &right[3..]);
        let number = if length == bytes { 27 } else { 21 };
        expect_refused(PCA85133, 1, text.as_bytes(), [number, 0]);
    }
}

/// Every value of a column; over 15 it is 5 with its record's offset.
#[test]
fn every_value() {
    for value in 0..=255 {
        for place in [0, 41, 79] {
            let mut ram = steps(80);
            ram[place] = value;
            let file = file_of(&[records_of(&ram, 16), vec![Record::end()]].concat());
            match value {
                0..=15 => expect_ram(PCA85133, 1, &file, &ram),
                _ => expect_refused(PCA85133, 1, &file, [5, place / 16 * 44]),
            }
        }
    }
}

/// One byte at every address: outside from the group's last on, and else all others are missing.
#[test]
fn every_address() {
    let near = (0..700).chain(65000..=65535);
    let all = (0..=65535).map(|address| (PCA85133, 1, address));
    let large = near.flat_map(|address| [(PCF8532, 2, address), (PCF8532, 4, address)]);
    for (part, chips, address) in all.chain(large) {
        let columns = COLUMNS[part as usize] * chips as usize;
        let file = file_of(&[Record::new(address, 0, &[1]), Record::end()]);
        let refusal = match address {
            0 => [26, 1],
            _ if (address as usize) < columns => [26, 0],
            _ => [24, 0],
        };
        expect_refused(part, chips, &file, refusal);
    }
}

/// A record of every length from every address up to some past the last: any byte outside is refused.
#[test]
fn every_overhang() {
    for (address, length) in (0..90).flat_map(|x| (0..=255).map(move |y| (x, y))) {
        let record = Record::new(address, 0, &vec![1; length]);
        let file = file_of(&[record, Record::end()]);
        match (address, length) {
            (0, 80) => expect_ram(PCA85133, 1, &file, &[1; 80]),
            (0, 0..=79) => expect_refused(PCA85133, 1, &file, [26, length]),
            (_, 0) => expect_refused(PCA85133, 1, &file, [26, 0]),
            _ if address as usize + length > 80 => expect_refused(PCA85133, 1, &file, [24, 0]),
            _ => expect_refused(PCA85133, 1, &file, [26, 0]),
        }
    }
}

/// Each address missing from a file of single bytes, and each given twice.
#[test]
fn every_address_missing_or_twice() {
    for address in 0..160 {
        let mut records = records_of(&steps(160), 1);
        records.push(Record::end());
        let again = records[address].clone();
        records.remove(address);
        expect_refused(PCF8532, 1, &file_of(&records), [26, address]);
        records.insert(0, again.clone());
        expect_ram(PCF8532, 1, &file_of(&records), &steps(160));
        records.insert(160, again);
        expect_refused(PCF8532, 1, &file_of(&records), [25, 160 * 14]);
    }
}

/// Two addresses missing: the first counts, wherever its record would have stood.
#[test]
fn first_address_missing() {
    for (first, second) in (0..80).flat_map(|x| [1, 7, 40].map(|y| (x, x + y))) {
        let mut records = records_of(&steps(80), 1);
        records.retain(|record| ![first, second].contains(&record.address));
        records.reverse();
        records.push(Record::end());
        expect_refused(PCA85133, 1, &file_of(&records), [26, first.into()]);
    }
}

/// Every set of faults in one record, the first of which counts; with none, the next record's is met.
#[test]
fn every_set_of_faults() {
    for faults in 0..64 {
        let mut file = file_of(&with_faults(faults));
        let next = file.len();
        file.extend(b"?\n");
        let first = (0..6).find(|bit| faults >> bit & 1 == 1);
        let refusal = first.map_or([21, next], |bit| [ORDER[bit], 14]);
        expect_refused(PCA85133, 1, &file, refusal);
    }
}

/// Records with one fault each behind a sound one: the first decides, whatever is wrong with the second.
#[test]
fn first_faulty_record() {
    let sound = Record::new(3, 0, &[1]);
    let faulty = [
        Record {
            line_end: " \n",
            ..Record::new(4, 0, &[1])
        },
        Record {
            slip: 1,
            ..Record::new(4, 0, &[1])
        },
        Record::new(4, 3, &[1]),
        Record::new(80, 0, &[1]),
        Record::new(3, 0, &[1]),
        Record::new(4, 0, &[16]),
    ];
    for (number, first) in ORDER.into_iter().zip(&faulty) {
        for second in &faulty {
            let file = file_of(&[sound.clone(), first.clone(), second.clone()]);
            expect_refused(PCA85133, 1, &file, [number, 14]);
            let file = file_of(&[sound.clone(), Record::end(), first.clone(), second.clone()]);
            expect_refused(PCA85133, 1, &file, [27, 0]);
        }
    }
}

/// The longest file, and one byte more: records of no byte, of 12 characters, before the sound ones.
#[test]
fn file_lengths() {
    let mut file = b":0000000000\n".repeat((65536 - 232) / 12);
    file.extend(sound());
    assert_eq!(file.len(), 65536);
    expect_ram(PCA85133, 1, &file, &steps(80));
    file.insert(11, b'\r');
    expect_refused(PCA85133, 1, &file, [14, 0]);
    expect_refused(PCA85133, 1, &[b'?'; 65536], [21, 0]);
    expect_refused(PCA85133, 1, &[b'?'; 65537], [14, 0]);
}

/// One fault after another is mended: 16, 3, 14, 4, then the records.
#[test]
fn order_of_reading() {
    let (long, bad) = (vec![b'?'; 65537], b"?\n");
    let expect = |part, chips, file: &[u8], length, number| {
        let expected = ([number, 0, 0, 0, 0, 0], vec![99; length]);
        assert_eq!(did_read(part, chips, file, length), expected);
    };
    for (part, most) in [(PCF8532, 4), (PCA85133, 8)] {
        let columns = COLUMNS[part as usize];
        for unknown in [2, 3, 255] {
            expect(unknown, most + 1, &long, 3, 16);
            expect(unknown, 1, &file_of(&[Record::end()]), columns, 16);
        }
        for chips in [most + 1, 9, 255] {
            expect(part, chips, &long, 3, 3);
            expect(part, chips, bad, columns * chips as usize, 3);
        }
        for length in [0, columns - 1, columns + 1, 2 * columns] {
            expect(part, 1, &long, length, 14);
            expect(part, 1, bad, length, 4);
        }
        expect(part, 1, bad, columns, 21);
        expect(part, 1, b"", columns, 27);
        expect(part, 1, b":00000001FF\n", columns, 26);
    }
}

// ---- Generators ------------------------------------------------------------

#[test]
fn generated_sound_files() {
    for seed in 0..2000 {
        let mut random = Random::new(seed);
        let part = random.below(2) as u8;
        let chips = random.below(MOST[part as usize] as usize + 1) as u8;
        let ram = any_ram(&mut random, COLUMNS[part as usize] * chips as usize);
        let file = hex_files::sound_file(&mut random, &ram);
        expect_ram(part, chips, &file, &ram);
    }
}

/// Every refusal is among those of damaged files; what is refused leaves the output, and what is taken covers it.
#[test]
fn generated_damaged_files() {
    let mut met = BTreeSet::new();
    for seed in 0..4000 {
        let mut random = Random::new(seed);
        let chips = random.below(3) as u8;
        let ram = any_ram(&mut random, 80 * chips as usize);
        let faults = random.between(1, 4);
        let file = hex_files::damaged_file(&mut random, &ram, faults);
        let (answer, after) = did_read(PCA85133, chips, &file, ram.len());
        let written = after.iter().all(|column| *column < 16);
        let stays = after.iter().all(|column| *column == 99);
        assert!(if answer[0] == 0 { written } else { stays });
        met.insert(answer[0]);
    }
    assert_eq!(met, BTreeSet::from([0, 5, 21, 22, 23, 24, 25, 26, 27]));
}
