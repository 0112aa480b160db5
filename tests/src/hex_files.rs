//! Intel HEX files for request 13 of paper 02: a table of them with what the paper says of each, and generators of sound and damaged ones.

use crate::random::Random;

// ---- A table of files ------------------------------------------------------

/// What a file shows; the PCA85133 chips that it is read for; its text, in pieces; its refusal (0 is taken) and place.
/// A file that is taken holds the values 0 to 15 over and over.
pub type HexFile = (&'static str, u8, &'static [&'static str], [usize; 2]);

/// The lines of one chip's 80 columns. Each has 43 characters, so that with LF they begin at 0, 44, 88, 132, 176 and 220.
const A: &str = ":10000000000102030405060708090A0B0C0D0E0F78";
const B: &str = ":10001000000102030405060708090A0B0C0D0E0F68";
const C: &str = ":10002000000102030405060708090A0B0C0D0E0F58";
const D: &str = ":10003000000102030405060708090A0B0C0D0E0F48";
const E: &str = ":10004000000102030405060708090A0B0C0D0E0F38";
const END: &str = ":00000001FF";
/// The second line in two, and the five in one of 171 characters.
const B_FIRST: &str = ":080010000001020304050607CC";
const B_SECOND: &str = ":0800180008090A0B0C0D0E0F84";
const ALL: &str = ":50000000000102030405060708090A0B0C0D0E0F000102030405060708090A0B0C0D0E0F000102030405060708090A0B0C0D0E0F000102030405060708090A0B0C0D0E0F000102030405060708090A0B0C0D0E0F58";
const LF: &str = "\n";
const CR_LF: &str = "\r\n";

/// Files that are taken: every tolerated form.
#[rustfmt::skip]
pub const TAKEN: [HexFile; 12] = [
    ("as it is written", 1, &[A, LF, B, LF, C, LF, D, LF, E, LF, END, LF], [0, 0]),
    ("CR LF", 1, &[A, CR_LF, B, CR_LF, C, CR_LF, D, CR_LF, E, CR_LF, END, CR_LF], [0, 0]),
    ("either line end", 1, &[A, LF, B, CR_LF, C, LF, D, CR_LF, E, LF, END, CR_LF], [0, 0]),
    ("another order", 1, &[E, LF, B, LF, D, LF, A, LF, C, LF, END, LF], [0, 0]),
    ("other lengths", 1, &[E, LF, B_SECOND, LF, D, LF, A, LF, B_FIRST, LF, C, LF, END, LF], [0, 0]),
    ("one record", 1, &[ALL, LF, END, LF], [0, 0]),
    ("records of no byte at addresses that are given", 1, &[":0000000000\n", ALL, LF, ":00001000F0\n", END, LF], [0, 0]),
    ("a record of no byte past the last address", 1, &[ALL, LF, ":00005000B0\n", END, LF], [0, 0]),
    ("a record of no byte at the greatest address", 1, &[":00FFFF0002\n", ALL, LF, END, LF], [0, 0]),
    ("no chip", 0, &[END, LF], [0, 0]),
    ("no chip, CR LF", 0, &[END, CR_LF], [0, 0]),
    ("no chip and a record of no byte", 0, &[":0000000000\n", END, LF], [0, 0]),
];

/// Files that are refused: each way to each number, and which comes first.
#[rustfmt::skip]
pub const REFUSED: [HexFile; 57] = [
    // 21: a bad character or record form.
    ("a lower-case digit", 0, &[":00000001fF\n"], [21, 0]),
    ("a lower-case digit behind a sound record", 1, &[A, LF, ":10001000000102030405060708090a0B0C0D0E0F68\n"], [21, 44]),
    ("a letter past F", 0, &[":0000000G00\n"], [21, 0]),
    ("a blank behind the colon", 0, &[": 00000001FF\n"], [21, 0]),
    ("a blank before the colon", 0, &[" :00000001FF\n"], [21, 0]),
    ("a blank before the line end", 0, &[":00000001FF \n"], [21, 0]),
    ("no colon", 0, &["00000001FF\n"], [21, 0]),
    ("two colons", 0, &["::00000001FF\n"], [21, 0]),
    ("a colon alone", 0, &[":\n"], [21, 0]),
    ("a digit without its other", 0, &[":00000001F\n"], [21, 0]),
    ("no checksum", 0, &[":00000001\n"], [21, 0]),
    ("a length over the data", 0, &[":01000000FF\n"], [21, 0]),
    ("a length under the data", 0, &[":000000000000\n"], [21, 0]),
    ("a blank line", 0, &[":0000000000\n", LF, END, LF], [21, 12]),
    ("a blank line with CR LF", 0, &[":0000000000\n", CR_LF, END, LF], [21, 12]),
    ("a bare CR for a line end", 0, &[":0000000000\r", END, LF], [21, 0]),
    ("two CR", 0, &[END, "\r\r\n"], [21, 0]),
    ("LF CR for a line end", 0, &[":0000000000\n\r", END, LF], [21, 12]),
    ("CR LF inside a record", 0, &[":0000", CR_LF, "0001FF\n"], [21, 0]),
    ("a last line without LF", 0, &[END], [21, 0]),
    ("a last line with CR alone", 1, &[ALL, CR_LF, END, "\r"], [21, 173]),
    ("a last line that is cut", 1, &[ALL, LF, ":0000"], [21, 172]),
    ("an end record with a byte", 0, &[":0100000100FE\n"], [21, 0]),
    ("an end record with an address", 0, &[":00000101FE\n"], [21, 0]),
    ("an end record with a great address", 1, &[ALL, LF, ":00FF000100\n"], [21, 172]),
    ("an end record with a byte and a wrong checksum", 0, &[":010000010000\n"], [21, 0]),
    ("an unknown type with a bad character", 0, &[":00000002FE \n"], [21, 0]),
    // 22: a wrong checksum.
    ("a wrong checksum", 1, &[A, LF, B, LF, ":10002000000102030405060708090A0B0C0D0E0F59\n"], [22, 88]),
    ("a checksum that is the sum", 0, &[":0000000101\n"], [22, 0]),
    ("an end record's wrong checksum", 0, &[":00000001FE\n"], [22, 0]),
    ("an unknown type with a wrong checksum", 0, &[":00000002FF\n"], [22, 0]),
    ("an address outside with a wrong checksum", 1, &[":0100500000AE\n"], [22, 0]),
    ("a record of no byte with a wrong checksum", 1, &[":0000000001\n"], [22, 0]),
    // 23: an unknown type.
    ("type 02", 0, &[":00000002FE\n"], [23, 0]),
    ("type 04, which others use", 1, &[A, CR_LF, ":020000040000FA\n"], [23, 45]),
    ("type 05, with an address outside and a great value", 1, &[":01FFFF0510EC\n"], [23, 0]),
    ("type FF", 0, &[":000000FF01\n"], [23, 0]),
    ("type 10", 0, &[":00000010F0\n"], [23, 0]),
    // 24: a data byte's address outside.
    ("a byte past the last address", 1, &[":0100500000AF\n"], [24, 0]),
    ("a byte for no chip", 0, &[":0000000000\n", ":0100000000FF\n"], [24, 12]),
    ("the greatest address", 1, &[ALL, LF, ":01FFFF000001\n"], [24, 172]),
    ("a record that would go on at address 0", 1, &[":02FFFF00000000\n"], [24, 0]),
    ("a record that begins inside", 1, &[":02004F000F00A0\n"], [24, 0]),
    ("a record that is given and goes on outside", 1, &[ALL, LF, ":02004F000F00A0\n"], [24, 172]),
    ("a value over 15 outside", 1, &[":01005000FFB0\n"], [24, 0]),
    // 25: an address given twice.
    ("a record twice", 1, &[A, LF, B, LF, A, LF], [25, 88]),
    ("a record's last byte given before", 1, &[":010010000FE0\n", ":02000F000F10D0\n"], [25, 14]),
    // 5: a value over 15.
    ("a value of 16", 1, &[A, LF, ":0100100010DF\n"], [5, 44]),
    ("a value over 15 before a bad character", 1, &[":0100000010EF\n", "?\n"], [5, 0]),
    // 27: no end record, or bytes after it.
    ("an empty file", 1, &[], [27, 0]),
    ("no end record", 1, &[ALL, LF], [27, 0]),
    ("no end record and no address", 1, &[":0000000000\n"], [27, 0]),
    ("a second end record", 1, &[ALL, LF, END, LF, END, LF], [27, 0]),
    ("a blank line after the end, and addresses missing", 1, &[A, LF, END, LF, LF], [27, 0]),
    ("bytes after the end that aren't read", 0, &[END, CR_LF, ":10zz"], [27, 0]),
    // 26: an address missing.
    ("no record", 1, &[END, LF], [26, 0]),
    ("two records missing", 1, &[E, LF, A, LF, C, LF, END, LF], [26, 16]),
];

// ---- Generated files -------------------------------------------------------

/// What a line says: a record's fields, what is added to the right checksum, and the line end.
#[derive(Clone, Debug)]
pub struct Record {
    pub address: u16,
    pub kind: u8,
    pub data: Vec<u8>,
    pub slip: u8,
    pub line_end: &'static str,
}

impl Record {
    pub fn new(address: u16, kind: u8, data: &[u8]) -> Self {
        Record {
            address,
            kind,
            data: data.to_vec(),
            slip: 0,
            line_end: LF,
        }
    }

    pub fn end() -> Self {
        Record::new(0, 1, &[])
    }

    pub fn text(&self) -> String {
        let length = self.data.len();
        let mut digits = format!("{length:02X}{:04X}{:02X}", self.address, self.kind);
        let mut sum = length as u64 + self.kind as u64;
        sum += (self.address / 256 + self.address % 256) as u64;
        for byte in &self.data {
            digits += &format!("{byte:02X}");
            sum += *byte as u64;
        }
        let checksum = (65536 - sum + self.slip as u64) % 256;
        format!(":{digits}{checksum:02X}{}", self.line_end)
    }
}

/// The text of all records, one after the other.
pub fn file_of(records: &[Record]) -> Vec<u8> {
    let lines = records.iter().map(Record::text);
    lines.collect::<String>().into_bytes()
}

/// A RAM cut into data records of this length, the last perhaps shorter, from address 0 on, without an end record.
pub fn records_of(ram: &[u8], length: usize) -> Vec<Record> {
    let record = |(number, data): (usize, &[u8])| Record::new((length * number) as u16, 0, data);
    ram.chunks(length).enumerate().map(record).collect()
}

/// What refuses a record, in the paper's order.
pub const ORDER: [usize; 6] = [21, 22, 23, 24, 25, 5];

/// A sound record of 14 characters, and one for the same PCA85133 that has the faults of `ORDER` that the bits of `faults` name.
pub fn with_faults(faults: usize) -> [Record; 2] {
    let fault = |number| (0..6).any(|bit| faults >> bit & 1 == 1 && ORDER[bit] == number);
    let mut record = Record::new(70, 0, &[1; 10]);
    if fault(21) {
        record.line_end = " \n";
    }
    if fault(22) {
        record.slip = 1;
    }
    if fault(23) {
        record.kind = 2;
    }
    if fault(24) {
        record.data.push(1);
    }
    if fault(5) {
        record.data[4] = 16;
    }
    let before = if fault(25) { 75 } else { 65 };
    [Record::new(before, 0, &[1]), record]
}

/// Puts a list in any order.
pub fn shuffle<T>(random: &mut Random, list: &mut [T]) {
    for last in (1..list.len()).rev() {
        list.swap(random.below(last + 1), last);
    }
}

/// A RAM as records of any length, some of no byte, in any order, with either line end; the end record is the last.
pub fn records(random: &mut Random, ram: &[u8]) -> Vec<Record> {
    let longest = random.pick(&[1, 4, 16, 16, 40, 255]);
    let (mut records, mut at) = (Vec::new(), 0);
    while at < ram.len() {
        let length = match random.below(6) {
            0 => 0,
            1 => longest,
            _ => random.between(1, longest),
        };
        let end = ram.len().min(at + length);
        records.push(Record::new(at as u16, 0, &ram[at..end]));
        at = end;
    }
    if random.one_in(4) {
        let address = random.number() as u16;
        records.push(Record::new(address, 0, &[]));
    }
    if !random.one_in(4) {
        shuffle(random, &mut records);
    }
    records.push(Record::end());
    let ends = random.pick(&[[LF, LF], [CR_LF, CR_LF], [LF, CR_LF]]);
    for record in &mut records {
        record.line_end = random.pick(&ends);
    }
    records
}

/// A file that is taken and gives this RAM.
pub fn sound_file(random: &mut Random, ram: &[u8]) -> Vec<u8> {
    file_of(&records(random, ram))
}

/// A fault of the records, of which there is at least one: one of them changed, missing, given again, or an end record that is early, missing or not the last.
fn damage(random: &mut Random, records: &mut Vec<Record>) {
    let [place, other] = [(); 2].map(|()| random.below(records.len()));
    let record = &mut records[place];
    match random.below(11) {
        0 => record.slip = random.between(1, 255) as u8,
        1 => record.kind = random.pick(&[0, 1, 2, 3, 4, 5, 16, 255]),
        2 => record.address = random.number() as u16,
        3 => {
            let distance = random.pick(&[1, 2, 16, 80, 160, 0xFFFF]);
            record.address = record.address.wrapping_add(distance);
        }
        4 => put_great_value(random, &mut record.data),
        5 => record.line_end = random.pick(&["", "\r", "\n\n", "\n\r", " \n"]),
        6 => drop(records.remove(place)),
        7 => {
            let again = record.clone();
            records.insert(other, again);
        }
        8 => records.insert(place, Record::end()),
        9 => drop(records.pop()),
        _ => {
            let (address, kind) = (random.byte().into(), random.byte() % 3);
            records.push(Record::new(address, kind, &[1, 2, 3]));
        }
    }
}

fn put_great_value(random: &mut Random, data: &mut Vec<u8>) {
    let value = random.pick(&[16, 17, 128, 255]);
    match data.len() {
        0 => data.push(value),
        length => data[random.below(length)] = value,
    }
}

/// A character, those of a file more often than others.
fn character(random: &mut Random) -> u8 {
    match random.below(4) {
        0 => random.byte(),
        1 => random.pick(b":\n\r\n :af@G/"),
        _ => random.pick(b"0123456789ABCDEF"),
    }
}

/// A fault of the text, of which there is at least one byte: a character changed, put in or taken out, a cut, one behind it, or two exchanged.
fn spoil(random: &mut Random, file: &mut Vec<u8>) {
    let [place, other] = [(); 2].map(|()| random.below(file.len()));
    match random.below(6) {
        0 => file[place] = character(random),
        1 => file.insert(place, character(random)),
        2 => drop(file.drain(place..=place)),
        3 => file.truncate(place),
        4 => file.push(character(random)),
        _ => file.swap(place, other),
    }
}

/// A file with so many faults, each in a record or in the text; some take others back.
pub fn damaged_file(random: &mut Random, ram: &[u8], faults: usize) -> Vec<u8> {
    let mut records = records(random, ram);
    let in_text = random.below(2) * random.between(1, faults);
    for _ in in_text..faults {
        damage(random, &mut records);
        if records.is_empty() {
            records.push(Record::end());
        }
    }
    let mut file = file_of(&records);
    for _ in 0..in_text {
        spoil(random, &mut file);
        if file.is_empty() {
            file.push(character(random));
        }
    }
    file
}
