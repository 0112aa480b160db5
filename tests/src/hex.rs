//! Request 13 of paper 02 ("RAM images for the glass maker"): a group's long RAM, a byte a column, becomes an Intel HEX file, and such a file a RAM.

use crate::model::{answer, first_over_15, refuse_at, refuse_if, Answer, Bench, Refusal};

/// Most bytes of a file that is read.
pub const FILE_LIMIT: usize = 65536;
/// Data bytes of a record that is written.
const WIDTH: usize = 16;
/// Record types.
const DATA: u8 = 0;
const END: u8 = 1;

/// Columns of so many chips in a group.
fn columns(part: u8, chips: u8) -> Result<usize, Refusal> {
    let bench = Bench::new(part, chips, 0)?;
    bench.check_counts()?;
    Ok(bench.columns(0))
}

// ---- Writing ---------------------------------------------------------------

/// Writes the file to the start of the output, whose other bytes stay; the first count is the bytes written.
pub fn write(part: u8, chips: u8, ram: &[u8], out: &mut [u8]) -> Answer {
    answer(written(part, chips, ram, out))
}

fn written(part: u8, chips: u8, ram: &[u8], out: &mut [u8]) -> Result<[usize; 3], Refusal> {
    refuse_if(ram.len() != columns(part, chips)?, 4)?;
    refuse_at(first_over_15(ram), 5)?;
    let file = file(ram);
    refuse_if(out.len() < file.len(), 9)?;
    out[..file.len()].copy_from_slice(file.as_bytes());
    Ok([file.len(), 0, 0])
}

fn file(ram: &[u8]) -> String {
    let mut file = String::new();
    for (record, data) in ram.chunks(WIDTH).enumerate() {
        file += &line(WIDTH * record, DATA, data);
    }
    file + &line(0, END, &[])
}

/// A colon, then length, address, type, data and checksum in digits, and LF. The checksum makes the sum of all bytes a multiple of 256.
fn line(address: usize, kind: u8, data: &[u8]) -> String {
    let [high, low] = (address as u16).to_be_bytes();
    let mut bytes = vec![data.len() as u8, high, low, kind];
    bytes.extend(data);
    bytes.push(sum(&bytes).wrapping_neg());
    let digits: String = bytes.iter().map(|byte| format!("{byte:02X}")).collect();
    format!(":{digits}\n")
}

fn sum(bytes: &[u8]) -> u8 {
    let sum: usize = bytes.iter().map(|byte| *byte as usize).sum();
    (sum % 256) as u8
}

// ---- Reading ---------------------------------------------------------------

/// Reads a file into the RAM, which a refusal leaves; the first count is the columns.
pub fn read(part: u8, chips: u8, file: &[u8], ram: &mut [u8]) -> Answer {
    answer(taken(part, chips, file, ram))
}

fn taken(part: u8, chips: u8, file: &[u8], ram: &mut [u8]) -> Result<[usize; 3], Refusal> {
    let columns = columns(part, chips)?;
    refuse_if(file.len() > FILE_LIMIT, 14)?;
    refuse_if(ram.len() != columns, 4)?;
    let mut image = vec![None; columns];
    let ended = take_records(file, &mut image)?;
    refuse_if(!ended, 27)?;
    refuse_at(image.iter().position(Option::is_none), 26)?;
    for (column, value) in ram.iter_mut().zip(image) {
        *column = value.expect("each address is covered");
    }
    Ok([columns, 0, 0])
}

/// Takes the records up to the end record, or to the first that is faulty; true if there is an end record, and no byte after its line.
fn take_records(file: &[u8], image: &mut [Option<u8>]) -> Result<bool, Refusal> {
    let mut at = 0;
    while at < file.len() {
        let (text, length) = first_line(&file[at..]).ok_or((21, at))?;
        let record = Record::of(text).ok_or((21, at))?;
        record.take(image).map_err(|number| (number, at))?;
        at += length;
        if record.kind == END {
            return Ok(at == file.len());
        }
    }
    Ok(false)
}

/// The text of the line that stands first, without its LF or CR LF, and the line's length with it; a line has its LF.
fn first_line(rest: &[u8]) -> Option<(&[u8], usize)> {
    let end = rest.iter().position(|byte| *byte == b'\n')?;
    let line = &rest[..end];
    Some((line.strip_suffix(b"\r").unwrap_or(line), end + 1))
}

struct Record {
    address: usize,
    kind: u8,
    data: Vec<u8>,
    /// Of all its bytes, the checksum too.
    sum: u8,
}

impl Record {
    /// A line's record, unless it has a bad character or not the form of one.
    fn of(text: &[u8]) -> Option<Record> {
        let bytes = bytes(text.strip_prefix(b":")?)?;
        let [length, high, low, kind, data @ .., _] = &bytes[..] else {
            return None;
        };
        let record = Record {
            address: 256 * *high as usize + *low as usize,
            kind: *kind,
            data: data.to_vec(),
            sum: sum(&bytes),
        };
        let wrong_end = *kind == END && (*length != 0 || record.address != 0);
        if data.len() != *length as usize || wrong_end {
            return None;
        }
        Some(record)
    }

    /// Puts a data record's bytes where they belong; or what refuses a record, in the order 22, 23, 24, 25 and 5.
    fn take(&self, image: &mut [Option<u8>]) -> Result<(), usize> {
        if self.sum != 0 {
            return Err(22);
        }
        if self.kind != DATA && self.kind != END {
            return Err(23);
        }
        let addresses = self.address..self.address + self.data.len();
        if addresses.clone().any(|address| address >= image.len()) {
            return Err(24);
        }
        if addresses.clone().any(|address| image[address].is_some()) {
            return Err(25);
        }
        if first_over_15(&self.data).is_some() {
            return Err(5);
        }
        for (address, value) in addresses.zip(&self.data) {
            image[address] = Some(*value);
        }
        Ok(())
    }
}

/// The bytes that pairs of digits stand for, unless a digit is none or has no other.
fn bytes(digits: &[u8]) -> Option<Vec<u8>> {
    let byte = |pair: &[u8]| match pair {
        [high, low] => Some(16 * digit(*high)? + digit(*low)?),
        _ => None,
    };
    digits.chunks(2).map(byte).collect()
}

/// The value of a digit: 0 to 9 and capital A to F.
fn digit(character: u8) -> Option<u8> {
    match character {
        b'0'..=b'9' => Some(character - b'0'),
        b'A'..=b'F' => Some(character - b'A' + 10),
        _ => None,
    }
}

#[cfg(test)]
#[path = "hex_tests.rs"]
mod tests;
