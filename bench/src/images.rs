//! A RAM image of the greatest length, read by the library: data records for 640 columns, and records without data before the end record.

use crate::timing::{figures, Call};
use crate::{library, report};
use std::hint::black_box;

const PCF8532: u8 = 0;
const COLUMNS: usize = 640;
/// The longest file that is not refused by 14.
const LONGEST: usize = 65_536;
const END: &str = ":00000001FF\n";

fn record(address: usize, data: &[u8]) -> String {
    let mut bytes = vec![
        data.len() as u8,
        (address / 256) as u8,
        (address % 256) as u8,
        0,
    ];
    bytes.extend(data);
    let sum = bytes.iter().fold(0u8, |sum, byte| sum.wrapping_add(*byte));
    bytes.push(sum.wrapping_neg());
    bytes
        .iter()
        .fold(":".to_string(), |text, byte| text + &format!("{byte:02X}"))
        + "\n"
}

fn image(ram: &[u8]) -> String {
    let mut file: String = ram
        .chunks(16)
        .enumerate()
        .map(|(index, data)| record(16 * index, data))
        .collect();
    // A line is 12 characters, or 13 with CR LF.
    let left = LONGEST - file.len() - END.len();
    for _ in 0..left % 12 {
        file += ":0000000000\r\n";
    }
    while file.len() + END.len() < LONGEST {
        file += ":0000000000\n";
    }
    file + END
}

pub fn run() -> Result<(), String> {
    let ram: Vec<u8> = (0..COLUMNS).map(|column| (column * 7 % 16) as u8).collect();
    let file = image(&ram);
    let mut read = vec![0; COLUMNS];
    let answer = library::hex_read(PCF8532, 4, file.as_bytes(), &mut read);
    if file.len() != LONGEST || answer[0] != 0 || read != ram {
        return Err("a RAM image is not read as it should be".to_string());
    }
    let call: Call = Box::new(|_| {
        black_box(library::hex_read(
            PCF8532,
            4,
            black_box(file.as_bytes()),
            &mut read,
        ));
    });
    let [figure] = figures([call]);
    report::image(LONGEST, figure);
    Ok(())
}
