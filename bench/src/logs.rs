//! Bus logs of four PCF8532, of a given length: of long runs, or of short transfers.

use crate::samples::{transfer, MODES};
use humtrellis_tests::generate::log_of;
use humtrellis_tests::model::LOG_PART;
use humtrellis_tests::random::Random;

/// Bytes before the first record, and before each transfer.
const HEAD: usize = 3;
const LENGTH_FIELD: usize = 2;

/// A log of just so many bytes.
pub type Make = fn(&mut Random, usize) -> Vec<u8>;

/// Runs of 1 to 320 bytes in all modes.
pub fn long_runs(random: &mut Random, length: usize) -> Vec<u8> {
    log(random, length, |random| {
        let (mode, data) = (random.pick(&MODES), random.between(1, 320));
        transfer(LOG_PART, mode, 0, &random.bytes(data))
    })
}

/// A mode-set, one data byte, or a device-select and 8 data bytes.
pub fn short_transfers(random: &mut Random, length: usize) -> Vec<u8> {
    log(random, length, |random| match random.below(3) {
        0 => vec![0x70, 0x80, 0xC8 | random.pick(&MODES).bits],
        1 => vec![0x70, 0x40, random.byte()],
        _ => {
            let select = [0x70, 0x80, 0xE0 | random.below(4) as u8, 0x40];
            [&select[..], &random.bytes(8)].concat()
        }
    })
}

/// Without room for a record, the head or its first bytes.
fn log(random: &mut Random, length: usize, make: fn(&mut Random) -> Vec<u8>) -> Vec<u8> {
    let least = LENGTH_FIELD + 1;
    if length < HEAD + least {
        return [1, 4, 0][..length.min(HEAD)].to_vec();
    }
    let mut left = length - HEAD;
    let mut records = Vec::new();
    loop {
        let record = make(random);
        let size = LENGTH_FIELD + record.len();
        // What is left behind it must hold another.
        if left < size + least {
            break;
        }
        left -= size;
        records.push(record);
    }
    let mut last = vec![0x70, 0x40];
    last.extend(random.bytes(left));
    last.truncate(left - LENGTH_FIELD);
    records.push(last);
    log_of(4, 0, &records)
}
