//! PCF8532 or PCA85133 drivers on one I2C bus: the proved model, for Rust.
//!
//! ```
//! use humtrellis::{Bus, Part};
//!
//! let mut bus = Bus::new(Part::Pcf8532, [1, 0])?; // one chip in group 0, from power-on, RAM all 0
//! bus.transfer(&[0x70, 0x80, 0xC8, 0x40, 0xA5])?; // group 0: 1:4 and on, then a data byte
//! assert_eq!(bus.picture(0, 0)?.columns[..2], [5, 10]);
//! # Ok::<(), humtrellis::Refused>(())
//! ```
//!
//! Every answer comes from the library (include/humtrellis.h says what each call takes and refuses). A call that it refuses gives [`Refused`], with the
//! paper's [`Refusal`] and place, and changes nothing; only a refused power-on leaves the power-on registers.
//!
//! The build links libhumtrellis.a of the folder that `HUMTRELLIS_LIB_DIR` names, else of target/package of the repository that this crate lies in
//! (`make` makes it), else the installed one that pkg-config finds.

#![deny(unsafe_code)]

mod bus;
mod calls;
mod plain;
pub mod raw;
mod refusal;

pub use bus::{Answer, Bus, Part, Picture, Register};
pub use plain::{plain_transfer, Chip, PlainAnswer};
pub use refusal::{Refusal, Refused};

use calls::Numbers;

/// What a call writes at the front of a buffer that has room for any.
fn written(
    room: usize,
    call: impl FnOnce(&mut [u8]) -> Result<Numbers, Refused>,
) -> Result<Vec<u8>, Refused> {
    let mut out = vec![0; room];
    let answer = call(&mut out)?;
    out.truncate(answer[raw::WRITTEN]);
    Ok(out)
}

/// A group's RAM, a byte a column, as Intel HEX.
///
/// ```
/// use humtrellis::{hex_read, hex_write, Part};
///
/// let ram = [5; 160];
/// let file = hex_write(Part::Pcf8532, 1, &ram)?;
/// assert!(file.ends_with(b":00000001FF\n"));
/// assert_eq!(hex_read(Part::Pcf8532, 1, &file)?, ram);
/// # Ok::<(), humtrellis::Refused>(())
/// ```
pub fn hex_write(part: Part, chips: u8, ram: &[u8]) -> Result<Vec<u8>, Refused> {
    written(raw::HEX, |out| {
        calls::hex_write(part as u8, chips, ram, out)
    })
}

/// A group's RAM from Intel HEX.
pub fn hex_read(part: Part, chips: u8, file: &[u8]) -> Result<Vec<u8>, Refused> {
    let mut ram = vec![0; part.columns() * usize::from(chips)];
    calls::hex_read(part as u8, chips, file, &mut ram)?;
    Ok(ram)
}

/// The 7-segment data byte of each symbol of a price in a mode (M).
///
/// ```
/// use humtrellis::{price_read, price_write};
///
/// assert_eq!(price_write(3, "\u{2212}4")?, [0x04, 0xA6]);
/// assert_eq!(price_read(3, &[0x04, 0xA6])?, "-4");
/// # Ok::<(), humtrellis::Refused>(())
/// ```
pub fn price_write(mode: u8, text: impl AsRef<[u8]>) -> Result<Vec<u8>, Refused> {
    written(raw::PRICE, |out| {
        calls::price_write(mode, text.as_ref(), out)
    })
}

/// The price that such data bytes show, with the ASCII minus.
pub fn price_read(mode: u8, segments: &[u8]) -> Result<String, Refused> {
    written(raw::PRICE_TEXT, |out| {
        calls::price_read(mode, segments, out)
    })
    .map(ascii)
}

fn ascii(bytes: Vec<u8>) -> String {
    String::from_utf8(bytes).expect("the library writes ASCII")
}

/// What is whole of a torn log; `tear` is its length where nothing is torn.
#[derive(Clone, Debug, PartialEq, Eq)]
pub struct Rescued {
    pub log: Vec<u8>,
    pub records_kept: usize,
    pub bytes_kept: usize,
    pub bytes_dropped: usize,
    pub tear: usize,
}

/// The head of a torn bus log and the records before the first tear.
///
/// ```
/// let torn = [1, 1, 0, 0, 1, 0x70, 0, 2, 0x70];
/// let rescued = humtrellis::rescue(&torn)?;
/// assert_eq!((rescued.records_kept, rescued.bytes_dropped, rescued.tear), (1, 3, 6));
/// assert_eq!(rescued.log, torn[..6]);
/// # Ok::<(), humtrellis::Refused>(())
/// ```
pub fn rescue(log: &[u8]) -> Result<Rescued, Refused> {
    let mut out = vec![0; log.len()];
    let answer = calls::rescue(log, &mut out)?;
    out.truncate(answer[raw::BYTES_KEPT]);
    Ok(Rescued {
        log: out,
        records_kept: answer[raw::RECORDS_KEPT],
        bytes_kept: answer[raw::BYTES_KEPT],
        bytes_dropped: answer[raw::BYTES_DROPPED],
        tear: answer[raw::TEAR],
    })
}

/// The text of a bus log of PCF8532 drivers (docs/BENCH.md); a refused log, which has an X line alone, gives its refusal.
///
/// ```
/// let text = humtrellis::replay(&[1, 1, 0, 0, 1, 0x70])?;
/// assert_eq!(text, "T 0 0 0 1 0 0 4\nG 0 0\nG 1 0\n");
/// # Ok::<(), humtrellis::Refused>(())
/// ```
pub fn replay(log: &[u8]) -> Result<String, Refused> {
    let mut out = vec![0; raw::TEXT];
    let length = calls::replay(log, &mut out);
    out.truncate(length);
    let text = ascii(out);
    match text.strip_prefix("X ") {
        None => Ok(text),
        Some(refused) => Err(read_refusal(refused).expect("a number and a place")),
    }
}

fn read_refusal(text: &str) -> Option<Refused> {
    let (number, place) = text.trim_end().split_once(' ')?;
    Some(Refused::new(number.parse().ok()?, place.parse().ok()?))
}
