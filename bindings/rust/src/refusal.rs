//! Why the library refuses a call.

use std::fmt;

/// The paper's refusals; `number` gives the paper's number.
#[derive(Clone, Copy, Debug, PartialEq, Eq, Hash)]
#[repr(u8)]
pub enum Refusal {
    EmptyTransfer = 1,
    LongTransfer = 2,
    ChipCount = 3,
    RamLength = 4,
    Column = 5,
    Register = 6,
    Command = 7,
    View = 8,
    OutLength = 9,
    ChipList = 10,
    Chip = 11,
    Log = 12,
    Record = 13,
    LogLength = 14,
    Symbol = 15,
    Part = 16,
    Control = 17,
    Unknown = 18,
    Bits = 19,
    Body = 20,
    Form = 21,
    Checksum = 22,
    Type = 23,
    Address = 24,
    Twice = 25,
    Missing = 26,
    End = 27,
}

/// Each refusal, what it is called, and what its place counts where it has one.
const NAMES: [(Refusal, &str, Option<&str>); 27] = [
    (Refusal::EmptyTransfer, "empty transfer", None),
    (Refusal::LongTransfer, "too many bytes", None),
    (Refusal::ChipCount, "too many chips in a group", None),
    (Refusal::RamLength, "length of the RAM", None),
    (Refusal::Column, "column over 15", Some("column")),
    (
        Refusal::Register,
        "register, mode or bank out of range",
        None,
    ),
    (Refusal::Command, "undefined command", Some("byte")),
    (Refusal::View, "group or phase over 1", None),
    (Refusal::OutLength, "length of the output", None),
    (Refusal::ChipList, "too many plain chips", None),
    (
        Refusal::Chip,
        "field or column of a chip out of range",
        Some("chip"),
    ),
    (Refusal::Log, "no log of version 1 or 2", None),
    (Refusal::Record, "record cut short", Some("offset")),
    (Refusal::LogLength, "log or RAM image too long", None),
    (Refusal::Symbol, "no symbol of a price", Some("byte")),
    (Refusal::Part, "unknown part", None),
    (
        Refusal::Control,
        "stray bits in a control byte",
        Some("byte"),
    ),
    (
        Refusal::Unknown,
        "data while pointer or counter is unknown",
        Some("byte"),
    ),
    (Refusal::Bits, "bits of the last byte not 1 to 8", None),
    (
        Refusal::Body,
        "record too short for what was seen",
        Some("offset"),
    ),
    (
        Refusal::Form,
        "character or form of a record",
        Some("offset"),
    ),
    (Refusal::Checksum, "wrong checksum", Some("offset")),
    (Refusal::Type, "unknown record type", Some("offset")),
    (
        Refusal::Address,
        "address outside the group",
        Some("offset"),
    ),
    (Refusal::Twice, "address given twice", Some("offset")),
    (Refusal::Missing, "address missing", Some("column")),
    (Refusal::End, "no end record, or bytes after it", None),
];

impl Refusal {
    /// The paper's number.
    pub fn number(self) -> u8 {
        self as u8
    }

    /// The refusal that has a number.
    pub fn of(number: u8) -> Option<Refusal> {
        let named = NAMES.iter().find(|named| named.0.number() == number);
        named.map(|named| named.0)
    }

    fn named(self) -> (&'static str, Option<&'static str>) {
        let (_, name, counted) = NAMES[self as usize - 1];
        (name, counted)
    }
}

impl fmt::Display for Refusal {
    fn fmt(&self, f: &mut fmt::Formatter) -> fmt::Result {
        f.write_str(self.named().0)
    }
}

/// A refused call: its refusal and its place, 0 unless the refusal has one.
///
/// ```
/// use humtrellis::{Bus, Part, Refusal};
///
/// let mut bus = Bus::new(Part::Pcf8532, [1, 0])?;
/// let refused = bus.transfer(&[0x70, 0x00, 0xC8, 0x0A]).unwrap_err();
/// assert_eq!((refused.refusal, refused.place), (Refusal::Command, 3));
/// assert_eq!(refused.to_string(), "refused by 7 (undefined command) at byte 3");
/// # Ok::<(), humtrellis::Refused>(())
/// ```
#[derive(Clone, Copy, Debug, PartialEq, Eq)]
pub struct Refused {
    pub refusal: Refusal,
    pub place: usize,
    /// The place is a record's offset in a RAM image.
    image: bool,
}

impl Refused {
    /// Panics for a number that no refusal has: the sizes of all that is lent are the header's, so 255 does not come.
    pub(crate) fn new(number: u8, place: usize) -> Self {
        let refusal = Refusal::of(number).expect("a refusal of the header");
        Refused {
            refusal,
            place,
            image: false,
        }
    }

    pub(crate) fn in_image(self) -> Self {
        Refused {
            image: true,
            ..self
        }
    }
}

impl fmt::Display for Refused {
    fn fmt(&self, f: &mut fmt::Formatter) -> fmt::Result {
        let (name, counted) = self.refusal.named();
        write!(f, "refused by {} ({name})", self.refusal.number())?;
        match (counted, self.image, self.refusal) {
            (None, _, _) => Ok(()),
            (_, true, Refusal::Column) => write!(f, " at offset {}", self.place),
            (Some(counted), _, _) => write!(f, " at {counted} {}", self.place),
        }
    }
}

impl std::error::Error for Refused {}
