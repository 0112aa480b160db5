//! A bus of the long account.

use crate::calls;
use crate::raw::{self, COLUMNS, PCA85133_COLUMNS, REGISTERS, SET, WHOLE};
use crate::refusal::Refused;

/// The part whose chips a bus has.
#[derive(Clone, Copy, Debug, PartialEq, Eq)]
#[repr(u8)]
pub enum Part {
    Pcf8532 = 0,
    Pca85133 = 1,
}

impl Part {
    /// The columns of a chip.
    pub fn columns(self) -> usize {
        match self {
            Part::Pcf8532 => COLUMNS,
            Part::Pca85133 => PCA85133_COLUMNS,
        }
    }

    /// Who acknowledged the last data byte, of an answer's last number.
    pub(crate) fn acknowledged_by(self, number: usize) -> Option<u8> {
        let none = match self {
            Part::Pcf8532 => raw::NONE,
            Part::Pca85133 => raw::PCA85133_NONE,
        };
        (number != none).then_some(number as u8)
    }
}

/// The index of each register in a set of twelve.
#[derive(Clone, Copy, Debug, PartialEq, Eq)]
#[repr(usize)]
pub enum Register {
    E = 0,
    B = 1,
    M = 2,
    P = 3,
    A = 4,
    I = 5,
    O = 6,
    AB = 7,
    BF = 8,
    UnknownHigh = 9,
    UnknownLow = 10,
    UnknownDevice = 11,
}

/// How the RAM is kept: a byte a column, or two columns a byte.
#[derive(Clone, Copy, Debug, PartialEq, Eq)]
pub(crate) enum Form {
    OneByte,
    Packed,
}

/// What a transfer did: bytes acknowledged, bits stored and discarded, and the subaddress that acknowledged the last data byte.
#[derive(Clone, Copy, Debug, PartialEq, Eq)]
pub struct Answer {
    pub acknowledged: usize,
    pub stored: usize,
    pub discarded: usize,
    pub acknowledged_by: Option<u8>,
}

/// A byte a column, bit r the element on backplane r, and how many elements are lit.
#[derive(Clone, Debug, PartialEq, Eq)]
pub struct Picture {
    pub columns: Vec<u8>,
    pub lit: usize,
}

/// Chips of one part in both groups, with their registers and RAM.
///
/// ```
/// use humtrellis::{Answer, Bus, Part};
///
/// let mut bus = Bus::new(Part::Pcf8532, [2, 0])?;
/// // Group 0: 1:3 and on, device 0, pointer 159, then two data bytes over the edge of the chips.
/// let answer = bus.transfer(&[0x70, 0x80, 0xCB, 0x80, 0xE0, 0x80, 0x09, 0x80, 0x4F, 0x40, 0x04, 0xA6])?;
/// assert_eq!(answer, Answer { acknowledged: 12, stored: 16, discarded: 0, acknowledged_by: Some(1) });
/// let shown = bus.picture(0, 0)?;
/// assert_eq!((shown.columns[160], shown.lit), (4, 5));
/// # Ok::<(), humtrellis::Refused>(())
/// ```
#[derive(Clone, Debug, PartialEq, Eq)]
pub struct Bus {
    pub(crate) part: Part,
    pub(crate) chips: [u8; 2],
    pub(crate) form: Form,
    pub(crate) registers: [u8; REGISTERS],
    pub(crate) ram: Vec<u8>,
}

impl Bus {
    /// A bus from power-on with so many chips in groups 0 and 1, and RAM all 0, a byte a column.
    pub fn new(part: Part, chips: [u8; 2]) -> Result<Bus, Refused> {
        Bus::of(Form::OneByte, part, chips)
    }

    /// The same with the RAM packed: two columns a byte, the even one in the low four bits.
    ///
    /// ```
    /// use humtrellis::{Bus, Part};
    ///
    /// let mut bus = Bus::packed(Part::Pcf8532, [1, 0])?;
    /// bus.transfer(&[0x70, 0x80, 0xC8, 0x40, 0xA5])?;
    /// assert_eq!((bus.ram()[0], bus.ram().len()), (0xA5, 80));
    /// # Ok::<(), humtrellis::Refused>(())
    /// ```
    pub fn packed(part: Part, chips: [u8; 2]) -> Result<Bus, Refused> {
        Bus::of(Form::Packed, part, chips)
    }

    fn of(form: Form, part: Part, chips: [u8; 2]) -> Result<Bus, Refused> {
        let columns = part.columns() * (usize::from(chips[0]) + usize::from(chips[1]));
        let bytes = match form {
            Form::OneByte => columns,
            Form::Packed => columns / 2,
        };
        let (registers, ram) = ([0; REGISTERS], vec![0; bytes]);
        let mut bus = Bus {
            part,
            chips,
            form,
            registers,
            ram,
        };
        bus.power_on()?;
        Ok(bus)
    }

    /// The part of its chips.
    pub fn part(&self) -> Part {
        self.part
    }

    /// The chips of groups 0 and 1.
    pub fn chips(&self) -> [u8; 2] {
        self.chips
    }

    /// Group 0's registers, then group 1's, each in the order of [`Register`].
    pub fn registers(&self) -> &[u8; REGISTERS] {
        &self.registers
    }

    /// The same, to change in place; a call refuses those that are out of range.
    pub fn registers_mut(&mut self) -> &mut [u8; REGISTERS] {
        &mut self.registers
    }

    /// One register of group 0 or 1. Panics for another group.
    pub fn register(&self, group: usize, register: Register) -> u8 {
        self.registers[SET * group..][..SET][register as usize]
    }

    /// Group 0's chips in order, then group 1's.
    pub fn ram(&self) -> &[u8] {
        &self.ram
    }

    /// The same, to change in place; a call refuses a column over 15.
    pub fn ram_mut(&mut self) -> &mut [u8] {
        &mut self.ram
    }

    /// Makes the registers the power-on ones, also where it is refused; the RAM stays.
    pub fn power_on(&mut self) -> Result<(), Refused> {
        let registers = &mut self.registers;
        calls::power_on(self.form, self.part as u8, self.chips, &self.ram, registers)?;
        Ok(())
    }

    /// One whole transfer, START to STOP, address byte first. A refused one changes nothing.
    pub fn transfer(&mut self, bytes: &[u8]) -> Result<Answer, Refused> {
        self.transfer_cut(bytes, WHOLE)
    }

    /// A transfer of whose last byte so many bits came, 1 to 8.
    ///
    /// ```
    /// use humtrellis::{Bus, Part, Refusal, Register};
    ///
    /// let mut bus = Bus::new(Part::Pcf8532, [1, 0])?;
    /// bus.transfer_cut(&[0x70, 0x40, 0xFF], 3)?;
    /// assert_eq!(bus.register(0, Register::UnknownLow), 1);
    /// let refused = bus.transfer(&[0x70, 0x40, 0xFF]).unwrap_err();
    /// assert_eq!((refused.refusal, refused.place), (Refusal::Unknown, 2));
    /// # Ok::<(), humtrellis::Refused>(())
    /// ```
    pub fn transfer_cut(&mut self, bytes: &[u8], bits: u8) -> Result<Answer, Refused> {
        let answer = calls::transfer(self, bytes, bits)?;
        Ok(Answer {
            acknowledged: answer[raw::ACKNOWLEDGED],
            stored: answer[raw::STORED],
            discarded: answer[raw::DISCARDED],
            acknowledged_by: self.part.acknowledged_by(answer[raw::ACKNOWLEDGED_BY]),
        })
    }

    /// The lit elements of a group at a blink phase.
    pub fn picture(&self, group: u8, phase: u8) -> Result<Picture, Refused> {
        let chips = self.chips.get(usize::from(group)).copied();
        let mut columns = vec![0; self.part.columns() * usize::from(chips.unwrap_or(0))];
        let answer = calls::picture(self, group, phase, &mut columns)?;
        let lit = answer[raw::LIT];
        Ok(Picture { columns, lit })
    }

    /// The transfer that puts a group's wanted rows, a byte a column, into its RAM in a mode (M) and an input bank.
    ///
    /// ```
    /// use humtrellis::{Bus, Part};
    ///
    /// let mut bus = Bus::new(Part::Pcf8532, [2, 0])?;
    /// let wanted: Vec<u8> = (0..320).map(|column| column as u8 % 16).collect();
    /// let bytes = bus.write_rows(0, 0, 0, &wanted)?;
    /// bus.transfer(&bytes)?;
    /// assert_eq!(bus.ram(), wanted);
    /// # Ok::<(), humtrellis::Refused>(())
    /// ```
    pub fn write_rows(
        &self,
        group: u8,
        mode: u8,
        bank: u8,
        wanted: &[u8],
    ) -> Result<Vec<u8>, Refused> {
        crate::written(raw::ROWS, |out| {
            calls::write_rows(self, [group, mode, bank], wanted, out)
        })
    }

    /// The transfer that sets rows 0 to 2 of every column of a group in 1:3.
    pub fn write_three(&self, group: u8, wanted: &[u8]) -> Result<Vec<u8>, Refused> {
        crate::written(raw::THREE, |out| {
            calls::write_three(self, group, wanted, out)
        })
    }
}
