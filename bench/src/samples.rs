//! The inputs: setups, transfers that fill their chips, buses to show, and wanted rows; the same in every run.

use crate::library::RegisterBytes;
use crate::ways::Asked;
use humtrellis_tests::generate::{commands_then_data, shape};
use humtrellis_tests::model::{Part, Registers, View, REGISTERS, SET};
use humtrellis_tests::random::Random;

/// Inputs of one kind that take turns, so that no call repeats the one before.
pub const TURNS: usize = 8;

/// The columns that packed transfers are timed from: an even and an odd one.
pub const STARTS: [u8; 2] = [0, 1];

#[derive(Clone, Copy)]
pub struct Mode {
    pub name: &'static str,
    /// The M bits of mode-set.
    pub bits: u8,
    /// Columns that a data byte covers.
    pub width: usize,
}

impl Mode {
    const fn new(name: &'static str, bits: u8, width: usize) -> Self {
        Mode { name, bits, width }
    }
}

pub const MODES: [Mode; 4] = [
    Mode::new("static", 1, 8),
    Mode::new("1:2", 2, 4),
    Mode::new("1:3", 3, 3),
    Mode::new("1:4", 0, 2),
];

pub fn part_name(part: Part) -> &'static str {
    match part {
        Part::Pcf8532 => "PCF8532",
        Part::Pca85133 => "PCA85133",
    }
}

/// So many chips of a part; the first group is full before the second has one.
pub fn in_groups(part: Part, chips: u8) -> [u8; 2] {
    let first = chips.min(part.subaddresses());
    [first, chips - first]
}

/// Columns of so many chips.
fn columns_of(part: u8, chips: u8) -> usize {
    shape(part).columns() * chips as usize
}

/// So many columns of any value.
pub fn any_columns(random: &mut Random, count: usize) -> Vec<u8> {
    (0..count).map(|_| random.byte() & 15).collect()
}

/// A bus as a caller holds it.
#[derive(Clone, PartialEq, Eq)]
pub struct Bus {
    pub part: u8,
    pub chips: [u8; 2],
    pub registers: RegisterBytes,
    pub ram: Vec<u8>,
}

impl Bus {
    /// Power-on registers over columns of any value.
    pub fn new(random: &mut Random, part: u8, chips: [u8; 2]) -> Self {
        let columns = columns_of(part, chips[0] + chips[1]);
        Bus {
            part,
            chips,
            registers: [0; REGISTERS],
            ram: any_columns(random, columns),
        }
    }

    /// The same with its columns packed, two a byte.
    pub fn packed(&self) -> Self {
        let pairs = self.ram.as_chunks::<2>().0.iter();
        Bus {
            ram: pairs.map(|[even, odd]| even & 15 | odd << 4).collect(),
            ..self.clone()
        }
    }

    /// Columns of a group.
    pub fn columns(&self, group: usize) -> usize {
        columns_of(self.part, self.chips[group])
    }

    pub fn view(&self, group: u8, phase: u8) -> View<'_> {
        View {
            part: self.part,
            chips0: self.chips[0],
            chips1: self.chips[1],
            registers: &self.registers,
            ram: &self.ram,
            group,
            phase,
        }
    }
}

/// What is wanted of a group of a bus.
pub struct Writing {
    pub bus: Bus,
    pub group: u8,
    pub mode: u8,
    pub bank: u8,
    pub rows: Vec<u8>,
}

impl Writing {
    pub fn asked(&self) -> Asked<'_> {
        Asked {
            part: self.bus.part,
            chips: self.bus.chips,
            registers: &self.bus.registers,
            group: self.group,
            mode: self.mode,
            bank: self.bank,
            rows: &self.rows,
        }
    }
}

/// What a row of figures is about: chips of a part in each group, in a mode.
#[derive(Clone, Copy)]
pub struct Setup {
    pub part: Part,
    pub chips: [u8; 2],
    pub mode: Mode,
}

/// A full group of each part: 640 columns.
pub fn filled() -> Vec<Setup> {
    setups(|part| vec![part.subaddresses()])
}

/// 1, 4 and 8 chips of each part, and 16 PCA85133: up to 1,280 columns.
pub fn shown() -> Vec<Setup> {
    setups(|part| match part {
        Part::Pcf8532 => vec![1, 4, 8],
        Part::Pca85133 => vec![1, 4, 8, 16],
    })
}

/// So many chips as `chips` says, of each part and in each mode.
fn setups(chips: fn(Part) -> Vec<u8>) -> Vec<Setup> {
    let mut setups = Vec::new();
    for part in Part::BOTH {
        for count in chips(part) {
            let chips = in_groups(part, count);
            setups.extend(MODES.map(|mode| Setup { part, chips, mode }));
        }
    }
    setups
}

impl Setup {
    pub fn name(self) -> String {
        format!("{}, {}", part_name(self.part), self.mode.name)
    }

    /// Chips of both groups.
    pub fn chip_count(self) -> u8 {
        self.chips[0] + self.chips[1]
    }

    /// Columns of both groups.
    pub fn columns(self) -> usize {
        columns_of(self.part.number(), self.chip_count())
    }

    /// Data bytes that fill the columns; of 640 in 1:3 the last one is cut.
    pub fn data_bytes(self) -> usize {
        self.columns().div_ceil(self.mode.width)
    }

    pub fn bus(self, random: &mut Random) -> Bus {
        Bus::new(random, self.part.number(), self.chips)
    }

    /// From column 0 or 1 on, to the last one.
    pub fn transfers(self, start: u8) -> Vec<Vec<u8>> {
        let mut random = Random::new(self.mode.bits as u64);
        let mut data = || random.bytes(self.data_bytes());
        (0..TURNS)
            .map(|_| transfer(self.part, self.mode, start, &data()))
            .collect()
    }

    /// The chips enabled, with columns of any value and both output banks in turn.
    pub fn shown_buses(self) -> Vec<Bus> {
        let mut random = Random::new(16 + self.mode.bits as u64);
        let mut shown = |turn: usize| {
            let mut bus = self.bus(&mut random);
            let shown = Registers {
                e: 1,
                m: self.mode.bits,
                o: (turn % 2) as u8,
                ..Registers::power_on()
            };
            bus.registers[..SET].copy_from_slice(&shown.to_bytes());
            bus.registers[SET..].copy_from_slice(&shown.to_bytes());
            bus
        };
        (0..TURNS).map(&mut shown).collect()
    }

    /// Rows of any value for the first group, which has all chips, in both input banks in turn.
    pub fn writings(self) -> Vec<Writing> {
        let writing = |(turn, bus): (usize, Bus)| Writing {
            rows: bus.ram.clone(),
            bus,
            group: 0,
            mode: self.mode.bits,
            bank: (turn % 2) as u8,
        };
        let buses = self.shown_buses().into_iter();
        buses.enumerate().map(writing).collect()
    }

    /// Bytes of the transfer for such rows.
    pub fn written_bytes(self) -> usize {
        around_written_data(self.part) + self.data_bytes()
    }
}

/// Sets mode, device and pointer (each with its control byte), then a data run from a column of chip 0 on.
pub fn transfer(part: Part, mode: Mode, start: u8, data: &[u8]) -> Vec<u8> {
    let commands = [&[0xC8 | mode.bits], &part.position_commands(0, start)[..]].concat();
    commands_then_data(0x70, &commands, data)
}

/// Bytes of such a transfer that are not data.
pub fn around_data(part: Part) -> usize {
    transfer(part, MODES[0], 0, &[]).len()
}

/// The same of a transfer for wanted rows, which has a bank-select too.
pub fn around_written_data(part: Part) -> usize {
    around_data(part) + 2
}
