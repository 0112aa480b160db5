//! The inputs of a size: what all ways must answer alike, and the library call that is timed.

use crate::accounts::{agreed_plain, plain_call};
use crate::library;
use crate::logs;
use crate::measure::transfer_call;
use crate::replay::agreed_text;
use crate::same::{agreed, answered, pictured, transferred};
use crate::samples::{in_groups, transfer, Bus, Mode, Setup, MODES, TURNS};
use crate::timing::Call;
use crate::ways::{PICTURES, TRANSFERS};
use humtrellis::raw::{CHIP, CHIP_SUBADDRESS, TEXT};
use humtrellis_tests::generate::command;
use humtrellis_tests::model::{Part, WHOLE};
use humtrellis_tests::random::Random;
use std::hint::black_box;

/// 1:4.
const MODE: Mode = MODES[3];
/// Data bytes of the transfer to plain chips.
const DATA: usize = 40;

pub trait Input {
    fn check(&self, what: &str) -> Result<(), String>;
    fn call(&self) -> Call<'_>;
}

/// Makes a transfer of just so many bytes.
pub type Make = fn(&mut Random, Part, usize) -> Vec<u8>;

pub fn data_run(random: &mut Random, part: Part, length: usize) -> Vec<u8> {
    let mut bytes = transfer(part, MODE, 0, &random.bytes(length));
    bytes.truncate(length);
    bytes
}

pub fn command_run(random: &mut Random, part: Part, length: usize) -> Vec<u8> {
    let mut bytes = vec![0x70, 0x00];
    bytes.extend((0..length).map(|_| command(random, part)));
    bytes.truncate(length);
    bytes
}

/// Device-select and pointer before each data byte, all with their own control byte.
pub fn in_turn(random: &mut Random, part: Part, length: usize) -> Vec<u8> {
    let mut bytes = vec![0x70];
    while bytes.len() < length {
        let (chip, column) = (random.below(4) as u8, random.below(80) as u8);
        for command in part.position_commands(chip, column) {
            bytes.extend([0x80, command]);
        }
        bytes.extend([0xC0, random.byte()]);
    }
    bytes.truncate(length);
    bytes
}

fn setup(part: Part, chips: u8) -> Setup {
    let chips = in_groups(part, chips);
    Setup {
        part,
        chips,
        mode: MODE,
    }
}

/// Transfers to a bus.
pub struct Sent {
    bus: Bus,
    transfers: Vec<Vec<u8>>,
}

impl Sent {
    /// To a full group.
    pub fn new(part: Part, length: usize, make: Make) -> Self {
        let random = &mut Random::new(length as u64);
        Sent {
            bus: setup(part, part.subaddresses()).bus(random),
            transfers: (0..TURNS).map(|_| make(random, part, length)).collect(),
        }
    }

    /// To the first group of so many chips, which it fills.
    pub fn filling(part: Part, chips: u8) -> Self {
        let all = setup(part, chips);
        Sent {
            bus: all.bus(&mut Random::new(0)),
            transfers: setup(part, all.chips[0]).transfers(0),
        }
    }
}

impl Input for Sent {
    fn check(&self, what: &str) -> Result<(), String> {
        for bytes in &self.transfers {
            let outcome = agreed(what, &TRANSFERS, |way| {
                transferred(way, &self.bus, bytes, WHOLE)
            })?;
            answered(what, 0, outcome)?;
        }
        Ok(())
    }

    fn call(&self) -> Call<'_> {
        transfer_call(library::transfer, self.bus.clone(), &self.transfers)
    }
}

/// Buses whose first group is shown.
pub struct Shown {
    buses: Vec<Bus>,
}

impl Shown {
    pub fn new(part: Part, chips: u8) -> Self {
        let buses = setup(part, chips).shown_buses();
        Shown { buses }
    }
}

impl Input for Shown {
    fn check(&self, what: &str) -> Result<(), String> {
        for bus in &self.buses {
            let outcome = agreed(what, &PICTURES, |way| {
                pictured(way, bus, [0, 0], bus.columns(0))
            })?;
            answered(what, 0, outcome)?;
        }
        Ok(())
    }

    fn call(&self) -> Call<'_> {
        let mut out = vec![0; self.buses[0].columns(0)];
        let mut answer = library::Numbers::default();
        Box::new(move |turn| {
            let bus = black_box(&self.buses[turn % TURNS]);
            library::picture(&bus.view(0, 0), &mut out, &mut answer);
            black_box(&answer);
        })
    }
}

/// Transfers to a list of plain chips, which all hear them; past the part's subaddresses these repeat.
pub struct Listed {
    part: u8,
    chips: Vec<u8>,
    transfers: Vec<Vec<u8>>,
}

impl Listed {
    pub fn new(part: Part, count: usize) -> Self {
        let random = &mut Random::new(80);
        let mut chips = vec![0; CHIP * count];
        for (index, chip) in chips.as_chunks_mut::<CHIP>().0.iter_mut().enumerate() {
            chip[CHIP_SUBADDRESS] = index as u8 % part.subaddresses();
        }
        let run = |_| transfer(part, MODE, 0, &random.bytes(DATA));
        Listed {
            part: part.number(),
            chips,
            transfers: (0..TURNS).map(run).collect(),
        }
    }
}

impl Input for Listed {
    fn check(&self, what: &str) -> Result<(), String> {
        for bytes in &self.transfers {
            let outcome = agreed_plain(what, self.part, &self.chips, bytes)?;
            answered(what, 0, outcome)?;
        }
        Ok(())
    }

    fn call(&self) -> Call<'_> {
        let chips = self.chips.clone();
        plain_call(library::plain_transfer, self.part, chips, &self.transfers)
    }
}

/// Logs of a length.
pub struct Logged {
    logs: Vec<Vec<u8>>,
}

impl Logged {
    pub fn new(length: usize, make: logs::Make) -> Self {
        let random = &mut Random::new(length as u64);
        let logs = (0..TURNS).map(|_| make(random, length)).collect();
        Logged { logs }
    }
}

impl Input for Logged {
    fn check(&self, what: &str) -> Result<(), String> {
        let out = &mut vec![0; TEXT];
        for log in &self.logs {
            let text = agreed_text(what, log, out)?;
            if text.starts_with(b"X") != (log.len() < 3) {
                return Err(format!("{what}: another answer than its length says"));
            }
        }
        Ok(())
    }

    fn call(&self) -> Call<'_> {
        let mut out = vec![0; TEXT];
        Box::new(move |turn| {
            let log = black_box(&self.logs[turn % TURNS]);
            black_box(library::replay(log, &mut out));
        })
    }
}
