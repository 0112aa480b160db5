//! Short and refused transfers, where the fixed cost of a call shows.

use crate::library::Numbers;
use crate::report;
use crate::same::{agreed, answered, transferred};
use crate::samples::{part_name, Bus, TURNS};
use crate::timing::{figures, Call};
use crate::ways::{Transfer, TRANSFERS};
use humtrellis_tests::model::{Part, TRANSFER_LIMIT, WHOLE};
use humtrellis_tests::random::Random;
use std::hint::black_box;

/// Transfers that take turns, each from the same registers, and the number of their answer.
struct Case {
    part: Part,
    name: &'static str,
    number: usize,
    bus: Bus,
    transfers: Vec<Vec<u8>>,
}

impl Case {
    /// To so many chips in the first group, powered on: 1:4, from the first column on.
    fn new(
        part: Part,
        chips: u8,
        name: &'static str,
        transfer: impl Fn(&mut Random, u8) -> Vec<u8>,
    ) -> Self {
        let random = &mut Random::new(48);
        Case {
            part,
            name,
            number: 0,
            bus: Bus::new(random, part.number(), [chips, 0]),
            transfers: (0..TURNS as u8)
                .map(|turn| transfer(random, turn))
                .collect(),
        }
    }

    fn row(&self) -> report::Row {
        let calls = TRANSFERS.map(|(_, way)| self.call(way));
        let (part, chips) = (part_name(self.part), self.bus.chips[0]);
        let name = format!("{part:8} | {chips:5} | {:34}", self.name);
        (name, figures(calls))
    }

    fn call(&self, way: Transfer) -> Call<'_> {
        let mut bus = self.bus.clone();
        let mut answer = Numbers::default();
        Box::new(move |turn| {
            // The data goes to the same columns in each call, and not on to where no chip is.
            bus.registers = self.bus.registers;
            let bytes = black_box(self.transfers[turn % TURNS].as_slice());
            way(&mut bus, bytes, WHOLE, &mut answer);
            black_box(&answer);
        })
    }

    fn check(&self) -> Result<(), String> {
        let what = format!("{}, {}", part_name(self.part), self.name);
        for bytes in &self.transfers {
            let outcome = agreed(&what, &TRANSFERS, |way| {
                transferred(way, &self.bus, bytes, WHOLE)
            })?;
            answered(&what, self.number, outcome)?;
        }
        Ok(())
    }
}

/// To one chip and to a full group.
fn short() -> Vec<Case> {
    let mut cases = Vec::new();
    for part in Part::BOTH {
        for chips in [1, part.subaddresses()] {
            cases.extend([
                Case::new(part, chips, "a mode-set", |_, turn| {
                    vec![0x70, 0x80, 0xC8 | (turn % 4)]
                }),
                Case::new(part, chips, "one data byte", |random, _| {
                    vec![0x70, 0x40, random.byte()]
                }),
                Case::new(
                    part,
                    chips,
                    "a device-select and 8 data bytes",
                    |random, turn| {
                        let select = [0x70, 0x80, 0xE0 | (turn % chips), 0x40];
                        [&select[..], &random.bytes(8)].concat()
                    },
                ),
            ]);
        }
    }
    cases
}

/// A transfer to a full group that is refused by a number, for its bytes or for what `damage` does to its bus.
fn refused_case(
    part: Part,
    number: usize,
    name: &'static str,
    bytes: &[u8],
    damage: fn(&mut Bus),
) -> Case {
    let chips = part.subaddresses();
    let mut case = Case::new(part, chips, name, |_, _| bytes.to_vec());
    damage(&mut case.bus);
    Case { number, ..case }
}

fn refused() -> Vec<Case> {
    let one = [0x70, 0x40, 0xA5];
    let many = |last| [&[0x70, 0x00], &[0xC8; TRANSFER_LIMIT - 3][..], last].concat();
    let (undefined_last, too_many) = (many(&[0xFF]), many(&[0xC8; 2]));
    let cases = |part| {
        let refused = |number, name, bytes, damage| refused_case(part, number, name, bytes, damage);
        [
            refused(3, "3, a chip too many", &one, |bus| bus.chips[0] += 1),
            refused(6, "6, the last register", &one, |bus| bus.registers[23] = 2),
            refused(5, "5, the last column", &one, |bus| {
                *bus.ram.last_mut().expect("chips") = 16
            }),
            refused(2, "2, of 4,097 bytes", &too_many, |_| {}),
            refused(7, "7, byte 2", &[0x70, 0x80, 0xFF], |_| {}),
            refused(7, "7, the last of 4,096 bytes", &undefined_last, |_| {}),
            refused(17, "17, byte 1", &[0x70, 0x81, 0xC8], |_| {}),
            refused(18, "18, byte 2", &one, |bus| bus.registers[11] = 1),
        ]
    };
    Part::BOTH.into_iter().flat_map(cases).collect()
}

pub fn check() -> Result<(), String> {
    short().iter().chain(&refused()).try_for_each(Case::check)
}

pub fn run() -> Vec<report::Target> {
    let head = format!("part     | chips | {:34}", "transfer");
    let rows = |cases: Vec<Case>| cases.iter().map(Case::row).collect::<Vec<_>>();
    let mut targets = report::rows("Short transfers: ns a call", &head, &rows(short()));
    let head = format!("part     | chips | {:34}", "refused by");
    targets.extend(report::rows(
        "Refused transfers: ns a call",
        &head,
        &rows(refused()),
    ));
    targets
}
