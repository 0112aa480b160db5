//! What is timed: a transfer that fills a setup's chips, their pictures, and the transfer for wanted rows, in each way.

use crate::library::Numbers;
use crate::samples::{Bus, Setup, Writing, TURNS};
use crate::timing::{figures, Call, Figure};
use crate::ways::{Picture, Transfer, Writer};
use crate::ways::{PACKED_PICTURES, PACKED_TRANSFERS, PICTURES, TRANSFERS, WRITERS};
use humtrellis_tests::model::WHOLE;
use humtrellis_tests::random::Random;
use std::hint::black_box;

/// A setup and the figures of each way in it.
pub type Row<const WAYS: usize> = (Setup, [Figure; WAYS]);

pub fn all<const WAYS: usize>(
    setups: &[Setup],
    measure: impl Fn(Setup) -> [Figure; WAYS],
) -> Vec<Row<WAYS>> {
    let row = |setup: &Setup| (*setup, measure(*setup));
    setups.iter().map(row).collect()
}

pub fn transfer_call<'a>(transfer: Transfer, mut bus: Bus, transfers: &'a [Vec<u8>]) -> Call<'a> {
    let mut answer = Numbers::default();
    Box::new(move |turn| {
        let bytes = black_box(transfers[turn % TURNS].as_slice());
        transfer(&mut bus, bytes, WHOLE, &mut answer);
        black_box(&answer);
    })
}

/// Nanoseconds a data byte.
pub fn transfers(setup: Setup) -> [Figure; 3] {
    let transfers = setup.transfers(0);
    let bus = || setup.bus(&mut Random::new(0));
    let calls = TRANSFERS.map(|(_, way)| transfer_call(way, bus(), &transfers));
    figures(calls).map(|figure| figure.per(setup.data_bytes()))
}

/// Packed, the one-byte form and the packed loop: nanoseconds a data byte.
pub fn packed_transfers(setup: Setup, start: u8) -> [Figure; 3] {
    let transfers = setup.transfers(start);
    let bus = setup.bus(&mut Random::new(0));
    let [(_, library), _, (_, by_hand)] = PACKED_TRANSFERS;
    let calls = [
        transfer_call(library, bus.packed(), &transfers),
        transfer_call(TRANSFERS[0].1, bus.clone(), &transfers),
        transfer_call(by_hand, bus.packed(), &transfers),
    ];
    figures(calls).map(|figure| figure.per(setup.data_bytes()))
}

/// The pictures of the groups that have chips.
pub fn picture_call<'a>(picture: Picture, buses: &'a [Bus]) -> Call<'a> {
    let rooms = [0, 1].map(|group| buses[0].columns(group));
    let mut out = vec![0; rooms[0].max(rooms[1])];
    let mut answer = Numbers::default();
    Box::new(move |turn| {
        let bus = black_box(&buses[turn % TURNS]);
        for (group, room) in rooms.iter().enumerate().filter(|(_, room)| **room > 0) {
            picture(&bus.view(group as u8, 0), &mut out[..*room], &mut answer);
            black_box(&answer);
        }
    })
}

/// Nanoseconds a column.
pub fn pictures(setup: Setup) -> [Figure; 4] {
    let buses = setup.shown_buses();
    let calls = PICTURES.map(|(_, way)| picture_call(way, &buses));
    figures(calls).map(|figure| figure.per(setup.columns()))
}

/// Packed, the one-byte form and the packed loop: nanoseconds a column.
pub fn packed_pictures(setup: Setup) -> [Figure; 3] {
    let buses = setup.shown_buses();
    let packed: Vec<Bus> = buses.iter().map(Bus::packed).collect();
    let [(_, library), _, (_, by_hand)] = PACKED_PICTURES;
    let calls = [
        picture_call(library, &packed),
        picture_call(PICTURES[0].1, &buses),
        picture_call(by_hand, &packed),
    ];
    figures(calls).map(|figure| figure.per(setup.columns()))
}

/// With room for just the transfer.
pub fn writer_call<'a>(writer: Writer, writings: &'a [Writing], room: usize) -> Call<'a> {
    let mut out = vec![0; room];
    let mut answer = Numbers::default();
    Box::new(move |turn| {
        let writing = black_box(&writings[turn % TURNS]);
        writer(&writing.asked(), &mut out, &mut answer);
        black_box(&answer);
    })
}

/// Nanoseconds a data byte.
pub fn writings(setup: Setup) -> [Figure; 3] {
    let (writings, room) = (setup.writings(), setup.written_bytes());
    let calls = WRITERS.map(|(_, way)| writer_call(way, &writings, room));
    figures(calls).map(|figure| figure.per(setup.data_bytes()))
}
