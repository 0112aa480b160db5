//! The crate on the paper's cases and README's logs, and bad input of every call: the paper's number and place, and nothing changes.

use humtrellis::raw::WHOLE;
use humtrellis::*;
use std::fmt::Debug;

const PARTS: [Part; 2] = [Part::Pcf8532, Part::Pca85133];

/// A transfer to group 0: each command after its own control byte, then data.
fn sent(commands: &[u8], data: &[u8]) -> Vec<u8> {
    let each = commands.iter().flat_map(|command| [0x80, *command]);
    let front = std::iter::once(0x70).chain(each).chain([0x40]);
    front.chain(data.iter().copied()).collect()
}

fn on(part: Part, chips: [u8; 2]) -> Bus {
    Bus::new(part, chips).expect("a bus")
}

/// The result is that refusal.
#[track_caller]
fn refused<T: Debug>(result: Result<T, Refused>, number: u8, place: usize) {
    let refused = result.expect_err("a refusal");
    assert_eq!((refused.refusal.number(), refused.place), (number, place));
}

/// The call is refused so, and leaves its value as it was.
#[track_caller]
fn kept<V, T>(value: &mut V, number: u8, place: usize, call: impl Fn(&mut V) -> Result<T, Refused>)
where
    V: Clone + PartialEq + Debug,
    T: Debug,
{
    let before = value.clone();
    refused(call(value), number, place);
    assert_eq!(*value, before);
}

#[test]
fn the_incident() {
    for (minus, column, lit) in [(0x04, 4, 5), (0x00, 0, 4)] {
        let mut bus = on(Part::Pcf8532, [2, 0]);
        let answer = bus.transfer(&sent(&[0xCB, 0xE0, 0x09, 0x4F], &[minus, 0xA6]));
        let told = Answer {
            acknowledged: 12,
            stored: 16,
            discarded: 0,
            acknowledged_by: Some(1),
        };
        assert_eq!(answer, Ok(told));
        let shown = bus.picture(0, 0).unwrap();
        assert_eq!((shown.columns[160], shown.lit), (column, lit));
    }
}

/// "Both sides of each edge": the last chip's edge, in either part.
#[test]
fn past_the_last_chip() {
    for (part, pointer) in [
        (Part::Pcf8532, &[0x09, 0x4F][..]),
        (Part::Pca85133, &[0x4F]),
    ] {
        let mut bus = on(part, [1, 0]);
        let answer = bus
            .transfer(&sent(&[&[0xC3], pointer].concat(), &[0xFF]))
            .unwrap();
        assert_eq!((answer.stored, answer.discarded), (3, 5));
        assert_eq!(answer.acknowledged_by, None);
        assert_eq!(bus.ram().last(), Some(&7));
        assert_eq!(bus.register(0, Register::A), 1);
        assert_eq!(bus.register(0, Register::P), 2);
    }
}

#[test]
fn the_other_group_and_packed() {
    let mut bytes = sent(&[0xC8, 0x09, 0x4F], &[0xA5]);
    bytes[0] = 0x72;
    let mut bus = on(Part::Pcf8532, [1, 2]);
    let mut packed = Bus::packed(Part::Pcf8532, [1, 2]).unwrap();
    assert_eq!(bus.transfer(&bytes), packed.transfer(&bytes));
    assert_eq!(bus.ram()[160 + 159..][..2], [5, 10]);
    assert_eq!(packed.ram()[160..].len(), 80);
    assert_eq!((packed.ram()[159], packed.ram()[160]), (0x50, 0x0A));
    assert_eq!(bus.picture(1, 0), packed.picture(1, 0));
    assert_eq!(bus.picture(0, 0).unwrap().lit, 0);
    assert_eq!(
        (bus.register(1, Register::P), bus.register(0, Register::P)),
        (1, 0)
    );
}

#[test]
fn every_element_of_three_backplanes() {
    for (part, each) in [(Part::Pcf8532, 640), (Part::Pca85133, 240)] {
        let mut bus = on(part, [2, 0]);
        let wanted: Vec<u8> = (0..bus.ram().len())
            .map(|column| column as u8 % 8)
            .collect();
        let bytes = bus.write_three(0, &wanted).unwrap();
        assert_eq!(bytes.len(), 3 + each * 2);
        assert_eq!(bus.transfer(&bytes).unwrap().discarded, 2);
        assert_eq!(bus.ram(), wanted);
    }
}

#[test]
fn logs() {
    let example = |name: &str| std::fs::read(format!("../../examples/{name}")).expect("an example");
    for name in ["minus", "minus-lost", "seen"] {
        let text = String::from_utf8(example(&format!("{name}.txt"))).unwrap();
        assert_eq!(replay(&example(&format!("{name}.log"))), Ok(text));
    }
    let rescued = rescue(&example("torn.log")).unwrap();
    assert_eq!(rescued.log, example("minus.log"));
    assert_eq!((rescued.records_kept, rescued.bytes_kept), (1, 17));
    assert_eq!((rescued.bytes_dropped, rescued.tear), (10, 17));
}

#[test]
fn refused_buses_and_power_on() {
    for (part, chips) in [
        (Part::Pcf8532, [5, 0]),
        (Part::Pcf8532, [0, 255]),
        (Part::Pca85133, [9, 0]),
    ] {
        refused(Bus::new(part, chips), 3, 0);
        refused(Bus::packed(part, chips), 3, 0);
    }
    let mut bus = on(Part::Pcf8532, [1, 0]);
    bus.transfer(&sent(&[0xC8], &[])).unwrap();
    bus.ram_mut()[7] = 16;
    refused(bus.power_on(), 5, 7);
    assert_eq!(
        *bus.registers(),
        [0; 24],
        "a refused power-on leaves the power-on registers"
    );
    assert_eq!(bus.ram()[7], 16);
}

#[test]
fn refused_transfers() {
    let faulty: [(u8, usize, &[u8], u8); 8] = [
        (1, 0, &[], WHOLE),
        (2, 0, &[0x70; 4097], WHOLE),
        (19, 0, &[0x70], 0),
        (19, 0, &[0x71], 9),
        (19, 0, &[0x70], 255),
        (7, 4, &[0x70, 0x80, 0xC8, 0x80, 0x0A], WHOLE),
        (17, 1, &[0x70, 0x81, 0x0A], WHOLE),
        (18, 2, &[0x70, 0x40, 0xFF], WHOLE),
    ];
    for bus in [Bus::new, Bus::packed] {
        let mut bus = bus(Part::Pcf8532, [1, 1]).unwrap();
        bus.transfer(&sent(&[0xC8], &[0xA5])).unwrap();
        bus.transfer_cut(&sent(&[], &[0xA5]), 3).unwrap();
        for (number, place, bytes, bits) in faulty {
            kept(&mut bus, number, place, |bus| bus.transfer_cut(bytes, bits));
        }
    }
}

/// Registers and RAM may be changed in place, and each call that looks at them refuses what is no state.
#[test]
fn refused_states() {
    let mut bus = on(Part::Pcf8532, [1, 0]);
    bus.ram_mut()[159] = 16;
    kept(&mut bus, 5, 159, |bus| bus.transfer(&[0x70]));
    kept(&mut bus, 5, 159, |bus| bus.picture(0, 0));
    bus.registers_mut()[15] = 160;
    kept(&mut bus, 6, 0, |bus| bus.transfer(&[0x70]));
    kept(&mut bus, 6, 0, |bus| bus.picture(0, 0));
    kept(&mut bus, 6, 0, |bus| bus.write_rows(0, 0, 0, &[0; 160]));
    kept(&mut bus, 6, 0, |bus| bus.write_three(0, &[0; 160]));
}

#[test]
fn refused_pictures_and_writers() {
    let mut bus = on(Part::Pcf8532, [1, 2]);
    for (group, phase) in [(2, 0), (0, 2), (255, 255)] {
        kept(&mut bus, 8, 0, |bus| bus.picture(group, phase));
    }
    let mut wanted = [0; 160];
    for (number, group, mode, bank) in [
        (6, 0, 4, 0),
        (6, 0, 0, 2),
        (6, 2, 255, 0),
        (8, 2, 0, 0),
        (4, 1, 0, 0),
    ] {
        kept(&mut bus, number, 0, |bus| {
            bus.write_rows(group, mode, bank, &wanted)
        });
    }
    kept(&mut bus, 8, 0, |bus| bus.write_three(2, &wanted));
    kept(&mut bus, 4, 0, |bus| bus.write_three(1, &wanted));
    wanted[9] = 16;
    kept(&mut bus, 5, 9, |bus| bus.write_rows(0, 0, 0, &wanted));
    kept(&mut bus, 5, 9, |bus| bus.write_three(0, &wanted));
}

#[test]
fn refused_chips() {
    for (part, limit) in PARTS.into_iter().zip([3, 7]) {
        Chip::new(part, 1, limit).unwrap();
        refused(Chip::new(part, 0, limit + 1), 11, 0);
        refused(Chip::new(part, 2, 0), 11, 0);
    }
    let mut chips = vec![Chip::new(Part::Pcf8532, 0, 0).unwrap(); 9];
    let send = |chips: &mut Vec<Chip>, bytes: &[u8], bits| {
        plain_transfer(Part::Pcf8532, chips, bytes, bits)
    };
    kept(&mut chips, 10, 0, |chips| send(chips, &[0x70], WHOLE));
    chips.truncate(2);
    kept(&mut chips, 1, 0, |chips| send(chips, &[], WHOLE));
    kept(&mut chips, 2, 0, |chips| send(chips, &[0; 4097], WHOLE));
    kept(&mut chips, 19, 0, |chips| send(chips, &[0x70], 9));
    kept(&mut chips, 7, 2, |chips| {
        send(chips, &[0x70, 0x80, 0x0A], WHOLE)
    });
    kept(&mut chips, 8, 0, |chips| chips[0].picture(2));
    chips[1].state_mut()[3] = 16;
    kept(&mut chips, 11, 1, |chips| send(chips, &[0x70], WHOLE));
    kept(&mut chips, 11, 0, |chips| chips[1].picture(0));
    kept(&mut chips, 11, 0, |chips| chips[1].power_on());
}

#[test]
#[should_panic(expected = "a chip of another part")]
fn chips_of_two_parts() {
    let mut chips = PARTS.map(|part| Chip::new(part, 0, 0).unwrap());
    let _ = plain_transfer(Part::Pcf8532, &mut chips, &[0x70], WHOLE);
}

#[test]
fn refused_images() {
    let (part, ram, end) = (Part::Pcf8532, [0; 160], b":00000001FF\n".as_slice());
    let file = hex_write(part, 1, &ram).unwrap();
    let data = &file[..file.len() - end.len()];
    refused(hex_write(part, 5, &ram), 3, 0);
    refused(hex_write(part, 2, &ram), 4, 0);
    refused(hex_write(part, 1, &[16; 160]), 5, 0);
    refused(hex_read(part, 5, &file), 3, 0);
    refused(hex_read(part, 1, &[0; 65537]), 14, 0);
    refused(hex_read(part, 1, &[&file[..44], b";"].concat()), 21, 44);
    refused(
        hex_read(part, 1, &[b":0100000000FE\n", end].concat()),
        22,
        0,
    );
    refused(
        hex_read(part, 1, &[b":020000040000FA\n", end].concat()),
        23,
        0,
    );
    refused(
        hex_read(part, 1, &[data, b":0100A000005F\n", end].concat()),
        24,
        440,
    );
    refused(
        hex_read(part, 1, &[data, &file[..44], end].concat()),
        25,
        440,
    );
    refused(hex_read(part, 1, &[&file[..44 * 9], end].concat()), 26, 144);
    refused(hex_read(part, 1, data), 27, 0);
    let high = hex_read(part, 1, b":0100000010EF\n").unwrap_err();
    assert_eq!(
        high.to_string(),
        "refused by 5 (column over 15) at offset 0"
    );
}

#[test]
fn refused_prices_and_logs() {
    refused(price_write(0, "1".repeat(81)), 2, 0);
    refused(price_write(4, "1"), 6, 0);
    refused(price_write(3, "1.."), 15, 2);
    refused(price_write(0, b"1\xE2\x88\x93"), 15, 1);
    refused(price_read(0, &[0; 81]), 2, 0);
    refused(price_read(255, &[]), 6, 0);
    refused(price_read(3, &[0x04, 0x40]), 15, 1);
    for (number, log) in [
        (12, &[][..]),
        (12, &[3, 0, 0]),
        (3, &[1, 5, 0]),
        (14, &[0; 65537]),
    ] {
        refused(replay(log), number, 0);
        refused(rescue(log), number, 0);
    }
    refused(replay(&[2, 1, 0, 0, 2, 0, 0, 0, 3, 0]), 13, 7);
    refused(replay(&[2, 1, 0, 0, 1, 0]), 20, 3);
}

/// Every refusal has its own number, and its number gives it back.
#[test]
fn numbers() {
    for number in 1..=27 {
        assert_eq!(Refusal::of(number).map(Refusal::number), Some(number));
    }
    assert_eq!(
        (Refusal::of(0), Refusal::of(28), Refusal::of(255)),
        (None, None, None)
    );
    let refused = Bus::new(Part::Pcf8532, [5, 0]).unwrap_err();
    assert_eq!(
        refused.to_string(),
        "refused by 3 (too many chips in a group)"
    );
    assert_eq!(refused.refusal.to_string(), "too many chips in a group");
}
