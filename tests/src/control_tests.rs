//! Request 7 of paper 02: stray bits of a control byte in a heard transfer are refused, in both accounts.

use super::*;

/// The four control bytes that have no stray bits.
const CLEAN: [u8; 4] = [0x00, 0x40, 0x80, 0xC0];

/// Number and place that both accounts give a transfer to two chips of group 0; refused, it changes nothing.
fn sent(bytes: &[u8]) -> (usize, usize) {
    let mut bus = Bus::new(2, 9);
    let answer = bus.answer(bytes);
    if answer.number != 0 {
        assert_eq!((answer.counts, answer.chip), ([0; 3], 4));
        assert_eq!((bus.registers, bus.others(9)), ([0; REGISTERS], vec![]));
    }
    (answer.number, answer.place)
}

/// Each stray bit alone under each Co and RS: as the last byte, before others, and behind a command and data.
#[test]
fn each_bit() {
    for clean in CLEAN {
        for bit in 0..6 {
            let stray = clean | 1 << bit;
            assert_eq!(sent(&[0x70, stray]), (17, 1));
            assert_eq!(sent(&[0x70, stray, 0xC8]), (17, 1));
            assert_eq!(sent(&[0x70, stray, 0xC8, 0x40, 0xA5]), (17, 1));
            assert_eq!(sent(&[0x70, 0x80, 0xC8, stray]), (17, 3));
            assert_eq!(sent(&[0x70, 0xC0, 0xA5, 0x80, 0xC9, stray]), (17, 5));
            assert_eq!(sent(&[0x70, 0xC0, 0xA5, stray, 0x01]), (17, 3));
        }
    }
}

/// Of the 256 control bytes four are taken, also as the last byte.
#[test]
fn each_control_byte() {
    for control in 0..=255 {
        let expected = match CLEAN.contains(&control) {
            true => (0, 0),
            false => (17, 1),
        };
        assert_eq!(sent(&[0x70, control]), expected);
        assert_eq!(sent(&[0x70, control, 0xC8]), expected);
    }
}

/// Whichever byte comes first: a stray bit or an undefined command.
#[test]
fn first_of_both() {
    assert_eq!(sent(&[0x70, 0x81, 0xFC]), (17, 1));
    assert_eq!(sent(&[0x70, 0x01, 0xFC]), (17, 1));
    assert_eq!(sent(&[0x70, 0x80, 0xFC, 0x81, 0xC8]), (7, 2));
    assert_eq!(sent(&[0x70, 0x80, 0xC8, 0xA0, 0xFC, 0x90]), (17, 3));
    assert_eq!(sent(&[0x70, 0x80, 0xC8, 0x80, 0xE4, 0x7F]), (7, 4));
    assert_eq!(sent(&[0x70, 0xC0, 0xFC, 0x48, 0xFC]), (17, 3));
    assert_eq!(sent(&[0x70, 0xC1, 0xFC, 0x00, 0xFC]), (17, 1));
}

/// In a run only its first byte is a control byte: what follows is data with any bits, or commands.
#[test]
fn bytes_of_a_run() {
    let every: Vec<u8> = (0..=255).collect();
    assert_eq!(sent(&[&[0x70, 0x40][..], &every].concat()), (0, 0));
    assert_eq!(sent(&[0x70, 0xC0, 0x3F, 0xC0, 0x81, 0x40, 0x3F]), (0, 0));
    assert_eq!(sent(&[0x70, 0x00, 0x09, 0x4F, 0xCB, 0xFB]), (0, 0));
    assert_eq!(sent(&[0x70, 0x00, 0x09, 0x3F, 0x81]), (7, 3));
}

/// A transfer that no chip hears is not looked at.
#[test]
fn unheard() {
    for address in [0x71, 0x72, 0x73, 0x50] {
        assert_eq!(sent(&[address, 0x3F, 0xFC, 0x81]), (0, 0));
    }
    let heard_by = |sa0| {
        let chips = &mut [Chip::new(sa0, 0)];
        plain_transfer(PCF8532, chips, &[0x72, 0x3F], WHOLE).number
    };
    assert_eq!([0, 1].map(heard_by), [0, 17]);
    assert_eq!(Bus::new(0, 0).send(&[0x70, 0x3F])[0], 0);
}

/// The walk comes last: a transfer over the limit is refused by its length.
#[test]
fn length_first() {
    let mut bytes = vec![0x70, 0x7F];
    bytes.resize(TRANSFER_LIMIT, 0);
    assert_eq!(sent(&bytes), (17, 1));
    bytes.push(0);
    assert_eq!(sent(&bytes), (2, 0));
}

/// Paper 01's log with a stray bit in its first transfer's last control byte and in its second's only one.
#[test]
fn log_lines() {
    let mut log = generate::WORKED_LOG;
    log[12] |= 0x20;
    let first = "T 0 17 7 0 0 0 4\nT 1 7 2 0 0 0 4\nT 2 0 0 0 0 0 4\nG 0 0\nG 1 0\n";
    assert_eq!(text(&log), first);
    log[17] |= 0x01;
    assert_eq!(text(&log), first.replace("1 7 2", "1 17 1"));
}
