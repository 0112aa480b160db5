//! Every set of faults at once, over RAM of either form: which refusal comes first.

use crate::case::{first_refusal, refusal_of, Call, Case, PARTS};
use crate::library::Form;
use humtrellis_tests::generate::shape;
use humtrellis_tests::model::{ANSWER, REGISTERS, SET};

const BAD_COUNT: usize = 1;
const BAD_REGISTER: usize = 2;
const BAD_LENGTH: usize = 4;
/// A fault of the one-byte form alone: packed, a byte over 15 has an odd column that is not 0.
const BAD_COLUMN: usize = 8;

/// Each form and part with every set of faults.
fn every_fault() -> impl Iterator<Item = (Form, u8, usize)> {
    let faulty = |form, part| (0..16).map(move |faults| (form, part, faults));
    let forms = [Form::OneByte, Form::Packed].into_iter();
    forms.flat_map(move |form| PARTS.into_iter().flat_map(move |part| faulty(form, part)))
}

/// A bus of two chips and one, with the faults that the bits of `faults` name.
fn bus_with(form: Form, part: u8, faults: usize) -> Case {
    let mut case = Case::new(part, [2, 1]);
    let most = shape(part).subaddresses();
    if form == Form::Packed {
        case.form = form;
        case.ram.truncate(case.ram.len() / 2);
    }
    if faults & BAD_COUNT != 0 {
        case.chips[1] = most + 1;
    }
    if faults & BAD_REGISTER != 0 {
        case.registers[SET + 4] = most + 1;
    }
    if faults & BAD_LENGTH != 0 {
        case.ram.push(0);
    }
    if faults & BAD_COLUMN != 0 {
        case.ram[33] = 16;
        case.ram[44] = 16;
    }
    case
}

/// The refusal of a bus, or 0: its part comes first, and 5 is not there where RAM is packed.
fn refusal_of_bus(form: Form, part: u8, faults: usize, registers_matter: bool) -> u8 {
    let refusal = |fault, number| if faults & fault != 0 { number } else { 0 };
    let register = if registers_matter {
        refusal(BAD_REGISTER, 6)
    } else {
        0
    };
    let column = match form {
        Form::OneByte => refusal(BAD_COLUMN, 5),
        Form::Packed => 0,
    };
    first_refusal([
        refusal_of(part),
        refusal(BAD_COUNT, 3),
        register,
        refusal(BAD_LENGTH, 4),
        column,
    ])
}

#[test]
fn power_on() {
    for (form, part, faults) in every_fault() {
        let expected = refusal_of_bus(form, part, faults, false);
        assert_eq!(
            bus_with(form, part, faults).compare(Call::PowerOn),
            expected
        );
    }
}

/// Transfers to group 0 or to nobody, the bits of their last bytes, and what refuses each while the counter is known and while it is not.
pub fn transfers() -> Vec<(Vec<u8>, u8, [u8; 2])> {
    let undefined = vec![0x70, 0x80, 0x01, 0x00, 0xF9, 0xFC];
    let stray = vec![0x70, 0x80, 0x01, 0x01];
    let data = vec![0x70, 0x80, 0x01, 0x40, 0xA5];
    let too_long = |start: &[u8]| [start, &vec![0xFF; 4097 - start.len()]].concat();
    let mut transfers = vec![
        (vec![0x70], 8, [0, 0]),
        (undefined.clone(), 8, [7, 7]),
        (undefined.clone(), 7, [0, 0]),
        (stray.clone(), 8, [17, 17]),
        (stray.clone(), 1, [0, 0]),
        (data.clone(), 8, [0, 18]),
        (data.clone(), 4, [0, 18]),
        ([&data[..4], &[0xA5; 3]].concat(), 1, [0, 18]),
        (vec![0x70, 0x80, 0xFC, 0x40, 0xA5], 8, [7, 7]),
        (vec![0x70, 0xC0, 0xA5, 0x00, 0xFC], 8, [7, 18]),
        (vec![0x70, 0xC0, 0xA5, 0x01], 8, [17, 18]),
        (vec![0x70, 0x80, 0xE1, 0x40, 0xA5], 8, [0, 0]),
    ];
    for bits in [0, 1, 7, 8, 9, 255] {
        let wrong = if matches!(bits, 0 | 9 | 255) { 19 } else { 0 };
        transfers.extend([
            (vec![], bits, [1, 1]),
            (vec![0x71; 4097], bits, [2, 2]),
            (vec![0x71, 0x00, 0xFF], bits, [wrong; 2]),
            (vec![0x71, 0x3F], bits, [wrong; 2]),
            (vec![0x71, 0x40, 0xA5], bits, [wrong; 2]),
        ]);
        for start in [&undefined, &stray, &data] {
            transfers.push((too_long(start), bits, [2, 2]));
            if wrong != 0 {
                transfers.push((start.clone(), bits, [19, 19]));
            }
        }
    }
    transfers
}

#[test]
fn transfer() {
    for (form, part, faults) in every_fault() {
        for (bytes, bits, numbers) in transfers() {
            for (mark, number) in (0..).zip(numbers) {
                let mut case = bus_with(form, part, faults);
                case.registers[SET - 1] = mark;
                (case.bytes, case.bits) = (bytes.clone(), bits);
                let expected = first_refusal([refusal_of_bus(form, part, faults, true), number]);
                assert_eq!(case.compare(Call::Transfer), expected);
            }
        }
    }
}

#[test]
fn picture() {
    let views = [([0, 0], 0), ([2, 0], 8), ([0, 2], 8), ([255, 255], 8)];
    for (form, part, faults) in every_fault() {
        let right = 2 * shape(part).columns();
        for (shown, number) in views {
            for length in [right, right - 1, right + 1, 0, right / 2, 2 * right] {
                let mut case = bus_with(form, part, faults);
                case.shown = shown;
                case.out = vec![0xEE; length];
                let wrong = if length == right { 0 } else { 9 };
                let of_bus = refusal_of_bus(form, part, faults, true);
                let expected = first_refusal([of_bus, number, wrong]);
                assert_eq!(case.compare(Call::Picture), expected);
            }
        }
    }
}

/// Buffers of a wrong size come before every refusal, and nothing is written.
#[test]
fn sizes() {
    let wrong = [
        (REGISTERS - 1, ANSWER),
        (REGISTERS + 1, ANSWER),
        (18, ANSWER),
        (0, ANSWER),
        (REGISTERS, ANSWER - 1),
        (REGISTERS, ANSWER + 1),
        (REGISTERS, 0),
        (0, 0),
    ];
    for (form, part, faults) in every_fault() {
        for (registers, answer) in wrong {
            let mut case = bus_with(form, part, faults);
            case.registers.resize(registers, 200);
            case.answer.resize(answer, 77);
            assert_eq!(case.try_all(), [255; 3]);
        }
    }
}
