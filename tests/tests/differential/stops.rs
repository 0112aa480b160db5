//! A length that its check refuses is not walked through: each call here is given a false one, over a few bytes, and answers the paper's number.
//! Safety of every call: the refusal comes before a byte behind the false length is read or written; the other lengths are true.

use crate::case::{first_refusal, refusal_of, PARTS};
use crate::library::*;
use crate::plain::CHIP;
use humtrellis_tests::generate::shape;
use humtrellis_tests::model::{none, ANSWER, COLUMNS, REGISTERS, WHOLE};

/// More than is mapped behind any buffer here.
const FALSE: usize = 1 << 44;

/// Either call of request 13.
type Hex = unsafe extern "C" fn(
    part: u8,
    chips: u8,
    given: *const u8,
    given_length: usize,
    out: *mut u8,
    out_length: usize,
    answer: *mut usize,
    answer_length: usize,
) -> u8;

/// One chip, and the lengths that are told of its buffers.
struct Bus {
    form: Form,
    part: u8,
    chips: u8,
    registers: [u8; REGISTERS],
    ram_length: usize,
    bytes_length: usize,
    out_length: usize,
    answer: [usize; ANSWER],
}

impl Bus {
    fn new(part: u8) -> Self {
        Bus {
            form: Form::OneByte,
            part,
            chips: 1,
            registers: [0; REGISTERS],
            ram_length: shape(part).columns(),
            bytes_length: 2,
            out_length: shape(part).columns(),
            answer: [77; ANSWER],
        }
    }

    /// The same over packed RAM.
    fn packed(part: u8) -> Self {
        Bus {
            form: Form::Packed,
            ram_length: shape(part).columns() / 2,
            ..Bus::new(part)
        }
    }

    /// A call that is refused by this number, or by its part before, with place 0; only a transfer has a chip, and that is none.
    fn refused(&self, number: u8, expected: u8, chip: usize) {
        let expected = first_refusal([refusal_of(self.part), expected]);
        assert_eq!(number, expected);
        assert_eq!(self.answer, [expected.into(), 0, 0, 0, 0, chip]);
    }

    fn power_on(&mut self, expected: u8) {
        let (ram, r, a) = ([0; COLUMNS], &mut self.registers, &mut self.answer);
        let call = match self.form {
            Form::OneByte => humtrellis_power_on,
            Form::Packed => humtrellis_packed_power_on,
        };
        let number = unsafe {
            call(
                self.part,
                self.chips,
                0,
                ram.as_ptr(),
                self.ram_length,
                r.as_mut_ptr(),
                REGISTERS,
                a.as_mut_ptr(),
                ANSWER,
            )
        };
        self.refused(number, expected, 0);
    }

    fn transfer(&mut self, expected: u8) {
        let (mut ram, bytes) = ([0; COLUMNS], [0x70, 0x00]);
        let (r, a, ram) = (&mut self.registers, &mut self.answer, ram.as_mut_ptr());
        let call = match self.form {
            Form::OneByte => humtrellis_transfer,
            Form::Packed => humtrellis_packed_transfer,
        };
        let number = unsafe {
            call(
                self.part,
                self.chips,
                0,
                r.as_mut_ptr(),
                REGISTERS,
                ram,
                self.ram_length,
                bytes.as_ptr(),
                self.bytes_length,
                WHOLE,
                a.as_mut_ptr(),
                ANSWER,
            )
        };
        self.refused(number, expected, none(self.part));
    }

    fn picture(&mut self, expected: u8) {
        let (ram, mut out) = ([0; COLUMNS], [0xEE; COLUMNS]);
        let (r, a) = (&self.registers, &mut self.answer);
        let call = match self.form {
            Form::OneByte => humtrellis_picture,
            Form::Packed => humtrellis_packed_picture,
        };
        let number = unsafe {
            call(
                self.part,
                self.chips,
                0,
                r.as_ptr(),
                REGISTERS,
                ram.as_ptr(),
                self.ram_length,
                0,
                0,
                out.as_mut_ptr(),
                self.out_length,
                a.as_mut_ptr(),
                ANSWER,
            )
        };
        self.refused(number, expected, 0);
        assert_eq!(out, [0xEE; COLUMNS]);
    }

    /// The length told of the wanted rows is that of the RAM.
    fn write_rows(&mut self, expected: u8) {
        let (wanted, mut out) = ([0; COLUMNS], [0xEE; COLUMNS]);
        let (r, a) = (&self.registers, &mut self.answer);
        let number = unsafe {
            humtrellis_write_rows(
                self.part,
                self.chips,
                0,
                r.as_ptr(),
                REGISTERS,
                0,
                0,
                0,
                wanted.as_ptr(),
                self.ram_length,
                out.as_mut_ptr(),
                COLUMNS,
                a.as_mut_ptr(),
                ANSWER,
            )
        };
        self.refused(number, expected, 0);
        assert_eq!(out, [0xEE; COLUMNS]);
    }

    /// The same of the writer of request 12.
    fn write_three(&mut self, expected: u8) {
        let (wanted, mut out) = ([0; COLUMNS], [0xEE; COLUMNS]);
        let (r, a) = (&self.registers, &mut self.answer);
        let number = unsafe {
            humtrellis_write_three(
                self.part,
                self.chips,
                0,
                r.as_ptr(),
                REGISTERS,
                0,
                wanted.as_ptr(),
                self.ram_length,
                out.as_mut_ptr(),
                COLUMNS,
                a.as_mut_ptr(),
                ANSWER,
            )
        };
        self.refused(number, expected, 0);
        assert_eq!(out, [0xEE; COLUMNS]);
    }

    /// Reading is refused by 14 for the file's length or by 4 for the RAM's, writing by 4 for the RAM's; the chip count comes before each.
    fn hex(&mut self, call: Hex, [given, out]: [usize; 2], expected: u8) {
        let (buffer, mut written) = ([0; COLUMNS], [0xEE; COLUMNS]);
        let (g, o, a) = (buffer.as_ptr(), written.as_mut_ptr(), &mut self.answer);
        let number = unsafe {
            call(
                self.part,
                self.chips,
                g,
                given,
                o,
                out,
                a.as_mut_ptr(),
                ANSWER,
            )
        };
        self.refused(number, expected, 0);
        assert_eq!(written, [0xEE; COLUMNS]);
    }
}

/// Every part over RAM of either form.
fn both_forms() -> impl Iterator<Item = Bus> {
    let forms = |part| [Bus::new(part), Bus::packed(part)];
    PARTS.into_iter().flat_map(forms)
}

#[test]
fn stops_at_ram_length() {
    for mut bus in both_forms() {
        bus.ram_length = FALSE;
        bus.power_on(4);
        bus.transfer(4);
        bus.picture(4);
    }
}

/// A register comes before the RAM's length, and a chip count before both.
#[test]
fn stops_before_ram_length() {
    for mut bus in both_forms() {
        bus.ram_length = FALSE;
        bus.registers[0] = 9;
        bus.transfer(6);
        bus.picture(6);
        bus.chips = 9;
        bus.transfer(3);
        bus.picture(3);
        bus.power_on(3);
    }
}

/// The wanted rows' length comes behind a register, and a chip count before both.
#[test]
fn stops_at_wanted_length() {
    for mut bus in PARTS.map(Bus::new) {
        bus.ram_length = FALSE;
        bus.write_rows(4);
        bus.registers[0] = 9;
        bus.write_rows(6);
        bus.chips = 9;
        bus.write_rows(3);
    }
}

/// So in the writer of request 12.
#[test]
fn stops_at_wanted_length_of_three() {
    for mut bus in PARTS.map(Bus::new) {
        bus.ram_length = FALSE;
        bus.write_three(4);
        bus.registers[0] = 9;
        bus.write_three(6);
        bus.chips = 9;
        bus.write_three(3);
    }
}

#[test]
fn stops_at_lengths_of_hex() {
    for mut bus in PARTS.map(Bus::new) {
        let columns = bus.ram_length;
        bus.hex(humtrellis_hex_write, [FALSE, COLUMNS], 4);
        bus.hex(humtrellis_hex_write, [FALSE, FALSE], 4);
        bus.hex(humtrellis_hex_read, [FALSE, columns], 14);
        bus.hex(humtrellis_hex_read, [FALSE, FALSE], 14);
        bus.hex(humtrellis_hex_read, [0, FALSE], 4);
        bus.chips = 9;
        bus.hex(humtrellis_hex_write, [FALSE, FALSE], 3);
        bus.hex(humtrellis_hex_read, [FALSE, FALSE], 3);
    }
}

#[test]
fn stops_at_transfer_and_picture_length() {
    for mut bus in both_forms() {
        bus.bytes_length = FALSE;
        bus.transfer(2);
        bus.out_length = FALSE;
        bus.picture(9);
    }
}

#[test]
fn stops_at_list_and_transfer_of_chips() {
    for mut bus in PARTS.map(Bus::new) {
        let (mut chip, bytes) = ([0; CHIP], [0x70, 0x00]);
        for (chips, length, expected) in [(FALSE / CHIP * CHIP, 2, 10), (CHIP, FALSE, 2)] {
            let (c, b, a) = (chip.as_mut_ptr(), bytes.as_ptr(), bus.answer.as_mut_ptr());
            let number = unsafe {
                humtrellis_plain_transfer(bus.part, c, chips, b, length, WHOLE, a, ANSWER)
            };
            bus.refused(number, expected, none(bus.part));
        }
    }
}

#[test]
fn stops_at_picture_of_a_chip() {
    for mut bus in PARTS.map(Bus::new) {
        let (chip, mut out) = ([0; CHIP], [0xEE; COLUMNS]);
        let (c, o, a) = (chip.as_ptr(), out.as_mut_ptr(), bus.answer.as_mut_ptr());
        let number = unsafe { humtrellis_chip_picture(bus.part, c, CHIP, 0, o, FALSE, a, ANSWER) };
        bus.refused(number, 9, 0);
        assert_eq!(out, [0xEE; COLUMNS]);
    }
}

#[test]
fn stops_at_log_length() {
    let mut out = vec![0xEE; TEXT];
    let length =
        unsafe { humtrellis_replay([1, 0, 0].as_ptr(), FALSE, out.as_mut_ptr(), out.len()) };
    assert_eq!(out[..length], *b"X 14 0\n");
}

#[test]
fn stops_at_length_of_a_torn_log() {
    let (mut bus, mut out) = (Bus::new(0), [0xEE; 3]);
    let (log, a) = ([1, 0, 0], bus.answer.as_mut_ptr());
    let number =
        unsafe { humtrellis_rescue(log.as_ptr(), FALSE, out.as_mut_ptr(), out.len(), a, ANSWER) };
    bus.refused(number, 14, 0);
    assert_eq!(out, [0xEE; 3]);
}

/// The text's length, and that of the segments, comes before the mode and the output's length.
#[test]
fn stops_at_lengths_of_a_price() {
    for call in [humtrellis_price_write, humtrellis_price_read] {
        for (mode, room) in [(0, FALSE), (0, 0), (4, FALSE), (255, 0)] {
            let (mut bus, mut out) = (Bus::new(0), [0xEE; COLUMNS]);
            let (given, a) = ([b'8'; 3], bus.answer.as_mut_ptr());
            let number = unsafe {
                call(
                    mode,
                    given.as_ptr(),
                    FALSE,
                    out.as_mut_ptr(),
                    room,
                    a,
                    ANSWER,
                )
            };
            bus.refused(number, 2, 0);
            assert_eq!(out, [0xEE; COLUMNS]);
        }
    }
}
