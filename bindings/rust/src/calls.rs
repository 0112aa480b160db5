//! The calls over slices: the crate's only unsafe code. Each answer comes back, or the refusal.

#![allow(unsafe_code)]

use crate::bus::{Bus, Form};
use crate::raw::*;
use crate::refusal::Refused;

/// The numbers of an answer.
pub type Numbers = [usize; ANSWER];
type Asked = Result<Numbers, Refused>;

/// Calls the library: `&x` and `&mut x` lend a buffer, to read and to write, as its pointer and its length; a number goes as it is.
macro_rules! lend {
    ($call:ident [$($given:tt)*] &mut $buffer:ident, $($rest:tt)*) => {
        lend!($call [$($given)* $buffer.as_mut_ptr(), $buffer.len(),] $($rest)*)
    };
    ($call:ident [$($given:tt)*] & $buffer:ident, $($rest:tt)*) => {
        lend!($call [$($given)* $buffer.as_ptr(), $buffer.len(),] $($rest)*)
    };
    ($call:ident [$($given:tt)*] $number:expr, $($rest:tt)*) => {
        lend!($call [$($given)* $number,] $($rest)*)
    };
    ($call:ident [$($given:tt)*]) => {
        // Safety: each pointer goes with the length of the slice that it is of, and no slice that is written overlaps another.
        unsafe { $call($($given)*) }
    };
}

/// Calls the library with an answer at the end, and looks at its number.
macro_rules! ask {
    ($call:ident: $($given:tt)*) => {{
        let mut answer = [0; ANSWER];
        let number = lend!($call [] $($given)* &mut answer,);
        taken(number, answer)
    }};
}

fn taken(number: u8, answer: Numbers) -> Asked {
    match number {
        0 => Ok(answer),
        _ => Err(Refused::new(number, answer[PLACE])),
    }
}

/// Both groups' registers, and how many chips each has.
type Registers = [u8; REGISTERS];
type Chips = [u8; 2];

pub fn power_on(
    form: Form,
    part: u8,
    [chips0, chips1]: Chips,
    ram: &[u8],
    registers: &mut Registers,
) -> Asked {
    match form {
        Form::OneByte => ask!(humtrellis_power_on: part, chips0, chips1, &ram, &mut registers,),
        Form::Packed => {
            ask!(humtrellis_packed_power_on: part, chips0, chips1, &ram, &mut registers,)
        }
    }
}

pub fn transfer(bus: &mut Bus, bytes: &[u8], bits: u8) -> Asked {
    let (part, [chips0, chips1]) = (bus.part as u8, bus.chips);
    let (registers, ram) = (&mut bus.registers, &mut bus.ram);
    match bus.form {
        Form::OneByte => {
            ask!(humtrellis_transfer: part, chips0, chips1, &mut registers, &mut ram, &bytes, bits,)
        }
        Form::Packed => {
            ask!(humtrellis_packed_transfer: part, chips0, chips1, &mut registers, &mut ram, &bytes, bits,)
        }
    }
}

pub fn picture(bus: &Bus, group: u8, phase: u8, out: &mut [u8]) -> Asked {
    let (part, [chips0, chips1]) = (bus.part as u8, bus.chips);
    let (registers, ram) = (&bus.registers, &bus.ram);
    match bus.form {
        Form::OneByte => {
            ask!(humtrellis_picture: part, chips0, chips1, &registers, &ram, group, phase, &mut out,)
        }
        Form::Packed => {
            ask!(humtrellis_packed_picture: part, chips0, chips1, &registers, &ram, group, phase, &mut out,)
        }
    }
}

pub fn write_rows(bus: &Bus, [group, mode, bank]: [u8; 3], wanted: &[u8], out: &mut [u8]) -> Asked {
    let (part, [chips0, chips1], registers) = (bus.part as u8, bus.chips, &bus.registers);
    ask!(humtrellis_write_rows: part, chips0, chips1, &registers, group, mode, bank, &wanted, &mut out,)
}

pub fn write_three(bus: &Bus, group: u8, wanted: &[u8], out: &mut [u8]) -> Asked {
    let (part, [chips0, chips1], registers) = (bus.part as u8, bus.chips, &bus.registers);
    ask!(humtrellis_write_three: part, chips0, chips1, &registers, group, &wanted, &mut out,)
}

pub fn plain_transfer(part: u8, chips: &mut [u8], bytes: &[u8], bits: u8) -> Asked {
    ask!(humtrellis_plain_transfer: part, &mut chips, &bytes, bits,)
}

pub fn chip_power_on(part: u8, chip: &mut [u8; CHIP]) -> Asked {
    ask!(humtrellis_chip_power_on: part, &mut chip,)
}

pub fn chip_picture(part: u8, chip: &[u8; CHIP], phase: u8, out: &mut [u8]) -> Asked {
    ask!(humtrellis_chip_picture: part, &chip, phase, &mut out,)
}

pub fn hex_write(part: u8, chips: u8, ram: &[u8], out: &mut [u8]) -> Asked {
    ask!(humtrellis_hex_write: part, chips, &ram, &mut out,)
}

pub fn hex_read(part: u8, chips: u8, file: &[u8], ram: &mut [u8]) -> Asked {
    ask!(humtrellis_hex_read: part, chips, &file, &mut ram,).map_err(Refused::in_image)
}

pub fn price_write(mode: u8, text: &[u8], out: &mut [u8]) -> Asked {
    ask!(humtrellis_price_write: mode, &text, &mut out,)
}

pub fn price_read(mode: u8, segments: &[u8], out: &mut [u8]) -> Asked {
    ask!(humtrellis_price_read: mode, &segments, &mut out,)
}

pub fn rescue(log: &[u8], out: &mut [u8]) -> Asked {
    ask!(humtrellis_rescue: &log, &mut out,)
}

/// The length of the text.
pub fn replay(log: &[u8], out: &mut [u8]) -> usize {
    lend!(humtrellis_replay [] &log, &mut out,)
}
