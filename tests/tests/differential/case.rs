//! Everything that a call of the long account takes, and the same call by library and by model.

use crate::library::{self, Form};
use humtrellis_tests::generate::shape;
use humtrellis_tests::model::{self, Answer, View, ANSWER, REGISTERS, WHOLE};
use humtrellis_tests::packed;

#[derive(Clone, Copy, Debug)]
pub enum Call {
    PowerOn,
    Transfer,
    Picture,
}

/// The buffers and numbers of a call; after the call, what they have become.
#[derive(Clone, Debug, PartialEq)]
pub struct Case {
    pub form: Form,
    pub part: u8,
    pub chips: [u8; 2],
    pub registers: Vec<u8>,
    pub ram: Vec<u8>,
    pub bytes: Vec<u8>,
    pub bits: u8,
    pub shown: [u8; 2],
    pub out: Vec<u8>,
    pub answer: Vec<usize>,
}

impl Case {
    /// A bus from power-on with RAM all 0, a byte a column, and a picture buffer of group 0.
    pub fn new(part: u8, chips: [u8; 2]) -> Self {
        Case {
            form: Form::OneByte,
            part,
            chips,
            registers: vec![0; REGISTERS],
            ram: vec![0; ram_length(part, chips)],
            bytes: vec![0x70],
            bits: WHOLE,
            shown: [0, 0],
            out: vec![0xEE; length_of(part, chips[0])],
            answer: vec![77; ANSWER],
        }
    }

    /// Shows another group or phase, into a buffer of the right length.
    pub fn show(&mut self, shown: [u8; 2]) {
        self.shown = shown;
        self.out = vec![0xEE; length_of(self.part, self.chips[shown[0] as usize])];
    }

    /// Makes the call by the library alone, and gives the number returned.
    pub fn by_library(&mut self, call: Call) -> u8 {
        let (part, chips, shown) = ((self.form, self.part), self.chips, self.shown);
        let (registers, ram, answer) = (&mut self.registers, &mut self.ram, &mut self.answer);
        let (bytes, bits, out) = (&mut self.bytes, self.bits, &mut self.out);
        match call {
            Call::PowerOn => library::power_on(part, chips, ram, registers, answer),
            Call::Transfer => library::transfer(part, chips, registers, ram, bytes, bits, answer),
            Call::Picture => library::picture(part, chips, registers, ram, shown, out, answer),
        }
    }

    fn by_model(&mut self, call: Call) -> u8 {
        let Ok(mut registers) = <[u8; REGISTERS]>::try_from(&self.registers[..]) else {
            return library::SIZE;
        };
        if self.answer.len() != ANSWER {
            return library::SIZE;
        }
        let answer = self.answer_of_model(call, &mut registers);
        self.registers = registers.to_vec();
        self.answer = answer.numbers().to_vec();
        answer.number as u8
    }

    fn answer_of_model(&mut self, call: Call, registers: &mut [u8; REGISTERS]) -> Answer {
        let ([chips0, chips1], [group, phase]) = (self.chips, self.shown);
        let (part, ram, bytes, bits) = (self.part, &mut self.ram, &self.bytes, self.bits);
        let (power_on, transfer, picture) = model_of(self.form);
        match call {
            Call::PowerOn => power_on(part, chips0, chips1, ram, registers),
            Call::Transfer => transfer(part, chips0, chips1, registers, ram, bytes, bits),
            Call::Picture => {
                let view = View {
                    part,
                    chips0,
                    chips1,
                    registers,
                    ram,
                    group,
                    phase,
                };
                picture(view, &mut self.out)
            }
        }
    }

    /// Makes the call both ways, holds all results together, and gives the number returned.
    pub fn compare(&mut self, call: Call) -> u8 {
        let given = self.clone();
        let mut other = self.clone();
        let number = self.by_library(call);
        let expected = other.by_model(call);
        if number != expected || *self != other {
            panic!(
                "{call:?} differs\n given {given:?}\n library {number} {self:?}\n model {expected} {other:?}"
            );
        }
        number
    }

    /// Compares one call on a copy, so that this case stays as it is.
    pub fn try_call(&self, call: Call) -> u8 {
        self.clone().compare(call)
    }

    pub fn try_all(&self) -> [u8; 3] {
        [Call::PowerOn, Call::Transfer, Call::Picture].map(|call| self.try_call(call))
    }
}

type PowerOn = fn(u8, u8, u8, &[u8], &mut [u8; REGISTERS]) -> Answer;
type Transfer = fn(u8, u8, u8, &mut [u8; REGISTERS], &mut [u8], &[u8], u8) -> Answer;
type Picture = fn(View, &mut [u8]) -> Answer;

/// The model's three calls over a RAM of this form.
fn model_of(form: Form) -> (PowerOn, Transfer, Picture) {
    match form {
        Form::OneByte => (model::power_on, model::transfer, model::picture),
        Form::Packed => (packed::power_on, packed::transfer, packed::picture),
    }
}

/// Bytes of RAM, a byte a column, or of a picture, that so many chips have.
fn length_of(part: u8, chips: u8) -> usize {
    shape(part).columns() * chips as usize
}

/// Bytes of RAM, a byte a column, that the chips of both groups have.
pub fn ram_length(part: u8, chips: [u8; 2]) -> usize {
    chips.iter().map(|chips| length_of(part, *chips)).sum()
}

/// Where the marks begin in a set; three of them end it, and so they do a chip.
pub const MARKS: usize = 9;

/// Makes pointer and counter known in each set, or chip, of so many bytes.
pub fn clear_marks(sets: &mut [u8], size: usize) {
    for set in sets.chunks_mut(size) {
        set[size - 3..].fill(0);
    }
}

/// Both parts, and for the buffers of each a number that no part has.
pub const PARTS: [u8; 4] = [0, 1, 2, 255];

/// What refuses a call by its part alone.
pub fn refusal_of(part: u8) -> u8 {
    match part {
        0 | 1 => 0,
        _ => 16,
    }
}

/// The first number of an order of refusals that is one, or 0.
pub fn first_refusal<const N: usize>(order: [u8; N]) -> u8 {
    let mut refusals = order.into_iter().filter(|&number| number != 0);
    refusals.next().unwrap_or(0)
}
