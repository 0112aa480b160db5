//! Random cases, with faults put in one by one.

use crate::case::{clear_marks, ram_length, Case};
use humtrellis_tests::generate::{self, shape};
use humtrellis_tests::model::{ANSWER, COLUMNS, REGISTERS, SET};
use humtrellis_tests::random::Random;

/// Registers in range, edge values more often than others; mostly pointer and counter are known.
pub fn registers(random: &mut Random, part: u8) -> Vec<u8> {
    let mut registers = Vec::new();
    for limit in shape(part).greatest().map(usize::from).repeat(2) {
        let value = match random.below(4) {
            0 => limit - random.below(limit.min(4) + 1),
            _ => random.below(limit + 1),
        };
        registers.push(value as u8);
    }
    for set in registers.chunks_mut(SET) {
        if !random.one_in(6) {
            clear_marks(set, SET);
        }
    }
    registers
}

pub fn columns(random: &mut Random, length: usize) -> Vec<u8> {
    let mask = random.pick(&[0, 15, 15, 5, 12]);
    (0..length).map(|_| random.byte() & mask).collect()
}

pub fn transfer(random: &mut Random, part: u8) -> Vec<u8> {
    if random.one_in(60) {
        generate::long_transfer(random)
    } else {
        generate::transfer(random, shape(part))
    }
}

/// A case without a fault, but perhaps in its transfer or its part.
pub fn good_case(random: &mut Random) -> Case {
    let part = generate::part(random);
    let most = shape(part).subaddresses() as usize;
    let chips = [(); 2].map(|()| random.below(most + 1) as u8);
    let mut case = Case::new(part, chips);
    case.registers = registers(random, part);
    case.ram = columns(random, case.ram.len());
    case.bytes = transfer(random, part);
    case.bits = generate::bits(random);
    case.show([(); 2].map(|()| random.below(2) as u8));
    case.out = random.bytes(case.out.len());
    case.answer = (0..ANSWER).map(|_| random.number() as usize).collect();
    case
}

type Fault = fn(&mut Random, &mut Case);

const FAULTS: [Fault; 12] = [
    wrong_count,
    wrong_register,
    wrong_mark,
    wrong_registers_length,
    wrong_ram_length,
    wrong_columns,
    wrong_transfer,
    wrong_bits,
    wrong_view,
    wrong_out,
    wrong_answer_length,
    other_part,
];

/// A case with any number of faults, most often a few.
pub fn damaged_case(random: &mut Random) -> Case {
    let mut case = good_case(random);
    let rarity = random.between(2, 12);
    for fault in FAULTS {
        if random.one_in(rarity) {
            fault(random, &mut case);
        }
    }
    case
}

fn wrong_count(random: &mut Random, case: &mut Case) {
    let most = shape(case.part).subaddresses();
    case.chips[random.below(2)] = random.pick(&[most + 1, most + 2, 2 * most, 255]);
    if random.one_in(2) {
        case.ram = columns(random, ram_length(case.part, case.chips));
    }
}

fn wrong_register(random: &mut Random, case: &mut Case) {
    let place = random.below(REGISTERS);
    let limit = shape(case.part).greatest()[place % SET];
    case.registers[place] = random.pick(&[limit + 1, limit + 2, 254, 255]);
}

fn wrong_mark(random: &mut Random, case: &mut Case) {
    let set = random.pick(&[SET, REGISTERS]);
    case.registers[set - random.between(1, 3)] = random.pick(&[1, 1, 1, 2, 3, 255]);
}

fn wrong_registers_length(random: &mut Random, case: &mut Case) {
    if random.one_in(4) {
        let others = [0, SET, 18, REGISTERS - 1, REGISTERS + 1, 2 * REGISTERS];
        case.registers.resize(random.pick(&others), 0);
    }
}

fn wrong_ram_length(random: &mut Random, case: &mut Case) {
    let length = case.ram.len();
    let others = [
        0,
        length.saturating_sub(1),
        length + 1,
        length + COLUMNS,
        length / 2,
    ];
    let value = random.byte() & 31;
    case.ram.resize(random.pick(&others), value);
}

fn wrong_columns(random: &mut Random, case: &mut Case) {
    for _ in 0..random.between(1, 3) {
        let length = case.ram.len();
        if length > 0 {
            let any = random.below(length);
            let place = random.pick(&[0, length - 1, any]);
            case.ram[place] = random.pick(&[16, 17, 128, 255]);
        }
    }
}

fn wrong_transfer(random: &mut Random, case: &mut Case) {
    case.bytes = match random.below(4) {
        0 => vec![],
        1 => generate::long_transfer(random),
        2 => generate::stray_transfer(random, shape(case.part)),
        _ => random.bytes(20),
    };
}

fn wrong_bits(random: &mut Random, case: &mut Case) {
    case.bits = random.pick(&[0, 9, 10, 128, 255]);
}

fn wrong_view(random: &mut Random, case: &mut Case) {
    case.shown[random.below(2)] = random.pick(&[2, 3, 255]);
}

fn wrong_out(random: &mut Random, case: &mut Case) {
    let length = case.out.len();
    let others = [0, length.saturating_sub(1), length + 1, 80, 160, 320, 640];
    case.out.resize(random.pick(&others), 0xEE);
}

fn wrong_answer_length(random: &mut Random, case: &mut Case) {
    if random.one_in(4) {
        let others = [0, 1, ANSWER - 1, ANSWER + 1, 2 * ANSWER];
        case.answer.resize(random.pick(&others), 3);
    }
}

/// A part that the buffers were not made for, or none at all.
fn other_part(random: &mut Random, case: &mut Case) {
    case.part = match random.below(2) {
        0 => 1 - case.part % 2,
        _ => random.pick(&generate::UNKNOWN_PARTS),
    };
}
