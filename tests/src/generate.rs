//! Generators of parts, transfers and logs, well-formed and damaged.

use crate::model::{LogBus, Part, LOG_LIMIT, LOG_PART, TRANSFER_LIMIT, WHOLE};
use crate::random::Random;

/// The log that the paper works out.
pub const WORKED_LOG: [u8; 22] = [
    0x01, 0x02, 0x00, 0x00, 0x09, 0x70, 0x80, 0xC8, 0x80, 0x09, 0x80, 0x4F, 0x40, 0xA5, 0x00, 0x03,
    0x70, 0x00, 0xFC, 0x00, 0x01, 0x50,
];

/// The same in version 2: an analyser saw 9, 3 and 0 acknowledged bytes.
pub const WORKED_SEEN_LOG: [u8; 28] = [
    0x02, 0x02, 0x00, 0x00, 0x0B, 0x00, 0x09, 0x70, 0x80, 0xC8, 0x80, 0x09, 0x80, 0x4F, 0x40, 0xA5,
    0x00, 0x05, 0x00, 0x03, 0x70, 0x00, 0xFC, 0x00, 0x03, 0x00, 0x00, 0x50,
];

// ---- Parts -----------------------------------------------------------------

/// Numbers that no part has.
pub const UNKNOWN_PARTS: [u8; 8] = [2, 3, 4, 8, 16, 127, 254, 255];

/// A part's number, either as often as the other, and now and then one that no part has.
pub fn part(random: &mut Random) -> u8 {
    if random.one_in(24) {
        random.pick(&UNKNOWN_PARTS)
    } else {
        random.below(2) as u8
    }
}

/// The part whose chips, buffers and transfers a call with this number gets: its own, or that of its lowest bit where no part has it.
pub fn shape(part: u8) -> Part {
    Part::BOTH[part as usize % 2]
}

// ---- Transfers -------------------------------------------------------------

/// Each command with its own control byte, then a data run.
pub fn commands_then_data(address: u8, commands: &[u8], data: &[u8]) -> Vec<u8> {
    let mut bytes = vec![address];
    for command in commands {
        bytes.extend([0x80, *command]);
    }
    bytes.push(0x40);
    bytes.extend(data);
    bytes
}

/// A command that the part's table names.
pub fn command(random: &mut Random, part: Part) -> u8 {
    let low = random.byte();
    match part {
        Part::Pcf8532 => match random.below(8) {
            0 => low % 10,
            1 => 0x40 | low & 15,
            2 => 0xC0 | low & 15,
            3 => 0xC8 | low & 7,
            4 => 0xE0 | low & 3,
            5 => 0xE8 | low & 7,
            6 => 0xF0 | low & 7,
            _ => 0xF8 | low & 3,
        },
        Part::Pca85133 => match random.below(6) {
            0 => low % 80,
            1 => 0xC0 | low & 15,
            2 => 0xC8 | low & 7,
            3 => 0xE0 | low & 7,
            4 => 0xF0 | low & 7,
            _ => 0xF8 | low & 3,
        },
    }
}

/// Undefined bytes next to those that the part's table names.
fn just_undefined(part: Part) -> [u8; 10] {
    match part {
        Part::Pcf8532 => [0x0A, 0x3F, 0x50, 0xBF, 0xD0, 0xDF, 0xE4, 0xE7, 0xFC, 0xFF],
        Part::Pca85133 => [0x50, 0x7F, 0x80, 0xBF, 0xD0, 0xDF, 0xE8, 0xEF, 0xFC, 0xFF],
    }
}

fn undefined_command(random: &mut Random, part: Part) -> u8 {
    if random.one_in(2) {
        return random.pick(&just_undefined(part));
    }
    loop {
        let byte = random.byte();
        if !part.defines(byte) {
            return byte;
        }
    }
}

/// Commands that set the pointer near a chip's edge.
fn edge_pointer(random: &mut Random, part: Part) -> Vec<u8> {
    let pointer = match part {
        Part::Pcf8532 => random.pick(&[0, 1, 143, 150, 152, 153, 154, 155, 156, 157, 158, 159]),
        Part::Pca85133 => random.pick(&[0, 1, 63, 70, 72, 73, 74, 75, 76, 77, 78, 79]),
    };
    let device = random.below(part.subaddresses().into());
    part.position_commands(device as u8, pointer)
}

/// A mode-set (mostly enabled), and perhaps banks and blinking.
fn settings(random: &mut Random) -> Vec<u8> {
    let enable = if random.one_in(6) { 0xC0 } else { 0xC8 };
    let mut commands = vec![enable | random.below(8) as u8];
    if random.one_in(2) {
        commands.push(0xF8 | random.below(4) as u8);
    }
    if random.one_in(3) {
        commands.push(0xF0 | random.below(8) as u8);
    }
    commands
}

fn commands(random: &mut Random, part: Part) -> Vec<u8> {
    let mut commands = Vec::new();
    if random.one_in(2) {
        commands.extend(settings(random));
    }
    if random.one_in(2) {
        commands.extend(edge_pointer(random, part));
    }
    for _ in 0..random.below(4) {
        commands.push(command(random, part));
    }
    commands
}

fn data(random: &mut Random) -> Vec<u8> {
    let length = match random.below(8) {
        0 => 0,
        1..=5 => random.between(1, 6),
        6 => random.between(7, 40),
        _ => random.between(41, 90),
    };
    match random.below(4) {
        0 => vec![0xFF; length],
        1 => vec![0x00; length],
        _ => random.bytes(length),
    }
}

fn address(random: &mut Random) -> u8 {
    random.pick(&[0x70, 0x70, 0x72])
}

/// A control byte with Co = 1 and RS as given, and the byte that follows it.
fn push_single(bytes: &mut Vec<u8>, rs: u8, byte: u8) {
    bytes.extend([0x80 | rs, byte]);
}

/// A transfer without a fault: commands, single data bytes with a command between now and then, and a run of commands or data.
pub fn good_transfer(random: &mut Random, part: Part) -> Vec<u8> {
    let mut bytes = vec![address(random)];
    for command in commands(random, part) {
        push_single(&mut bytes, 0, command);
    }
    for _ in 0..random.pick(&[0, 0, 0, 1, 2, 5]) {
        push_single(&mut bytes, 0x40, random.byte());
        if random.one_in(4) {
            push_single(&mut bytes, 0, command(random, part));
        }
    }
    match random.below(6) {
        0 => {}
        1 => {
            bytes.push(0x00);
            bytes.extend(commands(random, part));
        }
        _ => {
            bytes.push(0x40);
            bytes.extend(data(random));
        }
    }
    bytes
}

/// A good transfer with an undefined command in front of it, or such a command among others.
fn with_undefined(random: &mut Random, part: Part) -> Vec<u8> {
    let mut bytes = good_transfer(random, part);
    let wrong = undefined_command(random, part);
    if random.one_in(2) {
        bytes.splice(1..1, [0x80, wrong]);
    } else {
        let mut commands = commands(random, part);
        commands.insert(random.below(commands.len() + 1), wrong);
        bytes = vec![bytes[0], 0x00];
        bytes.extend(commands);
    }
    bytes
}

fn with_other_address(random: &mut Random, part: Part) -> Vec<u8> {
    let mut bytes = good_transfer(random, part);
    bytes[0] = if random.one_in(2) {
        random.pick(&[0x71, 0x73, 0x6F, 0x74, 0x00])
    } else {
        random.byte()
    };
    bytes
}

fn cut(random: &mut Random, part: Part) -> Vec<u8> {
    let mut bytes = good_transfer(random, part);
    bytes.truncate(random.between(1, bytes.len()));
    bytes
}

/// The places of a transfer's control bytes: every second one, up to the first with Co = 0.
pub fn control_places(bytes: &[u8]) -> Vec<usize> {
    let mut places = Vec::new();
    for place in (1..bytes.len()).step_by(2) {
        places.push(place);
        if bytes[place] & 0x80 == 0 {
            break;
        }
    }
    places
}

/// True where a byte of a transfer is data.
pub fn is_data(bytes: &[u8], place: usize) -> bool {
    let controls = control_places(bytes);
    let last = controls.iter().rfind(|control| **control <= place);
    last.is_some_and(|control| *control < place && bytes[*control] & 0x40 != 0)
}

/// An address with bytes after it that follow no plan, but for clean control bytes.
fn noise(random: &mut Random) -> Vec<u8> {
    let mut bytes = vec![address(random)];
    let length = random.below(12);
    bytes.extend(random.bytes(length));
    for place in control_places(&bytes) {
        bytes[place] &= 0xC0;
    }
    bytes
}

/// A transfer with clean control bytes, most often a good one, never over-long.
pub fn clean_transfer(random: &mut Random, part: Part) -> Vec<u8> {
    match random.below(16) {
        0 => with_undefined(random, part),
        1 => with_other_address(random, part),
        2 => cut(random, part),
        3 => noise(random),
        4 if random.one_in(3) => Vec::new(),
        _ => good_transfer(random, part),
    }
}

/// Some of bits 5 to 0, at least one.
fn stray_bits(random: &mut Random) -> u8 {
    let others = random.byte() & random.pick(&[0x00, 0x3F]);
    1 << random.below(6) | others
}

/// A transfer of any kind with stray bits in some of its control bytes.
pub fn stray_transfer(random: &mut Random, part: Part) -> Vec<u8> {
    let mut bytes = clean_transfer(random, part);
    let rarity = random.between(1, 8);
    for place in control_places(&bytes) {
        if random.one_in(rarity) {
            bytes[place] |= stray_bits(random);
        }
    }
    bytes
}

/// A transfer, now and then with stray bits.
pub fn transfer(random: &mut Random, part: Part) -> Vec<u8> {
    if random.one_in(12) {
        stray_transfer(random, part)
    } else {
        clean_transfer(random, part)
    }
}

/// The bits of a transfer's last byte: mostly all, often 1 to 7, now and then none that it can have.
pub fn bits(random: &mut Random) -> u8 {
    match random.below(24) {
        0 => random.pick(&[0, 9, 255]),
        1..=8 => random.between(1, 7) as u8,
        _ => WHOLE,
    }
}

/// Makes a transfer that calls either group call this one; what nobody hears stays.
pub fn call_group(bytes: &mut [u8], group: usize) {
    if let Some(address @ (0x70 | 0x72)) = bytes.first_mut() {
        *address = [0x70, 0x72][group];
    }
}

/// Which of two sequences of these lengths goes on at each step of a merge that keeps the order of both: any merge, one by one and long runs more often than others.
pub fn merge(random: &mut Random, lengths: [usize; 2]) -> Vec<usize> {
    let (mut left, mut order) = (lengths, Vec::new());
    let (mut next, rarity) = (random.below(2), random.between(1, 6));
    while left != [0, 0] {
        if left[next] == 0 || random.one_in(rarity) {
            next = 1 - next;
        }
        if left[next] > 0 {
            left[next] -= 1;
            order.push(next);
        }
    }
    order
}

/// A transfer of just the given length, mostly one long data run.
pub fn transfer_of_length(random: &mut Random, length: usize) -> Vec<u8> {
    let mut bytes = vec![address(random), 0x80, 0xC8 | random.below(4) as u8, 0x40];
    let rest = random.bytes(length.saturating_sub(bytes.len()));
    bytes.extend(rest);
    bytes.truncate(length);
    bytes
}

/// A transfer with a length on either side of the limit.
pub fn long_transfer(random: &mut Random) -> Vec<u8> {
    let length = random.between(TRANSFER_LIMIT - 1, TRANSFER_LIMIT + 2);
    transfer_of_length(random, length)
}

// ---- Logs ------------------------------------------------------------------

/// A log of given version, chips and record bodies.
pub fn log_of_bodies(version: u8, [chips0, chips1]: [u8; 2], bodies: &[Vec<u8>]) -> Vec<u8> {
    let mut log = vec![version, chips0, chips1];
    for body in bodies {
        log.extend((body.len() as u16).to_be_bytes());
        log.extend(body);
    }
    log
}

/// A log of version 1, of given chips and transfers.
pub fn log_of(chips0: u8, chips1: u8, transfers: &[Vec<u8>]) -> Vec<u8> {
    log_of_bodies(1, [chips0, chips1], transfers)
}

/// A log of version 2, of given chips and transfers, each with the acknowledged bytes seen.
pub fn seen_log_of(chips0: u8, chips1: u8, records: &[(u16, Vec<u8>)]) -> Vec<u8> {
    let bodies = records.iter().map(|(seen, bytes)| seen_body(*seen, bytes));
    log_of_bodies(2, [chips0, chips1], &bodies.collect::<Vec<_>>())
}

fn seen_body(seen: u16, bytes: &[u8]) -> Vec<u8> {
    [&seen.to_be_bytes(), bytes].concat()
}

/// Chips and transfers, for a log of either version.
struct Traffic {
    chips: [u8; 2],
    transfers: Vec<Vec<u8>>,
}

impl Traffic {
    fn log(&self) -> Vec<u8> {
        log_of_bodies(1, self.chips, &self.transfers)
    }

    fn seen_log(&self, random: &mut Random) -> Vec<u8> {
        log_of_bodies(2, self.chips, &self.seen_bodies(random))
    }

    fn seen_bodies(&self, random: &mut Random) -> Vec<Vec<u8>> {
        let [chips0, chips1] = self.chips;
        let mut bus = LogBus::new(chips0, chips1);
        let body = |bytes: &Vec<u8>| seen_body(seen(random, bus.send(bytes).counts[0]), bytes);
        self.transfers.iter().map(body).collect()
    }
}

/// What an analyser says of a transfer: mostly the model's count, else one less (of 0, the greatest), one more, or any.
fn seen(random: &mut Random, modelled: usize) -> u16 {
    let modelled = modelled as u16;
    match random.below(12) {
        0 => modelled.wrapping_sub(1),
        1 => modelled + 1,
        2 => random.number() as u16,
        _ => modelled,
    }
}

/// Transfers that `make` makes.
fn traffic(make: fn(&mut Random, Part) -> Vec<u8>, random: &mut Random) -> Traffic {
    let chips = [random.below(5) as u8, random.below(5) as u8];
    let count = match random.below(10) {
        0 => random.below(2),
        1 => random.between(80, 140),
        _ => random.between(3, 40),
    };
    let transfers = (0..count).map(|_| make(random, LOG_PART)).collect();
    Traffic { chips, transfers }
}

/// A log of either version that two loggers took, one for each group: version, chips, and the bodies of each one's records.
pub fn bodies_by_group(random: &mut Random) -> (u8, [u8; 2], [Vec<Vec<u8>>; 2]) {
    let version = random.between(1, 2) as u8;
    let mut traffics = [(); 2].map(|()| traffic(transfer, random));
    let chips = traffics[0].chips;
    let bodies = [0, 1].map(|group| {
        let traffic = &mut traffics[group];
        traffic.chips = chips;
        let calls = traffic.transfers.iter_mut();
        calls.for_each(|bytes| call_group(bytes, group));
        match version {
            1 => traffic.transfers.clone(),
            _ => traffic.seen_bodies(random),
        }
    });
    (version, chips, bodies)
}

/// Transfers of which one is near the limit of length.
fn traffic_with_long_transfer(random: &mut Random) -> Traffic {
    let mut traffic = traffic(clean_transfer, random);
    traffic.transfers.push(long_transfer(random));
    traffic.transfers.push(good_transfer(random, LOG_PART));
    traffic
}

/// Transfers for a log of just the given length, from 512 bytes up, with so many bytes before each.
fn traffic_of_length(random: &mut Random, length: usize, before: usize) -> Traffic {
    let (mut transfers, mut left) = (Vec::new(), length - 3);
    while left > 1024 {
        let bytes = if random.one_in(8) {
            let length = random.between(100, 900);
            transfer_of_length(random, length)
        } else {
            clean_transfer(random, LOG_PART)
        };
        left -= before + bytes.len();
        transfers.push(bytes);
    }
    transfers.push(transfer_of_length(random, left - before));
    let chips = [2, 2];
    Traffic { chips, transfers }
}

pub fn good_log(random: &mut Random) -> Vec<u8> {
    traffic(clean_transfer, random).log()
}

/// A log with one fault.
pub fn damaged_log(random: &mut Random) -> Vec<u8> {
    let mut log = good_log(random);
    damage(random, &mut log);
    log
}

/// One fault: cut, a wrong length field, a wrong head, the other version, or a chip count over 4.
fn damage(random: &mut Random, log: &mut Vec<u8>) {
    let heads = [[2, 5, 0], [1, 5, 5], [0, 0, 0], [3, 5, 0]];
    match random.below(6) {
        0 => log[0] = random.pick(&[0, 3 - log[0], 3, 255]),
        1 => log[random.between(1, 2)] = random.pick(&[5, 6, 255]),
        2 => log.truncate(random.between(0, log.len())),
        3 => log.push(random.byte()),
        4 => log.extend([0, 5, 0x70]),
        _ => log[..3].copy_from_slice(&random.pick(&heads)),
    }
}

/// A log of version 2 that may have a body without room for the bytes seen, a bit turned, or a fault of any log.
fn damaged_seen_log(random: &mut Random) -> Vec<u8> {
    let traffic = traffic(clean_transfer, random);
    let mut bodies = traffic.seen_bodies(random);
    if random.one_in(2) {
        let length = random.below(2);
        bodies.insert(random.below(bodies.len() + 1), random.bytes(length));
    }
    let mut log = log_of_bodies(2, traffic.chips, &bodies);
    match random.below(3) {
        0 => {}
        1 => turn_bit(random, &mut log),
        _ => damage(random, &mut log),
    }
    log
}

fn turn_bit(random: &mut Random, log: &mut [u8]) {
    let place = random.below(log.len());
    log[place] ^= 1 << random.below(8);
}

/// A log with a transfer near the limit of length.
pub fn log_with_long_transfer(random: &mut Random) -> Vec<u8> {
    traffic_with_long_transfer(random).log()
}

/// A good log of just the given length, from 512 bytes up.
pub fn log_of_length(random: &mut Random, length: usize) -> Vec<u8> {
    traffic_of_length(random, length, 2).log()
}

/// The same of version 2.
pub fn seen_log_of_length(random: &mut Random, length: usize) -> Vec<u8> {
    traffic_of_length(random, length, 4).seen_log(random)
}

/// A log of version 1 with clean control bytes, of any kind, of at most some thousand bytes.
pub fn clean_log(random: &mut Random) -> Vec<u8> {
    match random.below(20) {
        0 => log_with_long_transfer(random),
        1..=3 => damaged_log(random),
        _ => good_log(random),
    }
}

/// A log of version 2, of any kind, of at most some thousand bytes.
pub fn seen_log(random: &mut Random) -> Vec<u8> {
    match random.below(20) {
        0 => traffic_with_long_transfer(random).seen_log(random),
        1..=6 => damaged_seen_log(random),
        7..=9 => traffic(transfer, random).seen_log(random),
        _ => traffic(clean_transfer, random).seen_log(random),
    }
}

/// A log of any kind: one in four is of version 2, and one in five of the others has transfers with stray bits.
pub fn log(random: &mut Random) -> Vec<u8> {
    if random.one_in(4) {
        seen_log(random)
    } else if random.one_in(5) {
        traffic(transfer, random).log()
    } else {
        clean_log(random)
    }
}

/// A log of either version whose logger lost power: cut anywhere behind the head, and perhaps with 00, FF or other bytes behind the cut.
pub fn torn_log(random: &mut Random) -> Vec<u8> {
    let traffic = traffic(clean_transfer, random);
    let mut log = match random.below(2) {
        0 => traffic.log(),
        _ => traffic.seen_log(random),
    };
    log.truncate(random.between(3, log.len()));
    let length = random.pick(&[0, 0, 1, 2, 3, 40]);
    let behind = match random.below(3) {
        0 => vec![0x00; length],
        1 => vec![0xFF; length],
        _ => random.bytes(length),
    };
    log.extend(behind);
    log
}

/// A log over the limit of length.
pub fn too_long_log(random: &mut Random) -> Vec<u8> {
    log_of_length(random, LOG_LIMIT + 1)
}

/// A log of about the longest text: every column lit by two transfers, then empty records.
pub fn log_of_long_text() -> Vec<u8> {
    long_text(1, &[])
}

/// The same of version 2, where the greatest count stands before every transfer.
pub fn seen_log_of_long_text() -> Vec<u8> {
    long_text(2, &[0xFF; 2])
}

/// Such a log, with the same bytes at the start of each body.
fn long_text(version: u8, start: &[u8]) -> Vec<u8> {
    let lit = |address| commands_then_data(address, &[0xC9], &[0xFF; 80]);
    let bodies = [0x70, 0x72].map(|address| [start, &lit(address)].concat());
    let mut log = log_of_bodies(version, [4, 4], &bodies);
    let smallest = [&[0, start.len() as u8], start].concat();
    while log.len() + smallest.len() <= LOG_LIMIT {
        log.extend(&smallest);
    }
    log
}
