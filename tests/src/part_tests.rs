//! Request 5 of paper 02: the PCA85133 in both accounts, unknown parts, and each part's own limits.

use super::*;

/// Numbers that no part has.
const UNKNOWN: [u8; 3] = [2, 3, 255];

// ---- Paper 01's starred cases at 80 columns --------------------------------

#[test]
fn mode_4_over_the_edge() {
    let mut bus = Bus::of(PCA85133, 2, 0);
    assert_eq!(bus.set_and_send(&[0x4F], &[0xA5]), [0, 0, 5, 8, 0, 1]);
    assert_eq!(bus.others(0), [(79, 5), (80, 10)]);
    assert_eq!(bus.a_and_p(), (1, 1));
}

#[test]
fn mode_3_over_the_edge() {
    let mut bus = Bus::of(PCA85133, 2, 0);
    let answer = bus.set_and_send(&[0xC3, 0x4F], &[0xFF]);
    assert_eq!(answer, [0, 0, 7, 8, 0, 1]);
    assert_eq!(bus.others(0), [(79, 7), (80, 7), (81, 3)]);
    assert_eq!(bus.a_and_p(), (1, 2));
}

#[test]
fn mode_3_leaves_row_2_of_the_last_column() {
    let mut bus = Bus::of(PCA85133, 2, 15);
    bus.set_and_send(&[0xC3, 0x4F], &[0x00]);
    assert_eq!(bus.others(15), [(79, 8), (80, 8), (81, 12)]);
}

#[test]
fn static_over_the_edge() {
    let mut bus = Bus::of(PCA85133, 2, 0);
    bus.set_and_send(&[0xC1, 0x4C], &[0x81]);
    assert_eq!(bus.others(0), [(76, 1), (83, 1)]);
    assert_eq!(bus.a_and_p(), (1, 4));
}

#[test]
fn mode_2_in_the_second_bank() {
    let mut bus = Bus::of(PCA85133, 2, 0);
    bus.set_and_send(&[0xC2, 0xFA, 0x4E], &[0xFF]);
    assert_eq!(bus.others(0), [(78, 12), (79, 12), (80, 12), (81, 12)]);
    assert_eq!(bus.a_and_p(), (1, 2));
}

#[test]
fn mode_3_past_the_last_chip() {
    let mut bus = Bus::of(PCA85133, 1, 0);
    let answer = bus.set_and_send(&[0xC3, 0x4F], &[0xFF]);
    assert_eq!(answer, [0, 0, 6, 3, 5, 8]);
    assert_eq!(bus.others(0), [(79, 7)]);
}

#[test]
fn past_the_eighth_chip() {
    let mut bus = Bus::of(PCA85133, 8, 0);
    let answer = bus.set_and_send(&[0xE7, 0x4E], &[0xFF, 0xFF]);
    assert_eq!(answer, [0, 0, 7, 8, 8, 8]);
    assert_eq!(bus.others(0), [(638, 15), (639, 15)]);
    assert_eq!(bus.a_and_p(), (8, 2));
}

/// Paper 01 has P 159 and command 00 give 15; here one command sets the whole of P.
#[test]
fn pointer_in_a_single_command() {
    let mut bus = Bus::of(PCA85133, 1, 0);
    for (command, p) in [(0x4F, 79), (0x00, 0), (0x0F, 15), (0x40, 64), (0x10, 16)] {
        bus.send(&[0x70, 0x00, command]);
        assert_eq!(bus.a_and_p(), (0, p));
    }
}

/// Each byte that is taken stands before one that is refused with its place, and the registers stay.
#[test]
fn edges_of_the_commands() {
    let edges = [
        (0x4F, 0x50),
        (0x00, 0x7F),
        (0xC0, 0xBF),
        (0xCF, 0xD0),
        (0xE0, 0xDF),
        (0xE7, 0xE8),
        (0xF0, 0xEF),
        (0xF7, 0x80),
        (0xF8, 0xFF),
        (0xFB, 0xFC),
    ];
    for (taken, refused) in edges {
        let mut bus = Bus::of(PCA85133, 1, 0);
        assert_eq!(bus.send(&[0x70, 0x00, taken]), [0, 0, 3, 0, 0, 8]);
        let before = bus.registers;
        assert_eq!(bus.send(&[0x70, 0x00, refused]), [7, 2, 0, 0, 0, 8]);
        assert_eq!(bus.registers, before);
    }
}

#[test]
fn alternate_blinking_shows_the_other_bank() {
    let mut bus = Bus::of(PCA85133, 1, 12);
    bus.send(&[0x70, 0x00, 0xCA, 0xF8, 0xF5]);
    assert_eq!(bus.show(1), ([0, 0, 160, 0, 0, 0], vec![3; 80]));
    assert_eq!(bus.show_chips(1), [bus.show(1)]);
}

#[test]
fn addresses_alone() {
    let sent = |bytes: &[u8]| Bus::of(PCA85133, 1, 0).send(bytes);
    assert_eq!(sent(&[0x70]), [0, 0, 1, 0, 0, 8]);
    for unheard in [&[0x71][..], &[0x72, 0x00, 0xFF], &[0x73], &[0x50, 0x3F]] {
        assert_eq!(sent(unheard), [0, 0, 0, 0, 0, 8]);
    }
    assert_eq!(Bus::of(PCA85133, 0, 0).send(&[0x70])[2..], [0, 0, 0, 8]);
}

// ---- The edge in every mode ------------------------------------------------

/// Modes, and the columns that FF fills in the first bank.
const MODES: [(u8, &[u8]); 4] = [(1, &[1; 8]), (2, &[3; 4]), (3, &[7, 7, 3]), (0, &[15, 15])];

/// FF from a counter and a pointer, to so many chips.
fn full_byte(chips: u8, [mode, bank]: [u8; 2], a: u8, p: usize) -> (Bus, [usize; ANSWER]) {
    let mut bus = Bus::of(PCA85133, chips, 0);
    let commands = [0xC0 | mode, 0xF8 | bank << 1, 0xE0 | a, p as u8];
    let answer = bus.set_and_send(&commands, &[0xFF]);
    (bus, answer)
}

/// Two chips, each pointer of the first, both input banks: what is too wide for the first chip goes on in the second.
#[test]
fn every_pointer_in_every_mode() {
    for (mode, columns) in MODES {
        for bank in [0, 1] {
            let rows = if mode == 1 || mode == 2 { 2 * bank } else { 0 };
            for p in 0..80 {
                let (bus, answer) = full_byte(2, [mode, bank], 0, p);
                let end = p + columns.len();
                let filled = (p..end).zip(columns.iter().map(|column| column << rows));
                assert_eq!(bus.others(0), filled.collect::<Vec<_>>());
                assert_eq!(answer, [0, 0, 11, 8, 0, (end > 80) as usize]);
                assert_eq!(bus.a_and_p(), ((end / 80) as u8, (end % 80) as u8));
            }
        }
    }
}

/// The last of 1 to 8 chips: a byte that just fits, and one whose last column is lost, which nobody acknowledges.
#[test]
fn every_last_chip_in_every_mode() {
    for chips in 1..=8 {
        for (mode, columns) in MODES {
            let fits = 80 - columns.len();
            let (bus, answer) = full_byte(chips, [mode, 0], chips - 1, fits);
            assert_eq!(answer, [0, 0, 11, 8, 0, chips as usize - 1]);
            assert_eq!(bus.a_and_p(), (chips, 0));
            let lost = columns[columns.len() - 1].count_ones() as usize;
            let (bus, answer) = full_byte(chips, [mode, 0], chips - 1, fits + 1);
            assert_eq!(answer, [0, 0, 10, 8 - lost, lost, 8]);
            assert_eq!(bus.a_and_p(), (chips, 1));
        }
    }
}

/// With A at 8, P still wraps and nothing is stored until a device-select.
#[test]
fn counter_rests_at_8() {
    let mut bus = Bus::of(PCA85133, 8, 0);
    let answer = bus.set_and_send(&[0xE7, 0x4F], &[0xFF; 2]);
    assert_eq!(answer, [0, 0, 6, 4, 12, 8]);
    assert_eq!(bus.a_and_p(), (8, 3));
    let answer = bus.set_and_send(&[], &[0xFF; 40]);
    assert_eq!(answer, [0, 0, 2, 0, 320, 8]);
    assert_eq!(bus.a_and_p(), (8, 3));
    assert_eq!(bus.others(0), [(639, 15)]);
    let answer = bus.set_and_send(&[0xE0], &[0xFF]);
    assert_eq!(answer, [0, 0, 5, 8, 0, 0]);
    assert_eq!(bus.others(0), [(3, 15), (4, 15), (639, 15)]);
}

/// 320 bytes of 1:4 fill eight chips; in 1:3 byte 214 begins in their last column.
#[test]
fn run_over_eight_chips() {
    let mut bus = Bus::of(PCA85133, 8, 0);
    let answer = bus.set_and_send(&[], &[0xFF; 321]);
    assert_eq!(answer, [0, 0, 322, 2560, 8, 8]);
    assert_eq!(bus.ram, [15; 640]);
    assert_eq!(bus.a_and_p(), (8, 2));
    let mut bus = Bus::of(PCA85133, 8, 0);
    let answer = bus.set_and_send(&[0xC3], &[0xFF; 214]);
    assert_eq!(answer, [0, 0, 217, 1707, 5, 8]);
    let filled = [7, 7, 3].repeat(213).into_iter().chain([7]);
    assert_eq!(bus.ram, filled.collect::<Vec<_>>());
    assert_eq!(bus.a_and_p(), (8, 2));
}

/// Three chips in group 0 and eight in group 1: the eighth of group 1 has columns 800 to 879.
#[test]
fn second_group() {
    let (mut registers, mut ram) = ([0; REGISTERS], [0; 880]);
    let bytes = [0x72, 0x80, 0xE7, 0x40, 0xA5];
    let answer = transfer(PCA85133, 3, 8, &mut registers, &mut ram, &bytes, WHOLE);
    assert_eq!(answer.numbers(), [0, 0, 5, 8, 0, 7]);
    assert_eq!((ram[799], ram[800], ram[801], ram[802]), (0, 5, 10, 0));
    assert_eq!(registers[..SET], [0; SET]);
    assert_eq!(registers[SET..], [0, 0, 0, 2, 7, 0, 0, 0, 0, 0, 0, 0]);
}

// ---- Commands --------------------------------------------------------------

/// A part takes just the bytes of these ranges as commands, so many in all.
fn expect_taken(part: u8, ranges: &[std::ops::RangeInclusive<u8>], count: usize) {
    let number = |byte| Bus::of(part, 1, 0).send(&[0x70, 0x80, byte])[0];
    let taken: Vec<u8> = (0..=255).filter(|byte| number(*byte) == 0).collect();
    let named: Vec<u8> = ranges.iter().cloned().flatten().collect();
    assert_eq!((taken.len(), taken), (count, named));
}

#[test]
fn every_command() {
    let small = [0x00..=0x4F, 0xC0..=0xCF, 0xE0..=0xE7, 0xF0..=0xFB];
    expect_taken(PCA85133, &small, 116);
    let large = [
        0x00..=0x09,
        0x40..=0x4F,
        0xC0..=0xCF,
        0xE0..=0xE3,
        0xE8..=0xFB,
    ];
    expect_taken(PCF8532, &large, 66);
}

/// Commands after power-on, and the registers that they leave: E B M P A I O AB BF, and no mark.
#[test]
fn what_commands_set() {
    let commands = [
        (0x00, [0, 0, 0, 0, 0, 0, 0, 0, 0]),
        (0x09, [0, 0, 0, 9, 0, 0, 0, 0, 0]),
        (0x3F, [0, 0, 0, 63, 0, 0, 0, 0, 0]),
        (0x40, [0, 0, 0, 64, 0, 0, 0, 0, 0]),
        (0x4F, [0, 0, 0, 79, 0, 0, 0, 0, 0]),
        (0xC0, [0, 0, 0, 0, 0, 0, 0, 0, 0]),
        (0xC6, [0, 1, 2, 0, 0, 0, 0, 0, 0]),
        (0xC9, [1, 0, 1, 0, 0, 0, 0, 0, 0]),
        (0xCF, [1, 1, 3, 0, 0, 0, 0, 0, 0]),
        (0xE3, [0, 0, 0, 0, 3, 0, 0, 0, 0]),
        (0xE4, [0, 0, 0, 0, 4, 0, 0, 0, 0]),
        (0xE7, [0, 0, 0, 0, 7, 0, 0, 0, 0]),
        (0xF3, [0, 0, 0, 0, 0, 0, 0, 0, 3]),
        (0xF4, [0, 0, 0, 0, 0, 0, 0, 1, 0]),
        (0xF9, [0, 0, 0, 0, 0, 0, 1, 0, 0]),
        (0xFA, [0, 0, 0, 0, 0, 1, 0, 0, 0]),
    ];
    for (command, set) in commands {
        let mut bus = Bus::of(PCA85133, 2, 0);
        assert_eq!(bus.send(&[0x70, 0x00, command]), [0, 0, 3, 0, 0, 8]);
        assert_eq!(bus.registers[..9], set, "{command:02X}");
        assert_eq!(bus.registers[9..], [0; REGISTERS - 9]);
    }
}

/// The first wrong byte counts: an undefined command or stray bits; nothing of the transfer is carried out.
#[test]
fn first_wrong_byte() {
    let wrong: [(&[u8], usize, usize); 5] = [
        (&[0x70, 0x80, 0x4F, 0x80, 0x50, 0x81], 7, 4),
        (&[0x70, 0x80, 0x4F, 0x81, 0x50], 17, 3),
        (&[0x70, 0xC0, 0x50, 0x00, 0xE7, 0xE8], 7, 5),
        (&[0x70, 0x00, 0xEF], 7, 2),
        (&[0x70, 0x40, 0x50], 0, 0),
    ];
    for (bytes, number, place) in wrong {
        let mut bus = Bus::of(PCA85133, 1, 0);
        let answer = bus.answer(bytes);
        assert_eq!((answer.number, answer.place), (number, place));
        assert_eq!(bus.registers == [0; REGISTERS], number != 0);
    }
}

// ---- Limits and orders of the long account ---------------------------------

/// What the calls of the long account are given.
#[derive(Clone)]
struct Given {
    chips: [u8; 2],
    registers: [u8; REGISTERS],
    ram: Vec<u8>,
    bytes: Vec<u8>,
    bits: u8,
    shown: [u8; 2],
    room: usize,
}

impl Given {
    /// No fault, for a part of so many columns.
    fn new(columns: usize, chips: [u8; 2]) -> Self {
        let length = |chips: u8| columns * chips as usize;
        Given {
            chips,
            registers: [0; REGISTERS],
            ram: vec![0; length(chips[0]) + length(chips[1])],
            bytes: vec![0x70],
            bits: WHOLE,
            shown: [0, 0],
            room: length(chips[0]),
        }
    }

    /// Every fault at once.
    fn all_wrong() -> Self {
        let mut given = Given::new(0, [9, 9]);
        given.registers.fill(255);
        given.ram = vec![16; 7];
        given.bytes.clear();
        given.bits = 0;
        given.shown = [2, 2];
        given
    }

    fn power_on(&self, part: u8) -> [usize; ANSWER] {
        let mut registers = self.registers;
        let [chips0, chips1] = self.chips;
        let answer = power_on(part, chips0, chips1, &self.ram, &mut registers);
        assert_eq!(registers, [0; REGISTERS]);
        answer.numbers()
    }

    /// A refused transfer leaves registers and RAM as they are.
    fn transfer(&self, part: u8) -> [usize; ANSWER] {
        let (mut registers, mut ram) = (self.registers, self.ram.clone());
        let [chips0, chips1] = self.chips;
        let (bytes, bits) = (&self.bytes, self.bits);
        let answer = transfer(part, chips0, chips1, &mut registers, &mut ram, bytes, bits);
        if answer.number != 0 {
            assert_eq!((registers, &ram), (self.registers, &self.ram));
        }
        answer.numbers()
    }

    /// A refused picture leaves its buffer.
    fn picture(&self, part: u8) -> [usize; ANSWER] {
        let view = View {
            part,
            chips0: self.chips[0],
            chips1: self.chips[1],
            registers: &self.registers,
            ram: &self.ram,
            group: self.shown[0],
            phase: self.shown[1],
        };
        let mut out = vec![9; self.room];
        let answer = picture(view, &mut out);
        assert_eq!(out, vec![if answer.number == 0 { 0 } else { 9 }; self.room]);
        answer.numbers()
    }

    /// The numbers of power-on, transfer and picture.
    fn expect(&self, part: u8, numbers: [usize; 3]) {
        let answers = [self.power_on(part), self.transfer(part), self.picture(part)];
        assert_eq!(answers.map(|answer| answer[0]), numbers, "part {part}");
    }
}

/// A part that is unknown is refused with or without another fault, and its transfer names chip 4.
#[test]
fn unknown_part_of_a_bus() {
    let fitting = [Given::new(160, [4, 4]), Given::new(80, [8, 8])];
    for given in fitting.into_iter().chain([Given::all_wrong()]) {
        for part in UNKNOWN {
            assert_eq!(given.power_on(part), [16, 0, 0, 0, 0, 0]);
            assert_eq!(given.transfer(part), [16, 0, 0, 0, 0, 4]);
            assert_eq!(given.picture(part), [16, 0, 0, 0, 0, 0]);
        }
    }
}

#[test]
fn every_part_number() {
    let large = Given::new(160, [1, 1]);
    let small = Given::new(80, [1, 1]);
    large.expect(0, [0; 3]);
    small.expect(1, [0; 3]);
    for part in 2..=255 {
        large.expect(part, [16; 3]);
        small.expect(part, [16; 3]);
    }
}

/// One fault after another is mended, in the order of each call.
fn expect_order(part: u8, columns: usize, none: usize) {
    let mut given = Given::all_wrong();
    given.expect(part, [3, 3, 3]);
    given.chips = [2, 1];
    given.expect(part, [4, 6, 6]);
    given.registers = [0; REGISTERS];
    given.expect(part, [4, 4, 4]);
    given.ram = vec![0; 3 * columns];
    given.ram[2 * columns + 5] = 16;
    assert_eq!(given.power_on(part), [5, 2 * columns + 5, 0, 0, 0, 0]);
    assert_eq!(given.transfer(part), [5, 2 * columns + 5, 0, 0, 0, none]);
    assert_eq!(given.picture(part), [5, 2 * columns + 5, 0, 0, 0, 0]);
    given.ram[2 * columns + 5] = 15;
    given.expect(part, [0, 1, 8]);
    (given.bytes, given.shown) = (vec![0x70; 4097], [0, 0]);
    given.expect(part, [0, 2, 9]);
    (given.bytes, given.room) = (vec![0x70, 0x00, 0xFC], 2 * columns);
    given.expect(part, [0, 19, 0]);
    given.bits = 8;
    given.expect(part, [0, 7, 0]);
    assert_eq!(given.transfer(part), [7, 2, 0, 0, 0, none]);
    given.bytes = vec![0x70, 0x3F];
    assert_eq!(given.transfer(part), [17, 1, 0, 0, 0, none]);
    (given.bytes, given.registers[11]) = (vec![0x70, 0x40, 0x3F], 1);
    assert_eq!(given.transfer(part), [18, 2, 0, 0, 0, none]);
}

#[test]
fn order_of_refusals() {
    expect_order(PCF8532, 160, 4);
    expect_order(PCA85133, 80, 8);
}

/// The most chips of a group, and one more in either.
#[test]
fn chip_counts() {
    for (part, columns, most) in [(PCF8532, 160, 4), (PCA85133, 80, 8)] {
        Given::new(columns, [most, most]).expect(part, [0; 3]);
        for chips in [[most + 1, 0], [0, most + 1], [255, most], [most, 255]] {
            Given::new(columns, chips).expect(part, [3; 3]);
        }
    }
}

/// Columns times the chips of both groups, on both sides, and the other part's length.
#[test]
fn ram_lengths() {
    for (part, columns, other) in [(PCF8532, 160, 80), (PCA85133, 80, 160)] {
        Given::new(columns, [0, 0]).expect(part, [0; 3]);
        for chips in [[1, 0], [0, 2], [3, 4]] {
            let mut given = Given::new(columns, chips);
            given.expect(part, [0; 3]);
            let right = given.ram.len();
            for length in [0, right - 1, right + 1, right / columns * other] {
                given.ram = vec![0; length];
                given.expect(part, [4; 3]);
            }
        }
    }
}

/// The greatest value of each register, E B M P A I O AB BF, and of the three marks, and one more, in either group.
#[test]
fn registers_in_range() {
    let parts = [
        (PCF8532, 160, [1, 1, 3, 159, 4, 1, 1, 1, 3, 1, 1, 1]),
        (PCA85133, 80, [1, 1, 3, 79, 8, 1, 1, 1, 3, 1, 1, 1]),
    ];
    for (part, columns, greatest) in parts {
        for place in 0..REGISTERS {
            let mut given = Given::new(columns, [1, 1]);
            given.registers[place] = greatest[place % SET];
            given.expect(part, [0; 3]);
            for value in [greatest[place % SET] + 1, 255] {
                given.registers[place] = value;
                given.expect(part, [0, 6, 6]);
            }
        }
    }
}

/// Columns times the chips of the group shown, on both sides, and the other part's length.
#[test]
fn picture_lengths() {
    for (part, columns, other) in [(PCF8532, 160, 80), (PCA85133, 80, 160)] {
        for group in 0..2 {
            let mut given = Given::new(columns, [2, 3]);
            let right = columns * (2 + group as usize);
            given.shown = [group, 1];
            given.room = right;
            given.expect(part, [0, 0, 0]);
            for room in [0, right - 1, right + 1, other * (2 + group as usize)] {
                given.room = room;
                given.expect(part, [0, 0, 9]);
            }
        }
    }
}

// ---- Limits and orders of the plain account --------------------------------

/// A transfer to copies of some chips; refused, it leaves them.
fn sent(part: u8, chips: &[Chip], bytes: &[u8]) -> [usize; ANSWER] {
    let mut after = chips.to_vec();
    let answer = plain_transfer(part, &mut after, bytes, WHOLE).numbers();
    if answer[0] != 0 {
        assert_eq!(after, chips);
    }
    answer
}

/// Numbers of power-on, a transfer and a picture of one chip; power-on clears the registers and keeps the rest.
fn of_one(part: u8, chip: &Chip) -> [usize; 3] {
    let mut powered = *chip;
    let on = plain_power_on(part, &mut powered);
    let expected = Chip {
        registers: Registers::default(),
        ..*chip
    };
    assert_eq!(powered, expected);
    let mut out = vec![9; if part == PCA85133 { 80 } else { 160 }];
    let shown = plain_picture(part, chip, 0, &mut out);
    assert_eq!(out.iter().all(|byte| *byte == 9), shown.number != 0);
    for answer in [on, shown] {
        assert_eq!(
            (answer.place, answer.counts[1..].iter().sum::<usize>()),
            (0, 0)
        );
        assert_eq!(answer.chip, 0);
    }
    [on.number, sent(part, &[*chip], &[0x70])[0], shown.number]
}

/// A chip whose every field and column is out of range.
fn wrong_chip() -> Chip {
    let mut chip = Chip::new(2, 8);
    chip.columns.fill(16);
    chip.registers = Registers::from_bytes(&[255; SET]);
    chip
}

#[test]
fn unknown_part_of_chips() {
    for part in UNKNOWN {
        for chip in [Chip::new(0, 0), Chip::new(1, 7), wrong_chip()] {
            assert_eq!(of_one(part, &chip), [16; 3]);
            assert_eq!(plain_picture(part, &chip, 2, &mut []).number, 16);
            for bytes in [&[][..], &[0x70], &[0x70, 0x3F, 0xFC], &[0x70; 4097]] {
                for count in [0, 1, 8, 9, 16, 17] {
                    let answer = sent(part, &vec![chip; count], bytes);
                    assert_eq!(answer, [16, 0, 0, 0, 0, 4]);
                }
            }
        }
    }
}

/// One fault after another is mended: 10, 11, 1, 2, 7, 17.
#[test]
fn order_of_plain_refusals() {
    for (part, most, none) in [(PCF8532, 8, 4), (PCA85133, 16, 8)] {
        let mut chips = vec![Chip::new(0, 0); most + 1];
        chips[most - 1] = wrong_chip();
        assert_eq!(sent(part, &chips, &[]), [10, 0, 0, 0, 0, none]);
        chips.pop();
        assert_eq!(sent(part, &chips, &[]), [11, most - 1, 0, 0, 0, none]);
        chips[most - 1] = Chip::new(1, 0);
        assert_eq!(sent(part, &chips, &[]), [1, 0, 0, 0, 0, none]);
        assert_eq!(sent(part, &chips, &[0x70; 4097]), [2, 0, 0, 0, 0, none]);
        let undefined = [0x70, 0x80, 0xE0, 0x80, 0xFC];
        assert_eq!(sent(part, &chips, &undefined), [7, 4, 0, 0, 0, none]);
        assert_eq!(sent(part, &chips, &[0x70, 0x81]), [17, 1, 0, 0, 0, none]);
        assert_eq!(sent(part, &chips, &[0x70]), [0, 0, 1, 0, 0, none]);
    }
}

/// Power-on looks at identity and columns, a transfer and a picture at the registers too.
#[test]
fn fields_of_a_chip() {
    for (part, subaddress, p, a) in [(PCF8532, 3, 159, 4), (PCA85133, 7, 79, 8)] {
        let mut good = Chip::new(1, subaddress);
        (good.registers.p, good.registers.a) = (p, a);
        assert_eq!(of_one(part, &good), [0, 0, 0]);
        let (mut identity, mut pointer, mut counter) = (good, good, good);
        identity.subaddress += 1;
        assert_eq!(of_one(part, &identity), [11, 11, 11]);
        pointer.registers.p += 1;
        assert_eq!(of_one(part, &pointer), [0, 11, 11]);
        counter.registers.a += 1;
        assert_eq!(of_one(part, &counter), [0, 11, 11]);
    }
}

/// Each column that a part has is looked at, and no place behind it.
#[test]
fn columns_of_a_chip() {
    for place in 0..160 {
        for value in [16, 255] {
            let mut chip = Chip::new(0, 0);
            chip.columns[place] = value;
            assert_eq!(of_one(PCF8532, &chip), [11; 3]);
            let number = if place < 80 { 11 } else { 0 };
            assert_eq!(of_one(PCA85133, &chip), [number; 3]);
        }
    }
}

/// A chip shown alone takes its part's columns of room: 8 comes before 9.
#[test]
fn room_of_one_picture() {
    for (part, right) in [(PCF8532, 160), (PCA85133, 80)] {
        let chip = Chip::new(0, 0);
        let shown = |phase, length| plain_picture(part, &chip, phase, &mut vec![0; length]).number;
        for length in [0, 1, 79, 80, 81, 159, 160, 161, 320] {
            assert_eq!(shown(0, length), if length == right { 0 } else { 9 });
            assert_eq!(shown(2, length), 8);
        }
    }
}

/// A run of all of both chips' columns and more, in every mode: what stands behind the columns is not written, nor shown.
#[test]
fn places_behind_the_columns() {
    let mut first = Chip::new(0, 0);
    for (place, column) in first.columns[80..].iter_mut().enumerate() {
        *column = 255 - place as u8;
    }
    let second = Chip {
        subaddress: 1,
        ..first
    };
    for (mode, columns) in MODES {
        let data = vec![0xFF; 160 / columns.len() + 9];
        let mut chips = [first, second];
        let bytes = generate::commands_then_data(0x70, &[0xC8 | mode], &data);
        assert_eq!(
            plain_transfer(PCA85133, &mut chips, &bytes, WHOLE).number,
            0
        );
        for chip in chips {
            let mut out = [9; 80];
            let shown = plain_picture(PCA85133, &chip, 0, &mut out);
            assert_eq!((shown.number, &out[..]), (0, &chip.columns[..80]));
            assert!(chip.columns[..80].iter().all(|column| *column > 0));
            assert_eq!(chip.columns[80..], first.columns[80..]);
        }
    }
}

/// Of sixteen chips, eight hear: gaps, doubles and unequal counters; the smallest subaddress that acknowledges is named.
#[test]
fn sixteen_unequal_chips() {
    let mut chips = vec![Chip::new(1, 0); 16];
    let subaddresses = [7, 7, 6, 3, 5, 5, 1, 6];
    for (chip, subaddress) in chips[4..12].iter_mut().zip(subaddresses) {
        *chip = Chip::new(0, subaddress);
        chip.registers.a = subaddress.max(5);
    }
    assert_eq!(
        sent(PCA85133, &chips, &[0x70, 0x40, 0xA5]),
        [0, 0, 3, 0, 0, 5]
    );
    assert_eq!(sent(PCA85133, &chips[..8], &[0x70, 0x40, 0xA5])[5], 6);
    assert_eq!(sent(PCA85133, &chips[7..8], &[0x70, 0x40, 0xA5])[5], 8);
    assert_eq!(
        sent(PCA85133, &chips, &[0x70, 0x80, 0xE3, 0x40, 0xA5])[5],
        3
    );
    assert_eq!(
        sent(PCA85133, &chips, &[0x70, 0x80, 0xE4, 0x40, 0xA5])[5],
        8
    );
    let passed = [0x70, 0x80, 0xE7, 0x80, 0x4F, 0x40, 0xA5];
    assert_eq!(sent(PCA85133, &chips, &passed), [0, 0, 6, 0, 0, 8]);
}

// ---- Generators ------------------------------------------------------------

/// Both parts as often as each other, and a few numbers that no part has.
#[test]
fn generated_parts() {
    let mut random = Random::new(5);
    let mut counts = [0; 256];
    for _ in 0..24_000 {
        counts[generate::part(&mut random) as usize] += 1;
    }
    assert!(counts[..2]
        .iter()
        .all(|count| (11_000..12_000).contains(count)));
    assert!(UNKNOWN.iter().all(|part| counts[*part as usize] > 50));
}

/// Generated transfers without a fault are taken by their part, and leave the counter at each subaddress and at rest, the pointer on both sides of the edge.
#[test]
fn generated_transfers() {
    for (part, most, last) in [(PCF8532, 4, 159), (PCA85133, 8, 79)] {
        let (mut counters, mut pointers) = (vec![], vec![]);
        for seed in 0..4000 {
            let bytes = generate::good_transfer(&mut Random::new(seed), generate::shape(part));
            let mut bus = Bus::of(part, most, 0);
            assert_eq!(bus.send(&bytes)[0], 0);
            counters.push(bus.a_and_p().0);
            pointers.push(bus.a_and_p().1);
        }
        assert!((0..=most).all(|a| counters.contains(&a)));
        assert!((0..10).all(|p| pointers.contains(&p) && pointers.contains(&(last - p))));
    }
}
