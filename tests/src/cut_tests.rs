//! Request 8 of paper 02: transfers that end inside their last byte, the marks that a cut data byte leaves, and refusals 18 and 19, in both accounts.

use super::*;

/// Bits of a cut byte.
const CUTS: [u8; 7] = [1, 2, 3, 4, 5, 6, 7];
/// Bits that no byte has.
const WRONG: [u8; 5] = [0, 9, 16, 128, 255];
const KNOWN: [u8; 3] = [0; 3];
const LOST: [u8; 3] = [1; 3];
/// Every set of marks with one that is unknown.
const UNKNOWN: [[u8; 3]; 7] = [
    [0, 0, 1],
    [0, 1, 0],
    [0, 1, 1],
    [1, 0, 0],
    [1, 0, 1],
    [1, 1, 0],
    [1, 1, 1],
];

impl Bus {
    fn cut(&mut self, bytes: &[u8], bits: u8) -> [usize; ANSWER] {
        self.answer_to(bytes, bits).numbers()
    }

    fn marks(&self) -> [u8; 3] {
        self.state().unknown
    }

    /// The same bus with other marks.
    fn marked(mut self, marks: [u8; 3]) -> Self {
        self.registers[9..12].copy_from_slice(&marks);
        self
    }

    /// A refusal, after which all is as it was.
    fn expect_refused(&mut self, bytes: &[u8], bits: u8, number: usize, place: usize) {
        let (registers, ram) = (self.registers, self.ram.clone());
        let none = [4, 8][self.part as usize];
        let refused = [number, place, 0, 0, 0, none];
        assert_eq!(self.cut(bytes, bits), refused, "{bytes:02X?} {bits}");
        assert_eq!((self.registers, &self.ram), (registers, &ram));
    }
}

// ---- A cut in each kind of byte --------------------------------------------

/// Static: E and M, pointer 83, device 1, a data byte, input bank 1, two data bytes.
const EACH_KIND: [u8; 16] = [
    0x70, 0x80, 0xC9, 0x80, 0x05, 0x80, 0x43, 0x80, 0xE1, 0xC0, 0xA5, 0x80, 0xFA, 0x40, 0xFF, 0x00,
];

/// For a cut in each of these bytes: bits stored, the chip, the set E B M P A I O AB BF, and the marks. All bytes before the cut are acknowledged.
#[rustfmt::skip]
const AFTER: [(usize, usize, [u8; 9], [u8; 3]); 16] = [
    (0, 4, [0, 0, 0, 0, 0, 0, 0, 0, 0], KNOWN), // address
    (0, 4, [0, 0, 0, 0, 0, 0, 0, 0, 0], KNOWN), // control byte
    (0, 4, [0, 0, 0, 0, 0, 0, 0, 0, 0], KNOWN), // mode-set
    (0, 4, [1, 0, 1, 0, 0, 0, 0, 0, 0], KNOWN),
    (0, 4, [1, 0, 1, 0, 0, 0, 0, 0, 0], KNOWN), // pointer high
    (0, 4, [1, 0, 1, 80, 0, 0, 0, 0, 0], KNOWN),
    (0, 4, [1, 0, 1, 80, 0, 0, 0, 0, 0], KNOWN), // pointer low
    (0, 4, [1, 0, 1, 83, 0, 0, 0, 0, 0], KNOWN),
    (0, 4, [1, 0, 1, 83, 0, 0, 0, 0, 0], KNOWN), // device-select
    (0, 4, [1, 0, 1, 83, 1, 0, 0, 0, 0], KNOWN),
    (0, 4, [1, 0, 1, 83, 1, 0, 0, 0, 0], LOST), // data
    (8, 1, [1, 0, 1, 91, 1, 0, 0, 0, 0], KNOWN),
    (8, 1, [1, 0, 1, 91, 1, 0, 0, 0, 0], KNOWN), // bank-select
    (8, 1, [1, 0, 1, 91, 1, 1, 0, 0, 0], KNOWN),
    (8, 1, [1, 0, 1, 91, 1, 1, 0, 0, 0], LOST), // data of a run
    (16, 1, [1, 0, 1, 99, 1, 1, 0, 0, 0], LOST),
];

/// Two chips with columns of 1: A5 clears row 0 of four columns, FF sets row 2 of eight.
#[test]
fn each_kind_of_byte() {
    let first = [(244, 0), (246, 0), (247, 0), (249, 0)];
    let second = (251..259).map(|column| (column, 5));
    let both: Vec<_> = first.into_iter().chain(second).collect();
    for bits in CUTS {
        for (place, (stored, chip, set, marks)) in AFTER.into_iter().enumerate() {
            let mut bus = Bus::new(2, 1);
            let answer = bus.cut(&EACH_KIND[..=place], bits);
            assert_eq!(answer, [0, 0, place, stored, 0, chip]);
            assert_eq!((&bus.registers[..9], bus.marks()), (&set[..], marks));
            assert_eq!(bus.registers[SET..], [0; SET]);
            let filled = match stored {
                0 => &both[..0],
                8 => &both[..4],
                _ => &both,
            };
            assert_eq!(bus.others(1), filled);
        }
    }
}

/// What stands in a cut byte does not matter: no command is undefined, no control byte stray, no address heard.
#[test]
fn each_value() {
    let before: [(&[u8], [u8; 3]); 9] = [
        (&[], KNOWN),
        (&[0x70], KNOWN),
        (&[0x70, 0x80], KNOWN),
        (&[0x70, 0x00], KNOWN),
        (&[0x70, 0x00, 0xE0], KNOWN),
        (&[0x70, 0x80, 0xE0], KNOWN),
        (&[0x70, 0xC0], LOST),
        (&[0x70, 0x40], LOST),
        (&[0x70, 0x80, 0xE0, 0x40], LOST),
    ];
    for part in [PCF8532, PCA85133] {
        for (bytes, marks) in before {
            for (value, bits) in (0..=255).flat_map(|value| [1, 4, 7].map(|bits| (value, bits))) {
                let mut bus = Bus::of(part, 2, 9);
                let answer = bus.cut(&[bytes, &[value]].concat(), bits);
                let none = [4, 8][part as usize];
                assert_eq!(answer, [0, 0, bytes.len(), 0, 0, none]);
                assert_eq!(bus.registers[..9], [0; 9]);
                assert_eq!((bus.marks(), bus.others(9)), (marks, vec![]));
            }
        }
    }
}

/// Nobody hears: nothing is looked at, and no mark changes or refuses.
#[test]
fn unheard() {
    for marks in [KNOWN, LOST] {
        for address in [0x71, 0x72, 0x73, 0x50] {
            let rests: [&[u8]; 6] = [
                &[],
                &[0x3F],
                &[0x00, 0xFC],
                &[0x40, 0xA5],
                &[0x40, 1, 2],
                &[0x80, 0xE0],
            ];
            for (rest, bits) in rests
                .into_iter()
                .flat_map(|rest| (1..=8).map(move |x| (rest, x)))
            {
                let mut bus = Bus::new(2, 9).marked(marks);
                let answer = bus.cut(&[&[address], rest].concat(), bits);
                assert_eq!(answer, [0, 0, 0, 0, 0, 4]);
                assert_eq!((bus.marks(), bus.others(9)), (marks, vec![]));
            }
        }
    }
    let mut nobody = Bus::new(0, 0).marked(LOST);
    assert_eq!(nobody.cut(&[0x70, 0x40, 0xA5], 8), [0, 0, 0, 0, 0, 4]);
    assert_eq!(nobody.cut(&[0x70, 0x40, 0xA5], 3), [0, 0, 0, 0, 0, 4]);
    assert_eq!(nobody.marks(), LOST);
}

/// A whole address with the rest of the transfer behind it is heard; alone and cut it is not.
#[test]
fn cut_address() {
    for bits in CUTS {
        for marks in [KNOWN, LOST] {
            let mut bus = Bus::new(1, 0).marked(marks);
            assert_eq!(bus.cut(&[0x70], bits), [0, 0, 0, 0, 0, 4]);
            assert_eq!(bus.cut(&[0x70, 0x40], bits), [0, 0, 1, 0, 0, 4]);
            assert_eq!(bus.marks(), marks);
        }
    }
}

/// Cut or whole, P and A have the same numbers; the cut byte is neither stored nor discarded, inside the chips and past them.
#[test]
fn position_at_the_cut() {
    for (a, p, stored) in [(0, 159, 8), (1, 158, 8), (1, 159, 4), (3, 159, 0)] {
        let commands = [0xE0 | a, p / 16, 0x40 | (p % 16)];
        let mut bus = Bus::new(2, 0);
        let bytes = generate::commands_then_data(0x70, &commands, &[0xFF, 0xFF]);
        let answer = bus.cut(&bytes, 7);
        assert_eq!(answer[3..5], [stored, 8 - stored]);
        let end = 160 * a as usize + p as usize + 2;
        assert_eq!(bus.a_and_p(), ((end / 160) as u8, (end % 160) as u8));
        assert_eq!(bus.marks(), LOST);
    }
}

/// The chip is that of the last whole data byte, or none.
#[test]
fn last_chip() {
    let chips: [(&[u8], usize); 6] = [
        (&[0x70, 0x40, 0xA5], 4),
        (&[0x70, 0x80, 0xE1, 0xC0, 0xA5, 0xC0, 0xA5], 1),
        (&[0x70, 0x80, 0xE1, 0xC0, 0, 0x80, 0xE0, 0x40, 0], 1),
        (&[0x70, 0xC0, 0, 0x80, 0xE1, 0x40, 0, 0], 1),
        (&[0x70, 0x80, 0xE2, 0xC0, 0, 0x80, 0xE0, 0x40, 0], 4),
        (&[0x70, 0xC0, 0, 0x80, 0xE2, 0x40, 0], 0),
    ];
    for (bytes, chip) in chips {
        for bits in CUTS {
            assert_eq!(Bus::new(2, 0).answer_to(bytes, bits).chip, chip);
        }
    }
}

/// The cut byte counts toward the limit of 4,096: here after 4,093 data bytes, of which 320 are stored.
#[test]
fn longest() {
    let mut bytes = vec![0x70, 0x40];
    bytes.resize(4096, 0xFF);
    let mut bus = Bus::new(4, 0);
    assert_eq!(bus.cut(&bytes, 1), [0, 0, 322, 2560, 30184, 4]);
    assert_eq!((bus.a_and_p(), bus.marks()), ((4, 26), LOST));
    bytes.push(0xFF);
    for bits in 0..=9 {
        Bus::new(4, 0).expect_refused(&bytes, bits, 2, 0);
    }
    bytes[0] = 0x71;
    Bus::new(4, 0).expect_refused(&bytes, 3, 2, 0);
}

/// Generated transfers at every cut: all is as the whole bytes before give it, but for the marks.
#[test]
fn whole_bytes_before() {
    for seed in 0..300 {
        let random = &mut Random::new(seed);
        let part = [PCF8532, PCA85133][seed as usize % 2];
        let bytes = generate::good_transfer(random, generate::shape(part));
        for place in 1..bytes.len() {
            let (mut cut, mut whole) = (Bus::of(part, 3, 5), Bus::of(part, 3, 5));
            let answer = cut.cut(&bytes[..=place], random.between(1, 7) as u8);
            assert_eq!(answer, whole.send(&bytes[..place]));
            assert_eq!(cut.ram, whole.ram);
            let lost = bytes[0] == 0x70 && generate::is_data(&bytes, place);
            let marks = if lost { LOST } else { KNOWN };
            assert_eq!(cut.registers, whole.marked(marks).registers);
        }
    }
}

// ---- 19 --------------------------------------------------------------------

#[test]
fn each_bit_count() {
    for bits in 0..=255 {
        let mut bus = Bus::new(1, 0);
        match bits {
            1..=7 => assert_eq!(bus.cut(&[0x70, 0x40, 0xA5], bits), [0, 0, 2, 0, 0, 4]),
            8 => assert_eq!(bus.cut(&[0x70, 0x40, 0xA5], bits), [0, 0, 3, 8, 0, 0]),
            _ => bus.expect_refused(&[0x70, 0x40, 0xA5], bits, 19, 0),
        }
    }
}

/// Heard or not, and before 7, 17 and 18.
#[test]
fn wrong_bits() {
    let transfers: [&[u8]; 9] = [
        &[0x70],
        &[0x50],
        &[0x71, 0x3F],
        &[0x72, 0x40, 0xA5],
        &[0x70, 0x80, 0xC8],
        &[0x70, 0x00, 0xFC],
        &[0x70, 0x3F],
        &[0x70, 0x40, 0xA5],
        &[0x70, 0x80, 0xFC, 0x40, 0xA5],
    ];
    for (bytes, bits) in transfers.into_iter().flat_map(|x| WRONG.map(|y| (x, y))) {
        for part in [PCF8532, PCA85133] {
            for chips in [0, 2] {
                Bus::of(part, chips, 0).expect_refused(bytes, bits, 19, 0);
                let mut lost = Bus::of(part, chips, 0).marked(LOST);
                lost.expect_refused(bytes, bits, 19, 0);
            }
        }
    }
}

/// After 1 and 2, and after 16, 10 and 11 of the plain account.
#[test]
fn order() {
    let sent = |part, chips: &[Chip], bytes: &[u8], bits| {
        let answer = plain_transfer(part, &mut chips.to_vec(), bytes, bits);
        [answer.number, answer.place]
    };
    let (good, mut bad) = (Chip::new(0, 0), Chip::new(0, 0));
    bad.registers.unknown = [0, 2, 0];
    for bits in WRONG {
        Bus::new(1, 0).expect_refused(&[], bits, 1, 0);
        Bus::new(1, 0).expect_refused(&[0x70; 4097], bits, 2, 0);
        assert_eq!(sent(2, &[bad; 17], &[], bits), [16, 0]);
        assert_eq!(sent(0, &[bad; 9], &[], bits), [10, 0]);
        assert_eq!(sent(0, &[good, bad], &[], bits), [11, 1]);
        assert_eq!(sent(0, &[good, good], &[], bits), [1, 0]);
        assert_eq!(sent(0, &[good, good], &[0x70; 4097], bits), [2, 0]);
        assert_eq!(sent(0, &[good, good], &[0x70, 0x3F], bits), [19, 0]);
        assert_eq!(sent(0, &[], &[0x70], bits), [19, 0]);
    }
}

// ---- 18 --------------------------------------------------------------------

/// Any unknown mark refuses the first data byte, whole or cut, in a run or alone; whichever of 7, 17 and 18 comes first.
#[test]
fn unknown_position() {
    let refused: [(&[u8], usize, usize); 10] = [
        (&[0x70, 0x40, 0xA5], 18, 2),
        (&[0x70, 0xC0, 0xA5], 18, 2),
        (&[0x70, 0x40, 0xA5, 0xA5, 0xA5], 18, 2),
        (&[0x70, 0x80, 0xC8, 0x80, 0xFA, 0xC0, 0xA5], 18, 6),
        (&[0x70, 0xC0, 0xA5, 0x80, 0xFC, 0x80], 18, 2),
        (&[0x70, 0xC0, 0xA5, 0x3F, 0xFC], 18, 2),
        (&[0x70, 0x80, 0xFC, 0x40, 0xA5], 7, 2),
        (&[0x70, 0x41, 0xA5], 17, 1),
        (&[0x70, 0xC1, 0xA5, 0x40, 0xA5], 17, 1),
        (&[0x70, 0x80, 0xC8, 0x80, 0xFD, 0xC0, 0xA5], 7, 4),
    ];
    for (part, marks) in UNKNOWN
        .into_iter()
        .flat_map(|x| [(PCF8532, x), (PCA85133, x)])
    {
        for (bytes, number, place) in refused {
            for bits in 1..=8 {
                let mut bus = Bus::of(part, 2, 0).marked(marks);
                bus.expect_refused(bytes, bits, number, place);
            }
        }
    }
}

/// Without a data byte there is no 18: control bytes of data alone, commands, and cut ones of both.
#[test]
fn no_data_byte() {
    let transfers: [(&[u8], u8, usize); 8] = [
        (&[0x70], 8, 1),
        (&[0x70, 0x40], 8, 2),
        (&[0x70, 0xC0], 8, 2),
        (&[0x70, 0x40], 5, 1),
        (&[0x70, 0x80, 0xC8, 0x40], 8, 4),
        (&[0x70, 0x80, 0xC8, 0xC0], 1, 3),
        (&[0x70, 0x00, 0xC8, 0xFB], 8, 4),
        (&[0x70, 0x00, 0xC8, 0xFF], 7, 3),
    ];
    for marks in UNKNOWN {
        for (bytes, bits, acknowledged) in transfers {
            let mut bus = Bus::new(1, 0).marked(marks);
            assert_eq!(bus.cut(bytes, bits), [0, 0, acknowledged, 0, 0, 4]);
            assert_eq!(bus.marks(), marks);
        }
    }
}

/// Pictures do not go by the marks, and power-on clears them.
#[test]
fn other_calls() {
    let mut bus = Bus::new(1, 6);
    bus.send(&[0x70, 0x00, 0xC8]);
    let known = bus.show(0);
    bus.cut(&[0x70, 0x40, 0xFF], 4);
    assert_eq!((bus.show(0), bus.marks()), (known.clone(), LOST));
    assert_eq!(bus.show_chips(0), [known]);
    let mut registers = [1; REGISTERS];
    power_on(PCF8532, 1, 0, &bus.ram, &mut registers);
    assert_eq!(registers, [0; REGISTERS]);
    let mut chip = bus.plain_chips()[0];
    assert_eq!(plain_power_on(PCF8532, &mut chip).number, 0);
    assert_eq!(chip.registers.unknown, KNOWN);
}

/// A mark is 0 or 1: 6 in the long account, also of the group that is not called, and 11 in the plain one.
#[test]
fn marks_in_range() {
    for place in [9, 10, 11, 21, 22, 23] {
        for (value, number) in [(0, 0), (1, 0), (2, 6), (255, 6)] {
            let mut registers = [0; REGISTERS];
            registers[place] = value;
            let answer = transfer(PCF8532, 0, 0, &mut registers, &mut [], &[0x70], 8);
            assert_eq!((answer.number, answer.place), (number, 0));
        }
    }
    for (mark, value) in [(0, 2), (1, 2), (2, 2), (2, 255)] {
        let mut chips = [Chip::new(0, 0), Chip::new(1, 0)];
        chips[1].registers.unknown[mark] = value;
        let answer = plain_transfer(PCF8532, &mut chips, &[0x70], 8);
        assert_eq!((answer.number, answer.place), (11, 1));
        assert_eq!(
            plain_picture(PCF8532, &chips[1], 0, &mut [0; 160]).number,
            11
        );
    }
}

// ---- Known again -----------------------------------------------------------

/// Pointer high, pointer low and device-select, for column 243 of two chips, in every order.
const ORDERS: [[(u8, usize); 3]; 6] = {
    const HIGH: (u8, usize) = (0x05, 0);
    const LOW: (u8, usize) = (0x43, 1);
    const DEVICE: (u8, usize) = (0xE1, 2);
    [
        [HIGH, LOW, DEVICE],
        [HIGH, DEVICE, LOW],
        [LOW, HIGH, DEVICE],
        [LOW, DEVICE, HIGH],
        [DEVICE, HIGH, LOW],
        [DEVICE, LOW, HIGH],
    ]
};

/// Two chips that a cut data byte has left at A 0, P 40.
fn lost() -> Bus {
    let mut bus = Bus::new(2, 0);
    bus.cut(&[0x70, 0x80, 0x02, 0x80, 0x48, 0x40, 0xA5], 3);
    assert_eq!((bus.a_and_p(), bus.marks()), ((0, 40), LOST));
    bus
}

/// One command a transfer restores one mark; data is taken after the third.
#[test]
fn restored_one_by_one() {
    for order in ORDERS {
        let (mut bus, mut marks) = (lost(), LOST);
        for (command, mark) in order {
            bus.expect_refused(&[0x70, 0x40, 0xA5], 8, 18, 2);
            bus.expect_refused(&[0x70, 0x40, 0xA5], 2, 18, 2);
            assert_eq!(bus.send(&[0x70, 0x80, command]), [0, 0, 3, 0, 0, 4]);
            marks[mark] = 0;
            assert_eq!(bus.marks(), marks);
        }
        assert_eq!(bus.send(&[0x70, 0x40, 0xA5]), [0, 0, 3, 8, 0, 1]);
        assert_eq!(bus.others(0), [(243, 5), (244, 10)]);
    }
}

/// In the same transfer, before the data byte; without one of the three, or with it behind the data, all is refused.
#[test]
fn restored_in_the_same_transfer() {
    for order in ORDERS {
        let [first, second, third] = order.map(|(command, _)| command);
        let two = [0x70, 0x80, first, 0x80, second];
        let data = [&two[..], &[0x40, 0xA5]].concat();
        let behind = [&two[..], &[0xC0, 0xA5, 0x80, third]].concat();
        let before = [&two[..], &[0x80, third, 0x40, 0xA5]].concat();
        let undefined = [&two[..], &[0x80, third, 0xC0, 0xA5, 0x80, 0xFC]].concat();
        let run = [0x70, 0x00, first, second, third];
        for bits in 1..=8 {
            lost().expect_refused(&data, bits, 18, 6);
            lost().expect_refused(&behind, bits, 18, 6);
        }
        lost().expect_refused(&undefined, 8, 7, 10);
        let mut bus = lost();
        assert_eq!(bus.send(&before), [0, 0, 9, 8, 0, 1]);
        assert_eq!(
            (bus.others(0), bus.marks()),
            (vec![(243, 5), (244, 10)], KNOWN)
        );
        let mut bus = lost();
        assert_eq!(bus.cut(&before, 6), [0, 0, 8, 0, 0, 4]);
        assert_eq!((bus.a_and_p(), bus.marks()), ((1, 83), LOST));
        let mut bus = lost();
        assert_eq!(bus.send(&run), [0, 0, 5, 0, 0, 4]);
        assert_eq!(bus.marks(), KNOWN);
    }
}

/// A command restores its own mark, however often it comes, and only where it is whole; the others restore none.
#[test]
fn own_mark_alone() {
    let commands = [
        (0x00, [0, 1, 1]),
        (0x09, [0, 1, 1]),
        (0x40, [1, 0, 1]),
        (0x4F, [1, 0, 1]),
        (0xE0, [1, 1, 0]),
        (0xE3, [1, 1, 0]),
        (0xC8, LOST),
        (0xE8, LOST),
        (0xEF, LOST),
        (0xF5, LOST),
        (0xFB, LOST),
    ];
    for (command, marks) in commands {
        let mut bus = lost();
        bus.send(&[0x70, 0x00, command, command, command]);
        assert_eq!(bus.marks(), marks, "{command:02X}");
        for bits in CUTS {
            let mut bus = lost();
            assert_eq!(bus.cut(&[0x70, 0x80, command], bits)[2], 2);
            assert_eq!((bus.a_and_p(), bus.marks()), ((0, 40), LOST));
        }
    }
}

/// The PCA85133's one pointer command restores both pointer marks, also one that is unknown alone; the device-select its own.
#[test]
fn restored_in_the_smaller_part() {
    for (marks, pointer) in UNKNOWN
        .into_iter()
        .flat_map(|x| [0x00, 0x05, 0x43, 0x4F].map(|y| (x, y)))
    {
        let [high, low, device] = marks;
        let bus = || Bus::of(PCA85133, 8, 0).marked(marks);
        let (mut by_pointer, mut by_device) = (bus(), bus());
        assert_eq!(by_pointer.send(&[0x70, 0x80, pointer]), [0, 0, 3, 0, 0, 8]);
        assert_eq!(by_pointer.marks(), [0, 0, device]);
        assert_eq!(by_device.send(&[0x70, 0x80, 0xE6]), [0, 0, 3, 0, 0, 8]);
        assert_eq!(by_device.marks(), [high, low, 0]);
        let both = [[0x80, pointer, 0x80, 0xE6], [0x80, 0xE6, 0x80, pointer]];
        for commands in both {
            let bytes = [&[0x70], &commands[..], &[0x40, 0xA5]].concat();
            let mut bus = bus();
            assert_eq!(bus.send(&bytes)[..5], [0, 0, 7, 8, 0]);
            assert_eq!(bus.marks(), KNOWN);
        }
        let (after_pointer, after_device) = (
            [0x70, 0x80, pointer, 0x40, 0xA5],
            [0x70, 0x80, 0xE6, 0x40, 0xA5],
        );
        for (bytes, unknown) in [(after_pointer, device), (after_device, high | low)] {
            match unknown {
                0 => assert_eq!(bus().send(&bytes)[..2], [0, 0]),
                _ => bus().expect_refused(&bytes, 8, 18, 4),
            }
        }
    }
}

// ---- Groups and unequal chips ----------------------------------------------

/// A cut in one group leaves the other as it is, and what the other is sent restores nothing.
#[test]
fn other_group() {
    for (own, address, other) in [(0, 0x70, 0x72), (1, 0x72, 0x70)] {
        let (mut registers, mut ram) = ([0; REGISTERS], vec![0; 320]);
        let mut send = |bytes: &[u8], bits| {
            let answer = transfer(PCF8532, 1, 1, &mut registers, &mut ram, bytes, bits);
            let marks = [0, SET].map(|set| [9, 10, 11].map(|place| registers[set + place]));
            (answer.number, answer.counts, [marks[own], marks[1 - own]])
        };
        let data = |address| [address, 0x40, 0xA5];
        assert_eq!(send(&data(address), 5), (0, [2, 0, 0], [LOST, KNOWN]));
        assert_eq!(send(&data(other), 8), (0, [3, 8, 0], [LOST, KNOWN]));
        assert_eq!(send(&data(address), 8), (18, [0; 3], [LOST, KNOWN]));
        let restore = |address| [address, 0x00, 0x00, 0x40, 0xE0];
        assert_eq!(send(&restore(other), 8), (0, [5, 0, 0], [LOST, KNOWN]));
        assert_eq!(send(&data(address), 8), (18, [0; 3], [LOST, KNOWN]));
        assert_eq!(send(&data(other), 1), (0, [2, 0, 0], [LOST, LOST]));
        assert_eq!(send(&restore(address), 8), (0, [5, 0, 0], [KNOWN, LOST]));
        assert_eq!(send(&data(address), 8), (0, [3, 8, 0], [KNOWN, LOST]));
        assert_eq!(send(&data(other), 8), (18, [0; 3], [KNOWN, LOST]));
    }
}

/// A plain chip with its own counter, pointer and marks.
fn unequal([sa0, subaddress]: [u8; 2], a: u8, p: u8, marks: [u8; 3]) -> Chip {
    let mut chip = Chip::new(sa0, subaddress);
    (chip.registers.a, chip.registers.p, chip.registers.unknown) = (a, p, marks);
    chip
}

/// Number and place of a transfer to copies of some chips; refused, it leaves them.
fn sent(chips: &[Chip], bytes: &[u8], bits: u8) -> [usize; 2] {
    let mut after = chips.to_vec();
    let answer = plain_transfer(PCF8532, &mut after, bytes, bits);
    if answer.number != 0 {
        assert_eq!(after, chips);
    }
    [answer.number, answer.place]
}

/// One unknown mark of one hearing chip refuses, wherever it stands and whatever is selected; one of the other address does not.
#[test]
fn one_chip_unknown() {
    let known = [
        unequal([0, 0], 0, 0, KNOWN),
        unequal([1, 0], 0, 0, KNOWN),
        unequal([0, 3], 0, 9, KNOWN),
        unequal([0, 3], 4, 0, KNOWN),
        unequal([1, 2], 2, 0, KNOWN),
    ];
    for (place, marks) in (0..5).flat_map(|place| UNKNOWN.map(|marks| (place, marks))) {
        let mut chips = known;
        chips[place].registers.unknown = marks;
        let (own, other) = if chips[place].sa0 == 0 {
            (0x70, 0x72)
        } else {
            (0x72, 0x70)
        };
        for bits in 1..=8 {
            assert_eq!(sent(&chips, &[own, 0x40, 0xA5], bits), [18, 2]);
            assert_eq!(sent(&chips, &[own, 0x80, 0xC8, 0xC0, 0xA5], bits), [18, 4]);
            assert_eq!(sent(&chips, &[own, 0x40], bits), [0, 0]);
            assert_eq!(sent(&chips, &[other, 0x40, 0xA5], bits), [0, 0]);
        }
    }
}

/// Each chip has marks of its own: together these two lack pointer high and device-select, but not pointer low.
#[test]
fn marks_of_each_chip() {
    let chips = [
        unequal([0, 0], 0, 0, [1, 0, 0]),
        unequal([0, 1], 1, 7, [0, 0, 1]),
        unequal([1, 0], 0, 0, LOST),
    ];
    assert_eq!(sent(&chips, &[0x70, 0x40, 0xA5], 8), [18, 2]);
    assert_eq!(sent(&chips, &[0x70, 0x80, 0x00, 0x40, 0xA5], 8), [18, 4]);
    assert_eq!(sent(&chips, &[0x70, 0x80, 0xE1, 0x40, 0xA5], 8), [18, 4]);
    assert_eq!(sent(&chips, &[0x70, 0x80, 0x40, 0x40, 0xA5], 8), [18, 4]);
    assert_eq!(
        sent(&chips, &[0x70, 0x80, 0x40, 0x80, 0xE1, 0x40, 0xA5], 8),
        [18, 6]
    );
    let mut after = chips;
    let bytes = [0x70, 0x80, 0xE1, 0x80, 0x01, 0x40, 0xA5];
    let answer = plain_transfer(PCF8532, &mut after, &bytes, 8);
    assert_eq!(answer.numbers(), [0, 0, 7, 0, 0, 1]);
    assert_eq!(
        after.map(|chip| chip.registers.unknown),
        [KNOWN, KNOWN, LOST]
    );
    assert_eq!(after[1].columns[23..25], [5, 10]);
}

/// A cut data byte loses the position of every chip that hears, selected or not, each with its own numbers after the whole byte before.
#[test]
fn cut_for_every_hearing_chip() {
    let mut wide = unequal([0, 2], 1, 155, KNOWN);
    wide.registers.m = 1;
    let before = [
        unequal([0, 0], 0, 20, KNOWN),
        unequal([0, 3], 1, 30, KNOWN),
        unequal([1, 0], 0, 40, KNOWN),
        unequal([1, 1], 0, 50, [0, 1, 0]),
        wide,
        unequal([0, 0], 4, 158, KNOWN),
    ];
    for bits in CUTS {
        let mut chips = before;
        let answer = plain_transfer(PCF8532, &mut chips, &[0x70, 0x40, 0xFF, 0x00], bits);
        assert_eq!(answer.numbers(), [0, 0, 3, 0, 0, 0]);
        let held = chips.map(|chip| (chip.registers.a, chip.registers.p, chip.registers.unknown));
        let expected = [
            (0, 22, LOST),
            (1, 32, LOST),
            (0, 40, KNOWN),
            (0, 50, [0, 1, 0]),
            (2, 3, LOST),
            (4, 0, LOST),
        ];
        assert_eq!(held, expected);
        let filled = |chip: usize| {
            chips[chip]
                .columns
                .iter()
                .filter(|column| **column != 0)
                .count()
        };
        assert_eq!([0, 1, 2, 3, 4, 5].map(filled), [2, 0, 0, 0, 3, 0]);
        assert_eq!(chips[4].columns[..3], [1; 3]);
    }
}

// ---- Generators ------------------------------------------------------------

/// Every bit count is drawn, whole bytes most often.
#[test]
fn generated_bits() {
    let mut random = Random::new(6);
    let mut counts = [0; 256];
    for _ in 0..24_000 {
        counts[generate::bits(&mut random) as usize] += 1;
    }
    assert!((14_000..16_000).contains(&counts[8]));
    assert!(CUTS.iter().all(|bits| counts[*bits as usize] > 800));
    assert!([0, 9, 255].iter().all(|bits| counts[*bits] > 200));
}
