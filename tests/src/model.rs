//! The model, bit by bit as paper 01 tells it, amended by requests 3, 4, 5, 7, 8, 10 and 11 of paper 02: the long account, the plain account, bus logs and their rescue.

/// Numbers of an answer.
pub const ANSWER: usize = 6;
/// Places for columns in a plain chip of either part.
pub const COLUMNS: usize = 160;
/// Bytes of one register set.
pub const SET: usize = 12;
/// Bytes of both groups' registers.
pub const REGISTERS: usize = 2 * SET;
/// Bits of a transfer's last byte that is whole.
pub const WHOLE: u8 = 8;
/// Most bytes of a transfer.
pub const TRANSFER_LIMIT: usize = 4096;
/// Most bytes of a log.
pub const LOG_LIMIT: usize = 65536;

/// A call's answer: refusal number (0 is taken), place and three counts, and a transfer's chip.
#[derive(Clone, Copy, Debug, Default, PartialEq, Eq)]
pub struct Answer {
    pub number: usize,
    pub place: usize,
    pub counts: [usize; 3],
    pub chip: usize,
}

impl Answer {
    fn taken(counts: [usize; 3]) -> Self {
        Answer {
            counts,
            ..Default::default()
        }
    }

    /// The numbers in the order of the C interface.
    pub fn numbers(self) -> [usize; ANSWER] {
        let [x, y, z] = self.counts;
        [self.number, self.place, x, y, z, self.chip]
    }
}

/// A refusal: its number and place.
pub(crate) type Refusal = (usize, usize);
pub(crate) type Check = Result<(), Refusal>;

pub(crate) fn refuse_if(wrong: bool, number: usize) -> Check {
    refuse_at(if wrong { Some(0) } else { None }, number)
}

pub(crate) fn refuse_at(place: Option<usize>, number: usize) -> Check {
    match place {
        Some(place) => Err((number, place)),
        None => Ok(()),
    }
}

fn refused((number, place): Refusal) -> Answer {
    Answer {
        number,
        place,
        ..Default::default()
    }
}

/// The answer of a call that is no transfer.
pub(crate) fn answer(outcome: Result<[usize; 3], Refusal>) -> Answer {
    match outcome {
        Ok(counts) => Answer::taken(counts),
        Err(refusal) => refused(refusal),
    }
}

// ---- Parts -----------------------------------------------------------------

/// A part, with its number in a call.
#[derive(Clone, Copy, Debug, PartialEq, Eq)]
pub enum Part {
    /// Paper 01 and data sheet 003.
    Pcf8532 = 0,
    /// Paper 02, request 5, and data sheet 002.
    Pca85133 = 1,
}

impl Part {
    pub const BOTH: [Part; 2] = [Part::Pcf8532, Part::Pca85133];

    pub fn of(number: u8) -> Option<Part> {
        Part::BOTH.into_iter().find(|part| part.number() == number)
    }

    pub fn number(self) -> u8 {
        self as u8
    }

    /// Columns of a chip.
    pub fn columns(self) -> usize {
        match self {
            Part::Pcf8532 => 160,
            Part::Pca85133 => 80,
        }
    }

    /// Subaddresses of a group, which is the most chips that it has, and where the counter rests.
    pub fn subaddresses(self) -> u8 {
        match self {
            Part::Pcf8532 => 4,
            Part::Pca85133 => 8,
        }
    }

    /// Most chips of the plain account.
    pub fn most_chips(self) -> usize {
        match self {
            Part::Pcf8532 => 8,
            Part::Pca85133 => 16,
        }
    }

    /// The greatest value of each register, in the order of a set's bytes.
    pub fn greatest(self) -> [u8; SET] {
        let last_column = self.columns() as u8 - 1;
        let rest = self.subaddresses();
        [1, 1, 3, last_column, rest, 1, 1, 1, 3, 1, 1, 1]
    }

    /// The command that a byte is: the table of paper 01, and that of data sheet 002 (tables 11 to 16).
    fn command(self, byte: u8) -> Option<Command> {
        let flag = |place: u8| byte >> place & 1;
        let command = match (self, byte) {
            (Part::Pcf8532, 0x00..=0x09) => Command::PointerHigh(byte & 15),
            (Part::Pcf8532, 0x40..=0x4F) => Command::PointerLow(byte & 15),
            (Part::Pca85133, 0x00..=0x4F) => Command::Pointer(byte),
            (_, 0xC0..=0xCF) => Command::ModeSet(flag(3), flag(2), byte & 3),
            (Part::Pcf8532, 0xE0..=0xE3) => Command::DeviceSelect(byte & 3),
            (Part::Pca85133, 0xE0..=0xE7) => Command::DeviceSelect(byte & 7),
            (Part::Pcf8532, 0xE8..=0xEF) => Command::FrequencyControl,
            (_, 0xF0..=0xF7) => Command::BlinkSelect(flag(2), byte & 3),
            (_, 0xF8..=0xFB) => Command::BankSelect(flag(1), flag(0)),
            _ => return None,
        };
        Some(command)
    }

    /// The commands that set counter and pointer: device-select, then pointer high and pointer low, or the PCA85133's single pointer command.
    pub fn position_commands(self, a: u8, p: u8) -> Vec<u8> {
        match self {
            Part::Pcf8532 => vec![0xE0 | a, p / 16, 0x40 | (p % 16)],
            Part::Pca85133 => vec![0xE0 | a, p],
        }
    }

    /// True for the bytes that the part's table of commands names.
    pub fn defines(self, byte: u8) -> bool {
        self.command(byte).is_some()
    }
}

/// A command, with what it sets.
#[derive(Clone, Copy, Debug, PartialEq, Eq)]
enum Command {
    PointerHigh(u8),
    PointerLow(u8),
    /// The whole of P.
    Pointer(u8),
    /// E, B and M.
    ModeSet(u8, u8, u8),
    DeviceSelect(u8),
    FrequencyControl,
    /// AB and BF.
    BlinkSelect(u8, u8),
    /// I and O.
    BankSelect(u8, u8),
}

/// The part of a call; an unknown one is refused before all else.
fn known(part: u8) -> Result<Part, Refusal> {
    Part::of(part).ok_or((16, 0))
}

/// A transfer's chip where none acknowledged the last data byte, there is no such byte, or the transfer is refused: where the part's counter rests, and 4 if the part is unknown.
pub fn none(part: u8) -> usize {
    Part::of(part).map_or(4, |part| part.subaddresses().into())
}

/// What a transfer counts, and the subaddress that acknowledged its last data byte, if one did.
type Counted = ([usize; 3], Option<u8>);

fn transfer_answer(part: u8, outcome: Result<Counted, Refusal>) -> Answer {
    let subaddress = outcome.ok().and_then(|(_, subaddress)| subaddress);
    Answer {
        chip: subaddress.map_or(none(part), usize::from),
        ..answer(outcome.map(|(counts, _)| counts))
    }
}

// ---- Registers -------------------------------------------------------------

/// Places of the marks.
const HIGH: usize = 0;
const LOW: usize = 1;
const DEVICE: usize = 2;

/// Registers of a group, or of a plain chip.
#[derive(Clone, Copy, Debug, Default, PartialEq, Eq)]
pub struct Registers {
    pub e: u8,
    pub b: u8,
    pub m: u8,
    pub p: u8,
    pub a: u8,
    pub i: u8,
    pub o: u8,
    pub ab: u8,
    pub bf: u8,
    /// The marks of pointer high, pointer low and device-select: 1 from a cut data byte until the command has come.
    pub unknown: [u8; 3],
}

impl Registers {
    /// Power-on: M = 00, all else 0, so that pointer and counter are known.
    pub fn power_on() -> Self {
        Registers::default()
    }

    pub fn from_bytes(bytes: &[u8]) -> Self {
        let [e, b, m, p, a, i, o, ab, bf, unknown @ ..] =
            *<&[u8; SET]>::try_from(bytes).expect("a set's bytes");
        Registers {
            e,
            b,
            m,
            p,
            a,
            i,
            o,
            ab,
            bf,
            unknown,
        }
    }

    pub fn to_bytes(self) -> [u8; SET] {
        let [high, low, device] = self.unknown;
        [
            self.e, self.b, self.m, self.p, self.a, self.i, self.o, self.ab, self.bf, high, low,
            device,
        ]
    }

    pub fn in_range(self, part: Part) -> bool {
        let (bytes, greatest) = (self.to_bytes(), part.greatest());
        (0..SET).all(|x| bytes[x] <= greatest[x])
    }

    /// Backplanes m.
    pub(crate) fn backplanes(self) -> usize {
        match self.m {
            1 => 1,
            2 => 2,
            3 => 3,
            _ => 4,
        }
    }

    /// Columns that a data byte covers.
    pub(crate) fn width(self) -> usize {
        match self.backplanes() {
            1 => 8,
            2 => 4,
            3 => 3,
            _ => 2,
        }
    }

    /// Row of bit 0 of a data byte.
    pub(crate) fn first_row(self) -> usize {
        if self.backplanes() <= 2 {
            2 * self.i as usize
        } else {
            0
        }
    }

    /// The whole position v: the part's columns times A, plus P.
    fn position(self, part: Part) -> usize {
        part.columns() * self.a as usize + self.p as usize
    }

    fn set_position(&mut self, part: Part, v: usize) {
        let subaddresses = part.subaddresses() as usize;
        self.p = (v % part.columns()) as u8;
        self.a = (v / part.columns()).min(subaddresses) as u8;
    }

    /// One column on: P rises, wraps behind the part's last column, and A rises with the wrap until it rests.
    fn next_column(&mut self, part: Part) {
        self.p += 1;
        if self.p as usize == part.columns() {
            self.p = 0;
            if self.a < part.subaddresses() {
                self.a += 1;
            }
        }
    }

    /// Carries out a command; an undefined one changes nothing.
    fn obey(&mut self, part: Part, byte: u8) {
        let Some(command) = part.command(byte) else {
            return;
        };
        match command {
            Command::PointerHigh(high) => {
                self.p = 16 * high + self.p % 16;
                self.unknown[HIGH] = 0;
            }
            Command::PointerLow(low) => {
                self.p = self.p - self.p % 16 + low;
                self.unknown[LOW] = 0;
            }
            Command::Pointer(p) => {
                self.p = p;
                (self.unknown[HIGH], self.unknown[LOW]) = (0, 0);
            }
            Command::ModeSet(e, b, m) => (self.e, self.b, self.m) = (e, b, m),
            Command::DeviceSelect(a) => {
                self.a = a;
                self.unknown[DEVICE] = 0;
            }
            Command::FrequencyControl => {}
            Command::BlinkSelect(ab, bf) => (self.ab, self.bf) = (ab, bf),
            Command::BankSelect(i, o) => (self.i, self.o) = (i, o),
        }
    }

    /// A data byte is cut: P and A keep their numbers, and nobody knows them.
    fn lose_position(&mut self) {
        self.unknown = [1; 3];
    }

    fn position_known(self) -> bool {
        self.unknown == [0; 3]
    }

    /// First row shown at a phase, or nothing if all is dark.
    fn first_shown(self, phase: u8) -> Option<usize> {
        let banks = self.backplanes() <= 2;
        let bank = if banks { self.o as usize } else { 0 };
        // Paper 02, request 3 (data sheet 003, table 11, note 2): in 1:3 and 1:4 blinking is normal, whatever AB is.
        let alternate = self.ab == 1 && banks;
        let blinks = self.bf != 0 && phase == 1;
        if self.e == 0 || (blinks && !alternate) {
            None
        } else if blinks {
            Some(2 * (1 - bank))
        } else {
            Some(2 * bank)
        }
    }

    /// One column's byte of the picture.
    fn shown(self, phase: u8, column: u8) -> u8 {
        let mut value = 0;
        if let Some(first) = self.first_shown(phase) {
            for r in 0..self.backplanes() {
                value |= (column >> (first + r) & 1) << r;
            }
        }
        value
    }

    /// Fills the picture of some columns and counts the lit elements.
    fn fill_picture(self, phase: u8, columns: &[u8], out: &mut [u8]) -> usize {
        for (place, column) in columns.iter().enumerate() {
            out[place] = self.shown(phase, *column);
        }
        out.iter().map(|value| value.count_ones() as usize).sum()
    }
}

/// Bit k of a byte, numbered from the most significant.
fn bit(byte: u8, k: usize) -> u8 {
    byte >> (7 - k) & 1
}

fn put_bit(column: &mut u8, row: usize, value: u8) {
    *column = *column & !(1 << row) | value << row;
}

// ---- A transfer's bytes ----------------------------------------------------

/// What a byte of a transfer is, after the address.
#[derive(Clone, Copy, Debug, PartialEq, Eq)]
enum Role {
    Control(u8),
    Command(u8),
    Data(u8),
    /// A data byte that ends before its eighth bit.
    CutData,
}

fn role(control: u8, byte: u8) -> Role {
    if control & 0x40 == 0 {
        Role::Command(byte)
    } else {
        Role::Data(byte)
    }
}

/// A transfer as it is sent: its bytes, and the bits of the last one.
#[derive(Clone, Copy, Debug)]
struct Sent<'a> {
    bytes: &'a [u8],
    bits: u8,
}

impl Sent<'_> {
    fn check_size(self) -> Check {
        refuse_if(self.bytes.is_empty(), 1)?;
        refuse_if(self.bytes.len() > TRANSFER_LIMIT, 2)?;
        refuse_if(!(1..=WHOLE).contains(&self.bits), 19)
    }

    fn cut(self) -> bool {
        self.bits < WHOLE
    }

    /// The group that the address calls, if it is whole.
    fn addressed(self) -> Option<usize> {
        let cut_in_address = self.cut() && self.bytes.len() == 1;
        match self.bytes.first()? {
            112 if !cut_in_address => Some(0),
            114 if !cut_in_address => Some(1),
            _ => None,
        }
    }

    /// The role of each byte after the address; a cut one has none, unless it is data.
    fn roles(self) -> Vec<Role> {
        let mut roles = Vec::new();
        let mut at = 1;
        while at < self.bytes.len() {
            let control = self.bytes[at];
            roles.push(Role::Control(control));
            let rest = &self.bytes[at + 1..];
            let length = if control & 0x80 == 0 {
                rest.len()
            } else {
                rest.len().min(1)
            };
            roles.extend(rest[..length].iter().map(|byte| role(control, *byte)));
            at += 1 + length;
        }
        if self.cut() {
            if let Some(Role::Data(_)) = roles.pop() {
                roles.push(Role::CutData);
            }
        }
        roles
    }
}

/// A byte of a heard transfer at its place: an undefined command is refused, a control byte with one of bits 5 to 0 set, and data where a listener does not know its position.
fn check_role(part: Part, listeners: &[Registers], role: Role, place: usize) -> Check {
    let lost = || !listeners.iter().all(|state| state.position_known());
    match role {
        Role::Command(byte) if !part.defines(byte) => Err((7, place)),
        Role::Control(byte) if byte & 0x3F != 0 => Err((17, place)),
        Role::Data(_) | Role::CutData if lost() => Err((18, place)),
        _ => Ok(()),
    }
}

/// The first byte of a heard transfer that is refused; commands on the way restore marks.
fn check_roles(part: Part, mut listeners: Vec<Registers>, sent: Sent) -> Check {
    for (place, role) in (1..).zip(sent.roles()) {
        check_role(part, &listeners, role, place)?;
        if let Role::Command(byte) = role {
            listeners
                .iter_mut()
                .for_each(|state| state.obey(part, byte));
        }
    }
    Ok(())
}

// ---- The long account ------------------------------------------------------

pub(crate) fn first_over_15(columns: &[u8]) -> Option<usize> {
    columns.iter().position(|column| *column > 15)
}

/// A bench of the long account: its part, and the chips in each group.
#[derive(Clone, Copy, Debug)]
pub(crate) struct Bench {
    pub(crate) part: Part,
    pub(crate) chips: [u8; 2],
}

impl Bench {
    pub(crate) fn new(part: u8, chips0: u8, chips1: u8) -> Result<Self, Refusal> {
        Ok(Bench {
            part: known(part)?,
            chips: [chips0, chips1],
        })
    }

    pub(crate) fn check_counts(self) -> Check {
        let most = self.part.subaddresses();
        refuse_if(self.chips.iter().any(|chips| *chips > most), 3)
    }

    pub(crate) fn check_registers(self, registers: &[u8; REGISTERS]) -> Check {
        let good = registers
            .chunks(SET)
            .all(|set| Registers::from_bytes(set).in_range(self.part));
        refuse_if(!good, 6)
    }

    fn check_ram(self, ram: &[u8]) -> Check {
        refuse_if(ram.len() != self.columns(0) + self.columns(1), 4)?;
        refuse_at(first_over_15(ram), 5)
    }

    fn check(self, registers: &[u8; REGISTERS], ram: &[u8]) -> Check {
        self.check_counts()?;
        self.check_registers(registers)?;
        self.check_ram(ram)
    }

    /// Columns of a group.
    pub(crate) fn columns(self, group: usize) -> usize {
        self.part.columns() * self.chips[group] as usize
    }

    /// The group's share of the long RAM.
    fn range(self, group: usize) -> std::ops::Range<usize> {
        let middle = self.columns(0);
        if group == 0 {
            0..middle
        } else {
            middle..middle + self.columns(1)
        }
    }

    /// The group that hears a transfer, if one does.
    fn hearing_group(self, sent: Sent) -> Option<usize> {
        let group = sent.addressed()?;
        if self.chips[group] > 0 {
            Some(group)
        } else {
            None
        }
    }
}

pub fn power_on(
    part: u8,
    chips0: u8,
    chips1: u8,
    ram: &[u8],
    registers: &mut [u8; REGISTERS],
) -> Answer {
    *registers = [0; REGISTERS];
    answer(check_power_on(part, chips0, chips1, ram).map(|()| [0; 3]))
}

fn check_power_on(part: u8, chips0: u8, chips1: u8, ram: &[u8]) -> Check {
    let bench = Bench::new(part, chips0, chips1)?;
    bench.check_counts()?;
    bench.check_ram(ram)
}

pub fn transfer(
    part: u8,
    chips0: u8,
    chips1: u8,
    registers: &mut [u8; REGISTERS],
    ram: &mut [u8],
    bytes: &[u8],
    bits: u8,
) -> Answer {
    let (bench, sent) = (Bench::new(part, chips0, chips1), Sent { bytes, bits });
    let counted = bench.and_then(|bench| long_counted(bench, registers, ram, sent));
    transfer_answer(part, counted)
}

fn long_counted(
    bench: Bench,
    registers: &mut [u8; REGISTERS],
    ram: &mut [u8],
    sent: Sent,
) -> Result<Counted, Refusal> {
    bench.check(registers, ram)?;
    sent.check_size()?;
    let Some(group) = bench.hearing_group(sent) else {
        return Ok(([0; 3], None));
    };
    let columns = &mut ram[bench.range(group)];
    let set = &mut registers[SET * group..SET * group + SET];
    let mut state = Registers::from_bytes(set);
    check_roles(bench.part, vec![state], sent)?;
    let counted = carry_out(bench.part, &mut state, columns, sent);
    set.copy_from_slice(&state.to_bytes());
    Ok(counted)
}

/// Carries out a heard transfer on a group: bytes acknowledged, bits stored, bits discarded, and the last data byte's chip.
fn carry_out(part: Part, state: &mut Registers, columns: &mut [u8], sent: Sent) -> Counted {
    let mut counts = [1, 0, 0];
    let mut last = None;
    for role in sent.roles() {
        match role {
            Role::Control(_) => counts[0] += 1,
            Role::Command(byte) => {
                counts[0] += 1;
                state.obey(part, byte);
            }
            Role::Data(byte) => last = store(part, state, columns, byte, &mut counts),
            Role::CutData => state.lose_position(),
        }
    }
    (counts, last)
}

/// One data byte, by the position v: the subaddress that acknowledges it, if one does.
fn store(
    part: Part,
    state: &mut Registers,
    columns: &mut [u8],
    byte: u8,
    counts: &mut [usize; 3],
) -> Option<u8> {
    let (v, m) = (state.position(part), state.backplanes());
    for k in 0..8 {
        match columns.get_mut(v + k / m) {
            Some(column) => {
                put_bit(column, state.first_row() + k % m, bit(byte, k));
                counts[1] += 1;
            }
            None => counts[2] += 1,
        }
    }
    let last = v + state.width() - 1;
    state.set_position(part, last + 1);
    if last >= columns.len() {
        return None;
    }
    counts[0] += 1;
    Some((last / part.columns()) as u8)
}

/// What a picture shows: the bus, a group and a blink phase.
#[derive(Clone, Copy, Debug)]
pub struct View<'a> {
    pub part: u8,
    pub chips0: u8,
    pub chips1: u8,
    pub registers: &'a [u8; REGISTERS],
    pub ram: &'a [u8],
    pub group: u8,
    pub phase: u8,
}

fn check_view(bench: Bench, view: View, length: usize) -> Check {
    bench.check(view.registers, view.ram)?;
    refuse_if(view.group > 1 || view.phase > 1, 8)?;
    refuse_if(length != bench.columns(view.group as usize), 9)
}

/// The picture of a group; the first count is the lit elements.
pub fn picture(view: View, out: &mut [u8]) -> Answer {
    let bench = Bench::new(view.part, view.chips0, view.chips1);
    answer(bench.and_then(|bench| shown_group(bench, view, out)))
}

fn shown_group(bench: Bench, view: View, out: &mut [u8]) -> Result<[usize; 3], Refusal> {
    check_view(bench, view, out.len())?;
    let group = view.group as usize;
    let state = Registers::from_bytes(&view.registers[SET * group..SET * group + SET]);
    let lit = state.fill_picture(view.phase, &view.ram[bench.range(group)], out);
    Ok([lit, 0, 0])
}

// ---- The plain account -----------------------------------------------------

/// A plain chip.
#[derive(Clone, Copy, Debug, PartialEq, Eq)]
pub struct Chip {
    pub columns: [u8; COLUMNS],
    pub sa0: u8,
    pub subaddress: u8,
    pub registers: Registers,
}

impl Chip {
    pub fn new(sa0: u8, subaddress: u8) -> Self {
        Chip {
            columns: [0; COLUMNS],
            sa0,
            subaddress,
            registers: Registers::power_on(),
        }
    }

    /// The columns that a chip of this part has; the places behind them are nobody's.
    fn own_columns(&self, part: Part) -> &[u8] {
        &self.columns[..part.columns()]
    }

    fn body_in_range(&self, part: Part) -> bool {
        let identity = self.sa0 <= 1 && self.subaddress < part.subaddresses();
        identity && first_over_15(self.own_columns(part)).is_none()
    }

    fn in_range(&self, part: Part) -> bool {
        self.body_in_range(part) && self.registers.in_range(part)
    }

    fn hears(&self, sent: Sent) -> bool {
        sent.addressed() == Some(self.sa0 as usize)
    }

    fn selected(&self) -> bool {
        self.registers.a == self.subaddress
    }

    /// Takes one byte after the address; true if this chip acknowledges it.
    fn take(&mut self, part: Part, role: Role) -> bool {
        match role {
            Role::Control(_) => true,
            Role::Command(byte) => {
                self.registers.obey(part, byte);
                true
            }
            Role::Data(byte) => self.take_data(part, byte),
            Role::CutData => {
                self.registers.lose_position();
                false
            }
        }
    }

    /// Takes a data byte, column by column.
    fn take_data(&mut self, part: Part, byte: u8) -> bool {
        let mut last = false;
        for offset in 0..self.registers.width() {
            last = self.selected();
            if last {
                self.take_column(byte, offset);
            }
            self.registers.next_column(part);
        }
        last
    }

    /// Stores the bits of a byte that have this column offset.
    fn take_column(&mut self, byte: u8, offset: usize) {
        let m = self.registers.backplanes();
        let first = self.registers.first_row();
        let column = &mut self.columns[self.registers.p as usize];
        for k in (0..8).filter(|k| k / m == offset) {
            put_bit(column, first + k % m, bit(byte, k));
        }
    }
}

fn check_plain(part: Part, chips: &[Chip], sent: Sent) -> Check {
    refuse_if(chips.len() > part.most_chips(), 10)?;
    refuse_at(chips.iter().position(|chip| !chip.in_range(part)), 11)?;
    sent.check_size()?;
    let hearing = chips.iter().filter(|chip| chip.hears(sent));
    let listeners: Vec<Registers> = hearing.map(|chip| chip.registers).collect();
    if listeners.is_empty() {
        return Ok(());
    }
    check_roles(part, listeners, sent)
}

/// All hearing chips take a byte: the smallest subaddress that acknowledges it, if one does.
fn take_by_all(part: Part, hearing: &mut [&mut Chip], role: Role) -> Option<u8> {
    let mut acknowledging = Vec::new();
    for chip in hearing {
        if chip.take(part, role) {
            acknowledging.push(chip.subaddress);
        }
    }
    acknowledging.into_iter().min()
}

/// A transfer over plain chips; the first count is the bytes acknowledged.
pub fn plain_transfer(part: u8, chips: &mut [Chip], bytes: &[u8], bits: u8) -> Answer {
    let sent = Sent { bytes, bits };
    let counted = known(part).and_then(|part| plain_counted(part, chips, sent));
    transfer_answer(part, counted)
}

fn plain_counted(part: Part, chips: &mut [Chip], sent: Sent) -> Result<Counted, Refusal> {
    check_plain(part, chips, sent)?;
    let mut hearing: Vec<&mut Chip> = chips.iter_mut().filter(|c| c.hears(sent)).collect();
    if hearing.is_empty() {
        return Ok(([0; 3], None));
    }
    let mut acknowledged = 1;
    let mut last = None;
    for role in sent.roles() {
        let chip = take_by_all(part, &mut hearing, role);
        acknowledged += chip.is_some() as usize;
        if let Role::Data(_) = role {
            last = chip;
        }
    }
    Ok(([acknowledged, 0, 0], last))
}

/// Power-on of one plain chip: its registers become the power-on ones, taken or refused.
pub fn plain_power_on(part: u8, chip: &mut Chip) -> Answer {
    chip.registers = Registers::power_on();
    let checked = known(part).and_then(|part| refuse_if(!chip.body_in_range(part), 11));
    answer(checked.map(|()| [0; 3]))
}

fn check_plain_picture(part: Part, chip: &Chip, phase: u8, length: usize) -> Check {
    refuse_if(!chip.in_range(part), 11)?;
    refuse_if(phase > 1, 8)?;
    refuse_if(length != part.columns(), 9)
}

/// The picture of one plain chip; the first count is the lit elements.
pub fn plain_picture(part: u8, chip: &Chip, phase: u8, out: &mut [u8]) -> Answer {
    answer(known(part).and_then(|part| shown_chip(part, chip, phase, out)))
}

fn shown_chip(part: Part, chip: &Chip, phase: u8, out: &mut [u8]) -> Result<[usize; 3], Refusal> {
    check_plain_picture(part, chip, phase, out.len())?;
    let columns = chip.own_columns(part);
    Ok([chip.registers.fill_picture(phase, columns, out), 0, 0])
}

// ---- Bus logs --------------------------------------------------------------

/// Logs stay with this part (paper 02, request 5).
pub const LOG_PART: Part = Part::Pcf8532;

/// A record of a log: the acknowledged bytes that the analyser saw, in version 2, and the transfer.
struct Record<'a> {
    seen: Option<usize>,
    bytes: &'a [u8],
}

/// What is refused before a record is looked at: the log's length and its head.
fn check_head(log: &[u8]) -> Check {
    refuse_if(log.len() > LOG_LIMIT, 14)?;
    refuse_if(log.len() < 3 || !matches!(log[0], 1 | 2), 12)?;
    Bench::new(LOG_PART.number(), log[1], log[2])?.check_counts()
}

/// The records of a log, or the refusal of the whole log.
fn records(log: &[u8]) -> Result<Vec<Record<'_>>, Refusal> {
    check_head(log)?;
    let mut records = Vec::new();
    let mut at = 3;
    while at < log.len() {
        let body = body(&log[at..]).ok_or((13, at))?;
        records.push(record(log[0], body).ok_or((20, at))?);
        at += 2 + body.len();
    }
    Ok(records)
}

/// The body of the record that stands first, unless it is cut short.
fn body(rest: &[u8]) -> Option<&[u8]> {
    let length = big_endian(rest)?;
    rest.get(2..2 + length)
}

/// A body taken apart, unless it has no room for what version 2 puts before the transfer.
fn record(version: u8, body: &[u8]) -> Option<Record<'_>> {
    if version == 1 {
        return Some(Record {
            seen: None,
            bytes: body,
        });
    }
    let seen = Some(big_endian(body)?);
    let bytes = &body[2..];
    Some(Record { seen, bytes })
}

/// The number in the first two bytes, if there are two.
fn big_endian(bytes: &[u8]) -> Option<usize> {
    let &[high, low] = bytes.first_chunk()?;
    Some(256 * high as usize + low as usize)
}

/// The lines that the program writes for a log.
pub fn log_text(log: &[u8]) -> Vec<u8> {
    let text = match records(log) {
        Err((number, place)) => format!("X {number} {place}\n"),
        Ok(records) => replay(log[1], log[2], &records),
    };
    text.into_bytes()
}

/// The bus of a log: from power-on, with RAM all 0.
pub struct LogBus {
    chips0: u8,
    chips1: u8,
    registers: [u8; REGISTERS],
    ram: Vec<u8>,
}

impl LogBus {
    pub fn new(chips0: u8, chips1: u8) -> Self {
        let ram = vec![0; LOG_PART.columns() * (chips0 + chips1) as usize];
        let mut registers = [0; REGISTERS];
        power_on(LOG_PART.number(), chips0, chips1, &ram, &mut registers);
        LogBus {
            chips0,
            chips1,
            registers,
            ram,
        }
    }

    /// Sends a record's bytes, which are whole.
    pub fn send(&mut self, bytes: &[u8]) -> Answer {
        let (part, chips0, chips1) = (LOG_PART.number(), self.chips0, self.chips1);
        let (registers, ram) = (&mut self.registers, &mut self.ram);
        transfer(part, chips0, chips1, registers, ram, bytes, WHOLE)
    }

    fn view(&self, group: u8) -> View<'_> {
        View {
            part: LOG_PART.number(),
            chips0: self.chips0,
            chips1: self.chips1,
            registers: &self.registers,
            ram: &self.ram,
            group,
            phase: 0,
        }
    }
}

fn replay(chips0: u8, chips1: u8, records: &[Record]) -> String {
    let mut bus = LogBus::new(chips0, chips1);
    let mut text = String::new();
    for (index, record) in records.iter().enumerate() {
        text += &record_lines(index, bus.send(record.bytes), record.seen);
    }
    let mut totals = String::new();
    for group in 0..2 {
        let (lines, lit) = shown_lines(bus.view(group));
        text += &lines;
        totals += &format!("G {group} {lit}\n");
    }
    text + &totals
}

/// The T line of a record, and its A line where the analyser saw another count than the answer has.
fn record_lines(index: usize, answer: Answer, seen: Option<usize>) -> String {
    let [number, place, acknowledged, stored, discarded, chip] = answer.numbers();
    let counts = format!("{acknowledged} {stored} {discarded}");
    let line = format!("T {index} {number} {place} {counts} {chip}\n");
    match seen {
        Some(seen) if seen != acknowledged => line + &format!("A {index} {seen} {acknowledged}\n"),
        _ => line,
    }
}

/// The S lines of a group, and its lit elements.
fn shown_lines(view: View) -> (String, usize) {
    let chips = [view.chips0, view.chips1][view.group as usize];
    let mut out = vec![0; LOG_PART.columns() * chips as usize];
    let answer = picture(view, &mut out);
    let mut lines = String::new();
    for (column, value) in out.iter().enumerate().filter(|(_, value)| **value != 0) {
        lines += &format!("S {} {column} {value}\n", view.group);
    }
    (lines, answer.counts[0])
}

// ---- Rescue of a torn log --------------------------------------------------

fn check_rescue(log: &[u8], room: usize) -> Check {
    check_head(log)?;
    refuse_if(room < log.len(), 9)
}

/// Copies the head and the whole records before the first tear: number, place, records kept, bytes kept, bytes dropped, offset of the tear.
pub fn rescue(log: &[u8], out: &mut [u8]) -> [usize; ANSWER] {
    if let Err(refusal) = check_rescue(log, out.len()) {
        return refused(refusal).numbers();
    }
    let (mut records, mut at) = (0, 3);
    while let Some(length) = whole_record(log[0], &log[at..]) {
        records += 1;
        at += length;
    }
    out[..at].copy_from_slice(&log[..at]);
    [0, 0, records, at, log.len() - at, at]
}

/// The bytes of the record that stands first, its length field included, if it is there to its end and has room for what its version asks.
fn whole_record(version: u8, rest: &[u8]) -> Option<usize> {
    let body = body(rest)?;
    record(version, body)?;
    Some(2 + body.len())
}

#[cfg(test)]
#[path = "model_tests.rs"]
mod tests;
