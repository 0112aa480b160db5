//! The calls of include/humtrellis.h, over buffers with a fence on both sides.

pub use humtrellis::raw::*;

/// How the RAM is kept: a byte a column, or packed, two columns in a byte.
#[derive(Clone, Copy, Debug, PartialEq)]
pub enum Form {
    OneByte,
    Packed,
}

const FENCE: usize = 24;

/// A copy of a buffer with a fence before and behind it.
struct Fenced<T> {
    all: Vec<T>,
    fence: T,
}

impl<T: Copy + PartialEq + std::fmt::Debug> Fenced<T> {
    fn new(buffer: &[T], fence: T) -> Self {
        let fences = vec![fence; FENCE];
        let all = [&fences, buffer, &fences].concat();
        Fenced { all, fence }
    }

    fn length(&self) -> usize {
        self.all.len() - 2 * FENCE
    }

    fn pointer(&mut self) -> *mut T {
        self.all[FENCE..].as_mut_ptr()
    }

    /// Gives the buffer back after a look at the fences.
    fn back(&self, buffer: &mut [T]) {
        let end = FENCE + self.length();
        let fences = self.all[..FENCE].iter().chain(&self.all[end..]);
        assert!(fences.copied().all(|x| x == self.fence), "fence broken");
        buffer.copy_from_slice(&self.all[FENCE..end]);
    }
}

fn bytes(buffer: &[u8]) -> Fenced<u8> {
    Fenced::new(buffer, 0xA7)
}

fn numbers(buffer: &[usize]) -> Fenced<usize> {
    Fenced::new(buffer, 0xA7A7)
}

pub fn power_on(
    (form, part): (Form, u8),
    [chips0, chips1]: [u8; 2],
    ram: &mut [u8],
    registers: &mut [u8],
    answer: &mut [usize],
) -> u8 {
    let (mut r, mut s, mut a) = (bytes(ram), bytes(registers), numbers(answer));
    let call = match form {
        Form::OneByte => humtrellis_power_on,
        Form::Packed => humtrellis_packed_power_on,
    };
    // Safety: each pointer goes with the length of the buffer that it points to.
    let number = unsafe {
        call(
            part,
            chips0,
            chips1,
            r.pointer(),
            r.length(),
            s.pointer(),
            s.length(),
            a.pointer(),
            a.length(),
        )
    };
    r.back(ram);
    s.back(registers);
    a.back(answer);
    number
}

pub fn transfer(
    (form, part): (Form, u8),
    [chips0, chips1]: [u8; 2],
    registers: &mut [u8],
    ram: &mut [u8],
    sent: &mut [u8],
    bits: u8,
    answer: &mut [usize],
) -> u8 {
    let (mut s, mut r) = (bytes(registers), bytes(ram));
    let (mut b, mut a) = (bytes(sent), numbers(answer));
    let call = match form {
        Form::OneByte => humtrellis_transfer,
        Form::Packed => humtrellis_packed_transfer,
    };
    // Safety: each pointer goes with the length of the buffer that it points to.
    let number = unsafe {
        call(
            part,
            chips0,
            chips1,
            s.pointer(),
            s.length(),
            r.pointer(),
            r.length(),
            b.pointer(),
            b.length(),
            bits,
            a.pointer(),
            a.length(),
        )
    };
    s.back(registers);
    r.back(ram);
    b.back(sent);
    a.back(answer);
    number
}

pub fn picture(
    (form, part): (Form, u8),
    [chips0, chips1]: [u8; 2],
    registers: &mut [u8],
    ram: &mut [u8],
    [group, phase]: [u8; 2],
    out: &mut [u8],
    answer: &mut [usize],
) -> u8 {
    let (mut s, mut r) = (bytes(registers), bytes(ram));
    let (mut o, mut a) = (bytes(out), numbers(answer));
    let call = match form {
        Form::OneByte => humtrellis_picture,
        Form::Packed => humtrellis_packed_picture,
    };
    // Safety: each pointer goes with the length of the buffer that it points to.
    let number = unsafe {
        call(
            part,
            chips0,
            chips1,
            s.pointer(),
            s.length(),
            r.pointer(),
            r.length(),
            group,
            phase,
            o.pointer(),
            o.length(),
            a.pointer(),
            a.length(),
        )
    };
    s.back(registers);
    r.back(ram);
    o.back(out);
    a.back(answer);
    number
}

pub fn plain_transfer(
    part: u8,
    chips: &mut [u8],
    sent: &mut [u8],
    bits: u8,
    answer: &mut [usize],
) -> u8 {
    let (mut c, mut b, mut a) = (bytes(chips), bytes(sent), numbers(answer));
    // Safety: each pointer goes with the length of the buffer that it points to.
    let number = unsafe {
        humtrellis_plain_transfer(
            part,
            c.pointer(),
            c.length(),
            b.pointer(),
            b.length(),
            bits,
            a.pointer(),
            a.length(),
        )
    };
    c.back(chips);
    b.back(sent);
    a.back(answer);
    number
}

pub fn chip_power_on(part: u8, chip: &mut [u8], answer: &mut [usize]) -> u8 {
    let (mut c, mut a) = (bytes(chip), numbers(answer));
    // Safety: each pointer goes with the length of the buffer that it points to.
    let number =
        unsafe { humtrellis_chip_power_on(part, c.pointer(), c.length(), a.pointer(), a.length()) };
    c.back(chip);
    a.back(answer);
    number
}

pub fn chip_picture(
    part: u8,
    chip: &mut [u8],
    phase: u8,
    out: &mut [u8],
    answer: &mut [usize],
) -> u8 {
    let (mut c, mut o, mut a) = (bytes(chip), bytes(out), numbers(answer));
    // Safety: each pointer goes with the length of the buffer that it points to.
    let number = unsafe {
        humtrellis_chip_picture(
            part,
            c.pointer(),
            c.length(),
            phase,
            o.pointer(),
            o.length(),
            a.pointer(),
            a.length(),
        )
    };
    c.back(chip);
    o.back(out);
    a.back(answer);
    number
}

pub fn write_rows(
    part: u8,
    [chips0, chips1]: [u8; 2],
    registers: &mut [u8],
    [group, mode, bank]: [u8; 3],
    wanted: &mut [u8],
    out: &mut [u8],
    answer: &mut [usize],
) -> u8 {
    let (mut s, mut w) = (bytes(registers), bytes(wanted));
    let (mut o, mut a) = (bytes(out), numbers(answer));
    // Safety: each pointer goes with the length of the buffer that it points to.
    let number = unsafe {
        humtrellis_write_rows(
            part,
            chips0,
            chips1,
            s.pointer(),
            s.length(),
            group,
            mode,
            bank,
            w.pointer(),
            w.length(),
            o.pointer(),
            o.length(),
            a.pointer(),
            a.length(),
        )
    };
    s.back(registers);
    w.back(wanted);
    o.back(out);
    a.back(answer);
    number
}

pub fn write_three(
    part: u8,
    [chips0, chips1]: [u8; 2],
    registers: &mut [u8],
    group: u8,
    wanted: &mut [u8],
    out: &mut [u8],
    answer: &mut [usize],
) -> u8 {
    let (mut s, mut w) = (bytes(registers), bytes(wanted));
    let (mut o, mut a) = (bytes(out), numbers(answer));
    // Safety: each pointer goes with the length of the buffer that it points to.
    let number = unsafe {
        humtrellis_write_three(
            part,
            chips0,
            chips1,
            s.pointer(),
            s.length(),
            group,
            w.pointer(),
            w.length(),
            o.pointer(),
            o.length(),
            a.pointer(),
            a.length(),
        )
    };
    s.back(registers);
    w.back(wanted);
    o.back(out);
    a.back(answer);
    number
}

pub fn price_write(mode: u8, text: &mut [u8], out: &mut [u8], answer: &mut [usize]) -> u8 {
    let (mut t, mut o, mut a) = (bytes(text), bytes(out), numbers(answer));
    // Safety: each pointer goes with the length of the buffer that it points to.
    let number = unsafe {
        humtrellis_price_write(
            mode,
            t.pointer(),
            t.length(),
            o.pointer(),
            o.length(),
            a.pointer(),
            a.length(),
        )
    };
    t.back(text);
    o.back(out);
    a.back(answer);
    number
}

pub fn price_read(mode: u8, segments: &mut [u8], out: &mut [u8], answer: &mut [usize]) -> u8 {
    let (mut s, mut o, mut a) = (bytes(segments), bytes(out), numbers(answer));
    // Safety: each pointer goes with the length of the buffer that it points to.
    let number = unsafe {
        humtrellis_price_read(
            mode,
            s.pointer(),
            s.length(),
            o.pointer(),
            o.length(),
            a.pointer(),
            a.length(),
        )
    };
    s.back(segments);
    o.back(out);
    a.back(answer);
    number
}

pub fn hex_write(part: u8, chips: u8, ram: &mut [u8], out: &mut [u8], answer: &mut [usize]) -> u8 {
    let (mut r, mut o, mut a) = (bytes(ram), bytes(out), numbers(answer));
    // Safety: each pointer goes with the length of the buffer that it points to.
    let number = unsafe {
        humtrellis_hex_write(
            part,
            chips,
            r.pointer(),
            r.length(),
            o.pointer(),
            o.length(),
            a.pointer(),
            a.length(),
        )
    };
    r.back(ram);
    o.back(out);
    a.back(answer);
    number
}

pub fn hex_read(part: u8, chips: u8, file: &mut [u8], ram: &mut [u8], answer: &mut [usize]) -> u8 {
    let (mut f, mut r, mut a) = (bytes(file), bytes(ram), numbers(answer));
    // Safety: each pointer goes with the length of the buffer that it points to.
    let number = unsafe {
        humtrellis_hex_read(
            part,
            chips,
            f.pointer(),
            f.length(),
            r.pointer(),
            r.length(),
            a.pointer(),
            a.length(),
        )
    };
    f.back(file);
    r.back(ram);
    a.back(answer);
    number
}

pub fn rescue(log: &mut [u8], out: &mut [u8], answer: &mut [usize]) -> u8 {
    let (mut l, mut o, mut a) = (bytes(log), bytes(out), numbers(answer));
    // Safety: each pointer goes with the length of the buffer that it points to.
    let number = unsafe {
        humtrellis_rescue(
            l.pointer(),
            l.length(),
            o.pointer(),
            o.length(),
            a.pointer(),
            a.length(),
        )
    };
    l.back(log);
    o.back(out);
    a.back(answer);
    number
}

pub fn replay(log: &mut [u8], out: &mut [u8]) -> usize {
    let (mut l, mut o) = (bytes(log), bytes(out));
    // Safety: each pointer goes with the length of the buffer that it points to.
    let length = unsafe { humtrellis_replay(l.pointer(), l.length(), o.pointer(), o.length()) };
    l.back(log);
    o.back(out);
    length
}
