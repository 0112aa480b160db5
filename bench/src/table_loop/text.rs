//! The lines of a log's text, one behind the other at the front of the output.

pub struct Text<'a> {
    out: &'a mut [u8],
    pub length: usize,
}

impl<'a> Text<'a> {
    pub fn new(out: &'a mut [u8]) -> Self {
        Text { out, length: 0 }
    }

    /// A letter, numbers with a space before each, and LF.
    pub fn put_line<const COUNT: usize>(&mut self, letter: u8, numbers: [usize; COUNT]) {
        self.put(letter);
        for number in numbers {
            self.put(b' ');
            self.put_number(number as u32);
        }
        self.put(b'\n');
    }

    fn put(&mut self, byte: u8) {
        self.out[self.length] = byte;
        self.length += 1;
    }

    /// No number of a text has over five digits: a log has at most 65,536 bytes.
    fn put_number(&mut self, mut number: u32) {
        let more = [10, 100, 1_000, 10_000].map(|least| (number >= least) as usize);
        let end = self.length + 1 + more.iter().sum::<usize>();
        for digit in self.out[self.length..end].iter_mut().rev() {
            *digit = b'0' + (number % 10) as u8;
            number /= 10;
        }
        self.length = end;
    }
}
