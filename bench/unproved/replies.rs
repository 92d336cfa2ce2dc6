//! The lines of replies, which wait until there is much to write.

use std::io::{self, Write};

/// So many bytes are written at once.
const MUCH: usize = 1 << 16;

/// The digits of the numbers below a hundred.
const PAIRS: &[u8; 200] = b"\
    00010203040506070809101112131415161718192021222324252627282930313233343536373839404142434445464748495\
    0515253545556575859606162636465666768697071727374757677787980818283848586878889909192939495969798\
    99";

pub struct Replies {
    text: Vec<u8>,
}

impl Replies {
    pub fn new() -> Self {
        Replies { text: Vec::with_capacity(MUCH + (MUCH >> 4)) }
    }

    #[inline]
    pub fn text(&mut self, text: &[u8]) {
        self.text.extend_from_slice(text);
    }

    /// A number's digits, two at a time.
    pub fn number(&mut self, mut number: u64) {
        if number < 10 {
            return self.text(&[b'0' + number as u8]);
        }
        let mut digits = [0; 20];
        let mut at = digits.len();
        while number >= 10 {
            let pair = 2 * (number % 100) as usize;
            number /= 100;
            at -= 2;
            digits[at..at + 2].copy_from_slice(&PAIRS[pair..pair + 2]);
        }
        if number > 0 {
            at -= 1;
            digits[at] = b'0' + number as u8;
        }
        self.text(&digits[at..]);
    }

    /// A text, and a number directly after it.
    #[inline]
    pub fn field(&mut self, text: &[u8], number: u32) {
        self.text(text);
        self.number(number as u64);
    }

    /// The same, and the line's end.
    #[inline]
    pub fn line(&mut self, text: &[u8], number: u32) {
        self.field(text, number);
        self.text(b"\n");
    }

    pub fn clause(&mut self, clause: u32, is_conflict: bool) {
        self.field(b"clause ", clause);
        self.text(if is_conflict { b" conflict\n" } else { b"\n" });
    }

    /// The variables of a list, joined by commas, or `-` for none.
    pub fn list(&mut self, variables: &[u32]) {
        let mut between: &[u8] = b" ";
        for variable in variables {
            self.field(between, *variable);
            between = b",";
        }
        if variables.is_empty() {
            self.text(b" -");
        }
    }

    /// Writes what waits, if that is much.
    pub fn write_much(&mut self, writer: &mut impl Write) -> io::Result<()> {
        if self.text.len() < MUCH {
            return Ok(());
        }
        self.write_rest(writer)
    }

    /// Writes what waits.
    pub fn write_rest(&mut self, writer: &mut impl Write) -> io::Result<()> {
        writer.write_all(&self.text)?;
        self.text.clear();
        writer.flush()
    }
}
