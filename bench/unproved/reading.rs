//! Words and numbers of a script, read in one pass.

use crate::literals::{literal, Literal};

/// The line isn't in the format.
pub struct Unreadable;

pub type Read<T> = Result<T, Unreadable>;

pub const WORD: u64 = 1 << 32;
pub const VARIABLES: u64 = (1 << 31) - 1;
pub const IDS: u64 = (1 << 32) - 1;

/// A place in the script, which ends with a line feed.
pub struct Cursor<'a> {
    data: &'a [u8],
    at: usize,
}

#[inline]
fn is_printed(byte: u8) -> bool {
    (33..=126).contains(&byte)
}

/// Whether all of these bytes are printed ones or blanks. Looks at all, so that it looks at many at once.
#[inline]
fn are_all_in_line(bytes: &[u8]) -> bool {
    bytes.iter().fold(true, |are, byte| are & (32..=126).contains(byte))
}

impl<'a> Cursor<'a> {
    pub fn new(data: &'a [u8]) -> Self {
        Cursor { data, at: 0 }
    }

    pub fn is_at_end(&self) -> bool {
        self.at >= self.data.len()
    }

    /// Passes over the line feed, which is where each line that was read ends.
    #[inline]
    pub fn next_line(&mut self) {
        self.at += 1;
    }

    /// The byte that stands here; a line feed where the script has ended.
    #[inline]
    fn here(&self) -> u8 {
        match self.data.get(self.at) {
            Some(byte) => *byte,
            None => b'\n',
        }
    }

    /// Passes over a byte, if it is the one that stands here.
    #[inline]
    pub fn passes(&mut self, byte: u8) -> bool {
        let is_here = self.here() == byte;
        if is_here {
            self.at += 1;
        }
        is_here
    }

    #[inline]
    fn skip_blanks(&mut self) {
        let (data, mut at) = (self.data, self.at);
        while let Some(b' ') = data.get(at) {
            at += 1;
        }
        self.at = at;
    }

    /// Passes over blanks; whether a word stands there, and not the line's end.
    #[inline]
    pub fn has_word(&mut self) -> Read<bool> {
        self.skip_blanks();
        if is_printed(self.here()) {
            return Ok(true);
        }
        self.line_ends().map(|()| false)
    }

    /// That the line ends here. One carriage return may stand before the line feed.
    #[inline]
    fn line_ends(&mut self) -> Read<()> {
        match self.here() {
            b'\n' => Ok(()),
            b'\r' if self.data.get(self.at + 1) == Some(&b'\n') => {
                self.at += 1;
                Ok(())
            }
            _ => Err(Unreadable),
        }
    }

    /// That no further word stands in the line.
    #[inline]
    pub fn end(&mut self) -> Read<()> {
        self.skip_blanks();
        self.line_ends()
    }

    /// Passes over the rest of the line, whatever its words are.
    #[inline]
    pub fn skip_line(&mut self) -> Read<()> {
        let (data, mut at) = (self.data, self.at);
        while data.get(at..at + 16).is_some_and(are_all_in_line) {
            at += 16;
        }
        while let Some(32..=126) = data.get(at) {
            at += 1;
        }
        self.at = at;
        self.line_ends()
    }

    /// The word that stands here, perhaps an empty one.
    #[inline]
    pub fn rest_of_word(&mut self) -> &'a [u8] {
        let (data, from) = (self.data, self.at);
        let mut at = from;
        while let Some(33..=126) = data.get(at) {
            at += 1;
        }
        self.at = at;
        &data[from..at]
    }

    /// The next word.
    #[inline]
    pub fn word(&mut self) -> Read<&'a [u8]> {
        self.skip_blanks();
        let word = self.rest_of_word();
        if word.is_empty() {
            Err(Unreadable)
        } else {
            Ok(word)
        }
    }

    /// That a word ends here.
    #[inline]
    pub fn word_ends(&self) -> Read<()> {
        if is_printed(self.here()) {
            Err(Unreadable)
        } else {
            Ok(())
        }
    }

    /// The number of one to twenty digits that stand here.
    #[inline]
    pub fn digits(&mut self) -> Read<u64> {
        let (data, from) = (self.data, self.at);
        let (mut at, mut value) = (from, 0u64);
        while let Some(byte @ b'0'..=b'9') = data.get(at) {
            value = value.wrapping_mul(10).wrapping_add((byte - b'0') as u64);
            at += 1;
        }
        self.at = at;
        match at - from {
            1..=19 => Ok(value),
            _ => exact(&data[from..at]),
        }
    }

    /// The number that stands here, which is below a limit of at most 2^32.
    #[inline]
    pub fn digits_below(&mut self, limit: u64) -> Read<u32> {
        let value = self.digits()?;
        if value >= limit {
            return Err(Unreadable);
        }
        Ok(value as u32)
    }

    /// The next word, which is a number below a limit of at most 2^32.
    #[inline]
    pub fn number(&mut self, limit: u64) -> Read<u32> {
        self.skip_blanks();
        let number = self.digits_below(limit)?;
        self.word_ends()?;
        Ok(number)
    }

    /// The next word, which is a number below 2^64.
    pub fn long_number(&mut self) -> Read<u64> {
        self.skip_blanks();
        let number = self.digits()?;
        self.word_ends()?;
        Ok(number)
    }

    /// The next word, which is a variable's number.
    #[inline]
    pub fn variable(&mut self) -> Read<u32> {
        self.number(VARIABLES)
    }

    /// The next word, which is a literal.
    #[inline]
    pub fn literal(&mut self) -> Read<Literal> {
        self.skip_blanks();
        let value = match self.here() {
            b'+' => true,
            b'-' => false,
            _ => return Err(Unreadable),
        };
        self.at += 1;
        let variable = self.digits_below(VARIABLES)?;
        self.word_ends()?;
        Ok(literal(variable, value))
    }

    /// The next word, which is `true` or `false`.
    #[inline]
    pub fn truth(&mut self) -> Read<bool> {
        match self.word()? {
            b"true" => Ok(true),
            b"false" => Ok(false),
            _ => Err(Unreadable),
        }
    }
}

/// The value of twenty digits, which may be more than there is room for. No other count of digits is a number.
#[cold]
#[inline(never)]
fn exact(digits: &[u8]) -> Read<u64> {
    if digits.len() != 20 {
        return Err(Unreadable);
    }
    let append = |value: u64, digit: &u8| value.checked_mul(10)?.checked_add((digit - b'0') as u64);
    digits.iter().try_fold(0, append).ok_or(Unreadable)
}
