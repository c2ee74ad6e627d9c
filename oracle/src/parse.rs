//! One line of a script, taken apart: a word, and decimal numbers one space apart.
//!
//! A line ends at a line feed and nowhere else. Every other byte is part of the line, so a carriage return, a tab, a NUL or
//! a second space makes it `bad`, like any byte that is neither a digit nor one space between two numbers. Leading zeros
//! are allowed; a sign is not.

use crate::types::{Eui64, Nwk};

/// The longest list that a line may carry. A longer one makes the line `bad`.
pub const LONGEST_LIST: u64 = 80;

/// Why a line has no answer of its own.
#[derive(Debug, Clone, Copy, PartialEq, Eq)]
pub enum Stop {
    /// The line is no call.
    Bad,
    /// The call is refused, with this number.
    Refuse(u8),
}

pub type Read<T> = Result<T, Stop>;

/// The numbers after the word, not yet read.
pub struct Args<'a> {
    /// What follows the last number read: nothing, or a space and the rest.
    rest: &'a [u8],
}

/// The word of a line and its numbers. The word goes up to the first space.
pub fn split(line: &[u8]) -> (&[u8], Args<'_>) {
    let end = line.iter().position(|&b| b == b' ').unwrap_or(line.len());
    (&line[..end], Args { rest: &line[end..] })
}

/// An empty line or a comment: passed over, without an answer.
pub fn passed_over(line: &[u8]) -> bool {
    matches!(line.first(), None | Some(b'#'))
}

impl Args<'_> {
    /// The next number, at most `most`.
    pub fn number(&mut self, most: u64) -> Read<u64> {
        let [b' ', digits @ ..] = self.rest else {
            return Err(Stop::Bad);
        };
        let end = digits.iter().position(|&b| b == b' ').unwrap_or(digits.len());
        if end == 0 {
            return Err(Stop::Bad);
        }
        let mut value: u64 = 0;
        for &digit in &digits[..end] {
            if !digit.is_ascii_digit() {
                return Err(Stop::Bad);
            }
            value =
                value.checked_mul(10).and_then(|tens| tens.checked_add(u64::from(digit - b'0'))).ok_or(Stop::Bad)?;
        }
        if value > most {
            return Err(Stop::Bad);
        }
        self.rest = &digits[end..];
        Ok(value)
    }

    /// Nothing may follow.
    pub fn end(&self) -> Read<()> {
        if self.rest.is_empty() { Ok(()) } else { Err(Stop::Bad) }
    }

    pub fn flag(&mut self) -> Read<bool> {
        Ok(self.number(1)? == 1)
    }

    pub fn u8(&mut self) -> Read<u8> {
        Ok(self.number(u64::from(u8::MAX))? as u8)
    }

    pub fn u16(&mut self) -> Read<u16> {
        Ok(self.number(u64::from(u16::MAX))? as u16)
    }

    pub fn u32(&mut self) -> Read<u32> {
        Ok(self.number(u64::from(u32::MAX))? as u32)
    }

    pub fn u64(&mut self) -> Read<u64> {
        self.number(u64::MAX)
    }

    pub fn nwk(&mut self) -> Read<Nwk> {
        Ok(Nwk(self.u16()?))
    }

    pub fn eui(&mut self) -> Read<Eui64> {
        Ok(Eui64::from_number(self.u64()?))
    }

    /// `0`, or `1` and a value.
    pub fn option<T>(&mut self, value: impl FnOnce(&mut Self) -> Read<T>) -> Read<Option<T>> {
        if self.flag()? { Ok(Some(value(self)?)) } else { Ok(None) }
    }

    /// A count, and that many elements.
    pub fn list<T>(&mut self, mut element: impl FnMut(&mut Self) -> Read<T>) -> Read<Vec<T>> {
        let count = self.number(LONGEST_LIST)?;
        (0..count).map(|_| element(self)).collect()
    }

    /// One of an enum's values by its number in `values`; a `None` there is a number that names no value.
    pub fn variant<T: Copy>(&mut self, values: &[Option<T>]) -> Read<T> {
        let place = self.number(values.len() as u64 - 1)?;
        values[place as usize].ok_or(Stop::Bad)
    }
}
