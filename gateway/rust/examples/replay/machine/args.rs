//! A line as a word and numbers, and the numbers read one after the other by their kinds.

use super::Stop;
use warpteasel::{Eui64, Nwk};

/// The longest list that a line may carry.
const LONGEST_LIST: u64 = 80;

/// A word, and numbers each after one space. None where a line is written in another way.
pub fn split(line: &[u8]) -> Option<(&[u8], Vec<u64>)> {
    let mut parts = line.split(|byte| *byte == b' ');
    let word = parts.next()?;
    let numbers = parts.map(number).collect::<Option<_>>()?;
    Some((word, numbers))
}

/// Digits, any count of them, whose value is below 2^64.
fn number(digits: &[u8]) -> Option<u64> {
    if digits.is_empty() || !digits.iter().all(u8::is_ascii_digit) {
        return None;
    }
    let digit = |byte: &u8| u64::from(byte - b'0');
    digits.iter().map(digit).try_fold(0u64, |value, digit| value.checked_mul(10)?.checked_add(digit))
}

/// The numbers that are not read yet.
pub struct Args<'a> {
    rest: &'a [u64],
}

impl<'a> Args<'a> {
    pub fn new(numbers: &'a [u64]) -> Self {
        Args { rest: numbers }
    }

    /// The next number, at most `most`.
    pub fn number(&mut self, most: u64) -> Result<u64, Stop> {
        match self.rest.split_first() {
            Some((first, rest)) if *first <= most => {
                self.rest = rest;
                Ok(*first)
            }
            _ => Err(Stop::Bad),
        }
    }

    /// Nothing may follow.
    pub fn end(&self) -> Result<(), Stop> {
        if self.rest.is_empty() {
            Ok(())
        } else {
            Err(Stop::Bad)
        }
    }

    pub fn flag(&mut self) -> Result<bool, Stop> {
        Ok(self.number(1)? == 1)
    }

    pub fn byte(&mut self) -> Result<u8, Stop> {
        Ok(self.number(u8::MAX.into())? as u8)
    }

    pub fn address(&mut self) -> Result<u16, Stop> {
        Ok(self.number(u16::MAX.into())? as u16)
    }

    pub fn any(&mut self) -> Result<u64, Stop> {
        self.number(u64::MAX)
    }

    /// A place in a table; one past the last that can be counted to has nothing in it either.
    pub fn place(&mut self) -> Result<usize, Stop> {
        Ok(usize::try_from(self.any()?).unwrap_or(usize::MAX))
    }

    pub fn nwk(&mut self) -> Result<Nwk, Stop> {
        Ok(Nwk(self.address()?))
    }

    pub fn eui64(&mut self) -> Result<Eui64, Stop> {
        Ok(Eui64::from_number(self.any()?))
    }

    /// One of these, by its place.
    pub fn one_of<T: Copy>(&mut self, values: &[T]) -> Result<T, Stop> {
        let place = self.number(values.len() as u64 - 1)?;
        Ok(values[place as usize])
    }

    /// `0`, or `1` and a value.
    pub fn option<T>(&mut self, value: impl FnOnce(&mut Self) -> Result<T, Stop>) -> Result<Option<T>, Stop> {
        if self.flag()? {
            value(self).map(Some)
        } else {
            Ok(None)
        }
    }

    /// A count, and so many elements.
    pub fn list<T>(&mut self, mut element: impl FnMut(&mut Self) -> Result<T, Stop>) -> Result<Vec<T>, Stop> {
        let count = self.number(LONGEST_LIST)?;
        (0..count).map(|_| element(self)).collect()
    }
}
