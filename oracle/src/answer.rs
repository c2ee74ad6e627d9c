//! An answer line: `ok` and numbers one space apart.

use crate::nwk::routing::RouteUpdate;
use crate::types::{Eui64, Nwk};

/// A value that an answer line can hold.
pub trait Number {
    fn number(self) -> u64;
}

impl Number for Nwk {
    fn number(self) -> u64 {
        u64::from(self.0)
    }
}

impl Number for Eui64 {
    fn number(self) -> u64 {
        Eui64::number(self)
    }
}

macro_rules! plain {
    ($($kind:ty)*) => { $(impl Number for $kind {
        fn number(self) -> u64 {
            self as u64
        }
    })* };
}
plain! { bool u8 u16 u32 u64 usize }

/// The answers so far. A line that is not finished can be taken back.
#[derive(Default)]
pub struct Answer {
    pub text: Vec<u8>,
}

impl Answer {
    pub fn word(&mut self, word: &str) -> &mut Self {
        self.text.extend_from_slice(word.as_bytes());
        self
    }

    pub fn n(&mut self, value: impl Number) -> &mut Self {
        let mut digits = [0; 20];
        let (mut value, mut at) = (value.number(), digits.len());
        loop {
            at -= 1;
            digits[at] = b'0' + (value % 10) as u8;
            value /= 10;
            if value == 0 {
                break;
            }
        }
        self.text.push(b' ');
        self.text.extend_from_slice(&digits[at..]);
        self
    }

    /// `0`, or `1` and the value.
    pub fn option<T: Number>(&mut self, value: Option<T>) -> &mut Self {
        match value {
            Some(value) => self.n(true).n(value),
            None => self.n(false),
        }
    }

    /// A count and the elements.
    pub fn list<T: Number + Copy>(&mut self, values: &[T]) -> &mut Self {
        self.n(values.len());
        for &value in values {
            self.n(value);
        }
        self
    }

    /// A count and the pairs.
    pub fn pairs(&mut self, pairs: &[(Eui64, Nwk)]) -> &mut Self {
        self.n(pairs.len());
        for &(eui, nwk) in pairs {
            self.n(eui).n(nwk);
        }
        self
    }

    /// `0`, or `1` and the route that came or moved.
    pub fn update(&mut self, update: Option<RouteUpdate>) -> &mut Self {
        match update {
            Some(u) => self.n(true).n(u.destination).n(u.next_hop).n(u.path_cost),
            None => self.n(false),
        }
    }

    pub fn line(&mut self) {
        self.text.push(b'\n');
    }
}
