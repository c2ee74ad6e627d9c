//! The script's milliseconds as the Rust's time.
//!
//! The Rust counts microseconds in 64 bits, so a millisecond of the script is 1,000 of its counts,
//! up to `LAST_IN_MICROS`. A script that goes further is run on with one count for each
//! millisecond: the sources only compare moments and add spans to them, so the scale makes no
//! difference to them, but for one span that they write themselves (the never-ending child
//! timeout), which the call then sets right. The tests run the same scripts on both scales.

use crate::Instant;
use core::time::Duration;

/// The last millisecond that the Rust's microseconds can count to.
pub const LAST_IN_MICROS: u64 = u64::MAX / 1000;

/// 0xFFFFFFFF seconds, the timeout of a neighbour made by a link status.
pub const NEVER: u64 = 0xFFFF_FFFF * 1000;

/// How many of the Rust's counts a millisecond is.
#[derive(Debug, Clone, Copy, PartialEq, Eq)]
pub enum Scale {
    Micros,
    Millis,
}

impl Scale {
    const fn counts(self) -> u64 {
        match self {
            Self::Micros => 1000,
            Self::Millis => 1,
        }
    }

    pub const fn moment(self, ms: u64) -> Instant {
        Instant::from_micros(ms * self.counts())
    }

    pub const fn span(self, ms: u64) -> Duration {
        match self {
            Self::Micros => Duration::from_millis(ms),
            Self::Millis => Duration::from_micros(ms),
        }
    }

    pub const fn ms(self, moment: Instant) -> u64 {
        moment.as_micros() / self.counts()
    }

    pub const fn span_ms(self, span: Duration) -> u64 {
        (span.as_micros() / self.counts() as u128) as u64
    }
}
