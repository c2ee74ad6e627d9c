//! Looks into a ring of three samples. A child of the unchanged source, so that it may see the private fields.

use super::RingBuffer;

/// A ring as the script writes it.
#[derive(Debug, Clone, Copy, PartialEq, Eq)]
pub struct Samples {
    pub count: u8,
    pub next: u8,
    pub values: [u8; 3],
}

impl Samples {
    pub fn of(ring: &RingBuffer<u8, 3>) -> Self {
        Self {
            count: ring.len,
            next: ring.next,
            values: ring.values,
        }
    }

    pub fn ring(self) -> RingBuffer<u8, 3> {
        RingBuffer {
            values: self.values,
            len: self.count,
            next: self.next,
        }
    }

    /// Document 01: a count of at most 3, the next place equal to a count below 3 and any of 0 to 2 at count 3, and
    /// unused places blank.
    pub fn well_formed(self) -> bool {
        let placed = match self.count {
            0..=2 => self.next == self.count,
            3 => self.next < 3,
            _ => return false,
        };
        placed && self.values[usize::from(self.count)..].iter().all(|&value| value == 0)
    }
}
