//! The two kinds of address.

/// A network address, in the order of its number.
#[derive(Debug, Clone, Copy, PartialEq, Eq, PartialOrd, Ord, Hash)]
pub struct Nwk(pub u16);

/// An extended address: its eight bytes as they go over the air. The order is that of the bytes, the first byte first,
/// as the Rust's own type derives it from its array.
#[derive(Debug, Clone, Copy, PartialEq, Eq, PartialOrd, Ord, Hash)]
pub struct Eui64(pub [u8; 8]);

impl Eui64 {
    /// From the script's number, whose most significant byte is the first over the air.
    pub const fn from_number(number: u64) -> Self {
        Self(number.to_be_bytes())
    }

    pub const fn number(self) -> u64 {
        u64::from_be_bytes(self.0)
    }
}
