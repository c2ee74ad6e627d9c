//! The two kinds of address, and the order of their bytes.

use std::fmt;

/// A network address: 16 bits, given by the network.
///
/// Over the air the low byte goes first.
///
/// ```
/// use warpteasel::Nwk;
/// let node = Nwk::from_bytes([0x34, 0x12]); // as they stand in a frame
/// assert_eq!(node, Nwk(0x1234));
/// assert_eq!(node.to_bytes(), [0x34, 0x12]);
/// assert_eq!(node.to_string(), "0x1234");
/// ```
#[derive(Clone, Copy, Default, PartialEq, Eq, PartialOrd, Ord, Hash)]
#[repr(transparent)]
pub struct Nwk(pub u16);

impl Nwk {
    /// The coordinator, 0x0000.
    pub const COORDINATOR: Nwk = Nwk(0x0000);
    /// All routers and the coordinator, 0xFFFC: what a many-to-one advertisement is sent to.
    pub const ALL_ROUTERS: Nwk = Nwk(0xFFFC);
    /// What stands for a next hop that is not known, 0xFFFF.
    pub const UNKNOWN: Nwk = Nwk(0xFFFF);

    /// The address of two bytes in the order of the air, the low byte first.
    #[must_use]
    pub const fn from_bytes(bytes: [u8; 2]) -> Self {
        Nwk(u16::from_le_bytes(bytes))
    }

    /// The two bytes in the order of the air, the low byte first.
    #[must_use]
    pub const fn to_bytes(self) -> [u8; 2] {
        self.0.to_le_bytes()
    }
}

impl fmt::Display for Nwk {
    fn fmt(&self, f: &mut fmt::Formatter<'_>) -> fmt::Result {
        write!(f, "{:#06x}", self.0)
    }
}

impl fmt::Debug for Nwk {
    fn fmt(&self, f: &mut fmt::Formatter<'_>) -> fmt::Result {
        write!(f, "Nwk({self})")
    }
}

impl From<u16> for Nwk {
    fn from(number: u16) -> Self {
        Nwk(number)
    }
}

impl From<Nwk> for u16 {
    fn from(address: Nwk) -> Self {
        address.0
    }
}

/// An extended address: 64 bits, given by the maker of the device.
///
/// Its eight bytes go over the air in the reverse of the order in which they are printed. The library has one number
/// for an address, in which the byte that goes first over the air is the most significant; tables are in ascending
/// order of that number.
///
/// | | |
/// |---|---|
/// | printed | `00:12:4b:00:14:b5:d9:a8` |
/// | in a frame | `a8 d9 b5 14 00 4b 12 00` |
/// | the number | `0xa8d9b514004b1200` |
///
/// ```
/// use warpteasel::Eui64;
/// let in_a_frame = [0xa8, 0xd9, 0xb5, 0x14, 0x00, 0x4b, 0x12, 0x00];
/// let device = Eui64::from_bytes(in_a_frame);
/// assert_eq!(device.to_string(), "00:12:4b:00:14:b5:d9:a8");
/// assert_eq!(device, Eui64::from_be_bytes([0x00, 0x12, 0x4b, 0x00, 0x14, 0xb5, 0xd9, 0xa8]));
/// assert_eq!(device.number(), 0xa8d9_b514_004b_1200);
/// assert_eq!(device.to_bytes(), in_a_frame);
/// ```
#[derive(Clone, Copy, Default, PartialEq, Eq, PartialOrd, Ord, Hash)]
#[repr(transparent)]
pub struct Eui64(u64);

impl Eui64 {
    /// The address of eight bytes in the order of the air, as they stand in a frame.
    #[must_use]
    pub const fn from_bytes(bytes: [u8; 8]) -> Self {
        Eui64(u64::from_be_bytes(bytes))
    }

    /// The eight bytes in the order of the air, as they stand in a frame.
    #[must_use]
    pub const fn to_bytes(self) -> [u8; 8] {
        self.0.to_be_bytes()
    }

    /// The address of eight bytes in the order in which an address is printed.
    #[must_use]
    pub const fn from_be_bytes(bytes: [u8; 8]) -> Self {
        Eui64(u64::from_le_bytes(bytes))
    }

    /// The eight bytes in the order in which an address is printed.
    #[must_use]
    pub const fn to_be_bytes(self) -> [u8; 8] {
        self.0.to_le_bytes()
    }

    /// The address of the library's number for it, whose most significant byte goes first over the air.
    #[must_use]
    pub const fn from_number(number: u64) -> Self {
        Eui64(number)
    }

    /// The library's number for the address, whose most significant byte goes first over the air.
    #[must_use]
    pub const fn number(self) -> u64 {
        self.0
    }
}

impl fmt::Display for Eui64 {
    fn fmt(&self, f: &mut fmt::Formatter<'_>) -> fmt::Result {
        let [first, rest @ ..] = self.to_be_bytes();
        write!(f, "{first:02x}")?;
        rest.iter().try_for_each(|byte| write!(f, ":{byte:02x}"))
    }
}

impl fmt::Debug for Eui64 {
    fn fmt(&self, f: &mut fmt::Formatter<'_>) -> fmt::Result {
        write!(f, "Eui64({self})")
    }
}
