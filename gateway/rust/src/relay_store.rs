//! The relays of the route records.

/// How many numbers a relay store has: 64 rows of 32.
pub const RELAY_STORE_LENGTH: usize = 2048;

/// The relays of the route records, kept beside a [`Routing`](crate::Routing) and lent with it to each call that reads
/// or writes them.
///
/// It has 64 rows of 32 numbers; row `i` holds the relays of the `i`-th record, and zeros after them. A store that does
/// not agree with the records is refused with [`StoreDisagrees`](crate::Refusal::StoreDisagrees), so keep the two
/// together.
///
/// It is `[u16; 2048]` in memory, as C has it.
#[derive(Clone, Debug, PartialEq, Eq)]
#[repr(transparent)]
pub struct RelayStore([u16; RELAY_STORE_LENGTH]);

impl RelayStore {
    /// The store of a fresh state: no relays.
    #[must_use]
    pub const fn new() -> Self {
        RelayStore([0; RELAY_STORE_LENGTH])
    }

    /// A store of numbers that were kept. Any are taken here; each call tests them.
    #[must_use]
    pub const fn from_numbers(numbers: [u16; RELAY_STORE_LENGTH]) -> Self {
        RelayStore(numbers)
    }

    /// The numbers, to keep.
    #[must_use]
    pub const fn numbers(&self) -> &[u16; RELAY_STORE_LENGTH] {
        &self.0
    }

    pub(crate) fn numbers_mut(&mut self) -> &mut [u16; RELAY_STORE_LENGTH] {
        &mut self.0
    }
}

impl Default for RelayStore {
    fn default() -> Self {
        Self::new()
    }
}
