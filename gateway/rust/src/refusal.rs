//! Why a call has no answer.

use std::error::Error;
use std::fmt;

/// Why a call has no answer. A refused call leaves everything that it was given as it was.
///
/// Where several hold, the one that is tested first is given: [`StateIllFormed`](Refusal::StateIllFormed),
/// [`StoreDisagrees`](Refusal::StoreDisagrees), [`ListTooLong`](Refusal::ListTooLong),
/// [`LinkCostTooHigh`](Refusal::LinkCostTooHigh), [`TimePastEnd`](Refusal::TimePastEnd), then the others in the order
/// of their numbers.
#[derive(Clone, Copy, Debug, PartialEq, Eq, Hash)]
pub enum Refusal {
    /// 1: the call needs a new route, and the route table is full.
    RouteTableFull,
    /// 2: the call needs a new discovery, and the discovery table is full.
    DiscoveryTableFull,
    /// 3: the call needs more new route records than are free.
    RecordTableFull,
    /// 4: the call needs a new neighbor, and the neighbor table is full.
    NeighborTableFull,
    /// 5: a sum of a moment and a span lies past 2^64 - 1 milliseconds.
    TimePastEnd,
    /// 6: the hop to be answered is that of an active route, and not known (0xFFFF).
    UnknownNextHop,
    /// 7: the source route that the caller gave is the one to be used, and has no relays.
    EmptySourceRoute,
    /// 8: a list is longer than its call can take.
    ListTooLong,
    /// 9: the relay store does not agree with the route records.
    StoreDisagrees,
    /// 10: the state is not well formed. No call makes such a state; it was damaged while the caller kept it.
    StateIllFormed,
    /// 11: a cost in a link status command is above 7.
    LinkCostTooHigh,
}

/// All of them, in the order of their numbers, which begin at 1.
const NUMBERED: [Refusal; 11] = [
    Refusal::RouteTableFull,
    Refusal::DiscoveryTableFull,
    Refusal::RecordTableFull,
    Refusal::NeighborTableFull,
    Refusal::TimePastEnd,
    Refusal::UnknownNextHop,
    Refusal::EmptySourceRoute,
    Refusal::ListTooLong,
    Refusal::StoreDisagrees,
    Refusal::StateIllFormed,
    Refusal::LinkCostTooHigh,
];

impl Refusal {
    /// The refusal's number, 1 to 11, as C is told it.
    ///
    /// ```
    /// assert_eq!(warpteasel::Refusal::StateIllFormed.number(), 10);
    /// ```
    #[must_use]
    pub const fn number(self) -> u8 {
        self as u8 + 1
    }

    const fn reason(self) -> &'static str {
        match self {
            Self::RouteTableFull => "the route table is full",
            Self::DiscoveryTableFull => "the discovery table is full",
            Self::RecordTableFull => "the route record table is full",
            Self::NeighborTableFull => "the neighbor table is full",
            Self::TimePastEnd => "a time lies past the clock's end",
            Self::UnknownNextHop => "the next hop of an active route is not known",
            Self::EmptySourceRoute => "the source route to be used has no relays",
            Self::ListTooLong => "a list is too long",
            Self::StoreDisagrees => "the relay store does not agree with the route records",
            Self::StateIllFormed => "the state is not well formed",
            Self::LinkCostTooHigh => "a link cost is above 7",
        }
    }
}

impl fmt::Display for Refusal {
    fn fmt(&self, f: &mut fmt::Formatter<'_>) -> fmt::Result {
        write!(f, "refused with {}: {}", self.number(), self.reason())
    }
}

impl Error for Refusal {}

/// What the library's status says.
///
/// # Panics
///
/// At a number that the library's contracts exclude for what this crate lends: it is then another library than the one
/// of this crate.
pub(crate) fn answered(status: u8) -> Result<(), Refusal> {
    match status.checked_sub(1) {
        None => Ok(()),
        Some(place) => match NUMBERED.get(usize::from(place)) {
            Some(refusal) => Err(*refusal),
            None => panic!("warpteasel: status {status}; the library that is linked is not the one of this crate"),
        },
    }
}

#[cfg(test)]
mod tests {
    use super::*;

    #[test]
    fn every_number_is_its_refusal() {
        assert_eq!(answered(0), Ok(()));
        for number in 1..=11 {
            assert_eq!(answered(number).unwrap_err().number(), number);
        }
    }

    #[test]
    #[should_panic(expected = "status 255")]
    fn another_status_is_another_library() {
        let _ = answered(255);
    }

    #[test]
    fn a_refusal_says_its_number_and_reason() {
        assert_eq!(
            Refusal::StoreDisagrees.to_string(),
            "refused with 9: the relay store does not agree with the route records"
        );
    }
}
