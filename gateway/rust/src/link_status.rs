//! Link quality: samples, link status commands, and what is said of our own links.

use crate::lent::{call, numbers, status};
use crate::neighbors::MAX_NEIGHBORS;
use crate::routing::addresses;
use crate::{Eui64, Neighbors, Nwk, Refusal};

/// How many entries a link status command has at most.
pub const MAX_LINK_STATUSES: usize = 31;

/// An entry of a link status command.
#[derive(Clone, Copy, Debug, Default, PartialEq, Eq)]
pub struct LinkStatus {
    /// The neighbor of the command's sender.
    pub address: Nwk,
    /// What the link from that neighbor to the sender costs, 0 to 7.
    pub incoming_cost: u8,
    /// What the link from the sender to that neighbor costs, 0 to 7.
    pub outgoing_cost: u8,
}

/// A link status command that was heard.
#[derive(Clone, Copy, Debug, PartialEq, Eq)]
pub struct LinkStatusCommand<'a> {
    /// Who sent it.
    pub eui64: Eui64,
    /// The sender's network address.
    pub nwk: Nwk,
    /// The quality at which it was heard.
    pub lqi: u8,
    /// Whether it is the first frame of the sender's list.
    pub is_first_frame: bool,
    /// Whether it is the last.
    pub is_last_frame: bool,
    /// Its entries, at most 31.
    pub link_statuses: &'a [LinkStatus],
}

impl Neighbors {
    /// Takes a sample of link quality, from the device that a frame was heard from.
    pub fn record_lqa(&mut self, sender: Nwk, lqi: u8) -> Result<(), Refusal> {
        call!(warpteasel_raw_record_lqa: neighbors_mut &mut self.columns, number sender.0, number lqi,)
    }

    /// Takes a link status command that was heard, and answers the sender's network address if its link is lost by it:
    /// routes through it are then to be taken out of use ([`Routing::invalidate_via`](crate::Routing::invalidate_via)).
    /// `own` is this device's address.
    ///
    /// May be refused with [`ListTooLong`](Refusal::ListTooLong), [`LinkCostTooHigh`](Refusal::LinkCostTooHigh),
    /// [`TimePastEnd`](Refusal::TimePastEnd) or [`NeighborTableFull`](Refusal::NeighborTableFull).
    ///
    /// ```
    /// use warpteasel::{Eui64, LinkStatus, LinkStatusCommand, Neighbors, Nwk};
    /// let mut neighbors = Neighbors::new();
    /// let names_us = [LinkStatus { address: Nwk(0), incoming_cost: 3, outgoing_cost: 1 }];
    /// let mut command = LinkStatusCommand {
    ///     eui64: Eui64::from_number(5),
    ///     nwk: Nwk(0x2222),
    ///     lqi: 200,
    ///     is_first_frame: true,
    ///     is_last_frame: true,
    ///     link_statuses: &names_us,
    /// };
    /// assert_eq!(neighbors.on_link_status(Nwk(0), &command, 1_000)?, None);
    /// assert_eq!(neighbors.link(Nwk(0x2222))?.map(|link| link.outgoing_cost), Some(3));
    /// command.link_statuses = &[]; // the next one does not name us
    /// assert_eq!(neighbors.on_link_status(Nwk(0), &command, 16_000)?, Some(Nwk(0x2222)));
    /// # Ok::<(), warpteasel::Refusal>(())
    /// ```
    pub fn on_link_status(
        &mut self,
        own: Nwk,
        command: &LinkStatusCommand,
        now_ms: u64,
    ) -> Result<Option<Nwk>, Refusal> {
        let entries = command.link_statuses;
        let (addresses, count) = numbers::<_, u16, { MAX_LINK_STATUSES + 1 }>(entries, |entry| entry.address.0);
        let (incoming, _) = numbers::<_, u8, { MAX_LINK_STATUSES + 1 }>(entries, |entry| entry.incoming_cost);
        let (outgoing, _) = numbers::<_, u8, { MAX_LINK_STATUSES + 1 }>(entries, |entry| entry.outgoing_cost);
        let (mut found, mut lost) = (0, 0);
        call!(warpteasel_raw_on_link_status: neighbors_mut &mut self.columns, number own.0,
            number command.eui64.number(), number command.nwk.0, number command.lqi,
            number u8::from(command.is_first_frame), number u8::from(command.is_last_frame),
            list &addresses[..count], list &incoming[..count], list &outgoing[..count], number now_ms,
            place &mut found, place &mut lost,)?;
        Ok((found == 1).then_some(Nwk(lost)))
    }

    /// The entries of our own link status commands: the routers of which three samples are held.
    pub fn link_status_entries(&self) -> Result<Vec<LinkStatus>, Refusal> {
        let (mut total, mut addresses) = (0, [0; MAX_NEIGHBORS]);
        let (mut incoming, mut outgoing) = ([0; MAX_NEIGHBORS], [0; MAX_NEIGHBORS]);
        call!(warpteasel_raw_link_status_entries: neighbors &self.columns, place &mut total, room &mut addresses,
            room &mut incoming, room &mut outgoing,)?;
        let costs = incoming.into_iter().zip(outgoing);
        let entry = |(address, (incoming_cost, outgoing_cost))| LinkStatus { address, incoming_cost, outgoing_cost };
        Ok(addresses.into_iter().map(Nwk).zip(costs).take(total).map(entry).collect())
    }

    /// Whether a router has named us in its last link status.
    pub fn any_live_router_link(&self) -> Result<bool, Refusal> {
        let mut told = 0;
        call!(warpteasel_raw_any_live_router_link: neighbors &self.columns, place &mut told,)?;
        Ok(told == 1)
    }

    /// The network addresses of the neighbors that are expected to relay a broadcast.
    pub fn expected_broadcast_relayers(&self) -> Result<Vec<Nwk>, Refusal> {
        let (mut total, mut room) = (0, [0; MAX_NEIGHBORS]);
        call!(warpteasel_raw_expected_broadcast_relayers: neighbors &self.columns, place &mut total, room &mut room,)?;
        Ok(addresses(&room, total))
    }
}
