//! Route search: what a route request and a route reply carry, and what becomes of them.

use crate::lent::{call, status};
use crate::{Nwk, Refusal, Routing};

/// The many-to-one field of a route request.
#[derive(Clone, Copy, Debug, Default, PartialEq, Eq, Hash)]
pub enum ManyToOne {
    /// A request for one route.
    #[default]
    NotManyToOne,
    /// A concentrator's advertisement; it keeps a route record table.
    SenderSupportsRouteRecordTable,
    /// A concentrator's advertisement; it keeps no route record table.
    SenderDoesntSupportRouteRecordTable,
    /// The value that has no meaning yet.
    Reserved,
}

/// A route request command that was heard.
#[derive(Clone, Copy, Debug, PartialEq, Eq)]
pub struct RouteRequest {
    /// Who searches.
    pub originator: Nwk,
    /// The search's number at its originator.
    pub request_id: u8,
    /// Who is searched for.
    pub destination: Nwk,
    /// The neighbor that the frame was heard from.
    pub sender: Nwk,
    /// The cost in the command, with the cost of the link to `sender` added.
    pub updated_path_cost: u8,
    /// The many-to-one field.
    pub many_to_one: ManyToOne,
}

/// A route reply command that was heard.
#[derive(Clone, Copy, Debug, PartialEq, Eq)]
pub struct RouteReply {
    /// Who searched.
    pub originator: Nwk,
    /// The search's number at its originator.
    pub request_id: u8,
    /// Who was searched for.
    pub responder: Nwk,
    /// The neighbor that the frame was heard from.
    pub sender: Nwk,
    /// The cost in the command, with the cost of the link to `sender` added.
    pub updated_path_cost: u8,
}

/// A route that was established or moved to another next hop.
#[derive(Clone, Copy, Debug, PartialEq, Eq)]
pub struct RouteUpdate {
    /// Whom the route leads to.
    pub destination: Nwk,
    /// Who is next on it.
    pub next_hop: Nwk,
    /// What it costs.
    pub path_cost: u8,
}

/// What became of a route request.
#[derive(Clone, Copy, Debug, PartialEq, Eq)]
#[must_use = "only a request that is accepted is answered or relayed"]
pub struct RouteRequestOutcome {
    /// Whether the request is new, or no dearer than what was known of it. Only such a request is answered or relayed.
    pub accepted: bool,
    /// The route back to the originator, if the request changed it.
    pub update: Option<RouteUpdate>,
}

/// What is to be done with a route reply.
#[derive(Clone, Copy, Debug, PartialEq, Eq)]
pub enum RouteReplyDisposition {
    /// Nothing: it answers no search that is known, or is no cheaper than what is known.
    Drop,
    /// It answers our own search: the route to the responder can be used.
    Established,
    /// It is to be passed on towards the originator.
    Relay {
        /// To whom.
        next_hop: Nwk,
        /// With which cost; the next hop adds that of its own link.
        path_cost: u8,
    },
}

/// What became of a route reply.
#[derive(Clone, Copy, Debug, PartialEq, Eq)]
#[must_use = "the reply may have to be passed on"]
pub struct RouteReplyOutcome {
    /// What is to be done with it.
    pub disposition: RouteReplyDisposition,
    /// The route that it changed.
    pub update: Option<RouteUpdate>,
}

/// The places of an update: whether a route changed, its destination, next hop and cost.
type Changed = (u8, u16, u16, u8);

fn update((changed, destination, next_hop, path_cost): Changed) -> Option<RouteUpdate> {
    (changed == 1).then_some(RouteUpdate { destination: Nwk(destination), next_hop: Nwk(next_hop), path_cost })
}

impl Routing {
    /// Begins a search of our own for a destination, and answers the id to put into the route request. The search ends
    /// at `now_ms + route_discovery_time`, both in milliseconds. What has ended by `now_ms` is removed first.
    ///
    /// May be refused with [`TimePastEnd`](Refusal::TimePastEnd), [`RouteTableFull`](Refusal::RouteTableFull) or
    /// [`DiscoveryTableFull`](Refusal::DiscoveryTableFull).
    ///
    /// ```
    /// use warpteasel::{Nwk, RouteStatus, Routing};
    /// let mut routing = Routing::new();
    /// assert_eq!(routing.begin_discovery(Nwk(0), Nwk(7), 1_000, 10_000)?, 1);
    /// assert_eq!(routing.route_status(Nwk(7))?, Some(RouteStatus::DiscoveryUnderway));
    /// assert_eq!(routing.discovery_deadline(Nwk(7), 1_000)?, Some(11_000));
    /// # Ok::<(), warpteasel::Refusal>(())
    /// ```
    pub fn begin_discovery(
        &mut self,
        own: Nwk,
        destination: Nwk,
        now_ms: u64,
        route_discovery_time: u64,
    ) -> Result<u8, Refusal> {
        let mut last = self.columns.request_sequence_number;
        let mut request_id = 0;
        call!(warpteasel_raw_begin_discovery: routing_mut &mut self.columns, place &mut last, number own.0,
            number destination.0, number now_ms, number route_discovery_time, place &mut request_id,)?;
        self.columns.request_sequence_number = last;
        Ok(request_id)
    }

    /// Begins an advertisement of this device as a concentrator, and answers the id to put into its route request. The
    /// discovery that is kept for it stops its echoes until `now_ms + route_discovery_time`.
    ///
    /// May be refused with [`TimePastEnd`](Refusal::TimePastEnd) or
    /// [`DiscoveryTableFull`](Refusal::DiscoveryTableFull).
    ///
    /// ```
    /// use warpteasel::{Nwk, Routing};
    /// let mut routing = Routing::new();
    /// assert_eq!(routing.begin_many_to_one_advertisement(Nwk(0), 1_000, 10_000)?, 1);
    /// assert_eq!(routing.discovery_deadline(Nwk::ALL_ROUTERS, 1_000)?, Some(11_000));
    /// # Ok::<(), warpteasel::Refusal>(())
    /// ```
    pub fn begin_many_to_one_advertisement(
        &mut self,
        own: Nwk,
        now_ms: u64,
        route_discovery_time: u64,
    ) -> Result<u8, Refusal> {
        let mut last = self.columns.request_sequence_number;
        let mut request_id = 0;
        call!(warpteasel_raw_begin_many_to_one_advertisement: routing_mut &mut self.columns, place &mut last,
            number own.0, number now_ms, number route_discovery_time, place &mut request_id,)?;
        self.columns.request_sequence_number = last;
        Ok(request_id)
    }

    /// Takes a route request that was heard: whether it is accepted, and what it did to the route back to its
    /// originator. What has ended by `now_ms` is removed first; a search that is new ends at `now_ms +
    /// route_discovery_time`.
    ///
    /// May be refused with [`TimePastEnd`](Refusal::TimePastEnd), [`RouteTableFull`](Refusal::RouteTableFull) or
    /// [`DiscoveryTableFull`](Refusal::DiscoveryTableFull).
    ///
    /// ```
    /// use warpteasel::{ManyToOne, Nwk, RouteRequest, Routing};
    /// let mut routing = Routing::new();
    /// let mut request = RouteRequest {
    ///     originator: Nwk(0x1111),
    ///     request_id: 7,
    ///     destination: Nwk(0x4444),
    ///     sender: Nwk(0x2222),
    ///     updated_path_cost: 5,
    ///     many_to_one: ManyToOne::NotManyToOne,
    /// };
    /// assert!(routing.accept_route_request(&request, 0, 10_000)?.accepted);
    /// assert_eq!(routing.next_hop(Nwk(0x1111))?, Some(Nwk(0x2222)));
    /// request.updated_path_cost = 6; // the same request on a dearer way
    /// assert!(!routing.accept_route_request(&request, 0, 10_000)?.accepted);
    /// # Ok::<(), warpteasel::Refusal>(())
    /// ```
    pub fn accept_route_request(
        &mut self,
        request: &RouteRequest,
        now_ms: u64,
        route_discovery_time: u64,
    ) -> Result<RouteRequestOutcome, Refusal> {
        let mut accepted = 0;
        let mut changed: Changed = Default::default();
        call!(warpteasel_raw_accept_route_request: routing_mut &mut self.columns, number request.originator.0,
            number request.request_id, number request.destination.0, number request.sender.0,
            number request.updated_path_cost, number request.many_to_one as u8, number now_ms,
            number route_discovery_time, place &mut accepted, place &mut changed.0, place &mut changed.1,
            place &mut changed.2, place &mut changed.3,)?;
        Ok(RouteRequestOutcome { accepted: accepted == 1, update: update(changed) })
    }

    /// Takes a route reply that was heard: what is to be done with it, and what it did to a route. `own` is this
    /// device's address.
    ///
    /// May be refused with [`RouteTableFull`](Refusal::RouteTableFull).
    ///
    /// ```
    /// use warpteasel::{Nwk, RouteReply, RouteReplyDisposition, Routing};
    /// let mut routing = Routing::new();
    /// let request_id = routing.begin_discovery(Nwk(0), Nwk(7), 1_000, 10_000)?;
    /// let reply = RouteReply { originator: Nwk(0), request_id, responder: Nwk(7), sender: Nwk(3), updated_path_cost: 2 };
    /// let outcome = routing.accept_route_reply(Nwk(0), &reply)?;
    /// assert_eq!(outcome.disposition, RouteReplyDisposition::Established);
    /// assert_eq!(routing.next_hop(Nwk(7))?, Some(Nwk(3)));
    /// # Ok::<(), warpteasel::Refusal>(())
    /// ```
    pub fn accept_route_reply(&mut self, own: Nwk, reply: &RouteReply) -> Result<RouteReplyOutcome, Refusal> {
        let (mut disposition, mut next_hop, mut path_cost) = (0, 0, 0);
        let mut changed: Changed = Default::default();
        call!(warpteasel_raw_accept_route_reply: routing_mut &mut self.columns, number own.0,
            number reply.originator.0, number reply.request_id, number reply.responder.0, number reply.sender.0,
            number reply.updated_path_cost, place &mut disposition, place &mut next_hop, place &mut path_cost,
            place &mut changed.0, place &mut changed.1, place &mut changed.2, place &mut changed.3,)?;
        let disposition = match disposition {
            0 => RouteReplyDisposition::Drop,
            1 => RouteReplyDisposition::Established,
            _ => RouteReplyDisposition::Relay { next_hop: Nwk(next_hop), path_cost },
        };
        Ok(RouteReplyOutcome { disposition, update: update(changed) })
    }

    /// Notes that another's search for a destination was passed on: the route to it is being searched for, unless it is
    /// active.
    ///
    /// May be refused with [`RouteTableFull`](Refusal::RouteTableFull).
    pub fn note_relayed_discovery(&mut self, destination: Nwk) -> Result<(), Refusal> {
        call!(warpteasel_raw_note_relayed_discovery: routing_mut &mut self.columns, number destination.0,)
    }

    /// Notes that no search has found a way to a destination.
    pub fn mark_discovery_failed(&mut self, destination: Nwk) -> Result<(), Refusal> {
        call!(warpteasel_raw_mark_discovery_failed: routing_mut &mut self.columns, number destination.0,)
    }

    /// When the first discovery for a destination that still runs at `now_ms` ends.
    pub fn discovery_deadline(&self, destination: Nwk, now_ms: u64) -> Result<Option<u64>, Refusal> {
        let (mut found, mut time) = (0, 0);
        call!(warpteasel_raw_discovery_deadline: routing &self.columns, number destination.0, number now_ms,
            place &mut found, place &mut time,)?;
        Ok((found == 1).then_some(time))
    }
}
