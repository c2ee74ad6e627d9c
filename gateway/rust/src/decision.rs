//! The decision on the next hop of a frame, and the bit that a router clears for its children.

use crate::lent::{call, numbers, status};
use crate::routing::{addresses, MAX_RELAYS};
use crate::{Neighbors, Nwk, Refusal, RelayStore, Routing};

/// Whether a route may be searched for, for a frame: the discover route field of its frame control.
#[derive(Clone, Copy, Debug, Default, PartialEq, Eq, Hash)]
pub enum RouteDiscovery {
    /// No.
    #[default]
    Suppress,
    /// Yes.
    Enable,
    /// Yes, for a multicast.
    WithMulticast,
}

impl RouteDiscovery {
    const fn of(number: u8) -> Self {
        match number {
            0 => Self::Suppress,
            1 => Self::Enable,
            _ => Self::WithMulticast,
        }
    }
}

/// The source route of a header.
#[derive(Clone, Debug, Default, PartialEq, Eq)]
pub struct SourceRoute {
    /// The place of the relay that is to come.
    pub relay_index: u8,
    /// The relays, the one next to the destination first, at most 32.
    pub relays: Vec<Nwk>,
}

/// The fields of a network header that a decision reads or changes. A caller has more of them; the others stay as they
/// are.
#[derive(Clone, Debug, Default, PartialEq, Eq)]
pub struct Header {
    /// Whom the frame is for.
    pub destination: Nwk,
    /// Whom it is from.
    pub source: Nwk,
    /// Whether a route may be searched for.
    pub discover_route: RouteDiscovery,
    /// The bit of the frame control that says that there is a source route.
    pub source_route_bit: bool,
    /// The bit of the frame control that says that an end device has sent the frame.
    pub end_device_initiator: bool,
    /// The source route.
    pub source_route: Option<SourceRoute>,
}

/// A route that the host gives for one frame.
#[derive(Clone, Copy, Debug, PartialEq, Eq)]
pub enum HostRoute<'a> {
    /// By this next hop, which finds the way from there.
    NextHop(Nwk),
    /// By these relays, the one next to the destination first, at most 32.
    SourceRoute(&'a [Nwk]),
}

/// How a frame is to be sent.
#[derive(Clone, Copy, Debug, PartialEq, Eq)]
pub enum SendMode<'a> {
    /// Straight to its destination.
    Direct,
    /// As the tables say.
    StackDecides,
    /// By this route where the tables know none.
    Hint(HostRoute<'a>),
    /// By this route, whatever the tables know.
    Force(HostRoute<'a>),
}

impl SendMode<'_> {
    /// The mode as numbers: which, the host's hop and the host's relays.
    fn numbers(&self) -> (u8, u16, &[Nwk]) {
        match *self {
            SendMode::Direct => (0, 0, &[]),
            SendMode::StackDecides => (1, 0, &[]),
            SendMode::Hint(HostRoute::NextHop(hop)) => (2, hop.0, &[]),
            SendMode::Hint(HostRoute::SourceRoute(relays)) => (3, 0, relays),
            SendMode::Force(HostRoute::NextHop(hop)) => (4, hop.0, &[]),
            SendMode::Force(HostRoute::SourceRoute(relays)) => (5, 0, relays),
        }
    }
}

/// The settings that a decision reads. `Policy::default()` is a concentrator with source routes of fewer than 12
/// relays.
#[derive(Clone, Copy, Debug, PartialEq, Eq)]
pub struct Policy {
    /// Whether route records are kept, and frames sent by them.
    pub is_concentrator: bool,
    /// Whether no route of the tables is used.
    pub force_route_discovery: bool,
    /// A record of fewer relays than this is used.
    pub max_source_route: u8,
}

impl Default for Policy {
    fn default() -> Self {
        Policy { is_concentrator: true, force_route_discovery: false, max_source_route: 12 }
    }
}

/// What is decided of a frame.
#[derive(Clone, Copy, Debug, PartialEq, Eq)]
#[must_use]
pub enum NextHop {
    /// It goes to this neighbor.
    Resolved(Nwk),
    /// A route has to be searched for first.
    NeedDiscovery,
    /// It is thrown away: no route is known, and none may be searched for.
    Discard,
}

/// The numbers of a header that the library is lent, and what it decides.
#[derive(Default)]
struct Places {
    discover_route: u8,
    source_route: u8,
    has_source_route: u8,
    relay_index: u8,
    relay_count: usize,
    relays: [u16; MAX_RELAYS],
    decision: u8,
    next_hop: u16,
}

impl Places {
    fn of(header: &Header) -> Self {
        let route = header.source_route.as_ref();
        let relays = route.map_or(&[][..], |route| &route.relays[..]);
        Places {
            discover_route: header.discover_route as u8,
            source_route: header.source_route_bit.into(),
            has_source_route: route.is_some().into(),
            relay_index: route.map_or(0, |route| route.relay_index),
            relay_count: relays.len(),
            relays: numbers(relays, |relay| relay.0).0,
            ..Places::default()
        }
    }

    /// What is decided; the header is made as it is to be sent.
    fn decided(&self, header: &mut Header) -> NextHop {
        header.discover_route = RouteDiscovery::of(self.discover_route);
        header.source_route_bit = self.source_route == 1;
        header.source_route = (self.has_source_route == 1)
            .then(|| SourceRoute { relay_index: self.relay_index, relays: addresses(&self.relays, self.relay_count) });
        match self.decision {
            0 => NextHop::Resolved(Nwk(self.next_hop)),
            1 => NextHop::NeedDiscovery,
            _ => NextHop::Discard,
        }
    }
}

/// Decides on the next hop of a frame by a policy.
///
/// In this order: direct mode; a forced route; an end device child of ours; the concentrator's way to the destination;
/// the active route; a hint; then a search, or the frame is thrown away where its header suppresses that. A source
/// route is written into the header, with its bit set and the search suppressed; nothing else of the header changes,
/// and of a refused call nothing at all.
///
/// May be refused with [`ListTooLong`](Refusal::ListTooLong), [`UnknownNextHop`](Refusal::UnknownNextHop) or
/// [`EmptySourceRoute`](Refusal::EmptySourceRoute).
///
/// ```
/// use warpteasel::{resolve, Header, Neighbors, NextHop, Nwk, Policy, RelayStore, RouteDiscovery, Routing, SendMode};
/// let (mut routing, mut store, neighbors) = (Routing::new(), RelayStore::new(), Neighbors::new());
/// routing.store_route_record(&mut store, Nwk(9), &[Nwk(30), Nwk(31)])?;
///
/// let mut header = Header { destination: Nwk(9), discover_route: RouteDiscovery::Enable, ..Header::default() };
/// let hop = resolve(&routing, &store, &neighbors, Policy::default(), SendMode::StackDecides, &mut header)?;
/// assert_eq!(hop, NextHop::Resolved(Nwk(31)));
/// assert_eq!(header.source_route.unwrap().relays, [Nwk(30), Nwk(31)]);
/// # Ok::<(), warpteasel::Refusal>(())
/// ```
pub fn resolve(
    routing: &Routing,
    store: &RelayStore,
    neighbors: &Neighbors,
    policy: Policy,
    mode: SendMode,
    header: &mut Header,
) -> Result<NextHop, Refusal> {
    let (mode, hop, relays) = mode.numbers();
    let (relays, count) = numbers::<_, u16, { MAX_RELAYS + 1 }>(relays, |relay| relay.0);
    let mut x = Places::of(header);
    call!(warpteasel_raw_resolve: routing &routing.columns, list store.numbers(), neighbors &neighbors.columns,
        number u8::from(policy.is_concentrator), number u8::from(policy.force_route_discovery),
        number policy.max_source_route, number mode, number hop, list &relays[..count], number header.destination.0,
        place &mut x.discover_route, place &mut x.source_route, place &mut x.has_source_route,
        place &mut x.relay_index, place &mut x.relay_count, room &mut x.relays, place &mut x.decision,
        place &mut x.next_hop,)?;
    Ok(x.decided(header))
}

/// Decides on the next hop of a frame by the default policy, as [`resolve`] does.
///
/// ```
/// use warpteasel::{resolve_default, Header, Neighbors, NextHop, Nwk, RelayStore, RouteDiscovery, Routing, SendMode};
/// let (mut routing, store, neighbors) = (Routing::new(), RelayStore::new(), Neighbors::new());
/// let mut header = Header { destination: Nwk(7), discover_route: RouteDiscovery::Enable, ..Header::default() };
/// let hop = resolve_default(&routing, &store, &neighbors, SendMode::StackDecides, &mut header)?;
/// assert_eq!(hop, NextHop::NeedDiscovery);
/// routing.restore_route(Nwk(7), Nwk(3), 2)?;
/// let hop = resolve_default(&routing, &store, &neighbors, SendMode::StackDecides, &mut header)?;
/// assert_eq!(hop, NextHop::Resolved(Nwk(3)));
/// # Ok::<(), warpteasel::Refusal>(())
/// ```
pub fn resolve_default(
    routing: &Routing,
    store: &RelayStore,
    neighbors: &Neighbors,
    mode: SendMode,
    header: &mut Header,
) -> Result<NextHop, Refusal> {
    let (mode, hop, relays) = mode.numbers();
    let (relays, count) = numbers::<_, u16, { MAX_RELAYS + 1 }>(relays, |relay| relay.0);
    let mut x = Places::of(header);
    call!(warpteasel_raw_resolve_default: routing &routing.columns, list store.numbers(),
        neighbors &neighbors.columns, number mode, number hop, list &relays[..count], number header.destination.0,
        place &mut x.discover_route, place &mut x.source_route, place &mut x.has_source_route,
        place &mut x.relay_index, place &mut x.relay_count, room &mut x.relays, place &mut x.decision,
        place &mut x.next_hop,)?;
    Ok(x.decided(header))
}

impl Neighbors {
    /// Clears the end device initiator bit of a frame that is relayed for an end device child of ours; whether it was
    /// cleared.
    ///
    /// May be refused with [`ListTooLong`](Refusal::ListTooLong), for the header's source route.
    ///
    /// ```
    /// use warpteasel::{Child, Eui64, Header, Neighbors, Nwk};
    /// let mut neighbors = Neighbors::new();
    /// neighbors.upsert_child(&Child { eui64: Eui64::from_number(5), network_address: Nwk(9), ..Child::default() }, 0)?;
    /// let mut header = Header { source: Nwk(9), end_device_initiator: true, ..Header::default() };
    /// assert!(neighbors.clear_end_device_initiator_for_relay(&mut header)?);
    /// assert!(!header.end_device_initiator);
    /// # Ok::<(), warpteasel::Refusal>(())
    /// ```
    pub fn clear_end_device_initiator_for_relay(&self, header: &mut Header) -> Result<bool, Refusal> {
        let route = header.source_route.as_ref();
        let mut initiator = header.end_device_initiator.into();
        let mut cleared = 0;
        call!(warpteasel_raw_clear_end_device_initiator_for_relay: neighbors &self.columns, number header.source.0,
            number u8::from(route.is_some()), number route.map_or(0, |route| route.relays.len()),
            place &mut initiator, place &mut cleared,)?;
        header.end_device_initiator = initiator == 1;
        Ok(cleared == 1)
    }
}
