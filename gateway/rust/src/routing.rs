//! The routing state: routes, discoveries and route records.

use crate::lent::{call, numbers, status};
use crate::{Nwk, Refusal, RelayStore};

/// How many routes a state has places for.
pub const MAX_ROUTES: usize = 64;
/// How many discoveries a state has places for.
pub const MAX_DISCOVERIES: usize = 32;
/// How many route records a state has places for.
pub const MAX_RECORDS: usize = 64;
/// How many relays a route record or a source route has at most.
pub const MAX_RELAYS: usize = 32;

/// The numbers of a [`Routing`], to store and to read back.
///
/// Each table is a few columns of numbers: what stands in place `i` of each is one entry, the entries go up by key, and
/// the places from the count on are 0. The words are packed fields of the library's own; take them as they are.
#[derive(Clone, Debug, PartialEq, Eq)]
#[repr(C)]
pub struct RoutingColumns {
    /// The destination of each route.
    pub route_keys: [u16; MAX_ROUTES],
    /// Next hop, cost, activity, status and flags of each route.
    pub route_words: [u64; MAX_ROUTES],
    /// How often each route was used.
    pub route_usage: [u32; MAX_ROUTES],
    /// How many routes there are.
    pub routes: usize,
    /// The originator and the request id of each discovery.
    pub discovery_keys: [u32; MAX_DISCOVERIES],
    /// Sender, destination and costs of each discovery.
    pub discovery_words: [u64; MAX_DISCOVERIES],
    /// When each discovery ends.
    pub discovery_ends: [u64; MAX_DISCOVERIES],
    /// How many discoveries there are.
    pub discoveries: usize,
    /// The destination of each route record.
    pub record_keys: [u16; MAX_RECORDS],
    /// How many relays each record has; they stand in the [`RelayStore`].
    pub record_lengths: [u8; MAX_RECORDS],
    /// How many route records there are.
    pub records: usize,
    /// The route errors counted since the last advertisement.
    pub mtorr_route_errors: u8,
    /// The delivery failures counted since the last advertisement.
    pub mtorr_delivery_failures: u8,
    /// The id of the last search of our own.
    pub request_sequence_number: u8,
}

impl RoutingColumns {
    /// Those of a fresh state: all 0.
    #[must_use]
    pub const fn new() -> Self {
        RoutingColumns {
            route_keys: [0; MAX_ROUTES],
            route_words: [0; MAX_ROUTES],
            route_usage: [0; MAX_ROUTES],
            routes: 0,
            discovery_keys: [0; MAX_DISCOVERIES],
            discovery_words: [0; MAX_DISCOVERIES],
            discovery_ends: [0; MAX_DISCOVERIES],
            discoveries: 0,
            record_keys: [0; MAX_RECORDS],
            record_lengths: [0; MAX_RECORDS],
            records: 0,
            mtorr_route_errors: 0,
            mtorr_delivery_failures: 0,
            request_sequence_number: 0,
        }
    }
}

impl Default for RoutingColumns {
    fn default() -> Self {
        Self::new()
    }
}

/// How a route stands.
#[derive(Clone, Copy, Debug, PartialEq, Eq, Hash)]
pub enum RouteStatus {
    /// It can be used.
    Active,
    /// It is being searched for.
    DiscoveryUnderway,
    /// The search has found nothing.
    DiscoveryFailed,
    /// It is not to be used.
    Inactive,
}

impl RouteStatus {
    const fn of(number: u8) -> Self {
        match number {
            0 => Self::Active,
            1 => Self::DiscoveryUnderway,
            2 => Self::DiscoveryFailed,
            _ => Self::Inactive,
        }
    }
}

/// A row of the route table.
#[derive(Clone, Copy, Debug, PartialEq, Eq)]
pub struct RouteEntry {
    /// Whom the route leads to.
    pub destination: Nwk,
    /// How it stands.
    pub status: RouteStatus,
    /// The destination is a concentrator that keeps no route records.
    pub no_route_cache: bool,
    /// The destination is a concentrator.
    pub many_to_one: bool,
    /// A route record is to be sent to the destination before the next frame.
    pub route_record_required: bool,
    /// The concentrator's last advertisement is too long ago.
    pub expired: bool,
    /// Who is next on the way; [`Nwk::UNKNOWN`] while it is being searched for.
    pub next_hop_address: Nwk,
    /// What the way costs, 255 while that is not known.
    pub path_cost: u8,
    /// How often the route was used.
    pub total_usage_count: u32,
    /// How often it was used lately.
    pub recent_activity: u8,
}

/// A row of the discovery table: a search, of our own or of another.
#[derive(Clone, Copy, Debug, PartialEq, Eq)]
pub struct DiscoveryEntry {
    /// The search's number at its originator.
    pub route_request_id: u8,
    /// Who searches.
    pub source_address: Nwk,
    /// The neighbor that the cheapest request was heard from.
    pub sender_address: Nwk,
    /// What the way from the originator costs.
    pub forward_cost: u8,
    /// What the way to the destination costs, 255 while that is not known.
    pub residual_cost: u8,
    /// When the search ends, in milliseconds.
    pub expiration_time: u64,
    /// Who is searched for.
    pub destination_address: Nwk,
}

/// A route record: the relays of a source route to a destination.
#[derive(Clone, Debug, PartialEq, Eq)]
pub struct RouteRecord {
    /// Whom the route leads to.
    pub destination: Nwk,
    /// The relays, the one next to the destination first.
    pub relays: Vec<Nwk>,
}

/// The way to a destination.
#[derive(Clone, Debug, PartialEq, Eq)]
pub enum Route {
    /// By this next hop.
    NextHop(Nwk),
    /// By these relays, the one next to the destination first: the frame is sent to the last, with all of them in its
    /// header.
    SourceRouted(Vec<Nwk>),
}

/// What the check of the tables says: sound, or the first fault in ascending order of destination.
#[derive(Clone, Copy, Debug, PartialEq, Eq)]
#[must_use]
pub enum Check {
    /// No fault.
    Sound,
    /// The route to this destination is active, and its next hop is not known.
    UnknownHop(Nwk),
    /// The route to this destination is being searched for, and no discovery names it.
    Orphan(Nwk),
}

/// The routing state: 64 routes, 32 discoveries, 64 route records, and three counters.
///
/// It is plain numbers in the caller's memory (`#[repr(C)]`, as C has it). It may be cloned, stored as
/// [`RoutingColumns`] and read back; every call tests it, and refuses one that is not well formed with
/// [`StateIllFormed`](Refusal::StateIllFormed). No call makes such a state.
///
/// ```
/// use warpteasel::{Nwk, Refusal, Routing};
/// let mut routing = Routing::new();
/// routing.restore_route(Nwk(7), Nwk(3), 2)?;
/// let mut stored = routing.columns().clone();
/// assert_eq!(Routing::from_columns(stored.clone()), routing);
///
/// stored.routes = 65; // damaged on its way
/// assert_eq!(Routing::from_columns(stored).next_hop(Nwk(7)), Err(Refusal::StateIllFormed));
/// # Ok::<(), Refusal>(())
/// ```
#[derive(Clone, Debug, Default, PartialEq, Eq)]
#[repr(transparent)]
pub struct Routing {
    pub(crate) columns: RoutingColumns,
}

impl Routing {
    /// A fresh state: no route, no discovery, no record.
    #[must_use]
    pub const fn new() -> Self {
        Routing { columns: RoutingColumns::new() }
    }

    /// A state of columns that were kept. Any numbers are taken here; each call tests them.
    #[must_use]
    pub const fn from_columns(columns: RoutingColumns) -> Self {
        Routing { columns }
    }

    /// The columns, to keep.
    #[must_use]
    pub const fn columns(&self) -> &RoutingColumns {
        &self.columns
    }

    /// The next hop to a destination by its active route.
    ///
    /// May be refused with [`UnknownNextHop`](Refusal::UnknownNextHop).
    ///
    /// ```
    /// use warpteasel::{Nwk, Routing};
    /// let mut routing = Routing::new();
    /// routing.restore_route(Nwk(7), Nwk(3), 2)?;
    /// assert_eq!(routing.next_hop(Nwk(7))?, Some(Nwk(3)));
    /// assert_eq!(routing.next_hop(Nwk(8))?, None);
    /// # Ok::<(), warpteasel::Refusal>(())
    /// ```
    pub fn next_hop(&self, destination: Nwk) -> Result<Option<Nwk>, Refusal> {
        let (mut found, mut next_hop) = (0, 0);
        call!(warpteasel_raw_next_hop: routing &self.columns, number destination.0, place &mut found,
            place &mut next_hop,)?;
        Ok((found == 1).then_some(Nwk(next_hop)))
    }

    /// How the route to a destination stands, where there is one.
    pub fn route_status(&self, destination: Nwk) -> Result<Option<RouteStatus>, Refusal> {
        let (mut found, mut status) = (0, 0);
        call!(warpteasel_raw_route_status: routing &self.columns, number destination.0, place &mut found,
            place &mut status,)?;
        Ok((found == 1).then_some(RouteStatus::of(status)))
    }

    /// Checks routes against discoveries: sound, or the first fault.
    ///
    /// ```
    /// use warpteasel::{Check, Nwk, Routing};
    /// let mut routing = Routing::new();
    /// assert_eq!(routing.check()?, Check::Sound);
    /// routing.restore_route(Nwk(7), Nwk::UNKNOWN, 2)?;
    /// assert_eq!(routing.check()?, Check::UnknownHop(Nwk(7)));
    /// # Ok::<(), warpteasel::Refusal>(())
    /// ```
    pub fn check(&self) -> Result<Check, Refusal> {
        let (mut fault, mut destination) = (0, 0);
        call!(warpteasel_raw_check: routing &self.columns, place &mut fault, place &mut destination,)?;
        Ok(match fault {
            0 => Check::Sound,
            1 => Check::UnknownHop(Nwk(destination)),
            _ => Check::Orphan(Nwk(destination)),
        })
    }

    /// How many routes there are.
    pub fn route_count(&self) -> Result<usize, Refusal> {
        let mut count = 0;
        call!(warpteasel_raw_route_count: routing &self.columns, place &mut count,)?;
        Ok(count)
    }

    /// The route at a place, in ascending order of destination; none from the count on.
    pub fn route_at(&self, place: usize) -> Result<Option<RouteEntry>, Refusal> {
        let (mut found, mut destination, mut status) = (0, 0, 0);
        let (mut no_route_cache, mut many_to_one, mut route_record_required, mut expired) = (0, 0, 0, 0);
        let (mut next_hop, mut path_cost, mut total_usage_count, mut recent_activity) = (0, 0, 0, 0);
        call!(warpteasel_raw_route_at: routing &self.columns, number place, place &mut found, place &mut destination,
            place &mut status, place &mut no_route_cache, place &mut many_to_one, place &mut route_record_required,
            place &mut expired, place &mut next_hop, place &mut path_cost, place &mut total_usage_count,
            place &mut recent_activity,)?;
        Ok((found == 1).then_some(RouteEntry {
            destination: Nwk(destination),
            status: RouteStatus::of(status),
            no_route_cache: no_route_cache == 1,
            many_to_one: many_to_one == 1,
            route_record_required: route_record_required == 1,
            expired: expired == 1,
            next_hop_address: Nwk(next_hop),
            path_cost,
            total_usage_count,
            recent_activity,
        }))
    }

    /// All routes, in ascending order of destination.
    ///
    /// ```
    /// use warpteasel::{Nwk, Routing};
    /// let mut routing = Routing::new();
    /// routing.restore_route(Nwk(8), Nwk(3), 2)?;
    /// routing.restore_route(Nwk(7), Nwk(4), 1)?;
    /// let to: Vec<Nwk> = routing.routes()?.map(|route| route.destination).collect();
    /// assert_eq!(to, [Nwk(7), Nwk(8)]);
    /// # Ok::<(), warpteasel::Refusal>(())
    /// ```
    pub fn routes(&self) -> Result<impl Iterator<Item = RouteEntry> + '_, Refusal> {
        Ok((0..self.route_count()?).filter_map(|place| self.route_at(place).ok().flatten()))
    }

    /// How many discoveries there are.
    pub fn discovery_count(&self) -> Result<usize, Refusal> {
        let mut count = 0;
        call!(warpteasel_raw_discovery_count: routing &self.columns, place &mut count,)?;
        Ok(count)
    }

    /// The discovery at a place, in ascending order of originator and request id; none from the count on.
    pub fn discovery_at(&self, place: usize) -> Result<Option<DiscoveryEntry>, Refusal> {
        let (mut found, mut source_address, mut route_request_id, mut sender_address) = (0, 0, 0, 0);
        let (mut forward_cost, mut residual_cost, mut expiration_time, mut destination_address) = (0, 0, 0, 0);
        call!(warpteasel_raw_discovery_at: routing &self.columns, number place, place &mut found,
            place &mut source_address, place &mut route_request_id, place &mut sender_address,
            place &mut forward_cost, place &mut residual_cost, place &mut expiration_time,
            place &mut destination_address,)?;
        Ok((found == 1).then_some(DiscoveryEntry {
            route_request_id,
            source_address: Nwk(source_address),
            sender_address: Nwk(sender_address),
            forward_cost,
            residual_cost,
            expiration_time,
            destination_address: Nwk(destination_address),
        }))
    }

    /// All discoveries, in ascending order of originator and request id.
    pub fn discoveries(&self) -> Result<impl Iterator<Item = DiscoveryEntry> + '_, Refusal> {
        Ok((0..self.discovery_count()?).filter_map(|place| self.discovery_at(place).ok().flatten()))
    }

    /// How many route records there are.
    pub fn record_count(&self) -> Result<usize, Refusal> {
        let mut count = 0;
        call!(warpteasel_raw_record_count: routing &self.columns, place &mut count,)?;
        Ok(count)
    }

    /// The route record at a place, in ascending order of destination; none from the count on.
    pub fn record_at(&self, store: &RelayStore, place: usize) -> Result<Option<RouteRecord>, Refusal> {
        let (mut found, mut destination, mut count, mut relays) = (0, 0, 0, [0; MAX_RELAYS]);
        call!(warpteasel_raw_record_at: routing &self.columns, list store.numbers(), number place, place &mut found,
            place &mut destination, place &mut count, room &mut relays,)?;
        Ok((found == 1).then(|| RouteRecord { destination: Nwk(destination), relays: addresses(&relays, count) }))
    }

    /// All route records, in ascending order of destination.
    ///
    /// ```
    /// use warpteasel::{Nwk, RelayStore, Routing};
    /// let (mut routing, mut store) = (Routing::new(), RelayStore::new());
    /// routing.store_route_record(&mut store, Nwk(9), &[Nwk(30)])?;
    /// let records: Vec<_> = routing.records(&store)?.map(|record| (record.destination, record.relays)).collect();
    /// assert_eq!(records, [(Nwk(9), vec![Nwk(30)]), (Nwk(30), vec![])]);
    /// # Ok::<(), warpteasel::Refusal>(())
    /// ```
    pub fn records<'a>(&'a self, store: &'a RelayStore) -> Result<impl Iterator<Item = RouteRecord> + 'a, Refusal> {
        self.record_at(store, 0)?;
        Ok((0..self.record_count()?).filter_map(|place| self.record_at(store, place).ok().flatten()))
    }

    /// The way to a destination for a frame of our own, if one is known: straight to it where its record has no relays,
    /// by the record's relays where they are fewer than `max_source_route`, else by its active route.
    ///
    /// May be refused with [`UnknownNextHop`](Refusal::UnknownNextHop).
    ///
    /// ```
    /// use warpteasel::{Nwk, RelayStore, Route, Routing};
    /// let (mut routing, mut store) = (Routing::new(), RelayStore::new());
    /// routing.store_route_record(&mut store, Nwk(9), &[Nwk(30), Nwk(31)])?;
    /// assert_eq!(routing.route_to(&store, Nwk(9), 3)?, Some(Route::SourceRouted(vec![Nwk(30), Nwk(31)])));
    /// assert_eq!(routing.route_to(&store, Nwk(9), 2)?, None);
    /// assert_eq!(routing.route_to(&store, Nwk(31), 2)?, Some(Route::NextHop(Nwk(31))));
    /// # Ok::<(), warpteasel::Refusal>(())
    /// ```
    pub fn route_to(
        &self,
        store: &RelayStore,
        destination: Nwk,
        max_source_route: u8,
    ) -> Result<Option<Route>, Refusal> {
        let (mut way, mut next_hop, mut count, mut relays) = (0, 0, 0, [0; MAX_RELAYS]);
        call!(warpteasel_raw_route_to: routing &self.columns, list store.numbers(), number destination.0,
            number max_source_route, place &mut way, place &mut next_hop, place &mut count, room &mut relays,)?;
        Ok(route(way, next_hop, count, &relays))
    }

    /// The same by the default policy, whose `max_source_route` is 12.
    ///
    /// May be refused with [`UnknownNextHop`](Refusal::UnknownNextHop).
    pub fn route_to_default(&self, store: &RelayStore, destination: Nwk) -> Result<Option<Route>, Refusal> {
        let (mut way, mut next_hop, mut count, mut relays) = (0, 0, 0, [0; MAX_RELAYS]);
        call!(warpteasel_raw_route_to_default: routing &self.columns, list store.numbers(), number destination.0,
            place &mut way, place &mut next_hop, place &mut count, room &mut relays,)?;
        Ok(route(way, next_hop, count, &relays))
    }

    /// Counts a route error that was heard; whether the errors reach a threshold at which an advertisement is due.
    pub fn note_route_error(&mut self, threshold: u8) -> Result<bool, Refusal> {
        let mut errors = self.columns.mtorr_route_errors;
        let mut reached = 0;
        call!(warpteasel_raw_note_route_error: routing &self.columns, place &mut errors, number threshold,
            place &mut reached,)?;
        self.columns.mtorr_route_errors = errors;
        Ok(reached == 1)
    }

    /// Counts a delivery of our own that failed; whether the failures reach a threshold at which an advertisement is
    /// due.
    pub fn note_delivery_failure(&mut self, threshold: u8) -> Result<bool, Refusal> {
        let mut failures = self.columns.mtorr_delivery_failures;
        let mut reached = 0;
        call!(warpteasel_raw_note_delivery_failure: routing &self.columns, place &mut failures, number threshold,
            place &mut reached,)?;
        self.columns.mtorr_delivery_failures = failures;
        Ok(reached == 1)
    }

    /// Sets both counts to 0, after an advertisement.
    pub fn reset_mtorr_triggers(&mut self) -> Result<(), Refusal> {
        let mut errors = self.columns.mtorr_route_errors;
        let mut failures = self.columns.mtorr_delivery_failures;
        call!(warpteasel_raw_reset_mtorr_triggers: routing &self.columns, place &mut errors, place &mut failures,)?;
        self.columns.mtorr_route_errors = errors;
        self.columns.mtorr_delivery_failures = failures;
        Ok(())
    }

    /// Counts a frame that was forwarded along the route to a destination.
    pub fn record_usage(&mut self, destination: Nwk) -> Result<(), Refusal> {
        call!(warpteasel_raw_record_usage: routing_mut &mut self.columns, number destination.0,)
    }

    /// Lets the recent activity of every active route go down by one; once in a link status period.
    pub fn decay_activity(&mut self) -> Result<(), Refusal> {
        call!(warpteasel_raw_decay_activity: routing_mut &mut self.columns,)
    }

    /// Takes every active route by a next hop out of use, as when that neighbor is lost.
    ///
    /// ```
    /// use warpteasel::{Nwk, RouteStatus, Routing};
    /// let mut routing = Routing::new();
    /// routing.restore_route(Nwk(7), Nwk(3), 2)?;
    /// routing.invalidate_via(Nwk(3))?;
    /// assert_eq!(routing.route_status(Nwk(7))?, Some(RouteStatus::Inactive));
    /// # Ok::<(), warpteasel::Refusal>(())
    /// ```
    pub fn invalidate_via(&mut self, next_hop: Nwk) -> Result<(), Refusal> {
        call!(warpteasel_raw_invalidate_via: routing_mut &mut self.columns, number next_hop.0,)
    }

    /// Removes the route to a destination; whether there was one.
    pub fn remove_route(&mut self, destination: Nwk) -> Result<bool, Refusal> {
        let mut removed = 0;
        call!(warpteasel_raw_remove_route: routing_mut &mut self.columns, number destination.0, place &mut removed,)?;
        Ok(removed == 1)
    }

    /// Puts an active route that the caller has kept, over the one that is there.
    ///
    /// May be refused with [`RouteTableFull`](Refusal::RouteTableFull).
    pub fn restore_route(&mut self, destination: Nwk, next_hop: Nwk, path_cost: u8) -> Result<(), Refusal> {
        call!(warpteasel_raw_restore_route: routing_mut &mut self.columns, number destination.0, number next_hop.0,
            number path_cost,)
    }

    /// Notes a source-routed frame of a concentrator, which shows that it has our route record: none has to go before
    /// the next frame to it.
    pub fn note_source_routed_frame(&mut self, concentrator: Nwk) -> Result<(), Refusal> {
        call!(warpteasel_raw_note_source_routed_frame: routing_mut &mut self.columns, number concentrator.0,)
    }

    /// Keeps a route record of a source, and with it the way to each of its relays; whether the source's record
    /// changed. The relays are those of the command, the one next to the source first, at most 32.
    ///
    /// May be refused with [`ListTooLong`](Refusal::ListTooLong) or [`RecordTableFull`](Refusal::RecordTableFull).
    ///
    /// ```
    /// use warpteasel::{Nwk, Refusal, RelayStore, Routing};
    /// let (mut routing, mut store) = (Routing::new(), RelayStore::new());
    /// assert!(routing.store_route_record(&mut store, Nwk(9), &[Nwk(30), Nwk(31)])?);
    /// assert!(!routing.store_route_record(&mut store, Nwk(9), &[Nwk(30), Nwk(31)])?);
    /// assert_eq!(routing.store_route_record(&mut store, Nwk(9), &[Nwk(30); 33]), Err(Refusal::ListTooLong));
    /// # Ok::<(), Refusal>(())
    /// ```
    pub fn store_route_record(&mut self, store: &mut RelayStore, source: Nwk, relays: &[Nwk]) -> Result<bool, Refusal> {
        let (relays, count) = numbers::<_, u16, { MAX_RELAYS + 1 }>(relays, |relay| relay.0);
        let mut changed = 0;
        call!(warpteasel_raw_store_route_record: routing_mut &mut self.columns, room store.numbers_mut(),
            number source.0, list &relays[..count], place &mut changed,)?;
        Ok(changed == 1)
    }

    /// Removes the route record of a destination; whether there was one.
    pub fn remove_route_record(&mut self, store: &mut RelayStore, destination: Nwk) -> Result<bool, Refusal> {
        let mut removed = 0;
        call!(warpteasel_raw_remove_route_record: routing_mut &mut self.columns, room store.numbers_mut(),
            number destination.0, place &mut removed,)?;
        Ok(removed == 1)
    }
}

/// The first addresses of an answer's room.
pub(crate) fn addresses(room: &[u16], count: usize) -> Vec<Nwk> {
    room.iter().take(count).copied().map(Nwk).collect()
}

fn route(way: u8, next_hop: u16, count: usize, relays: &[u16]) -> Option<Route> {
    match way {
        0 => None,
        1 => Some(Route::NextHop(Nwk(next_hop))),
        _ => Some(Route::SourceRouted(addresses(relays, count))),
    }
}
