//! Every call on damaged states: it answers or refuses, a refused call leaves everything as it was, and no call writes
//! beside what it is lent.

use crate::lent::status;
use crate::*;
use std::mem::{offset_of, size_of};

/// Numbers at random, the same for the same seed.
struct Random(u64);

impl Random {
    fn next(&mut self) -> u64 {
        self.0 = self.0.wrapping_add(0x9E37_79B9_7F4A_7C15);
        let mut x = self.0;
        x = (x ^ (x >> 30)).wrapping_mul(0xBF58_476D_1CE4_E5B9);
        x = (x ^ (x >> 27)).wrapping_mul(0x94D0_49BB_1331_11EB);
        x ^ (x >> 31)
    }

    fn below(&mut self, end: u64) -> u64 {
        self.next() % end
    }

    fn flag(&mut self) -> bool {
        self.below(2) == 1
    }

    fn byte(&mut self) -> u8 {
        match self.below(4) {
            0 => self.next() as u8,
            _ => self.below(8) as u8,
        }
    }

    /// An address, most often one of a few.
    fn nwk(&mut self) -> Nwk {
        match self.below(16) {
            0 => Nwk::UNKNOWN,
            1 => Nwk(self.next() as u16),
            2..=5 => Nwk(self.below(80) as u16),
            _ => Nwk(self.below(6) as u16),
        }
    }

    fn eui64(&mut self) -> Eui64 {
        match self.below(8) {
            0 => Eui64::from_number(self.next()),
            1 => Eui64::from_number(self.below(80)),
            _ => Eui64::from_number(self.below(6)),
        }
    }

    /// A moment or a span.
    fn time(&mut self) -> u64 {
        match self.below(16) {
            0 => u64::MAX - self.below(1000),
            _ => self.below(1000),
        }
    }

    fn place(&mut self) -> usize {
        match self.below(8) {
            0 => self.next() as usize,
            _ => self.below(66) as usize,
        }
    }

    /// A list, most often a short one, sometimes too long by one or by many.
    fn list<T>(&mut self, most: usize, mut element: impl FnMut(&mut Self) -> T) -> Vec<T> {
        let length = match self.below(12) {
            0 => most,
            1 => most + 1,
            2 => most + self.below(200) as usize,
            _ => self.below(5) as usize,
        };
        (0..length).map(|_| element(self)).collect()
    }

    fn one_of<T: Copy>(&mut self, values: &[T]) -> T {
        values[self.below(values.len() as u64) as usize]
    }
}

const GUARD: [u64; 64] = [0xA5A5_5A5A_C3C3_3C3C; 64];

/// A state with memory around it that no call may write to.
#[derive(Clone, Debug, PartialEq)]
#[repr(C)]
struct Guarded<T> {
    before: [u64; 64],
    state: T,
    after: [u64; 64],
}

impl<T: Default> Default for Guarded<T> {
    fn default() -> Self {
        Guarded { before: GUARD, state: T::default(), after: GUARD }
    }
}

impl<T> Guarded<T> {
    fn intact(&self) -> bool {
        self.before == GUARD && self.after == GUARD
    }
}

/// All that a call can be lent.
#[derive(Clone, Debug, Default, PartialEq)]
struct World {
    routing: Guarded<Routing>,
    store: Guarded<RelayStore>,
    neighbors: Guarded<Neighbors>,
    header: Header,
}

/// What a call is lent, and so what it tests.
#[derive(Clone, Copy, PartialEq)]
enum Lends {
    Routing,
    Store,
    Neighbors,
    All,
}

type Call = fn(&mut World, &mut Random) -> Result<(), Refusal>;

/// Every call of the crate.
#[rustfmt::skip]
const CALLS: [(&str, Lends, Call); 71] = [
    ("next_hop", Lends::Routing, |w, r| w.routing.state.next_hop(r.nwk()).map(drop)),
    ("route_status", Lends::Routing, |w, r| w.routing.state.route_status(r.nwk()).map(drop)),
    ("check", Lends::Routing, |w, _| w.routing.state.check().map(drop)),
    ("route_count", Lends::Routing, |w, _| w.routing.state.route_count().map(drop)),
    ("route_at", Lends::Routing, |w, r| w.routing.state.route_at(r.place()).map(drop)),
    ("routes", Lends::Routing, |w, _| w.routing.state.routes().map(|all| assert_eq!(all.count(), w.routing.state.columns.routes))),
    ("discovery_count", Lends::Routing, |w, _| w.routing.state.discovery_count().map(drop)),
    ("discovery_at", Lends::Routing, |w, r| w.routing.state.discovery_at(r.place()).map(drop)),
    ("discoveries", Lends::Routing, |w, _| w.routing.state.discoveries().map(|all| assert_eq!(all.count(), w.routing.state.columns.discoveries))),
    ("record_count", Lends::Routing, |w, _| w.routing.state.record_count().map(drop)),
    ("record_at", Lends::Store, |w, r| w.routing.state.record_at(&w.store.state, r.place()).map(drop)),
    ("records", Lends::Store, |w, _| w.routing.state.records(&w.store.state).map(|all| assert_eq!(all.count(), w.routing.state.columns.records))),
    ("route_to", Lends::Store, |w, r| w.routing.state.route_to(&w.store.state, r.nwk(), r.byte()).map(drop)),
    ("route_to_default", Lends::Store, |w, r| w.routing.state.route_to_default(&w.store.state, r.nwk()).map(drop)),
    ("discovery_deadline", Lends::Routing, |w, r| w.routing.state.discovery_deadline(r.nwk(), r.time()).map(drop)),
    ("note_route_error", Lends::Routing, |w, r| w.routing.state.note_route_error(r.byte()).map(drop)),
    ("note_delivery_failure", Lends::Routing, |w, r| w.routing.state.note_delivery_failure(r.byte()).map(drop)),
    ("reset_mtorr_triggers", Lends::Routing, |w, _| w.routing.state.reset_mtorr_triggers()),
    ("record_usage", Lends::Routing, |w, r| w.routing.state.record_usage(r.nwk())),
    ("decay_activity", Lends::Routing, |w, _| w.routing.state.decay_activity()),
    ("invalidate_via", Lends::Routing, |w, r| w.routing.state.invalidate_via(r.nwk())),
    ("remove_route", Lends::Routing, |w, r| w.routing.state.remove_route(r.nwk()).map(drop)),
    ("restore_route", Lends::Routing, |w, r| w.routing.state.restore_route(r.nwk(), r.nwk(), r.byte())),
    ("note_source_routed_frame", Lends::Routing, |w, r| w.routing.state.note_source_routed_frame(r.nwk())),
    ("store_route_record", Lends::Store, |w, r| {
        let relays = r.list(MAX_RELAYS, Random::nwk);
        w.routing.state.store_route_record(&mut w.store.state, r.nwk(), &relays).map(drop)
    }),
    ("remove_route_record", Lends::Store, |w, r| w.routing.state.remove_route_record(&mut w.store.state, r.nwk()).map(drop)),
    ("begin_discovery", Lends::Routing, |w, r| w.routing.state.begin_discovery(r.nwk(), r.nwk(), r.time(), r.time()).map(drop)),
    ("begin_many_to_one_advertisement", Lends::Routing, |w, r| w.routing.state.begin_many_to_one_advertisement(r.nwk(), r.time(), r.time()).map(drop)),
    ("accept_route_request", Lends::Routing, |w, r| {
        let many = [ManyToOne::NotManyToOne, ManyToOne::SenderSupportsRouteRecordTable, ManyToOne::SenderDoesntSupportRouteRecordTable, ManyToOne::Reserved];
        let request = RouteRequest { originator: r.nwk(), request_id: r.byte(), destination: r.nwk(), sender: r.nwk(), updated_path_cost: r.byte(), many_to_one: r.one_of(&many) };
        w.routing.state.accept_route_request(&request, r.time(), r.time()).map(drop)
    }),
    ("accept_route_reply", Lends::Routing, |w, r| {
        let reply = RouteReply { originator: r.nwk(), request_id: r.byte(), responder: r.nwk(), sender: r.nwk(), updated_path_cost: r.byte() };
        w.routing.state.accept_route_reply(r.nwk(), &reply).map(drop)
    }),
    ("note_relayed_discovery", Lends::Routing, |w, r| w.routing.state.note_relayed_discovery(r.nwk())),
    ("mark_discovery_failed", Lends::Routing, |w, r| w.routing.state.mark_discovery_failed(r.nwk())),
    ("neighbor_count", Lends::Neighbors, |w, _| w.neighbors.state.neighbor_count().map(drop)),
    ("neighbor_at", Lends::Neighbors, |w, r| w.neighbors.state.neighbor_at(r.place()).map(drop)),
    ("entries", Lends::Neighbors, |w, _| w.neighbors.state.entries().map(|all| assert_eq!(all.count(), w.neighbors.state.columns.count))),
    ("entry", Lends::Neighbors, |w, r| {
        let eui64 = r.eui64();
        let there = w.neighbors.state.entry(eui64)?.map(|entry| entry.extended_address);
        assert_eq!(there, w.neighbors.state.contains(eui64)?.then_some(eui64));
        Ok(())
    }),
    ("link", Lends::Neighbors, |w, r| w.neighbors.state.link(r.nwk()).map(drop)),
    ("has_network_address", Lends::Neighbors, |w, r| w.neighbors.state.has_network_address(r.nwk()).map(drop)),
    ("contains", Lends::Neighbors, |w, r| w.neighbors.state.contains(r.eui64()).map(drop)),
    ("device_capability", Lends::Neighbors, |w, r| w.neighbors.state.device_capability(r.eui64()).map(drop)),
    ("update_network_address", Lends::Neighbors, |w, r| w.neighbors.state.update_network_address(r.eui64(), r.nwk())),
    ("record_outbound_activity", Lends::Neighbors, |w, r| w.neighbors.state.record_outbound_activity(r.eui64())),
    ("record_inbound_activity", Lends::Neighbors, |w, r| w.neighbors.state.record_inbound_activity(r.nwk())),
    ("record_transmit_failure", Lends::Neighbors, |w, r| w.neighbors.state.record_transmit_failure(r.eui64())),
    ("reset_transmit_failures", Lends::Neighbors, |w, _| w.neighbors.state.reset_transmit_failures()),
    ("remove", Lends::Neighbors, |w, r| w.neighbors.state.remove(r.eui64())),
    ("record_lqa", Lends::Neighbors, |w, r| w.neighbors.state.record_lqa(r.nwk(), r.byte())),
    ("on_link_status", Lends::Neighbors, |w, r| {
        let most = if r.below(8) == 0 { 9 } else { 8 };
        let link_statuses = &r.list(MAX_LINK_STATUSES, |r| LinkStatus { address: r.nwk(), incoming_cost: r.below(most) as u8, outgoing_cost: r.below(most) as u8 });
        let command = LinkStatusCommand { eui64: r.eui64(), nwk: r.nwk(), lqi: r.byte(), is_first_frame: r.flag(), is_last_frame: r.flag(), link_statuses };
        w.neighbors.state.on_link_status(r.nwk(), &command, r.time()).map(drop)
    }),
    ("link_status_entries", Lends::Neighbors, |w, _| w.neighbors.state.link_status_entries().map(drop)),
    ("any_live_router_link", Lends::Neighbors, |w, _| w.neighbors.state.any_live_router_link().map(drop)),
    ("expected_broadcast_relayers", Lends::Neighbors, |w, _| w.neighbors.state.expected_broadcast_relayers().map(drop)),
    ("upsert_child", Lends::Neighbors, |w, r| {
        let child = Child {
            eui64: r.eui64(),
            network_address: r.nwk(),
            device_type: r.one_of(&[DeviceType::Coordinator, DeviceType::Router, DeviceType::EndDevice, DeviceType::EndDevice]),
            rx_on_when_idle: r.flag(),
            device_timeout: r.time(),
            relationship: r.one_of(&[Relationship::Child, Relationship::UnauthenticatedChild, Relationship::Parent, Relationship::BackboneMeshSibling]),
        };
        w.neighbors.state.upsert_child(&child, r.time())
    }),
    ("refresh_child_timeout", Lends::Neighbors, |w, r| {
        let (eui64, nwk) = (r.flag().then(|| r.eui64()), r.flag().then(|| r.nwk()));
        w.neighbors.state.refresh_child_timeout(eui64, nwk, r.time()).map(drop)
    }),
    ("set_child_timeout", Lends::Neighbors, |w, r| w.neighbors.state.set_child_timeout(r.nwk(), r.time(), r.next() as u16, r.time()).map(drop)),
    ("take_child", Lends::Neighbors, |w, r| w.neighbors.state.take_child(r.eui64()).map(drop)),
    ("evict_timed_out_children", Lends::Neighbors, |w, r| w.neighbors.state.evict_timed_out_children(r.time()).map(drop)),
    ("remove_claimed_children", Lends::Neighbors, |w, r| {
        let claims = r.list(MAX_ANNOUNCED, Random::eui64);
        w.neighbors.state.remove_claimed_children(&claims).map(drop)
    }),
    ("process_parent_annce", Lends::Neighbors, |w, r| {
        let announced = r.list(MAX_ANNOUNCED, Random::eui64);
        w.neighbors.state.process_parent_annce(&announced).map(drop)
    }),
    ("end_device_child_eui64", Lends::Neighbors, |w, r| w.neighbors.state.end_device_child_eui64(r.nwk()).map(drop)),
    ("sleepy_child_eui64", Lends::Neighbors, |w, r| w.neighbors.state.sleepy_child_eui64(r.nwk()).map(drop)),
    ("sleepy_children", Lends::Neighbors, |w, _| w.neighbors.state.sleepy_children().map(drop)),
    ("end_device_child_count", Lends::Neighbors, |w, _| w.neighbors.state.end_device_child_count().map(drop)),
    ("end_device_children", Lends::Neighbors, |w, _| w.neighbors.state.end_device_children().map(drop)),
    ("is_unconfirmed_end_device_child", Lends::Neighbors, |w, r| w.neighbors.state.is_unconfirmed_end_device_child(r.eui64()).map(drop)),
    ("next_child_timeout", Lends::Neighbors, |w, _| w.neighbors.state.next_child_timeout().map(drop)),
    ("clear_end_device_initiator_for_relay", Lends::Neighbors, |w, _| w.neighbors.state.clear_end_device_initiator_for_relay(&mut w.header).map(drop)),
    ("resolve, direct", Lends::All, |w, r| decide(w, r, SendMode::Direct)),
    ("resolve", Lends::All, |w, r| decide(w, r, SendMode::StackDecides)),
    ("resolve, hint", Lends::All, |w, r| {
        let relays = &r.list(MAX_RELAYS, Random::nwk)[..];
        let route = if r.flag() { HostRoute::NextHop(r.nwk()) } else { HostRoute::SourceRoute(relays) };
        decide(w, r, SendMode::Hint(route))
    }),
    ("resolve, force", Lends::All, |w, r| {
        let relays = &r.list(MAX_RELAYS, Random::nwk)[..];
        let route = if r.flag() { HostRoute::NextHop(r.nwk()) } else { HostRoute::SourceRoute(relays) };
        decide(w, r, SendMode::Force(route))
    }),
    ("resolve_default", Lends::All, |w, _| {
        resolve_default(&w.routing.state, &w.store.state, &w.neighbors.state, SendMode::StackDecides, &mut w.header).map(drop)
    }),
];

fn decide(w: &mut World, r: &mut Random, mode: SendMode) -> Result<(), Refusal> {
    let policy = Policy { is_concentrator: r.flag(), force_route_discovery: r.flag(), max_source_route: r.byte() };
    resolve(&w.routing.state, &w.store.state, &w.neighbors.state, policy, mode, &mut w.header).map(drop)
}

fn header(r: &mut Random) -> Header {
    let discover = [RouteDiscovery::Suppress, RouteDiscovery::Enable, RouteDiscovery::WithMulticast];
    let route = SourceRoute { relay_index: r.byte(), relays: r.list(MAX_RELAYS, Random::nwk) };
    Header {
        destination: r.nwk(),
        source: r.nwk(),
        discover_route: r.one_of(&discover),
        source_route_bit: r.flag(),
        end_device_initiator: r.flag(),
        source_route: r.flag().then_some(route),
    }
}

/// Whether a call is refused since a state that it is lent is not well formed.
fn ill_formed(w: &World, lends: Lends) -> bool {
    let of_routing = w.routing.state.route_count() == Err(Refusal::StateIllFormed);
    let of_neighbors = w.neighbors.state.neighbor_count() == Err(Refusal::StateIllFormed);
    match lends {
        Lends::Routing | Lends::Store => of_routing,
        Lends::Neighbors => of_neighbors,
        Lends::All => of_routing || of_neighbors,
    }
}

/// Makes a call, and tests what every call has to keep.
fn made(name: &str, lends: Lends, call: Call, world: &mut World, r: &mut Random) -> Result<(), Refusal> {
    let before = world.clone();
    let ill = ill_formed(world, lends);
    let answer = call(world, r);
    assert!(world.routing.intact() && world.store.intact() && world.neighbors.intact(), "{name} wrote beside");
    assert_eq!(ill, answer == Err(Refusal::StateIllFormed), "{name}: {answer:?}");
    if answer.is_err() {
        assert!(*world == before, "{name}: {answer:?} changed what it was lent");
    } else {
        assert!(!ill_formed(world, lends), "{name} made a state that is not well formed");
    }
    answer
}

/// A state that calls have made.
fn brought_about(r: &mut Random) -> World {
    let mut world = World::default();
    for _ in 0..r.below(150) {
        let (name, lends, call) = r.one_of(&CALLS);
        world.header = header(r);
        let _ = made(name, lends, call, &mut world, r);
    }
    world
}

/// A number that is large, small or near to another.
fn damaged(r: &mut Random, number: u64) -> u64 {
    match r.below(4) {
        0 => r.next(),
        1 => r.below(70),
        2 => number.wrapping_add(r.below(3)).wrapping_sub(1),
        _ => number ^ (1 << r.below(64)),
    }
}

/// Damages one number of a column, or all of them.
fn damage_column<T: Copy + Into<u64>>(r: &mut Random, all: bool, column: &mut [T], kind: fn(u64) -> T) {
    let one = r.below(column.len() as u64) as usize;
    for (place, number) in column.iter_mut().enumerate() {
        if all || place == one {
            *number = kind(damaged(r, (*number).into()));
        }
    }
}

fn damage_count(r: &mut Random, count: &mut usize) {
    *count = damaged(r, *count as u64) as usize;
}

/// Damages a column of the routing state, a count or the store.
fn damage_routing(r: &mut Random, world: &mut World, which: u64, all: bool) {
    let c = &mut world.routing.state.columns;
    match which {
        0 => damage_column(r, all, &mut c.route_keys, |number| number as u16),
        1 => damage_column(r, all, &mut c.route_words, |number| number),
        2 => damage_column(r, all, &mut c.route_usage, |number| number as u32),
        3 => damage_count(r, &mut c.routes),
        4 => damage_column(r, all, &mut c.discovery_keys, |number| number as u32),
        5 => damage_column(r, all, &mut c.discovery_words, |number| number),
        6 => damage_column(r, all, &mut c.discovery_ends, |number| number),
        7 => damage_count(r, &mut c.discoveries),
        8 => damage_column(r, all, &mut c.record_keys, |number| number as u16),
        9 => damage_column(r, all, &mut c.record_lengths, |number| number as u8),
        10 => damage_count(r, &mut c.records),
        _ => damage_column(r, all, world.store.state.numbers_mut(), |number| number as u16),
    }
}

/// Damages a column of the neighbors, or a count.
fn damage_neighbors(r: &mut Random, world: &mut World, which: u64, all: bool) {
    let c = &mut world.neighbors.state.columns;
    match which {
        0 => damage_column(r, all, &mut c.keys, |number| number),
        1 => damage_column(r, all, &mut c.nwks, |number| number as u16),
        2 => damage_column(r, all, &mut c.links, |number| number),
        3 => damage_column(r, all, &mut c.counts, |number| number),
        4 => damage_column(r, all, &mut c.deadlines, |number| number),
        5 => damage_column(r, all, &mut c.periods, |number| number),
        6 => damage_column(r, all, &mut c.heard, |number| number),
        7 => damage_column(r, all, &mut c.added, |number| number),
        8 => damage_column(r, all, &mut c.beacons, |number| number),
        9 => damage_column(r, all, &mut c.bytes, |number| number),
        10 => damage_count(r, &mut c.count),
        11 => damage_column(r, all, &mut c.senders, |number| number as u16),
        12 => damage_column(r, all, &mut c.samples, |number| number),
        _ => damage_count(r, &mut c.waiting),
    }
}

/// Damages one number of a state, a whole column, or all of it.
fn damage(r: &mut Random, world: &mut World) {
    match r.below(4) {
        0 => {
            (0..12).for_each(|which| damage_routing(r, world, which, true));
            (0..14).for_each(|which| damage_neighbors(r, world, which, true));
        }
        kind => {
            let (which, other) = (r.below(12), r.below(14));
            damage_routing(r, world, which, kind == 1);
            damage_neighbors(r, world, other, kind == 1);
        }
    }
}

#[test]
fn ten_thousand_damaged_states_are_answered_or_refused() {
    let mut r = Random(2026);
    let (mut refused, mut answered) = ([0u64; 12], 0u64);
    let mut sound = World::default();
    for round in 0..10_000 {
        if round % 50 == 0 {
            sound = brought_about(&mut r);
        }
        let mut world = sound.clone();
        damage(&mut r, &mut world);
        for (name, lends, call) in CALLS {
            let mut lent = world.clone();
            lent.header = header(&mut r);
            match made(name, lends, call, &mut lent, &mut r) {
                Ok(()) => answered += 1,
                Err(refusal) => refused[usize::from(refusal.number())] += 1,
            }
        }
    }
    println!("answered {answered}, refused by number {refused:?}");
    assert!(refused[9] > 0 && refused[10] > 0 && answered > 0);
}

#[test]
fn every_call_keeps_a_sound_state_sound() {
    let mut r = Random(7);
    let mut refused = [0u64; 12];
    let mut world = World::default();
    for step in 0..200_000 {
        if step % 20_000 == 0 {
            world = World::default();
        }
        let (name, lends, call) = r.one_of(&CALLS);
        world.header = header(&mut r);
        if let Err(refusal) = made(name, lends, call, &mut world, &mut r) {
            refused[usize::from(refusal.number())] += 1;
        }
    }
    println!("refused by number {refused:?}");
    assert_eq!((refused[9], refused[10]), (0, 0));
}

#[test]
fn a_state_lies_in_memory_as_c_has_it() {
    assert_eq!(size_of::<Routing>(), 1760);
    assert_eq!(offset_of!(RoutingColumns, route_words), 128);
    assert_eq!(offset_of!(RoutingColumns, route_usage), 640);
    assert_eq!(offset_of!(RoutingColumns, routes), 896);
    assert_eq!(offset_of!(RoutingColumns, discovery_keys), 904);
    assert_eq!(offset_of!(RoutingColumns, discovery_words), 1032);
    assert_eq!(offset_of!(RoutingColumns, discovery_ends), 1288);
    assert_eq!(offset_of!(RoutingColumns, discoveries), 1544);
    assert_eq!(offset_of!(RoutingColumns, record_keys), 1552);
    assert_eq!(offset_of!(RoutingColumns, record_lengths), 1680);
    assert_eq!(offset_of!(RoutingColumns, records), 1744);
    assert_eq!(offset_of!(RoutingColumns, mtorr_route_errors), 1752);
    assert_eq!(offset_of!(RoutingColumns, mtorr_delivery_failures), 1753);
    assert_eq!(offset_of!(RoutingColumns, request_sequence_number), 1754);
    assert_eq!(size_of::<Neighbors>(), 5392);
    assert_eq!(offset_of!(NeighborsColumns, nwks), 512);
    assert_eq!(offset_of!(NeighborsColumns, links), 640);
    assert_eq!(offset_of!(NeighborsColumns, bytes), 640 + 7 * 512);
    assert_eq!(offset_of!(NeighborsColumns, count), 4736);
    assert_eq!(offset_of!(NeighborsColumns, senders), 4744);
    assert_eq!(offset_of!(NeighborsColumns, samples), 4872);
    assert_eq!(offset_of!(NeighborsColumns, waiting), 5384);
    assert_eq!(size_of::<RelayStore>(), 4096);
}

#[test]
fn a_state_goes_to_another_thread() {
    fn both<T: Send + Sync + Clone + Default + PartialEq + std::fmt::Debug>() {}
    both::<Routing>();
    both::<Neighbors>();
    both::<RelayStore>();
}

/// The lengths of a column that are not its own.
const WRONG: [usize; 5] = [0, 1, 31, 63, 65];

#[test]
fn a_column_of_another_length_is_refused() {
    let (u8s, u16s, u32s, u64s) = ([0u8; 65], [0u16; 65], [0u32; 65], [0u64; 65]);
    for (column, wrong) in (0..8).flat_map(|column| WRONG.map(|wrong| (column, wrong))) {
        let long = |at: usize, own: usize| if at == column { wrong } else { own };
        let mut count = 7;
        let status = status!(warpteasel_raw_route_count[] list &u16s[..long(0, 64)], list &u64s[..long(1, 64)],
            list &u32s[..long(2, 64)], number 0, list &u32s[..long(3, 32)], list &u64s[..long(4, 32)],
            list &u64s[..long(5, 32)], number 0, list &u16s[..long(6, 64)], list &u8s[..long(7, 64)], number 0,
            place &mut count,);
        assert_eq!((status, count), (10, 7), "column {column} of {wrong}");
    }
}

#[test]
fn a_neighbor_column_of_another_length_is_refused() {
    let (u16s, u64s) = ([0u16; 65], [0u64; 65]);
    for (column, wrong) in (0..12).flat_map(|column| WRONG.map(|wrong| (column, wrong))) {
        let long = |at: usize| if at == column { wrong } else { 64 };
        let mut count = 7;
        let status = status!(warpteasel_raw_neighbor_count[] list &u64s[..long(0)], list &u16s[..long(1)],
            list &u64s[..long(2)], list &u64s[..long(3)], list &u64s[..long(4)], list &u64s[..long(5)],
            list &u64s[..long(6)], list &u64s[..long(7)], list &u64s[..long(8)], list &u64s[..long(9)], number 0,
            list &u16s[..long(10)], list &u64s[..long(11)], number 0, place &mut count,);
        assert_eq!((status, count), (10, 7), "column {column} of {wrong}");
    }
}

#[test]
fn a_store_or_a_room_of_another_length_is_refused() {
    let (mut routing, mut store, mut room) =
        (RoutingColumns::new(), [0u16; RELAY_STORE_LENGTH + 1], [7u16; MAX_RELAYS + 1]);
    for wrong in [0, 1, MAX_RELAYS, RELAY_STORE_LENGTH - 1, RELAY_STORE_LENGTH + 1] {
        let mut changed = 7;
        let status = status!(warpteasel_raw_store_route_record[] routing_mut &mut routing, room &mut store[..wrong],
            number 9, list &[30, 31], place &mut changed,);
        assert_eq!((status, changed), (9, 7), "a store of {wrong}");
    }
    for wrong in [0, MAX_RELAYS - 1, MAX_RELAYS + 1] {
        let (mut way, mut hop, mut count) = (7, 7, 7);
        let status = status!(warpteasel_raw_route_to[] routing &routing, list &store[..RELAY_STORE_LENGTH], number 9,
            number 12, place &mut way, place &mut hop, place &mut count, room &mut room[..wrong],);
        assert_eq!((status, way, hop, count), (255, 7, 7, 7), "a room of {wrong}");
    }
    assert_eq!((routing, store, room), (RoutingColumns::new(), [0; RELAY_STORE_LENGTH + 1], [7; MAX_RELAYS + 1]));
}

#[test]
fn a_room_for_neighbors_of_another_length_is_no_call() {
    let (mut neighbors, routing, store) = (NeighborsColumns::new(), RoutingColumns::new(), [0; RELAY_STORE_LENGTH]);
    let (mut eui64s, mut nwks) = ([7; MAX_NEIGHBORS + 1], [7; MAX_NEIGHBORS + 1]);
    for wrong in [0, MAX_NEIGHBORS - 1, MAX_NEIGHBORS + 1] {
        for (long, wide) in [(wrong, MAX_NEIGHBORS), (MAX_NEIGHBORS, wrong)] {
            let mut total = 7;
            let status = status!(warpteasel_raw_sleepy_children[] neighbors &neighbors, place &mut total,
                room &mut eui64s[..long], room &mut nwks[..wide],);
            assert_eq!((status, total), (255, 7));
            let status = status!(warpteasel_raw_evict_timed_out_children[] neighbors_mut &mut neighbors, number 0,
                place &mut total, room &mut eui64s[..long], room &mut nwks[..wide],);
            assert_eq!((status, total), (255, 7));
        }
        let mut places = [7u8; 5];
        let [discover, bit, has, index, decision] = &mut places;
        (*discover, *bit, *has) = (0, 0, 0);
        let (mut count, mut hop) = (7, 7);
        let status = status!(warpteasel_raw_resolve_default[] routing &routing, list &store, neighbors &neighbors,
            number 0, number 0, list &[], number 9, place discover, place bit, place has, place index,
            place &mut count, room &mut nwks[..wrong.min(MAX_RELAYS + 1)], place decision, place &mut hop,);
        assert_eq!((status, places, count, hop), (255, [0, 0, 0, 7, 7], 7, 7));
    }
    let (mut found, mut lost) = (7, 7);
    let status = status!(warpteasel_raw_on_link_status[] neighbors_mut &mut neighbors, number 0, number 5, number 9,
        number 200, number 1, number 1, list &[1, 2], list &[1], list &[1, 2], number 0, place &mut found,
        place &mut lost,);
    assert_eq!((status, found, lost), (255, 7, 7));
    assert_eq!((eui64s, nwks), ([7; MAX_NEIGHBORS + 1], [7; MAX_NEIGHBORS + 1]));
    assert_eq!(neighbors, NeighborsColumns::new());
}
