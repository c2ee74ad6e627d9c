//! The event loop of a small gateway: it takes the fields of frames that were heard, keeps the tables, and says what to
//! send. A real gateway takes its events from the radio and the host, and sends where this one prints.

use warpteasel::{
    lqi_to_link_cost, resolve_default, Child, Eui64, Header, LinkStatus, LinkStatusCommand, ManyToOne, Neighbors,
    NextHop, Nwk, Refusal, RelayStore, RouteDiscovery, RouteReply, RouteReplyDisposition, RouteRequest, Routing,
    SendMode,
};

/// How long a search lasts, in milliseconds.
const ROUTE_DISCOVERY_TIME: u64 = 10_000;

/// The neighbor that a frame was heard from, and the quality at which it was.
#[derive(Clone, Copy, Debug)]
struct Heard(Nwk, u8);

/// What happens to a gateway.
#[derive(Debug)]
#[rustfmt::skip]
enum Event {
    LinkStatus { eui64: Eui64, link_statuses: Vec<LinkStatus>, heard: Heard },
    RouteRequest { originator: Nwk, request_id: u8, destination: Nwk, path_cost: u8, heard: Heard },
    RouteReply { originator: Nwk, request_id: u8, responder: Nwk, path_cost: u8, heard: Heard },
    RouteRecord { source: Nwk, relays: Vec<Nwk> },
    Joined { eui64: Eui64, nwk: Nwk },
    /// The host asks for the way to a node.
    Query(Nwk),
    /// The host has a frame for a node.
    Send(Nwk),
    /// Time to look for searches and children that are over.
    Tick,
}

/// The states, and the frames that wait for a route. The fresh ones are all that a gateway starts with.
#[derive(Default)]
struct Gateway {
    own: Nwk,
    routing: Routing,
    store: RelayStore,
    neighbors: Neighbors,
    waiting: Vec<Header>,
}

impl Gateway {
    /// One event. A refused call changes nothing, so the loop can go on after it.
    fn on_event(&mut self, now_ms: u64, event: Event) -> Result<(), Refusal> {
        match event {
            Event::LinkStatus { eui64, ref link_statuses, heard: Heard(nwk, lqi) } => {
                // every frame of a neighbor is a sample; that of a new one the call below takes itself
                if self.neighbors.has_network_address(nwk)? {
                    self.neighbors.record_lqa(nwk, lqi)?;
                }
                let (is_first_frame, is_last_frame) = (true, true);
                let command = LinkStatusCommand { eui64, nwk, lqi, is_first_frame, is_last_frame, link_statuses };
                if let Some(lost) = self.neighbors.on_link_status(self.own, &command, now_ms)? {
                    println!("  the link to {lost} is lost, and with it every route by it");
                    self.routing.invalidate_via(lost)?;
                }
                Ok(())
            }
            Event::RouteRequest { originator, request_id, destination, path_cost, heard: Heard(sender, lqi) } => {
                let updated_path_cost = path_cost.saturating_add(self.link_cost(sender, lqi)?);
                let many_to_one = ManyToOne::NotManyToOne;
                let request =
                    RouteRequest { originator, request_id, destination, sender, updated_path_cost, many_to_one };
                self.on_route_request(&request, now_ms)
            }
            Event::RouteReply { originator, request_id, responder, path_cost, heard: Heard(sender, lqi) } => {
                let updated_path_cost = path_cost.saturating_add(self.link_cost(sender, lqi)?);
                let reply = RouteReply { originator, request_id, responder, sender, updated_path_cost };
                self.on_route_reply(&reply, now_ms)
            }
            Event::RouteRecord { source, relays } => {
                let changed = self.routing.store_route_record(&mut self.store, source, &relays)?;
                println!("  {}", if changed { "kept" } else { "known" });
                Ok(())
            }
            Event::Joined { eui64, nwk } => {
                let child = Child { eui64, network_address: nwk, device_timeout: 60_000, ..Child::default() };
                self.neighbors.upsert_child(&child, now_ms)
            }
            Event::Query(destination) => {
                println!("  {:?}", self.routing.route_to_default(&self.store, destination)?);
                Ok(())
            }
            Event::Send(destination) => {
                let discover_route = RouteDiscovery::Enable;
                self.send(Header { destination, source: self.own, discover_route, ..Header::default() }, now_ms)
            }
            Event::Tick => self.on_tick(now_ms),
        }
    }

    /// What a link costs: by our samples of it, or by this frame alone while there are fewer than three.
    fn link_cost(&mut self, sender: Nwk, lqi: u8) -> Result<u8, Refusal> {
        self.neighbors.record_lqa(sender, lqi)?;
        let known = self.neighbors.link(sender)?.map_or(0, |link| link.incoming_cost);
        Ok(if known > 0 { known } else { lqi_to_link_cost(lqi) })
    }

    /// A search of another: answered for ourselves and for our end devices, relayed for all others.
    fn on_route_request(&mut self, request: &RouteRequest, now_ms: u64) -> Result<(), Refusal> {
        let RouteRequest { originator, request_id: id, destination, sender, updated_path_cost: cost, .. } = *request;
        if !self.routing.accept_route_request(request, now_ms, ROUTE_DISCOVERY_TIME)?.accepted {
            println!("  dropped: a cheaper one was heard");
        } else if destination == self.own || self.neighbors.end_device_child_eui64(destination)?.is_some() {
            println!("  to {sender}: route reply ({originator}, {id}), {destination} is here, cost 0");
        } else {
            self.routing.note_relayed_discovery(destination)?;
            println!("  to all: route request ({originator}, {id}) for {destination}, cost {cost}");
        }
        Ok(())
    }

    /// A reply to a search that we relayed, or to our own: then the frames that wait for it go.
    fn on_route_reply(&mut self, reply: &RouteReply, now_ms: u64) -> Result<(), Refusal> {
        let RouteReply { originator, request_id: id, responder, .. } = *reply;
        match self.routing.accept_route_reply(self.own, reply)?.disposition {
            RouteReplyDisposition::Drop => println!("  dropped"),
            RouteReplyDisposition::Relay { next_hop, path_cost } => {
                println!("  to {next_hop}: route reply ({originator}, {id}) of {responder}, cost {path_cost}");
            }
            RouteReplyDisposition::Established => {
                for header in std::mem::take(&mut self.waiting) {
                    if header.destination == responder {
                        self.send(header, now_ms)?;
                    } else {
                        self.waiting.push(header);
                    }
                }
            }
        }
        Ok(())
    }

    /// Sends a frame by the hop that is decided, or searches for a route while the frame waits.
    fn send(&mut self, mut header: Header, now_ms: u64) -> Result<(), Refusal> {
        let (own, destination) = (self.own, header.destination);
        let mode = SendMode::StackDecides;
        match resolve_default(&self.routing, &self.store, &self.neighbors, mode, &mut header)? {
            NextHop::Resolved(hop) => {
                println!("  to {hop}: frame for {destination}, by {:?}", header.source_route);
                self.routing.record_usage(destination)?;
            }
            NextHop::NeedDiscovery => {
                if self.routing.discovery_deadline(destination, now_ms)?.is_none() {
                    let id = self.routing.begin_discovery(own, destination, now_ms, ROUTE_DISCOVERY_TIME)?;
                    println!("  to all: route request ({own}, {id}) for {destination}, cost 0");
                }
                self.waiting.push(header);
            }
            NextHop::Discard => println!("  frame for {destination} thrown away"),
        }
        Ok(())
    }

    /// Frames whose search has found nothing, and children that were silent for too long.
    fn on_tick(&mut self, now_ms: u64) -> Result<(), Refusal> {
        for header in std::mem::take(&mut self.waiting) {
            let destination = header.destination;
            if self.routing.discovery_deadline(destination, now_ms)?.is_some() {
                self.waiting.push(header);
            } else {
                println!("  frame for {destination} thrown away: nobody has answered");
                self.routing.mark_discovery_failed(destination)?;
            }
        }
        for (eui64, nwk) in self.neighbors.evict_timed_out_children(now_ms)? {
            println!("  {eui64} at {nwk} is no child any more");
        }
        Ok(())
    }
}

fn events() -> Vec<(u64, Event)> {
    let [own, hall, attic, pump, valve, meter, siren, logger] =
        [0x0000, 0x2222, 0x3333, 0x1111, 0x4444, 0x5555, 0x7777, 0x0051].map(Nwk);
    // as they are printed; in a frame the last of these bytes comes first
    let hall_eui64 = Eui64::from_be_bytes([0x00, 0x12, 0x4b, 0x00, 0x14, 0xb5, 0xd9, 0xa8]);
    let logger_eui64 = Eui64::from_be_bytes([0x00, 0x12, 0x4b, 0x00, 0x14, 0xb5, 0xd9, 0xb0]);
    let hears_us = vec![LinkStatus { address: own, incoming_cost: 1, outgoing_cost: 1 }];
    let (near, far) = (Heard(hall, 220), Heard(attic, 120));
    vec![
        (1_000, Event::LinkStatus { eui64: hall_eui64, link_statuses: hears_us, heard: near }),
        (1_500, Event::Joined { eui64: logger_eui64, nwk: logger }),
        (2_000, Event::RouteRequest { originator: pump, request_id: 7, destination: valve, path_cost: 2, heard: near }),
        (2_010, Event::RouteRequest { originator: pump, request_id: 7, destination: valve, path_cost: 5, heard: far }),
        (2_050, Event::RouteReply { originator: pump, request_id: 7, responder: valve, path_cost: 1, heard: far }),
        (
            2_200,
            Event::RouteRequest { originator: pump, request_id: 8, destination: logger, path_cost: 2, heard: near },
        ),
        (3_000, Event::RouteRecord { source: meter, relays: vec![pump, hall] }),
        (3_100, Event::Query(meter)),
        (3_200, Event::Send(meter)),
        (3_300, Event::Send(logger)),
        (4_000, Event::Send(siren)),
        (4_080, Event::RouteReply { originator: own, request_id: 1, responder: siren, path_cost: 3, heard: near }),
        (16_000, Event::LinkStatus { eui64: hall_eui64, link_statuses: vec![], heard: near }),
        (16_100, Event::Query(siren)),
        (16_200, Event::Send(siren)),
        (61_500, Event::Tick),
    ]
}

fn main() {
    let mut gateway = Gateway { own: Nwk::COORDINATOR, ..Gateway::default() };
    for (now_ms, event) in events() {
        println!("{now_ms} {event:?}");
        if let Err(refusal) = gateway.on_event(now_ms, event) {
            println!("  {refusal}");
        }
    }
}
