//! What a call of the routing tables would need: the harness's own reading of document 01's refusals 5, 1, 2 and 3.
//!
//! The Rust grows and its clock stops at its end, so the harness judges before the Rust is asked, on the tables as they
//! will stand after the expiry that the call makes. A refused call then never reaches the Rust, and changes nothing.

use crate::nwk::routing::Status;
use crate::parse::Stop;
use crate::types::Nwk;
use crate::world::{DISCOVERIES, RECORDS, ROUTES, World};

/// The sum of a moment and a span, or refusal 5.
pub fn sum(now: u64, span: u64) -> Result<u64, Stop> {
    now.checked_add(span).ok_or(Stop::Refuse(5))
}

/// The tables after an expiry at a moment, without making it.
pub struct Expired<'a> {
    world: &'a World,
    now: u64,
}

impl<'a> Expired<'a> {
    pub fn at(world: &'a World, now: u64) -> Self {
        Self { world, now }
    }

    fn live(&self, expires: u64) -> bool {
        expires > self.now
    }

    fn expires(&self, key: (Nwk, u8)) -> Option<u64> {
        let entry = self.world.routing.peek_discoveries().get(&key)?;
        Some(self.world.scale.ms(entry.expiration_time))
    }

    /// The forward cost of the discovery under a key, if it lives on.
    pub fn forward_cost(&self, key: (Nwk, u8)) -> Option<u8> {
        let lives = self.live(self.expires(key)?);
        let entry = self.world.routing.peek_discoveries().get(&key)?;
        lives.then_some(entry.forward_cost)
    }

    pub fn has_discovery(&self, key: (Nwk, u8)) -> bool {
        self.expires(key).is_some_and(|expires| self.live(expires))
    }

    fn discoveries(&self) -> usize {
        let all = self.world.routing.peek_discoveries().values();
        all.filter(|e| self.live(self.world.scale.ms(e.expiration_time))).count()
    }

    /// Whether the expiry takes the route to a destination: it is underway, a discovery that names it expires, and none
    /// that names it lives on.
    fn takes_route(&self, destination: Nwk) -> bool {
        let underway = self.world.routing.route_status(destination) == Some(Status::DiscoveryUnderway);
        let (mut named, mut kept) = (false, false);
        for entry in self.world.routing.peek_discoveries().values() {
            if entry.destination_address == destination {
                named = true;
                kept |= self.live(self.world.scale.ms(entry.expiration_time));
            }
        }
        underway && named && !kept
    }

    fn has_route(&self, destination: Nwk) -> bool {
        self.world.routing.route_status(destination).is_some() && !self.takes_route(destination)
    }

    fn routes(&self) -> usize {
        let all = self.world.routing.peek_routes().keys();
        all.filter(|&&destination| !self.takes_route(destination)).count()
    }

    /// Refusal 1, if a route to `destination` has to be made and none is free.
    pub fn route_room(&self, destination: Nwk) -> Result<(), Stop> {
        // Counting what is left is only needed where the table is full before the expiry.
        let full = self.world.routing.peek_routes().len() >= ROUTES;
        if full && !self.has_route(destination) && self.routes() >= ROUTES {
            return self.world.no_room(1);
        }
        Ok(())
    }

    /// Refusal 2, if a discovery under `key` has to be made and none is free.
    pub fn discovery_room(&self, key: (Nwk, u8)) -> Result<(), Stop> {
        let full = self.world.routing.peek_discoveries().len() >= DISCOVERIES;
        if full && !self.has_discovery(key) && self.discoveries() >= DISCOVERIES {
            return self.world.no_room(2);
        }
        Ok(())
    }
}

/// Refusal 1 for a call that makes no expiry.
pub fn route_room(world: &World, destination: Nwk) -> Result<(), Stop> {
    let routes = world.routing.peek_routes();
    if routes.len() >= ROUTES && !routes.contains_key(&destination) {
        return world.no_room(1);
    }
    Ok(())
}

/// Refusal 3: more addresses without a record, among the relays and their source, than records are free.
pub fn record_room(world: &World, source: Nwk, relays: &[Nwk]) -> Result<(), Stop> {
    let records = world.routing.peek_records();
    let mut new: Vec<Nwk> = relays.iter().copied().chain([source]).collect();
    new.retain(|address| !records.contains_key(address));
    new.sort_unstable();
    new.dedup();
    if records.len() + new.len() > RECORDS {
        return world.no_room(3);
    }
    Ok(())
}
