//! Looks into the routing tables. A child of the unchanged source, so that it may see the private fields.

use super::{DiscoveryEntry, RouteRequestId, Routing, TableEntry};
use crate::flat_map::FlatMap;
use ziggurat_ieee_802154::types::Nwk;

pub type Discoveries = FlatMap<(Nwk, RouteRequestId), DiscoveryEntry>;

impl Routing {
    pub fn peek_routes(&self) -> &FlatMap<Nwk, TableEntry> {
        &self.route_table
    }

    pub fn peek_discoveries(&self) -> &Discoveries {
        &self.discovery_table
    }

    pub fn peek_records(&self) -> &FlatMap<Nwk, Vec<Nwk>> {
        &self.route_record_table
    }

    pub fn poke_routes(&mut self) -> &mut FlatMap<Nwk, TableEntry> {
        &mut self.route_table
    }

    pub fn poke_discoveries(&mut self) -> &mut Discoveries {
        &mut self.discovery_table
    }

    pub fn poke_records(&mut self) -> &mut FlatMap<Nwk, Vec<Nwk>> {
        &mut self.route_record_table
    }

    /// The request id, the route errors and the delivery failures.
    pub fn peek_counters(&self) -> [u8; 3] {
        [
            self.request_sequence_number,
            self.mtorr_route_errors,
            self.mtorr_delivery_failures,
        ]
    }

    pub fn poke_counters(&mut self, [id, errors, failures]: [u8; 3]) {
        self.request_sequence_number = id;
        self.mtorr_route_errors = errors;
        self.mtorr_delivery_failures = failures;
    }
}
