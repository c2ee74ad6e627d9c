//! Looks into the neighbour table. A child of the unchanged source, so that it may see the private fields.

use super::{LqaSamples, Neighbors, TableEntry};
use crate::flat_map::FlatMap;
use ziggurat_ieee_802154::types::{Eui64, Nwk};

impl Neighbors {
    pub fn peek_table(&self) -> &FlatMap<Eui64, TableEntry> {
        &self.table
    }

    pub fn peek_waiting(&self) -> &FlatMap<Nwk, LqaSamples> {
        &self.pending_lqas
    }

    pub fn poke_table(&mut self) -> &mut FlatMap<Eui64, TableEntry> {
        &mut self.table
    }

    pub fn poke_waiting(&mut self) -> &mut FlatMap<Nwk, LqaSamples> {
        &mut self.pending_lqas
    }
}

/// The scale of link costs is private too.
pub const fn lqi_to_link_cost(lqi: u8) -> u8 {
    super::lqi_to_link_cost(lqi)
}
