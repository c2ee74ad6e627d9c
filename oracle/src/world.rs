//! The state that a script works on, without its calls, and the capacities of the port's tables.

use crate::clock::{LAST_IN_MICROS, Scale};
use crate::nwk::neighbors::Neighbors;
use crate::nwk::routing::Routing;
use crate::parse::Stop;
use crate::ring_buffer::peek::Samples;

pub const ROUTES: usize = 64;
pub const DISCOVERIES: usize = 32;
pub const RECORDS: usize = 64;
pub const RELAYS: usize = 32;
pub const NEIGHBORS: usize = 64;
pub const WAITING: usize = 64;
pub const STATUSES: usize = 31;
pub const ADDRESSES: usize = 64;
pub const LARGEST_COST: u8 = 7;

/// The state that a script works on.
pub struct World {
    pub routing: Routing,
    pub neighbors: Neighbors,
    pub scale: Scale,
    /// The scale of a fresh state: microseconds, but where a test wants the other.
    pub first_scale: Scale,
    /// Whether a `put_` line may have made the neighbours ill formed. No call of the Rust can.
    pub suspect: bool,
    /// Whether tables grow as the Rust's do, to see what a refused call would have come to.
    pub limitless: bool,
}

impl Default for World {
    fn default() -> Self {
        Self {
            routing: Routing::default(),
            neighbors: Neighbors::default(),
            scale: Scale::Micros,
            first_scale: Scale::Micros,
            suspect: false,
            limitless: false,
        }
    }
}

impl World {
    /// A world whose clock counts milliseconds from the start.
    pub fn in_millis() -> Self {
        Self { scale: Scale::Millis, first_scale: Scale::Millis, ..Self::default() }
    }

    /// The fresh state.
    pub fn reset(&mut self) {
        *self = Self {
            scale: self.first_scale,
            first_scale: self.first_scale,
            limitless: self.limitless,
            ..Self::default()
        };
    }

    /// The refusal for want of room, unless the tables may grow.
    pub fn no_room(&self, number: u8) -> Result<(), Stop> {
        if self.limitless { Ok(()) } else { Err(Stop::Refuse(number)) }
    }

    /// Refusal 10, as far as the `put_` lines can bring it about: a stored cost above 7, or a ring
    /// that is not well formed.
    pub fn neighbors_formed(&mut self) -> Result<(), Stop> {
        if !self.suspect {
            return Ok(());
        }
        let table = self.neighbors.peek_table().values();
        let known = table.map(|e| (Samples::of(&e.lqas), e.outgoing_cost));
        let waiting = self.neighbors.peek_waiting().values().map(|ring| (Samples::of(ring), 0));
        let sound = |(ring, cost): (Samples, u8)| ring.well_formed() && cost <= LARGEST_COST;
        if known.chain(waiting).all(sound) {
            self.suspect = false;
            return Ok(());
        }
        Err(Stop::Refuse(10))
    }

    /// Makes sure that the Rust can count to `ms`.
    pub fn reach(&mut self, ms: u64) {
        if self.scale == Scale::Micros && ms > LAST_IN_MICROS {
            self.count_millis();
        }
    }

    /// Goes over to one count for each millisecond. Every stored moment and span keeps its
    /// milliseconds.
    fn count_millis(&mut self) {
        let (old, new) = (self.scale, Scale::Millis);
        for entry in self.routing.poke_discoveries().values_mut() {
            entry.expiration_time = new.moment(old.ms(entry.expiration_time));
        }
        for entry in self.neighbors.poke_table().values_mut() {
            entry.timeout_at = new.moment(old.ms(entry.timeout_at));
            entry.device_timeout = new.span(old.span_ms(entry.device_timeout));
            entry.last_link_status_timestamp = new.moment(old.ms(entry.last_link_status_timestamp));
            entry.router_added_timestamp = new.moment(old.ms(entry.router_added_timestamp));
        }
        self.scale = new;
    }
}
