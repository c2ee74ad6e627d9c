//! Zigbee route tables, neighbors and next hops, checked by machine: every function of the library behind this crate is
//! proved to do what its definition says on every input, to stay within its memory, and to end.
//!
//! The state is plain numbers that the caller keeps: a [`Routing`] with its [`RelayStore`], and [`Neighbors`]. A call
//! lends them to the library. Questions take `&self`, changes `&mut self`, and each answers a value of its own type or
//! a [`Refusal`]; a refused call changes nothing. A state may be cloned, stored and read back: each call tests it, and
//! a damaged one is refused, never trusted. So every call may be refused with [`Refusal::StateIllFormed`], and one that
//! is lent a store with [`Refusal::StoreDisagrees`]; where others are possible the call names them.
//!
//! ```
//! use warpteasel::{Nwk, RouteReply, RouteReplyDisposition, Routing};
//!
//! let own = Nwk::COORDINATOR;
//! let mut routing = Routing::new();
//! // a search of our own, at 1,000 ms, for 10 seconds
//! let request_id = routing.begin_discovery(own, Nwk(0x4444), 1_000, 10_000)?;
//! // the reply to it, heard from 0x2222
//! let reply = RouteReply { originator: own, request_id, responder: Nwk(0x4444), sender: Nwk(0x2222), updated_path_cost: 3 };
//! let outcome = routing.accept_route_reply(own, &reply)?;
//! assert_eq!(outcome.disposition, RouteReplyDisposition::Established);
//! assert_eq!(routing.next_hop(Nwk(0x4444))?, Some(Nwk(0x2222)));
//! # Ok::<(), warpteasel::Refusal>(())
//! ```
//!
//! # Units
//!
//! Moments and spans are milliseconds, in 64 bits. Whose clock it is, and when it began, does not matter, as long as it
//! is one. A [`Nwk`] and an [`Eui64`] are different types, and say which order of bytes is which.
//!
//! # Linking
//!
//! The crate links `libwarpteasel.a`, which `gateway/build` makes for x86-64 into `target/warpteasel`; the variable
//! `WARPTEASEL_LIB` names another folder. What is proved is what stands in that library. What this crate adds, pointers
//! and the reading of answers, is tested and not proved. A call panics only where the library that is linked is another
//! one than this crate's. A function of the library wants less than 16 KiB of stack.
//!
//! The states are plain data without interior mutability, so `Send` and `Sync`; the library has no state of its own,
//! and threads may call it at once.

#![warn(missing_docs)]
#![deny(unsafe_op_in_unsafe_fn)]

mod address;
mod children;
mod decision;
mod lent;
mod link_status;
mod neighbors;
mod raw;
mod refusal;
mod relay_store;
mod routing;
mod search;

pub use address::{Eui64, Nwk};
pub use children::{Child, ParentAnnceOutcome, MAX_ANNOUNCED};
pub use decision::{
    resolve, resolve_default, Header, HostRoute, NextHop, Policy, RouteDiscovery, SendMode, SourceRoute,
};
pub use link_status::{LinkStatus, LinkStatusCommand, MAX_LINK_STATUSES};
pub use neighbors::{
    lqi_to_link_cost, DeviceCapability, DeviceType, NeighborEntry, NeighborLink, Neighbors, NeighborsColumns,
    Relationship, MAX_NEIGHBORS,
};
pub use refusal::Refusal;
pub use relay_store::{RelayStore, RELAY_STORE_LENGTH};
pub use routing::{
    Check, DiscoveryEntry, Route, RouteEntry, RouteRecord, RouteStatus, Routing, RoutingColumns, MAX_DISCOVERIES,
    MAX_RECORDS, MAX_RELAYS, MAX_ROUTES,
};
pub use search::{
    ManyToOne, RouteReply, RouteReplyDisposition, RouteReplyOutcome, RouteRequest, RouteRequestOutcome, RouteUpdate,
};

#[cfg(test)]
mod tests;
