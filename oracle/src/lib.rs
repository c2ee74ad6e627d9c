//! The Rust side of the comparison: the Rust sources, built unchanged, behind the script language of `replay`.
//!
//! `docs/ORACLE.md` says how it is built and what it can and cannot answer.

extern crate alloc;
// The sources name these two crates; the stand-ins for both live in this one.
extern crate self as tracing;
extern crate self as ziggurat_ieee_802154;

pub mod stand_ins;
pub use stand_ins::{debug, info, trace, types, warn};

include!(concat!(env!("OUT_DIR"), "/sources.rs"));
pub use time::Instant;

pub mod answer;
pub mod call;
pub mod clock;
pub mod compare;
pub mod decision_calls;
pub mod dispatch;
pub mod draw;
pub mod edges;
pub mod generate;
pub mod neighbor_calls;
pub mod panics;
pub mod parse;
pub mod planted;
pub mod profile;
pub mod room;
pub mod route_calls;
pub mod script;
pub mod table_lines;
pub mod words;
pub mod world;
pub mod writer;
