//! What the Rust sources lean on, written here and kept as small as they allow.
//!
//! The fields and the order of `Nwk` and `Eui64` are those that the sources rely on; nothing is read from or written to
//! the air here, so there is no parsing.

pub mod commands;
pub mod frame;
pub mod types;

/// Logging does nothing.
#[macro_export]
macro_rules! quiet {
    ($($anything:tt)*) => {{}};
}
pub use quiet as trace;
pub use quiet as debug;
pub use quiet as info;
pub use quiet as warn;

/// The standard's numbers: no supplied source gives them.
#[derive(Debug, Clone, Copy, PartialEq, Eq)]
pub enum NwkDeviceType {
    Coordinator = 0,
    Router = 1,
    EndDevice = 2,
}
