//! What a call is.

use crate::answer::Answer;
use crate::parse::{Args, Stop};
use crate::world::World;

/// How a call ends: with an answer, or with the reason why it has none.
pub type Done = Result<(), Stop>;

/// A call: reads its numbers, judges the refusals, asks the Rust, and writes the answer after `ok`.
pub type Call = fn(&mut World, &mut Args<'_>, &mut Answer) -> Done;
