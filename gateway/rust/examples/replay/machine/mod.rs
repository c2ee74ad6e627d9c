//! The states that a script works on, and its lines answered one by one.

mod args;
mod codec;
mod decision_words;
mod neighbor_words;
mod routing_words;
mod state_words;
mod table;

use args::{split, Args};
use std::fmt::Write;
use warpteasel::{Neighbors, Refusal, RelayStore, Routing, RELAY_STORE_LENGTH};

/// Why a line has no values for its answer.
pub enum Stop {
    /// The line is no call.
    Bad,
    /// The call is refused.
    Refused(Refusal),
}

impl From<Refusal> for Stop {
    fn from(refusal: Refusal) -> Self {
        Stop::Refused(refusal)
    }
}

/// The values of an answer.
pub type Answer = Result<Vec<u64>, Stop>;

/// A word of the language: it reads its numbers, makes its call and gives the values of the answer.
type Word = fn(&mut Machine, &mut Args) -> Answer;

/// The states, and how many numbers of the store are lent; in a script that may be another part of it, or one number
/// more.
pub struct Machine {
    routing: Routing,
    neighbors: Neighbors,
    store: RelayStore,
    lent: usize,
}

impl Machine {
    /// The fresh states.
    pub fn new() -> Self {
        Machine {
            routing: Routing::new(),
            neighbors: Neighbors::new(),
            store: RelayStore::new(),
            lent: RELAY_STORE_LENGTH,
        }
    }

    /// The answer to a line without its line feed: the lines to write, or nothing for a line that is passed over.
    pub fn line(&mut self, line: &[u8]) -> String {
        if line.is_empty() || line.starts_with(b"#") {
            return String::new();
        }
        match self.call(line) {
            Ok(Said::Values(values)) => written("ok", &values),
            Ok(Said::Lines(lines)) => lines,
            Err(Stop::Refused(refusal)) => written("refuse", &[refusal.number().into()]),
            Err(Stop::Bad) => written("bad", &[]),
        }
    }

    fn call(&mut self, line: &[u8]) -> Result<Said, Stop> {
        let (word, numbers) = split(line).ok_or(Stop::Bad)?;
        let mut args = Args::new(&numbers);
        if word == b"tables" {
            args.end()?;
            return Ok(Said::Lines(state_words::tables(self)));
        }
        let word = state_words::word(word)
            .or_else(|| routing_words::word(word))
            .or_else(|| neighbor_words::word(word))
            .or_else(|| decision_words::word(word));
        word.ok_or(Stop::Bad)?(self, &mut args).map(Said::Values)
    }

    /// Whether a store of the right length is lent. The crate's calls are lent no other; what the library says of one
    /// is said here.
    fn store_lent(&self) -> Result<(), Stop> {
        if self.lent == RELAY_STORE_LENGTH {
            return Ok(());
        }
        self.routing.route_count()?;
        Err(Refusal::StoreDisagrees.into())
    }
}

enum Said {
    Values(Vec<u64>),
    Lines(String),
}

/// A line: a word, and numbers one space apart.
fn written(word: &str, numbers: &[u64]) -> String {
    let mut line = word.to_owned();
    for number in numbers {
        let _ = write!(line, " {number}");
    }
    line.push('\n');
    line
}

/// `0`, or `1` and the values.
fn option(value: Option<Vec<u64>>) -> Vec<u64> {
    match value {
        None => vec![0],
        Some(mut values) => {
            values.insert(0, 1);
            values
        }
    }
}

/// A count, and each.
fn list<T>(elements: &[T], values: impl Fn(&T) -> Vec<u64>) -> Vec<u64> {
    let mut all = vec![elements.len() as u64];
    all.extend(elements.iter().flat_map(values));
    all
}
