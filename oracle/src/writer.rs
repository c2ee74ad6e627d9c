//! A line of a random script in the making, and the numbers drawn for it.
//!
//! The numbers are aimed by a state that goes along with the script: at keys that are there, at
//! costs just below, at and above those stored, at times when an entry expires.

use crate::clock::{LAST_IN_MICROS, NEVER};
use crate::draw::Random;
use crate::profile::Profile;
use crate::world::World;

pub struct Writer {
    random: Random,
    pub profile: Profile,
    /// The state after the lines before this one.
    pub world: World,
    /// The line being written.
    pub line: Vec<u8>,
    now: u64,
    pool: Vec<u16>,
}

impl Writer {
    pub fn new(profile: Profile, seed: u64) -> Self {
        let mut random = Random::new(seed ^ (profile as u64) << 56);
        let pool = (0..profile.addresses()).map(|i| address(&mut random, i)).collect();
        let now = match profile {
            Profile::Clock => u64::MAX - random.below(40),
            _ => random.below(100_000),
        };
        Self { random, profile, world: World::default(), line: Vec::new(), now, pool }
    }

    pub fn start(&mut self, word: &str) {
        self.line.clear();
        self.line.extend_from_slice(word.as_bytes());
    }

    pub fn n(&mut self, number: u64) -> &mut Self {
        self.line.extend_from_slice(format!(" {number}").as_bytes());
        self
    }

    /// One of a few numbers.
    pub fn one_of(&mut self, numbers: &[u64]) -> u64 {
        numbers[self.random.below(numbers.len() as u64) as usize]
    }

    pub fn below(&mut self, bound: u64) -> u64 {
        self.random.below(bound)
    }

    pub fn flag(&mut self) -> u64 {
        self.random.below(2)
    }

    pub fn address(&mut self) -> u64 {
        match self.random.below(40) {
            0 => 0xFFFF,
            1 => 0xFFFC,
            _ => u64::from(self.pool[self.random.below(self.pool.len() as u64) as usize]),
        }
    }

    /// Our own address: most often the first of the pool.
    pub fn own(&mut self) -> u64 {
        if self.random.below(8) == 0 { self.address() } else { u64::from(self.pool[0]) }
    }

    /// An extended address: as many as addresses, some equal but for the first or the last byte.
    pub fn eui(&mut self) -> u64 {
        let at = self.random.below(self.pool.len() as u64);
        match at % 3 {
            0 => at << 56,
            1 => at,
            _ => at << 56 | at,
        }
    }

    pub fn cost(&mut self) -> u64 {
        match self.random.below(8) {
            0 => self.one_of(&[0, 253, 254, 255]),
            1 => self.below(256),
            _ => self.below(12),
        }
    }

    /// A cost just below, at or just above one that is stored.
    pub fn near(&mut self, stored: u8) -> u64 {
        let stored = u64::from(stored);
        match self.random.below(4) {
            0 => stored.saturating_sub(1),
            1 => (stored + 1).min(255),
            2 => stored,
            _ => self.cost(),
        }
    }

    /// The moment of the next call: mostly a little later, sometimes earlier or at the moment when
    /// something ends.
    pub fn now(&mut self) -> u64 {
        let step = self.below(30);
        self.now = match self.random.below(16) {
            0 => self.now.saturating_sub(step),
            1 | 2 => self.an_end(),
            3 if self.profile == Profile::Clock => self.edge(),
            _ if self.profile == Profile::Clock => self.now.saturating_add(step / 8),
            _ => self.now.saturating_add(step),
        };
        self.now
    }

    /// A moment at, just before or just after the end of a discovery or a child's timeout.
    fn an_end(&mut self) -> u64 {
        let discoveries = self.world.routing.peek_discoveries().values();
        let mut ends: Vec<u64> = discoveries.map(|e| self.world.scale.ms(e.expiration_time)).collect();
        let neighbors = self.world.neighbors.peek_table().values();
        ends.extend(neighbors.map(|e| self.world.scale.ms(e.timeout_at)));
        if self.profile != Profile::Clock {
            // A far end would carry the whole script to the clock's end.
            ends.retain(|&end| end < LAST_IN_MICROS / 2 && end < self.now.saturating_add(100_000));
        }
        if ends.is_empty() {
            return self.now;
        }
        let end = self.one_of(&ends);
        match self.random.below(4) {
            0 => end.saturating_sub(1),
            1 => end.saturating_add(1),
            _ => end,
        }
    }

    /// A moment where a clock ends: the port's, the never-ending timeout's, or the Rust's own.
    fn edge(&mut self) -> u64 {
        let end = self.one_of(&[u64::MAX, u64::MAX - NEVER, LAST_IN_MICROS, LAST_IN_MICROS - NEVER, 5]);
        let off = self.below(3);
        if self.flag() == 1 { end.saturating_add(off) } else { end.saturating_sub(off) }
    }

    /// A span: short, usual, or just as long as the clock still goes.
    pub fn span(&mut self) -> u64 {
        let left = u64::MAX - self.now;
        if self.profile == Profile::Clock {
            let off = self.below(3);
            return match self.random.below(6) {
                0 => left,
                1 => left.saturating_add(1 + off),
                2 => left.saturating_sub(off),
                3 => self.one_of(&[u64::MAX, LAST_IN_MICROS, NEVER, 0, 1]),
                _ => self.below(50),
            };
        }
        // Spans that reach the clock's end are mostly left to their own profile: they take a script
        // off the microseconds.
        match self.random.below(120) {
            0 => self.one_of(&[u64::MAX, left.saturating_add(1)]),
            1 => 0,
            2..12 => 10_000,
            _ => self.below(200),
        }
    }

    /// The key of a discovery, most often one that is there.
    pub fn pair(&mut self) -> (u64, u64) {
        let keys: Vec<_> = self.world.routing.peek_discoveries().keys().copied().collect();
        if keys.is_empty() || self.random.below(3) == 0 {
            return (self.address(), self.below(4));
        }
        let (source, id) = keys[self.random.below(keys.len() as u64) as usize];
        (u64::from(source.0), u64::from(id))
    }

    /// How long a list is: short, or at the edge of a capacity.
    pub fn length(&mut self, capacity: u64) -> u64 {
        match self.random.below(40) {
            0 => capacity,
            1 => capacity + 1,
            2 => self.below(81),
            3 => capacity.saturating_sub(1),
            _ => self.below(5),
        }
    }
}

fn address(random: &mut Random, place: u64) -> u16 {
    match place {
        0 => 0,
        1 | 2 => place as u16,
        _ => random.below(0xFFF8) as u16,
    }
}
