//! What a random script can aim at.

/// What a script aims at.
#[derive(Debug, Clone, Copy, PartialEq, Eq)]
pub enum Profile {
    /// Few addresses, so that keys collide.
    Keys,
    /// Route searches, and their expiry.
    Discovery,
    /// Route records and source routes.
    Records,
    /// Neighbours and link status.
    Neighbors,
    /// The decision.
    Decisions,
    /// Tables at capacity.
    Full,
    /// Times at the clock's end, and where the Rust's own clock ends.
    Clock,
    /// Lines that are no call.
    Lines,
    /// Neighbours put in ill formed.
    Damage,
}

pub const PROFILES: [(&str, Profile); 9] = [
    ("keys", Profile::Keys),
    ("discovery", Profile::Discovery),
    ("records", Profile::Records),
    ("neighbours", Profile::Neighbors),
    ("decisions", Profile::Decisions),
    ("full", Profile::Full),
    ("clock", Profile::Clock),
    ("lines", Profile::Lines),
    ("damage", Profile::Damage),
];

impl Profile {
    pub fn named(name: &str) -> Option<Self> {
        PROFILES.iter().find(|(known, _)| *known == name).map(|&(_, profile)| profile)
    }

    pub fn name(self) -> &'static str {
        PROFILES.iter().find(|(_, profile)| *profile == self).map_or("", |(name, _)| name)
    }

    /// How many addresses a script uses.
    pub fn addresses(self) -> u64 {
        match self {
            Self::Keys | Self::Damage => 4,
            Self::Discovery | Self::Decisions | Self::Clock | Self::Lines => 7,
            Self::Neighbors => 9,
            Self::Records => 14,
            Self::Full => 84,
        }
    }

    /// How many calls stand between two lines that print the tables.
    pub fn between_tables(self) -> u64 {
        if self == Self::Full { 400 } else { 80 }
    }
}
