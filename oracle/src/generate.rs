//! Random scripts from a seed.
//!
//! The generator runs its own oracle beside the script that it writes, so that the writer of the
//! next line knows the state that it aims at, and the tables can be filled up.

use crate::answer::Answer;
use crate::clock::Scale;
use crate::parse::passed_over;
use crate::profile::Profile;
use crate::writer::Writer;
use crate::{dispatch, words};

/// A script in the making.
pub struct Generator {
    writer: Writer,
    /// The answer to the line written last.
    answers: Answer,
    /// How many calls so far ran on the Rust's own microseconds.
    pub in_micros: u64,
    /// Whether the tables are being filled up.
    filling: bool,
    wheel: Vec<&'static str>,
}

impl Generator {
    pub fn new(profile: Profile, seed: u64) -> Self {
        Self {
            writer: Writer::new(profile, seed),
            answers: Answer::default(),
            in_micros: 0,
            filling: profile == Profile::Full,
            wheel: words::wheel(profile),
        }
    }

    /// A script of `calls` lines that answer, given line by line: the line, and what it adds to the
    /// answers.
    pub fn script(&mut self, calls: u64, mut each: impl FnMut(&[u8], &[u8])) {
        let mut made = 0;
        while made < calls {
            self.write(made + 1 == calls);
            let Writer { world, line, .. } = &mut self.writer;
            self.answers.text.clear();
            dispatch::line(world, line, &mut self.answers);
            each(line, &self.answers.text);
            let calls = u64::from(!passed_over(line));
            made += calls;
            self.in_micros += if world.scale == Scale::Micros { calls } else { 0 };
        }
    }

    /// Writes the next line. The last one prints the tables.
    fn write(&mut self, last: bool) {
        let w = &mut self.writer;
        if last || w.below(w.profile.between_tables()) == 0 {
            w.start("tables");
        } else if self.filling {
            self.filling = words::fill(w);
        } else {
            self.filling = w.profile == Profile::Full && w.below(120) == 0;
            let word = self.wheel[w.below(self.wheel.len() as u64) as usize];
            words::write(w, word);
            if w.profile == Profile::Lines && w.below(3) == 0 {
                words::spoil(w);
            }
        }
    }
}
