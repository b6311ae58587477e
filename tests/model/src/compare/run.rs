//! A run: its seed, how many inputs of each kind it has, and how its differences are told.

use std::ops::Range;

/// So many differences of a kind are told in full; all are counted.
const TOLD: u64 = 5;

/// A kind of input.
#[derive(Clone, Copy, PartialEq, Eq)]
pub enum What {
    Record,
    Script,
    Pair,
}

impl What {
    pub fn name(self) -> &'static str {
        match self {
            What::Record => "record",
            What::Script => "script",
            What::Pair => "pair",
        }
    }

    /// The option that asks for one alone.
    fn option(self) -> &'static str {
        match self {
            What::Record => "--only",
            What::Script => "--script",
            What::Pair => "--pair",
        }
    }
}

pub struct Run {
    pub seed: u64,
    pub records: u64,
    pub scripts: u64,
    pub pairs: u64,
    /// The number of one that is asked for alone.
    pub only: Option<(What, u64)>,
}

impl Run {
    pub fn numbers(&self, what: What) -> Range<u64> {
        let count = match what {
            What::Record => self.records,
            What::Script => self.scripts,
            What::Pair => self.pairs,
        };
        match self.only {
            None => 1..count + 1,
            Some((only, number)) if only == what => number..number + 1,
            Some(_) => 0..0,
        }
    }
}

/// Tells the first differences, each with the command that repeats it.
pub struct Teller<'r> {
    what: What,
    seed: u64,
    again: &'r str,
    told: u64,
}

impl Teller<'_> {
    pub fn new<'r>(what: What, run: &Run, again: &'r str) -> Teller<'r> {
        Teller {
            what,
            seed: run.seed,
            again,
            told: 0,
        }
    }

    pub fn tell(&mut self, number: u64, difference: impl FnOnce()) {
        if self.told == TOLD {
            return;
        }
        self.told += 1;
        let (seed, option) = (self.seed, self.what.option());
        println!("{} {number} of seed {seed} differs", self.what.name());
        difference();
        println!("  again: {} --seed {seed} {option} {number}", self.again);
    }
}
