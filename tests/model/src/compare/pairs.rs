//! The comparison of pairs: with the model, and what the programs print for the one wiring with what
//! they print for the other.

use super::run::{Run, Teller, What};
use super::seen::{tell_seen, Seen};
use crate::coverage::Coverage;
use crate::generator::pair::{pair, Pair};
use crate::joining::join;
use crate::programs::{Itself, Programs};
use std::fmt;

/// What the programs make of a pair: on eight lines, then on four.
#[derive(PartialEq)]
pub struct Told([Seen; 2]);

/// How many pairs there were, how many are alike, and the transfers that were joined in them.
#[derive(Default)]
pub struct Counts {
    pub pairs: u64,
    alike: u64,
    transfers: u64,
}

pub fn compare_pairs(
    run: &Run,
    programs: &dyn Programs,
    model: &Itself,
    again: &str,
) -> (Counts, Coverage) {
    let mut coverage = Coverage::of_pairs();
    let mut counts = Counts::default();
    let mut teller = Teller::new(What::Pair, run, again);
    for number in run.numbers(What::Pair) {
        let pair = pair(run.seed, number);
        let (expected, found) = (told(model, &pair), told(programs, &pair));
        counts.pairs += 1;
        match found.joined(&pair) {
            Ok(transfers) if expected == found => {
                counts.alike += 1;
                counts.transfers += transfers;
            }
            _ => teller.tell(number, || tell(&pair, expected, found)),
        }
        coverage.note_pair(&pair);
    }
    (counts, coverage)
}

/// Both tables at once; the pictures one behind the other, since they share the file of the ROM.
pub fn told(programs: &dyn Programs, pair: &Pair) -> Told {
    std::thread::scope(|scope| {
        let wirings = pair.wirings.each_ref();
        let started = wirings.map(|shown| (shown, scope.spawn(move || programs.bench(shown))));
        Told(started.map(|(shown, table)| Seen {
            picture: programs.screen(shown),
            table: table.join().expect("a comparison does not panic"),
        }))
    })
}

impl Told {
    /// How many transfers were joined, or where the two wirings tell another story: by what was
    /// printed alone. Pictures show what no row does: shift, font, lights and cells that are not
    /// read.
    pub fn joined(&self, pair: &Pair) -> Result<u64, String> {
        let Told([eight, four]) = self;
        let (on_eight, on_four) = (eight.table.as_ref()?, four.table.as_ref()?);
        let transfers = join(&pair.parting, on_eight, on_four)?;
        match eight.picture == four.picture {
            true => Ok(transfers),
            false => Err("the picture on four lines is another".to_string()),
        }
    }
}

fn tell(pair: &Pair, expected: Told, found: Told) {
    for (whose, told) in [("the model", &expected), ("the programs", &found)] {
        if let Err(unlike) = told.joined(pair) {
            println!("  {whose}, joined: {unlike}");
        }
    }
    let wirings = ["eight", "four"].into_iter().zip(&pair.wirings);
    let seen = expected.0.into_iter().zip(found.0);
    for ((lines, shown), (expected, found)) in wirings.zip(seen) {
        println!("  on {lines} lines");
        tell_seen(shown, expected, found);
    }
}

impl Counts {
    pub fn all_alike(&self) -> bool {
        self.alike == self.pairs
    }
}

impl fmt::Display for Counts {
    fn fmt(&self, to: &mut fmt::Formatter) -> fmt::Result {
        write!(
            to,
            "{} of {} pairs alike, {} transfers joined",
            self.alike, self.pairs, self.transfers
        )
    }
}
