//! The comparison of `panel`, call by call along the scripts, and of `bench` on where they end.

use super::run::{Run, Teller, What};
use crate::coverage::Coverage;
use crate::difference::{hex, Compared};
use crate::generator::script::{script, Script};
use crate::model::mend::Written;
use crate::programs::{Itself, Printed, Programs};
use std::fmt;

/// What the programs make of a script: both streams of each call, and the table of where it ends.
#[derive(PartialEq)]
struct Played {
    calls: Vec<Result<Written, String>>,
    table: Option<Printed>,
}

/// How many scripts, calls and tables there were, and how many are alike.
#[derive(Default)]
pub struct Counts {
    pub scripts: u64,
    alike: u64,
    calls: u64,
    calls_alike: u64,
    tables: u64,
    tables_alike: u64,
}

pub fn compare_scripts(
    run: &Run,
    programs: &dyn Programs,
    model: &Itself,
    again: &str,
) -> (Counts, Coverage) {
    let mut coverage = Coverage::of_scripts();
    let mut counts = Counts::default();
    let mut teller = Teller::new(What::Script, run, again);
    for number in run.numbers(What::Script) {
        let script = script(run.seed, number);
        let (expected, found) = (play(model, &script), play(programs, &script));
        counts.note(&expected, &found);
        if expected != found {
            teller.tell(number, || tell(&script, expected, found));
        }
        coverage.note_script(&script);
    }
    (counts, coverage)
}

/// All calls at once: what each is given does not hang on what a program made of those before it.
fn play(programs: &dyn Programs, script: &Script) -> Played {
    std::thread::scope(|scope| {
        let calls: Vec<_> = script
            .calls
            .iter()
            .map(|given| scope.spawn(|| programs.panel(given)))
            .collect();
        Played {
            table: script
                .record
                .as_ref()
                .map(|record| programs.written_table(record)),
            calls: calls
                .into_iter()
                .map(|call| call.join().expect("a comparison does not panic"))
                .collect(),
        }
    })
}

fn tell(script: &Script, expected: Played, found: Played) {
    let calls = expected.calls.into_iter().zip(found.calls);
    for (given, (expected, found)) in script.calls.iter().zip(calls) {
        if expected == found {
            continue;
        }
        let words: Vec<_> = given
            .words
            .iter()
            .map(|word| word.escape_ascii().to_string())
            .collect();
        println!("  panel, words: {}", words.join(" | "));
        println!("  record (hex): {}", hex(&given.record));
        let [expected, found] = [expected, found].map(streams);
        Compared::new(expected.0, found.0).tell("standard output", true);
        Compared::new(expected.1, found.1).tell("standard error", false);
    }
    if let (Some(expected), Some(found)) = (expected.table, found.table) {
        Compared::new(expected, found).tell("bench of the record at the end", false);
    }
}

fn streams(written: Result<Written, String>) -> (Printed, Printed) {
    (
        written.clone().map(|written| written.record),
        written.map(|written| written.line),
    )
}

impl Counts {
    fn note(&mut self, expected: &Played, found: &Played) {
        let pairs = expected.calls.iter().zip(&found.calls);
        self.scripts += 1;
        self.alike += u64::from(expected == found);
        self.calls += expected.calls.len() as u64;
        self.calls_alike += pairs.filter(|(expected, found)| expected == found).count() as u64;
        let table = expected.table.is_some();
        self.tables += u64::from(table);
        self.tables_alike += u64::from(table && expected.table == found.table);
    }

    pub fn all_alike(&self) -> bool {
        self.alike == self.scripts
    }
}

impl fmt::Display for Counts {
    fn fmt(&self, to: &mut fmt::Formatter) -> fmt::Result {
        write!(
            to,
            "{} of {} scripts, {} of {} calls and {} of {} tables at their ends alike",
            self.alike, self.scripts, self.calls_alike, self.calls, self.tables_alike, self.tables
        )
    }
}
