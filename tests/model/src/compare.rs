//! The comparison of the programs with the model, byte by byte.

pub mod pairs;
mod run;
mod scripts;
mod seen;

pub use run::{Run, What};

use crate::arguments::arguments_alike;
use crate::coverage::{Coverage, ENOUGH_PAIRS, ENOUGH_RECORDS, ENOUGH_SCRIPTS};
use crate::difference::{hex, Compared};
use crate::generator::case::{case, sound, Case};
use crate::model::rules::Rules;
use crate::programs::{Itself, Printed, Programs};
use run::Teller;
use seen::{tell_seen, Seen};
use std::fmt;

/// Compares a run with the model of these rules; `again` is the command that repeats one record,
/// script or pair.
pub fn compare(run: &Run, programs: &dyn Programs, rules: &Rules, again: &str) -> bool {
    let model = Itself { rules };
    let (counts, coverage) = compare_records(run, programs, &model, again);
    let (scripts, script_coverage) = scripts::compare_scripts(run, programs, &model, again);
    let (pairs, pair_coverage) = pairs::compare_pairs(run, programs, &model, again);
    let mut alike = counts.all_alike() && scripts.all_alike() && pairs.all_alike();
    alike &= counts.records + scripts.scripts + pairs.pairs > 0;
    if run.only.is_none() {
        alike &= coverage.covered(counts.records >= ENOUGH_RECORDS);
        alike &= script_coverage.covered(scripts.scripts >= ENOUGH_SCRIPTS);
        alike &= pair_coverage.covered(pairs.pairs >= ENOUGH_PAIRS);
        alike &= counts.enough_mended();
        alike &= arguments_alike(programs);
    }
    println!("model: {counts}; {scripts}; {pairs}");
    alike
}

fn compare_records(
    run: &Run,
    programs: &dyn Programs,
    model: &Itself,
    again: &str,
) -> (Counts, Coverage) {
    let mut coverage = Coverage::of_records();
    let mut counts = Counts::default();
    let mut teller = Teller::new(What::Record, run, again);
    for number in run.numbers(What::Record) {
        let case = case(run.seed, number);
        let (expected, found) = (made(model, &case), made(programs, &case));
        counts.note(&expected, &found);
        if expected != found {
            teller.tell(number, || tell(&case, expected, found));
        }
        coverage.note(&case);
    }
    (counts, coverage)
}

/// What the programs make of a case.
#[derive(PartialEq)]
struct Made {
    seen: Seen,
    mending: Mending,
}

/// What `mend` writes to its two streams, and the table of the record that it mended.
#[derive(PartialEq)]
struct Mending {
    record: Printed,
    line: Printed,
    table: Option<Printed>,
}

/// All programs at once: starting them is most of a run's time.
fn made(programs: &dyn Programs, case: &Case) -> Made {
    std::thread::scope(|scope| {
        let table = scope.spawn(|| programs.bench(&case.shown));
        let mending = scope.spawn(|| mending(programs, case));
        let picture = programs.screen(&case.shown);
        let table = table.join().expect("a comparison does not panic");
        Made {
            seen: Seen { table, picture },
            mending: mending.join().expect("a comparison does not panic"),
        }
    })
}

/// Only what was damaged is given to `bench` again: a sound record comes out as it was.
fn mending(programs: &dyn Programs, case: &Case) -> Mending {
    let written = programs.mend(case);
    let table = match &written {
        Ok(written) if !written.record.is_empty() && !sound(&case.capture) => {
            Some(programs.written_table(&written.record))
        }
        _ => None,
    };
    Mending {
        record: written.clone().map(|written| written.record),
        line: written.map(|written| written.line),
        table,
    }
}

fn tell(case: &Case, expected: Made, found: Made) {
    tell_seen(&case.shown, expected.seen, found.seen);
    let (expected, found) = (expected.mending, found.mending);
    if expected != found {
        println!("  capture (hex): {}", hex(&case.capture));
    }
    Compared::new(expected.record, found.record).tell("mend, standard output", true);
    Compared::new(expected.line, found.line).tell("mend, standard error", false);
    if let (Some(expected), Some(found)) = (expected.table, found.table) {
        Compared::new(expected, found).tell("bench of the mended record", false);
    }
}

/// How many records there were, and how much of what was made of them is alike.
#[derive(Default)]
struct Counts {
    records: u64,
    tables: u64,
    pictures: u64,
    mendings: u64,
    /// Damaged records that were mended and then taken by `bench`.
    mended: u64,
}

impl Counts {
    fn note(&mut self, expected: &Made, found: &Made) {
        let mending = expected.mending == found.mending;
        self.records += 1;
        let (seen, due) = (&found.seen, &expected.seen);
        self.tables += u64::from(seen.table == due.table);
        self.pictures += u64::from(seen.picture == due.picture);
        self.mendings += u64::from(mending);
        self.mended += u64::from(mending && found.mending.table.is_some());
    }

    fn all_alike(&self) -> bool {
        let alike = [self.tables, self.pictures, self.mendings];
        alike == [self.records; 3]
    }

    /// A run of enough records has to mend a damaged one for every two.
    fn enough_mended(&self) -> bool {
        let enough = self.records < ENOUGH_RECORDS || 2 * self.mended >= self.records;
        if !enough {
            println!("too few damaged records mended: {}", self.mended);
        }
        enough
    }
}

impl fmt::Display for Counts {
    fn fmt(&self, to: &mut fmt::Formatter) -> fmt::Result {
        write!(
            to,
            "{} records, {} tables, {} pictures and {} mendings alike; {} damaged records mended",
            self.records, self.tables, self.pictures, self.mendings, self.mended
        )
    }
}
