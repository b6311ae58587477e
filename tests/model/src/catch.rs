//! The trial of the wrong models: the comparison has to catch every one.

use crate::compare::pairs::told;
use crate::compare::{Run, What};
use crate::generator::calls::calls;
use crate::generator::case::{case, Case};
use crate::generator::pair::{pair, Pair};
use crate::generator::script::{script, Script};
use crate::model::library::Call;
use crate::model::mend::Written;
use crate::model::rules::PAPER;
use crate::programs::{Itself, Printed, Programs};
use crate::wrong::{self, Wrong};

/// A wrong model and the first record, script, call from C or pair that caught it.
struct Caught {
    wrong: &'static Wrong,
    first: Option<u64>,
}

/// Tries the wrong models of the panel on scripts, those of the library on calls from C, and all
/// others on records; those of the wiring once more on pairs, by joining alone.
pub fn catch_wrong(run: &Run, programs: &dyn Programs) -> bool {
    let on_records = Trial {
        what: What::Record,
        run,
        input: case,
        printed,
    };
    let on_scripts = Trial {
        what: What::Script,
        run,
        input: script,
        printed: called,
    };
    let on_pairs = Trial {
        what: What::Pair,
        run,
        input: pair,
        printed: joins,
    };
    let records = on_records.try_all(programs, wrong::of_records());
    let scripts = on_scripts.try_all(programs, wrong::of_scripts());
    let calls = try_on_calls(run.seed);
    let pairs = on_pairs.try_all(programs, wrong::of_pairs());
    println!(
        "model: {} of {} wrong models caught in {} records, {} scripts and {} calls from C, \
         {} of {} by joining {} pairs",
        records.caught + scripts.caught + calls.caught,
        records.wrong + scripts.wrong + calls.wrong,
        records.alike,
        scripts.alike,
        calls.alike,
        pairs.caught,
        pairs.wrong,
        pairs.alike
    );
    [records, scripts, calls, pairs]
        .iter()
        .all(|tried| tried.caught == tried.wrong && tried.differing == 0)
}

/// Inputs of a seed, and what programs print for one.
struct Trial<'r, Input, Output> {
    what: What,
    run: &'r Run,
    input: fn(u64, u64) -> Input,
    printed: fn(&dyn Programs, &Input) -> Output,
}

/// How many wrong models were tried and caught; on how many inputs the programs were as the paper
/// says, and on how many not.
#[derive(Default)]
struct Tried {
    wrong: usize,
    caught: usize,
    alike: usize,
    differing: usize,
}

impl Tried {
    /// Tells of each by what it was caught.
    fn tell(what: &str, list: &[Caught]) -> Tried {
        for caught in list {
            let name = caught.wrong.name;
            match caught.first {
                Some(first) => println!("{name}: caught at {what} {first}"),
                None => println!("{name}: NOT CAUGHT"),
            }
        }
        Tried {
            wrong: list.len(),
            caught: list.iter().filter(|caught| caught.first.is_some()).count(),
            ..Tried::default()
        }
    }
}

impl<Input, Output: PartialEq> Trial<'_, Input, Output> {
    /// Runs every wrong model beside the programs until an input catches it: one where the programs
    /// print what the paper's rules say and the wrong model does not.
    fn try_all(self, programs: &dyn Programs, wrong: Vec<&'static Wrong>) -> Tried {
        let (what, seed) = (self.what.name(), self.run.seed);
        let mut list: Vec<Caught> = wrong
            .into_iter()
            .map(|wrong| Caught { wrong, first: None })
            .collect();
        let (mut alike, mut differing) = (0, 0);
        for number in self.run.numbers(self.what) {
            let input = (self.input)(seed, number);
            let right = (self.printed)(&Itself { rules: &PAPER }, &input);
            if (self.printed)(programs, &input) != right {
                println!("{what} {number} of seed {seed} differs: see compare");
                differing += 1;
                continue;
            }
            alike += 1;
            for caught in list.iter_mut().filter(|caught| caught.first.is_none()) {
                let rules = &caught.wrong.rules;
                if (self.printed)(&Itself { rules }, &input) != right {
                    caught.first = Some(number);
                }
            }
        }
        Tried {
            alike,
            differing,
            ..Tried::tell(what, &list)
        }
    }
}

/// Tries those of the library: what one of the calls leaves has to be another, as `tests/c` would see
/// it. No program makes these calls, so the model stands alone.
fn try_on_calls(seed: u64) -> Tried {
    let calls = calls(seed);
    let right: Vec<_> = calls.iter().map(Call::left).collect();
    let first = |wrong: &Wrong| {
        let mut beside = calls.iter().zip(&right);
        beside.position(|(call, right)| call.left_by(&wrong.rules) != *right)
    };
    let list: Vec<Caught> = wrong::of_calls()
        .into_iter()
        .map(|wrong| Caught {
            wrong,
            first: first(wrong).map(|place| place as u64 + 1),
        })
        .collect();
    Tried {
        alike: calls.len(),
        ..Tried::tell("call", &list)
    }
}

type AllPrinted = (Printed, Printed, Result<Written, String>);

fn printed(programs: &dyn Programs, case: &Case) -> AllPrinted {
    (
        programs.bench(&case.shown),
        programs.screen(&case.shown),
        programs.mend(case),
    )
}

fn called(programs: &dyn Programs, script: &Script) -> Vec<Result<Written, String>> {
    let calls = script.calls.iter();
    calls.map(|given| programs.panel(given)).collect()
}

fn joins(programs: &dyn Programs, pair: &Pair) -> bool {
    told(programs, pair).joined(pair).is_ok()
}
