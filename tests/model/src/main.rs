//! A model of the part, written from the paper, and its comparison with the built programs.

mod arguments;
mod calls;
mod catch;
mod compare;
mod coverage;
mod difference;
mod generator;
mod joining;
mod model;
#[cfg(test)]
mod paper;
mod programs;
mod wrong;

use compare::{Run, What};
use model::rules::PAPER;
use model::table::bench;
use programs::{Built, Itself, Programs};
use std::io::{self, Read};
use std::process::ExitCode;

const USAGE: &str = "\
usage: model compare BENCH SCREEN MEND PANEL [--seed S] [--records N] [--scripts N] [--pairs N]
                     [--only NUMBER | --script NUMBER | --pair NUMBER] [--wrong NAME]
       model wrong [BENCH SCREEN MEND PANEL] [--seed S] [--records N] [--scripts N] [--pairs N]
       model calls FILE [--seed S]
       model bench < RECORD
       model names";

fn main() -> ExitCode {
    let arguments: Vec<String> = std::env::args().skip(1).collect();
    match command(&arguments) {
        Ok(true) => ExitCode::SUCCESS,
        Ok(false) => ExitCode::FAILURE,
        Err(message) => {
            eprintln!("{message}");
            ExitCode::from(2)
        }
    }
}

/// Runs a command; false is a difference.
fn command(arguments: &[String]) -> Result<bool, String> {
    let (name, rest) = arguments.split_first().ok_or(USAGE)?;
    let options = Options::new(rest)?;
    match (name.as_str(), options.programs.as_slice()) {
        ("compare", [bench, screen, mend, panel]) => {
            let rules = match &options.wrong {
                Some(name) => &wrong::named(name).ok_or("no such wrong model")?.rules,
                None => &PAPER,
            };
            let programs = Built::new([bench, screen, mend, panel])?;
            let again = options.again();
            Ok(compare::compare(&options.run, &programs, rules, &again))
        }
        ("wrong", [bench, screen, mend, panel]) => {
            let programs = Built::new([bench, screen, mend, panel])?;
            Ok(catch::catch_wrong(&options.run, &programs))
        }
        ("wrong", []) => {
            println!("no programs are given: the model stands in for them");
            let programs: &dyn Programs = &Itself { rules: &PAPER };
            Ok(catch::catch_wrong(&options.run, programs))
        }
        ("calls", [file]) => {
            calls::write(file, options.run.seed).map_err(|error| format!("{file}: {error}"))
        }
        ("bench", []) => {
            let mut record = Vec::new();
            let read = io::stdin().read_to_end(&mut record);
            read.map_err(|error| format!("standard input: {error}"))?;
            print!("{}", bench(&PAPER, &record));
            Ok(true)
        }
        ("names", []) => {
            for wrong in wrong::all() {
                let earlier = wrong::EARLIER_FIRMWARE.contains(&wrong.name);
                let note = if earlier { " (earlier firmware)" } else { "" };
                println!("{}{note}", wrong.name);
            }
            Ok(true)
        }
        _ => Err(USAGE.to_string()),
    }
}

struct Options {
    programs: Vec<String>,
    run: Run,
    wrong: Option<String>,
}

impl Options {
    fn new(arguments: &[String]) -> Result<Options, String> {
        let mut options = Options {
            programs: Vec::new(),
            run: Run {
                seed: 1,
                records: 2000,
                scripts: 500,
                pairs: 300,
                only: None,
            },
            wrong: None,
        };
        let mut words = arguments.iter();
        while let Some(word) = words.next() {
            if !word.starts_with("--") {
                options.programs.push(word.clone());
                continue;
            }
            let value = words.next().ok_or(USAGE)?;
            let number = || value.parse().map_err(|_| USAGE.to_string());
            match word.as_str() {
                "--seed" => options.run.seed = number()?,
                "--records" => options.run.records = number()?,
                "--scripts" => options.run.scripts = number()?,
                "--pairs" => options.run.pairs = number()?,
                "--only" => options.run.only = Some((What::Record, number()?)),
                "--script" => options.run.only = Some((What::Script, number()?)),
                "--pair" => options.run.only = Some((What::Pair, number()?)),
                "--wrong" => options.wrong = Some(value.clone()),
                _ => return Err(USAGE.to_string()),
            }
        }
        Ok(options)
    }

    /// The command that repeats one record, script or pair, but for its seed and number.
    fn again(&self) -> String {
        let wrong = self.wrong.iter().map(|name| format!(" --wrong {name}"));
        let wrong: String = wrong.collect();
        let programs = self.programs.join(" ");
        format!("tests/model/run compare {programs}{wrong}")
    }
}
