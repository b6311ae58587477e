//! Wrong models: each replaces one of the rules. The comparison has to catch every one.

mod counters;
mod halves;
mod instructions;
mod libraries;
mod mends;
mod panels;
mod pictures;
mod records;
mod wirings;
mod wraps;

use crate::model::rules::Rules;

pub struct Wrong {
    pub name: &'static str,
    pub rules: Rules,
}

/// The paper's errors seen in earlier firmware.
pub const EARLIER_FIRMWARE: [&str; 5] = [
    "restart-drops-half",
    "busy-write-counts-as-half",
    "27-to-28",
    "reads-move-display",
    "n-change-keeps-address",
];

/// Those that records catch.
pub fn of_records() -> Vec<&'static Wrong> {
    let lists = [
        counters::LIST,
        instructions::LIST,
        halves::LIST,
        wraps::LIST,
        wirings::LIST,
        pictures::LIST,
        records::LIST,
        mends::LIST,
    ];
    lists.into_iter().flatten().collect()
}

/// Those that scripts catch.
pub fn of_scripts() -> Vec<&'static Wrong> {
    panels::LIST.iter().collect()
}

/// Those that calls from C catch.
pub fn of_calls() -> Vec<&'static Wrong> {
    libraries::LIST.iter().collect()
}

/// Those of `of_records` that pairs catch too, by joining alone.
pub fn of_pairs() -> Vec<&'static Wrong> {
    wirings::LIST.iter().collect()
}

pub fn all() -> Vec<&'static Wrong> {
    [of_records(), of_scripts(), of_calls()].concat()
}

pub fn named(name: &str) -> Option<&'static Wrong> {
    all().into_iter().find(|wrong| wrong.name == name)
}
