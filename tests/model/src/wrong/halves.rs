//! Wrong models of busy refusals and halves.

use super::Wrong;
use crate::model::halves::*;
use crate::model::part::Half;
use crate::model::rules::{Rules, PAPER};
use crate::model::transfer::{Outcome, Transfer};

pub const LIST: &[Wrong] = &[
    Wrong {
        name: "busy-write-counts-as-half",
        rules: Rules {
            transfer: |rules, part, bus| {
                let outcome = transfer(rules, part, bus);
                if outcome.answer == 1 && !bus.read() && !part.eight_lines {
                    part.half = match part.half {
                        Some(_) => None,
                        None => Some(Half {
                            rs: bus.rs(),
                            read: false,
                            upper: bus.lines() >> 4,
                        }),
                    };
                }
                outcome
            },
            ..PAPER
        },
    },
    Wrong {
        name: "refusal-1-drops-half",
        rules: Rules {
            transfer: |rules, part, bus| {
                let outcome = transfer(rules, part, bus);
                if outcome.answer == 1 {
                    part.half = None;
                }
                outcome
            },
            ..PAPER
        },
    },
    Wrong {
        name: "disagreeing-half-kept",
        rules: Rules {
            transfer: |rules, part, bus| {
                let outcome = transfer(rules, part, bus);
                if outcome.answer == 2 {
                    first_half(rules, part, bus);
                }
                outcome
            },
            ..PAPER
        },
    },
    Wrong {
        name: "refusal-2-keeps-half",
        rules: Rules {
            transfer: |rules, part, bus| {
                let half = part.half;
                let outcome = transfer(rules, part, bus);
                if outcome.answer == 2 {
                    part.half = half;
                }
                outcome
            },
            ..PAPER
        },
    },
    Wrong {
        name: "refusal-2-returns-status",
        rules: Rules {
            transfer: |rules, part, bus| {
                let outcome = transfer(rules, part, bus);
                match (outcome.answer, bus) {
                    (2, Transfer::Status) => Outcome {
                        value: (rules.status)(part) & 0xF0,
                        ..outcome
                    },
                    _ => outcome,
                }
            },
            ..PAPER
        },
    },
    Wrong {
        name: "refusal-2-before-1",
        rules: Rules {
            transfer: |rules, part, bus| {
                if part.half.is_some_and(|half| !agree(half, bus)) {
                    part.busy = 0;
                }
                transfer(rules, part, bus)
            },
            ..PAPER
        },
    },
    Wrong {
        name: "status-refused-when-busy",
        rules: Rules {
            refused_busy: |part, _| part.busy > 0,
            ..PAPER
        },
    },
    Wrong {
        name: "second-half-taken-when-busy",
        rules: Rules {
            refused_busy: |part, bus| refused_busy(part, bus) && part.half.is_none(),
            ..PAPER
        },
    },
    Wrong {
        name: "another-rs-completes",
        rules: Rules {
            agree: |half, bus| half.read == bus.read(),
            ..PAPER
        },
    },
    Wrong {
        name: "another-rw-completes",
        rules: Rules {
            agree: |half, bus| half.rs == bus.rs(),
            ..PAPER
        },
    },
];
