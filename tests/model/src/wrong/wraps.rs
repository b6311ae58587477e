//! Wrong models of the wrap: each says yes or no where it may not, and leaves the part as it should.
//! Those that the request names come first; that of the first half is with the wiring, that of the
//! panel with the library.

use super::Wrong;
use crate::model::counter::*;
use crate::model::halves::transfer;
use crate::model::instruction::*;
use crate::model::part::{Memory, Part};
use crate::model::record::WAIT;
use crate::model::rules::{Rules, PAPER};
use crate::model::table::{table, table_line, HEADING};
use crate::model::transfer::*;

/// A wrong model whose steps from these counters say this, whatever the paper's say.
macro_rules! step_says {
    ($name:literal, $rule:ident from $counters:pat => $wrap:literal) => {
        Wrong {
            name: $name,
            rules: Rules {
                $rule: |memory, two_lines, address| {
                    let step = $rule(memory, two_lines, address);
                    match (memory, two_lines, address) {
                        $counters => Step {
                            wrap: $wrap,
                            ..step
                        },
                        _ => step,
                    }
                },
                ..PAPER
            },
        }
    };
}

/// A wrong model that says yes also with these transfers, by the part before and behind.
macro_rules! also_with {
    ($name:literal, $these:expr) => {
        Wrong {
            name: $name,
            rules: Rules {
                whole: |rules, part, bus| {
                    let these: fn(Transfer, &Part, &Part) -> bool = $these;
                    let before = part.clone();
                    let outcome = whole(rules, part, bus);
                    Outcome {
                        wrap: outcome.wrap || these(bus, &before, part),
                        ..outcome
                    }
                },
                ..PAPER
            },
        }
    };
}

/// A wrong model that says yes also with this refusal of a transfer, by the part before.
macro_rules! also_with_refusal {
    ($name:literal, $number:literal, $these:expr) => {
        Wrong {
            name: $name,
            rules: Rules {
                transfer: |rules, part, bus| {
                    let these: fn(Transfer, &Part) -> bool = $these;
                    let also = these(bus, part);
                    let outcome = transfer(rules, part, bus);
                    Outcome {
                        wrap: outcome.wrap || outcome.answer == $number && also,
                        ..outcome
                    }
                },
                ..PAPER
            },
        }
    };
}

pub const LIST: &[Wrong] = &[
    Wrong {
        name: "no-wrap-downwards",
        rules: Rules {
            step_down: |memory, two_lines, address| {
                to_the_next(step_down(memory, two_lines, address).address)
            },
            ..PAPER
        },
    },
    Wrong {
        name: "no-wrap-by-data-read",
        rules: Rules {
            read_data: |rules, part| unsaid(read_data(rules, part)),
            ..PAPER
        },
    },
    Wrong {
        name: "no-wrap-by-cursor-move",
        rules: Rules {
            move_by: |rules, part, byte| {
                move_by(rules, part, byte);
                false
            },
            ..PAPER
        },
    },
    also_with!("wrap-by-home", |bus, _, _| matches!(
        bus,
        Transfer::Instruction(0x02..=0x03)
    )),
    also_with!("wrap-by-display-address-00", |bus, _, _| {
        bus == Transfer::Instruction(0x80)
    }),
    step_says!("wrap-3f-to-40-with-one-line", step_up from (Memory::Display, false, 0x3F) => true),
    // The ends, one by one.
    step_says!("no-wrap-27-to-40", step_up from (Memory::Display, true, 0x27) => false),
    step_says!("no-wrap-67-to-00", step_up from (Memory::Display, true, 0x67) => false),
    step_says!("no-wrap-4f-to-00", step_up from (Memory::Display, false, 0x4F) => false),
    step_says!("no-wrap-3f-to-00", step_up from (Memory::Character, _, 0x3F) => false),
    step_says!("no-wrap-40-to-27", step_down from (Memory::Display, true, 0x40) => false),
    step_says!("no-wrap-00-to-67", step_down from (Memory::Display, true, 0x00) => false),
    step_says!("no-wrap-00-to-4f", step_down from (Memory::Display, false, 0x00) => false),
    step_says!("no-wrap-00-to-3f", step_down from (Memory::Character, _, 0x00) => false),
    step_says!("no-wrap-of-characters-with-two-lines", step_up from (Memory::Character, true, _) => false),
    // Steps that pass no end.
    step_says!("wrap-40-to-3f-with-one-line", step_down from (Memory::Display, false, 0x40) => true),
    step_says!("wrap-27-to-28-with-one-line", step_up from (Memory::Display, false, 0x27) => true),
    step_says!("wrap-28-to-27-with-one-line", step_down from (Memory::Display, false, 0x28) => true),
    step_says!("wrap-4f-to-50-with-two-lines", step_up from (Memory::Display, true, 0x4F) => true),
    step_says!("wrap-27-to-28-of-characters", step_up from (Memory::Character, _, 0x27) => true),
    step_says!("wrap-on-reaching-67", step_up from (Memory::Display, true, 0x66) => true),
    step_says!("wrap-on-reaching-00", step_down from (Memory::Display, _, 0x01) => true),
    step_says!("wrap-on-leaving-00-upwards", step_up from (Memory::Display, _, 0x00) => true),
    step_says!("wrap-on-leaving-40-upwards", step_up from (Memory::Display, true, 0x40) => true),
    // What steps the counter.
    Wrong {
        name: "no-wrap-by-data-write",
        rules: Rules {
            write_data: |rules, part, byte| unsaid(write_data(rules, part, byte)),
            ..PAPER
        },
    },
    Wrong {
        name: "no-wrap-by-shift-on-write",
        rules: Rules {
            write_data: |rules, part, byte| {
                let outcome = write_data(rules, part, byte);
                match part.shift_on_write {
                    true => unsaid(outcome),
                    false => outcome,
                }
            },
            ..PAPER
        },
    },
    Wrong {
        name: "no-wrap-by-cursor-move-in-character-memory",
        rules: Rules {
            move_by: |rules, part, byte| {
                let wrap = move_by(rules, part, byte);
                wrap && part.memory == Memory::Display
            },
            ..PAPER
        },
    },
    also_with!("wrap-of-the-shift", |_, before, after| {
        before.two_lines == after.two_lines && before.shift.abs_diff(after.shift) > 1
    }),
    // What does not.
    also_with!("wrap-by-display-move", |bus, _, _| matches!(
        bus,
        Transfer::Instruction(0x18..=0x1F)
    )),
    also_with!("wrap-by-display-move-at-an-end", |bus, before, _| {
        matches!(bus, Transfer::Instruction(0x18..=0x1F)) && at_an_end(before)
    }),
    also_with!("wrap-by-clear", |bus, _, _| bus
        == Transfer::Instruction(0x01)),
    also_with!("wrap-by-home-from-67", |bus, before, _| {
        matches!(bus, Transfer::Instruction(0x02..=0x03)) && before.address == 0x67
    }),
    also_with!("wrap-by-character-address-00", |bus, _, _| {
        bus == Transfer::Instruction(0x40)
    }),
    also_with!("wrap-by-address-at-an-end", |bus, before, _| {
        matches!(bus, Transfer::Instruction(0x40..=0xFF)) && at_an_end(before)
    }),
    also_with!("wrap-by-change-of-n", |_, before, after| {
        before.two_lines != after.two_lines
    }),
    also_with!("wrap-by-function-set-at-an-end", |bus, before, _| {
        matches!(bus, Transfer::Instruction(0x20..=0x3F)) && at_an_end(before)
    }),
    also_with!("wrap-by-any-leap-of-the-address", |_, before, after| {
        before.address.abs_diff(after.address) > 1
    }),
    also_with!("wrap-by-status-read-at-an-end", |bus, before, _| {
        bus == Transfer::Status && at_an_end(before)
    }),
    Wrong {
        name: "wrap-by-wait",
        rules: Rules {
            table_line: |number, event, outcome| {
                let wrap = outcome.wrap || event.kind == WAIT;
                table_line(number, event, Outcome { wrap, ..outcome })
            },
            ..PAPER
        },
    },
    // Refusals.
    also_with_refusal!("wrap-by-refused-write-at-an-end", 1, |bus, before| {
        bus.rs() && !bus.read() && at_an_end(before)
    }),
    also_with_refusal!("wrap-by-refused-read-at-an-end", 1, |bus, before| {
        bus.rs() && bus.read() && at_an_end(before)
    }),
    also_with_refusal!("wrap-by-disagreeing-half-at-an-end", 2, |_, before| {
        at_an_end(before)
    }),
    also_with_refusal!("wrap-by-refusal-3", 3, |_, _| true),
    // The column.
    Wrong {
        name: "wrap-left-out-of-lines",
        rules: Rules {
            table_line: |number, event, outcome| {
                let line = table_line(number, event, outcome);
                line[..line.len() - " 0\n".len()].to_string() + "\n"
            },
            ..PAPER
        },
    },
    Wrong {
        name: "wrap-left-out-of-heading",
        rules: Rules {
            table: |rules, events| {
                table(rules, events).replacen(HEADING, "event kind value answer result\n", 1)
            },
            ..PAPER
        },
    },
    Wrong {
        name: "wrap-before-result",
        rules: Rules {
            table_line: |number, event, outcome| {
                let exchanged = Outcome {
                    value: u8::from(outcome.wrap),
                    wrap: outcome.value > 0,
                    ..outcome
                };
                table_line(number, event, exchanged)
            },
            ..PAPER
        },
    },
];

/// The outcome without its wrap.
pub(super) fn unsaid(outcome: Outcome) -> Outcome {
    Outcome {
        wrap: false,
        ..outcome
    }
}

/// Whether a step in the set direction would pass an end.
fn at_an_end(part: &Part) -> bool {
    let rule = if part.up { step_up } else { step_down };
    rule(part.memory, part.two_lines, part.address).wrap
}
