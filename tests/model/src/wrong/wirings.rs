//! Wrong models of the wiring: a story on four lines is then another than on eight, so that joining
//! alone catches each of them.

use super::wraps::unsaid;
use super::Wrong;
use crate::model::counter::*;
use crate::model::halves::*;
use crate::model::instruction::*;
use crate::model::part::{Half, Memory, Part};
use crate::model::rules::{Rules, PAPER};
use crate::model::transfer::*;

/// A wrong model whose second halves alone go by a wrong rule: by this one, or by that of the wrong
/// model of records with this name.
macro_rules! on_four_lines {
    ($name:literal, $rule:ident: $wrong:expr) => {
        on_four_lines!(
            $name by Rules {
                $rule: $wrong,
                ..PAPER
            }
        )
    };
    ($name:literal) => {
        on_four_lines!($name by super::named($name).expect("a wrong model of this name").rules)
    };
    ($name:literal by $rules:expr) => {
        Wrong {
            name: concat!($name, "-on-four-lines"),
            rules: Rules {
                second_half: |_, part, half, bus| second_half(&$rules, part, half, bus),
                ..PAPER
            },
        }
    };
}

pub const LIST: &[Wrong] = &[
    Wrong {
        name: "restart-drops-half",
        rules: Rules {
            transfer: |rules, part, bus| {
                let restarts = matches!(bus, Transfer::Instruction(0x30..=0x3F));
                if restarts && part.half.is_some_and(|half| half.upper != 3) {
                    part.half = None;
                }
                transfer(rules, part, bus)
            },
            ..PAPER
        },
    },
    Wrong {
        name: "refused-write-waits-as-half",
        rules: Rules {
            transfer: |rules, part, bus| {
                let outcome = transfer(rules, part, bus);
                if outcome.answer == 1 && !bus.read() && !part.eight_lines {
                    part.half = Some(first_of(bus));
                }
                outcome
            },
            ..PAPER
        },
    },
    Wrong {
        name: "first-half-taken-when-busy",
        rules: Rules {
            refused_busy: |part, bus| refused_busy(part, bus) && !awaits_first(part),
            ..PAPER
        },
    },
    Wrong {
        name: "first-status-half-refused-when-busy",
        rules: Rules {
            refused_busy: |part, bus| {
                refused_busy(part, bus) || part.busy > 0 && awaits_first(part)
            },
            ..PAPER
        },
    },
    Wrong {
        name: "second-status-half-refused-when-busy",
        rules: Rules {
            refused_busy: |part, bus| {
                refused_busy(part, bus) || part.busy > 0 && part.half.is_some()
            },
            ..PAPER
        },
    },
    Wrong {
        name: "refused-read-half-answers-byte",
        rules: Rules {
            transfer: |rules, part, bus| {
                let byte = whole(rules, &mut part.clone(), bus).value;
                let outcome = transfer(rules, part, bus);
                match (outcome.answer, part.eight_lines) {
                    (1, false) => Outcome {
                        value: byte & 0xF0,
                        ..outcome
                    },
                    _ => outcome,
                }
            },
            ..PAPER
        },
    },
    Wrong {
        name: "first-half-costs-ticks",
        rules: Rules {
            first_half: |rules, part, bus| {
                let outcome = first_half(rules, part, bus);
                part.busy = part.busy.max(10);
                outcome
            },
            ..PAPER
        },
    },
    Wrong {
        name: "first-read-half-acts",
        rules: Rules {
            first_half: |rules, part, bus| {
                let outcome = first_half(rules, part, bus);
                if bus.read() {
                    whole(rules, part, bus);
                }
                outcome
            },
            ..PAPER
        },
    },
    Wrong {
        name: "first-read-half-steps",
        rules: Rules {
            first_half: |rules, part, bus| {
                let outcome = first_half(rules, part, bus);
                if bus == Transfer::Read {
                    step(rules, part, part.up);
                }
                outcome
            },
            ..PAPER
        },
    },
    Wrong {
        name: "first-write-half-steps",
        rules: Rules {
            first_half: |rules, part, bus| {
                if bus.rs() && !bus.read() {
                    step(rules, part, part.up);
                }
                first_half(rules, part, bus)
            },
            ..PAPER
        },
    },
    Wrong {
        name: "first-write-half-acts",
        rules: Rules {
            first_half: |rules, part, bus| {
                if !bus.read() {
                    whole(rules, part, bus.of(bus.lines() & 0xF0));
                    part.busy = 0;
                }
                first_half(rules, part, bus)
            },
            ..PAPER
        },
    },
    Wrong {
        name: "first-read-half-uncut",
        rules: Rules {
            first_half: |rules, part, bus| {
                let value = whole(rules, &mut part.clone(), bus).value;
                let outcome = first_half(rules, part, bus);
                Outcome { value, ..outcome }
            },
            ..PAPER
        },
    },
    Wrong {
        name: "first-read-half-is-lower",
        rules: Rules {
            first_half: |rules, part, bus| {
                let lower = whole(rules, &mut part.clone(), bus).value << 4;
                let outcome = first_half(rules, part, bus);
                Outcome {
                    value: if bus.read() { lower } else { 0 },
                    ..outcome
                }
            },
            ..PAPER
        },
    },
    Wrong {
        name: "first-status-half-without-address",
        rules: Rules {
            first_half: |rules, part, bus| first_half_of_status(rules, part, bus, 0x80),
            ..PAPER
        },
    },
    Wrong {
        name: "first-status-half-without-busy",
        rules: Rules {
            first_half: |rules, part, bus| first_half_of_status(rules, part, bus, 0x70),
            ..PAPER
        },
    },
    Wrong {
        name: "refusal-3-at-first-half",
        rules: Rules {
            first_half: |rules, part, bus| match bus {
                Transfer::Instruction(0x80..=0xFF)
                    if !has_address(part.two_lines, bus.lines() & 0x70) =>
                {
                    refused(3)
                }
                _ => first_half(rules, part, bus),
            },
            ..PAPER
        },
    },
    Wrong {
        name: "lower-lines-of-first-half-leak",
        rules: Rules {
            first_half: |rules, part, bus| first_half(rules, part, leaked(bus)),
            ..PAPER
        },
    },
    Wrong {
        name: "lower-lines-of-second-half-leak",
        rules: Rules {
            second_half: |rules, part, half, bus| second_half(rules, part, half, leaked(bus)),
            ..PAPER
        },
    },
    Wrong {
        name: "lower-lines-count",
        rules: Rules {
            second_half: |rules, part, half, bus| {
                second_half(rules, part, half, bus.of(bus.lines() << 4))
            },
            ..PAPER
        },
    },
    Wrong {
        name: "lower-half-first",
        rules: Rules {
            second_half: |rules, part, half, bus| {
                let exchanged = Half {
                    upper: bus.lines() >> 4,
                    ..half
                };
                second_half(rules, part, exchanged, bus.of(half.upper << 4))
            },
            ..PAPER
        },
    },
    Wrong {
        name: "lower-half-acts-alone",
        rules: Rules {
            second_half: |rules, part, half, bus| {
                let alone = Half { upper: 0, ..half };
                second_half(rules, part, alone, bus)
            },
            ..PAPER
        },
    },
    Wrong {
        name: "upper-half-acts-alone",
        rules: Rules {
            second_half: |rules, part, half, bus| second_half(rules, part, half, bus.of(0)),
            ..PAPER
        },
    },
    Wrong {
        name: "second-read-half-in-low-bits",
        rules: Rules {
            second_half: |rules, part, half, bus| {
                let outcome = second_half(rules, part, half, bus);
                Outcome {
                    value: outcome.value >> 4,
                    ..outcome
                }
            },
            ..PAPER
        },
    },
    Wrong {
        name: "second-read-half-is-upper-again",
        rules: Rules {
            second_half: |rules, part, half, bus| {
                let upper = whole(rules, &mut part.clone(), bus).value & 0xF0;
                let outcome = second_half(rules, part, half, bus);
                Outcome {
                    value: if bus.read() { upper } else { 0 },
                    ..outcome
                }
            },
            ..PAPER
        },
    },
    Wrong {
        name: "read-halves-exchanged",
        rules: Rules {
            whole: |rules, part, bus| {
                let outcome = whole(rules, part, bus);
                match part.eight_lines {
                    true => outcome,
                    false => Outcome {
                        value: outcome.value.rotate_left(4),
                        ..outcome
                    },
                }
            },
            ..PAPER
        },
    },
    Wrong {
        name: "refusal-3-keeps-half",
        rules: Rules {
            second_half: |rules, part, half, bus| {
                let outcome = second_half(rules, part, half, bus);
                if outcome.answer == 3 {
                    part.half = Some(half);
                }
                outcome
            },
            ..PAPER
        },
    },
    Wrong {
        name: "function-set-keeps-half",
        rules: Rules {
            second_half: |rules, part, half, bus| {
                let outcome = second_half(rules, part, half, bus);
                if !half.rs && !half.read && matches!(half.upper, 2 | 3) {
                    part.half = Some(half);
                }
                outcome
            },
            ..PAPER
        },
    },
    Wrong {
        name: "ticks-twice-on-four-lines",
        rules: Rules {
            second_half: |rules, part, half, bus| {
                let outcome = second_half(rules, part, half, bus);
                if bus != Transfer::Status {
                    part.busy *= 2;
                }
                outcome
            },
            ..PAPER
        },
    },
    Wrong {
        name: "no-ticks-on-four-lines",
        rules: Rules {
            second_half: |rules, part, half, bus| {
                let outcome = second_half(rules, part, half, bus);
                if bus != Transfer::Status {
                    part.busy = 0;
                }
                outcome
            },
            ..PAPER
        },
    },
    Wrong {
        name: "data-of-20-to-3f-sets-function-on-four-lines",
        rules: Rules {
            second_half: |rules, part, half, bus| {
                let sets = half.rs && !half.read && matches!(half.upper, 2 | 3);
                let bus = if sets {
                    Transfer::Instruction(bus.lines())
                } else {
                    bus
                };
                second_half(rules, part, half, bus)
            },
            ..PAPER
        },
    },
    Wrong {
        name: "n-lost-on-four-lines",
        rules: Rules {
            function: |part, byte| {
                let kept = if bit(byte, 4) { byte } else { byte & 0xF7 };
                function(part, kept);
            },
            ..PAPER
        },
    },
    Wrong {
        name: "f-lost-on-four-lines",
        rules: Rules {
            function: |part, byte| {
                function(part, byte);
                part.tall &= part.eight_lines;
            },
            ..PAPER
        },
    },
    Wrong {
        name: "address-lost-on-four-lines",
        rules: Rules {
            function: |part, byte| {
                function(part, byte);
                if !part.eight_lines {
                    point(part, Memory::Display, 0x00);
                }
            },
            ..PAPER
        },
    },
    Wrong {
        name: "wrap-with-first-half",
        rules: Rules {
            first_half: first_half_with_wrap,
            ..PAPER
        },
    },
    Wrong {
        name: "wrap-with-first-half-alone",
        rules: Rules {
            first_half: first_half_with_wrap,
            second_half: |rules, part, half, bus| unsaid(second_half(rules, part, half, bus)),
            ..PAPER
        },
    },
    Wrong {
        name: "no-wrap-on-four-lines",
        rules: Rules {
            second_half: |rules, part, half, bus| unsaid(second_half(rules, part, half, bus)),
            ..PAPER
        },
    },
    on_four_lines!("any-address-taken", has_address: |_, _| true),
    on_four_lines!("display-stays-off", settings: |part, byte| settings(part, byte & 0x03)),
    on_four_lines!("no-shift-on-write", write_data: |rules, part, byte| {
        let shift = part.shift;
        let outcome = write_data(rules, part, byte);
        part.shift = shift;
        outcome
    }),
    on_four_lines!("write-does-not-step", write_data: |rules, part, byte| {
        let address = part.address;
        let outcome = write_data(rules, part, byte);
        part.address = address;
        outcome
    }),
    on_four_lines!("read-does-not-step", read_data: |rules, part| {
        let address = part.address;
        let outcome = read_data(rules, part);
        part.address = address;
        outcome
    }),
    on_four_lines!("27-to-28"),
    on_four_lines!("shift-stops-at-0"),
    on_four_lines!("00-takes-no-ticks"),
    on_four_lines!("home-takes-10-ticks"),
    on_four_lines!("home-keeps-shift"),
    on_four_lines!("clear-leaves-direction"),
    on_four_lines!("refusal-3-takes-ticks"),
    on_four_lines!("status-takes-ticks"),
    on_four_lines!("reads-move-display"),
    on_four_lines!("writes-step-up-only"),
    on_four_lines!("character-memory-holds-five-bits"),
    on_four_lines!("no-wrap-downwards"),
    on_four_lines!("no-wrap-by-data-read"),
    on_four_lines!("no-wrap-by-cursor-move"),
    on_four_lines!("wrap-by-home"),
    on_four_lines!("wrap-by-display-address-00"),
    on_four_lines!("wrap-3f-to-40-with-one-line"),
    on_four_lines!("wrap-by-status-read-at-an-end"),
];

fn awaits_first(part: &Part) -> bool {
    !part.eight_lines && part.half.is_none()
}

fn first_of(bus: Transfer) -> Half {
    Half {
        rs: bus.rs(),
        read: bus.read(),
        upper: bus.lines() >> 4,
    }
}

/// Of a status read only these bits are answered with the first half.
fn first_half_of_status(rules: &Rules, part: &mut Part, bus: Transfer, kept: u8) -> Outcome {
    let outcome = first_half(rules, part, bus);
    let kept = if bus == Transfer::Status { kept } else { 0xF0 };
    Outcome {
        value: outcome.value & kept,
        ..outcome
    }
}

/// It says what its own four lines would, followed by zeros.
fn first_half_with_wrap(rules: &Rules, part: &mut Part, bus: Transfer) -> Outcome {
    let wrap = whole(rules, &mut part.clone(), bus.of(bus.lines() & 0xF0)).wrap;
    let outcome = first_half(rules, part, bus);
    Outcome { wrap, ..outcome }
}

/// The lower lines are seen on the upper ones too.
fn leaked(bus: Transfer) -> Transfer {
    bus.of(bus.lines() | bus.lines() << 4)
}
