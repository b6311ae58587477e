//! Wrong models of instructions and whole transfers.

use super::Wrong;
use crate::model::counter::addressed;
use crate::model::instruction::*;
use crate::model::part::{Memory, Part};
use crate::model::rules::{Rules, PAPER};
use crate::model::transfer::*;

pub const LIST: &[Wrong] = &[
    Wrong {
        name: "03-does-nothing",
        rules: Rules {
            decide: |byte| match byte {
                0x03 => Instruction::Nothing,
                _ => decide(byte),
            },
            ..PAPER
        },
    },
    Wrong {
        name: "lowest-bit-decides",
        rules: Rules {
            decide: |byte| decide(byte & byte.wrapping_neg()),
            ..PAPER
        },
    },
    Wrong {
        name: "00-takes-no-ticks",
        rules: Rules {
            ticks: |instruction| match instruction {
                Instruction::Nothing => 0,
                _ => ticks(instruction),
            },
            ..PAPER
        },
    },
    Wrong {
        name: "home-takes-10-ticks",
        rules: Rules {
            ticks: |instruction| match instruction {
                Instruction::Home => 10,
                _ => ticks(instruction),
            },
            ..PAPER
        },
    },
    Wrong {
        name: "clear-takes-409-ticks",
        rules: Rules {
            ticks: |instruction| match instruction {
                Instruction::Clear => 409,
                _ => ticks(instruction),
            },
            ..PAPER
        },
    },
    Wrong {
        name: "character-address-takes-11-ticks",
        rules: Rules {
            ticks: |instruction| match instruction {
                Instruction::CharacterAddress => 11,
                _ => ticks(instruction),
            },
            ..PAPER
        },
    },
    Wrong {
        name: "clear-leaves-direction",
        rules: Rules {
            clear: |part| {
                let up = part.up;
                clear(part);
                part.up = up;
            },
            ..PAPER
        },
    },
    Wrong {
        name: "clear-ends-shift-on-write",
        rules: Rules {
            clear: |part| {
                clear(part);
                part.shift_on_write = false;
            },
            ..PAPER
        },
    },
    Wrong {
        name: "clear-keeps-shift",
        rules: Rules {
            clear: |part| {
                let shift = part.shift;
                clear(part);
                part.shift = shift;
            },
            ..PAPER
        },
    },
    Wrong {
        name: "clear-fills-with-00",
        rules: Rules {
            clear: |part| {
                clear(part);
                part.display = [0x00; 80];
            },
            ..PAPER
        },
    },
    Wrong {
        name: "clear-stays-in-character-memory",
        rules: Rules {
            clear: |part| {
                let memory = part.memory;
                clear(part);
                part.memory = memory;
            },
            ..PAPER
        },
    },
    Wrong {
        name: "clear-clears-character-memory",
        rules: Rules {
            clear: |part| {
                clear(part);
                part.character = [0; 64];
            },
            ..PAPER
        },
    },
    Wrong {
        name: "home-keeps-shift",
        rules: Rules {
            home: |part| point(part, Memory::Display, 0x00),
            ..PAPER
        },
    },
    Wrong {
        name: "home-sets-direction",
        rules: Rules {
            home: |part| {
                home(part);
                part.up = true;
            },
            ..PAPER
        },
    },
    Wrong {
        name: "entry-bits-swapped",
        rules: Rules {
            entry_mode: |part, byte| {
                part.up = bit(byte, 0);
                part.shift_on_write = bit(byte, 1);
            },
            ..PAPER
        },
    },
    Wrong {
        name: "cursor-and-blink-swapped",
        rules: Rules {
            settings: |part, byte| {
                settings(part, byte);
                std::mem::swap(&mut part.cursor_on, &mut part.blink_on);
            },
            ..PAPER
        },
    },
    Wrong {
        name: "step-reversed",
        rules: Rules {
            move_by: |rules, part, byte| {
                let reversed = if bit(byte, 3) { byte } else { byte ^ 0x04 };
                move_by(rules, part, reversed)
            },
            ..PAPER
        },
    },
    Wrong {
        name: "step-in-display-memory-only",
        rules: Rules {
            move_by: |rules, part, byte| {
                let moves = bit(byte, 3) || part.memory == Memory::Display;
                moves && move_by(rules, part, byte)
            },
            ..PAPER
        },
    },
    Wrong {
        name: "display-move-steps-counter",
        rules: Rules {
            move_by: |rules, part, byte| {
                let wrap = move_by(rules, part, byte);
                if bit(byte, 3) {
                    step(rules, part, bit(byte, 2))
                } else {
                    wrap
                }
            },
            ..PAPER
        },
    },
    Wrong {
        name: "n-change-keeps-address",
        rules: Rules {
            function: |part, byte| {
                let (memory, address) = (part.memory, part.address);
                function(part, byte);
                point(part, memory, address);
            },
            ..PAPER
        },
    },
    Wrong {
        name: "n-change-keeps-shift",
        rules: Rules {
            function: |part, byte| {
                let shift = part.shift;
                function(part, byte);
                part.shift = shift;
            },
            ..PAPER
        },
    },
    Wrong {
        name: "n-change-clears-cells",
        rules: Rules {
            function: |part, byte| {
                let two_lines = part.two_lines;
                function(part, byte);
                if part.two_lines != two_lines {
                    part.display = [0x20; 80];
                }
            },
            ..PAPER
        },
    },
    Wrong {
        name: "n-as-it-was-resets-address",
        rules: Rules {
            function: |part, byte| {
                function(part, byte);
                point(part, Memory::Display, 0x00);
            },
            ..PAPER
        },
    },
    Wrong {
        name: "n-as-it-was-resets-shift",
        rules: Rules {
            function: |part, byte| {
                function(part, byte);
                part.shift = 0;
            },
            ..PAPER
        },
    },
    Wrong {
        name: "n-and-f-swapped",
        rules: Rules {
            function: |part, byte| {
                let swapped = byte & 0xF3 | byte >> 1 & 0x04 | byte << 1 & 0x08;
                function(part, swapped);
            },
            ..PAPER
        },
    },
    Wrong {
        name: "refusal-3-takes-ticks",
        rules: Rules {
            whole: |rules, part, transfer| {
                let outcome = whole(rules, part, transfer);
                if outcome.answer == 3 {
                    part.busy = 10;
                }
                outcome
            },
            ..PAPER
        },
    },
    Wrong {
        name: "refusal-3-leaves-character-memory",
        rules: Rules {
            whole: |rules, part, transfer| {
                let outcome = whole(rules, part, transfer);
                if outcome.answer == 3 {
                    part.memory = Memory::Display;
                }
                outcome
            },
            ..PAPER
        },
    },
    Wrong {
        name: "reads-move-display",
        rules: Rules {
            read_data: |rules, part| {
                if part.memory == Memory::Display && part.shift_on_write {
                    move_display(rules, part, part.up);
                }
                read_data(rules, part)
            },
            ..PAPER
        },
    },
    Wrong {
        name: "reads-step-up-only",
        rules: Rules {
            read_data: |rules, part| {
                let outcome = read_data(rules, part);
                step_up_instead(rules, part, outcome)
            },
            ..PAPER
        },
    },
    Wrong {
        name: "read-after-step",
        rules: Rules {
            read_data: |rules, part| {
                let outcome = read_data(rules, part);
                Outcome {
                    value: *addressed(part),
                    ..outcome
                }
            },
            ..PAPER
        },
    },
    Wrong {
        name: "read-takes-no-ticks",
        rules: Rules {
            read_data: |rules, part| {
                let outcome = read_data(rules, part);
                part.busy = 0;
                outcome
            },
            ..PAPER
        },
    },
    Wrong {
        name: "writes-step-up-only",
        rules: Rules {
            write_data: |rules, part, byte| {
                let outcome = write_data(rules, part, byte);
                step_up_instead(rules, part, outcome)
            },
            ..PAPER
        },
    },
    Wrong {
        name: "character-write-shifts-display",
        rules: Rules {
            write_data: |rules, part, byte| {
                if part.memory == Memory::Character && part.shift_on_write {
                    move_display(rules, part, part.up);
                }
                write_data(rules, part, byte)
            },
            ..PAPER
        },
    },
    Wrong {
        name: "write-shifts-left-only",
        rules: Rules {
            write_data: |rules, part, byte| {
                let shift = part.shift;
                let outcome = write_data(rules, part, byte);
                if part.shift != shift {
                    part.shift = shift;
                    move_display(rules, part, true);
                }
                outcome
            },
            ..PAPER
        },
    },
    Wrong {
        name: "character-memory-holds-five-bits",
        rules: Rules {
            write_data: |rules, part, byte| {
                let kept = match part.memory {
                    Memory::Display => byte,
                    Memory::Character => byte & 0x1F,
                };
                write_data(rules, part, kept)
            },
            ..PAPER
        },
    },
    Wrong {
        name: "status-without-address-when-busy",
        rules: Rules {
            status: |part| {
                if part.busy > 0 {
                    128
                } else {
                    part.address
                }
            },
            ..PAPER
        },
    },
    Wrong {
        name: "status-takes-ticks",
        rules: Rules {
            status: |part| {
                let value = status(part);
                part.busy = part.busy.max(10);
                value
            },
            ..PAPER
        },
    },
];

/// Turns a step down that was taken into a step up.
fn step_up_instead(rules: &Rules, part: &mut Part, outcome: Outcome) -> Outcome {
    if part.up {
        return outcome;
    }
    step(rules, part, true);
    Outcome {
        wrap: step(rules, part, true),
        ..outcome
    }
}
