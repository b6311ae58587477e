//! Wrong models of memories and counters.

use super::Wrong;
use crate::model::counter::*;
use crate::model::part::{switched_on, Memory, Part};
use crate::model::rules::{Rules, PAPER};

pub const LIST: &[Wrong] = &[
    Wrong {
        name: "27-to-28",
        rules: Rules {
            step_up: |memory, two_lines, address| match (memory, two_lines, address) {
                (Memory::Display, true, 0x27) => to_the_next(0x28),
                _ => step_up(memory, two_lines, address),
            },
            ..PAPER
        },
    },
    Wrong {
        name: "67-to-40",
        rules: Rules {
            step_up: |memory, two_lines, address| match (memory, two_lines, address) {
                (Memory::Display, true, 0x67) => past_an_end(0x40),
                _ => step_up(memory, two_lines, address),
            },
            ..PAPER
        },
    },
    Wrong {
        name: "4f-to-50",
        rules: Rules {
            step_up: |memory, two_lines, address| match (memory, two_lines, address) {
                (Memory::Display, false, 0x4F) => to_the_next(0x50),
                _ => step_up(memory, two_lines, address),
            },
            ..PAPER
        },
    },
    Wrong {
        name: "40-down-to-3f",
        rules: Rules {
            step_down: |memory, two_lines, address| match (memory, two_lines, address) {
                (Memory::Display, true, 0x40) => to_the_next(0x3F),
                _ => step_down(memory, two_lines, address),
            },
            ..PAPER
        },
    },
    Wrong {
        name: "00-down-to-4f-with-two-lines",
        rules: Rules {
            step_down: |memory, two_lines, address| match (memory, two_lines, address) {
                (Memory::Display, true, 0x00) => past_an_end(0x4F),
                _ => step_down(memory, two_lines, address),
            },
            ..PAPER
        },
    },
    Wrong {
        name: "character-address-wraps-at-7f",
        rules: Rules {
            step_up: |memory, two_lines, address| match (memory, address) {
                (Memory::Character, 0x7F) => past_an_end(0x00),
                (Memory::Character, _) => to_the_next(address + 1),
                _ => step_up(memory, two_lines, address),
            },
            ..PAPER
        },
    },
    Wrong {
        name: "character-steps-down-as-display",
        rules: Rules {
            step_down: |_, two_lines, address| step_down(Memory::Display, two_lines, address),
            ..PAPER
        },
    },
    Wrong {
        name: "28-taken-with-two-lines",
        rules: Rules {
            has_address: |two_lines, address| {
                has_address(two_lines, address) || two_lines && address == 0x28
            },
            ..PAPER
        },
    },
    Wrong {
        name: "68-taken-with-two-lines",
        rules: Rules {
            has_address: |two_lines, address| {
                has_address(two_lines, address) || two_lines && address == 0x68
            },
            ..PAPER
        },
    },
    Wrong {
        name: "50-taken-with-one-line",
        rules: Rules {
            has_address: |two_lines, address| {
                has_address(two_lines, address) || !two_lines && address == 0x50
            },
            ..PAPER
        },
    },
    Wrong {
        name: "28-refused-with-one-line",
        rules: Rules {
            has_address: |two_lines, address| {
                has_address(two_lines, address) && (two_lines || address != 0x28)
            },
            ..PAPER
        },
    },
    Wrong {
        name: "shift-reversed",
        rules: Rules {
            shift_left: shift_right,
            shift_right: shift_left,
            ..PAPER
        },
    },
    Wrong {
        name: "shift-wraps-one-early",
        rules: Rules {
            shift_left: |two_lines, shift| (shift + 1) % (shifts(two_lines) - 1),
            ..PAPER
        },
    },
    Wrong {
        name: "shift-stops-at-0",
        rules: Rules {
            shift_right: |_, shift| shift.saturating_sub(1),
            ..PAPER
        },
    },
    Wrong {
        name: "wait-of-low-byte",
        rules: Rules {
            wait: |part, ticks| wait(part, ticks & 0x00FF),
            ..PAPER
        },
    },
    Wrong {
        name: "wait-ends-busy",
        rules: Rules {
            wait: |part, ticks| {
                if ticks > 0 {
                    part.busy = 0;
                }
            },
            ..PAPER
        },
    },
    Wrong {
        name: "wait-drops-half",
        rules: Rules {
            wait: |part, ticks| {
                wait(part, ticks);
                part.half = None;
            },
            ..PAPER
        },
    },
    Wrong {
        name: "switched-on-ready",
        rules: Rules {
            switched_on: || Part {
                busy: 0,
                ..switched_on()
            },
            ..PAPER
        },
    },
    Wrong {
        name: "switched-on-cells-00",
        rules: Rules {
            switched_on: || Part {
                display: [0x00; 80],
                ..switched_on()
            },
            ..PAPER
        },
    },
    Wrong {
        name: "switched-on-direction-down",
        rules: Rules {
            switched_on: || Part {
                up: false,
                ..switched_on()
            },
            ..PAPER
        },
    },
];
