//! Whole transfers: instruction and data writes, status and data reads, as on eight lines.

use super::counter::addressed;
use super::instruction::{instruct, move_display, step};
use super::part::{Memory, Part};
use super::rules::Rules;

#[derive(Clone, Copy, PartialEq, Eq, Debug)]
pub enum Transfer {
    Instruction(u8),
    Data(u8),
    Status,
    Read,
}

impl Transfer {
    pub fn rs(self) -> bool {
        matches!(self, Transfer::Data(_) | Transfer::Read)
    }

    pub fn read(self) -> bool {
        matches!(self, Transfer::Status | Transfer::Read)
    }

    /// What the lines hold; nothing that counts in a read.
    pub fn lines(self) -> u8 {
        match self {
            Transfer::Instruction(byte) | Transfer::Data(byte) => byte,
            Transfer::Status | Transfer::Read => 0,
        }
    }

    /// The same transfer of another byte.
    pub fn of(self, byte: u8) -> Transfer {
        match self {
            Transfer::Instruction(_) => Transfer::Instruction(byte),
            Transfer::Data(_) => Transfer::Data(byte),
            read => read,
        }
    }
}

#[derive(Clone, Copy, PartialEq, Eq, Debug)]
pub struct Outcome {
    pub answer: u8,
    pub value: u8,
    /// The counter was stepped, and passed an end.
    pub wrap: bool,
}

pub fn done(value: u8) -> Outcome {
    stepped(value, false)
}

/// Done, with a step of the counter that passed an end or did not.
pub fn stepped(value: u8, wrap: bool) -> Outcome {
    Outcome {
        answer: 0,
        value,
        wrap,
    }
}

pub fn refused(answer: u8) -> Outcome {
    Outcome {
        answer,
        value: 0,
        wrap: false,
    }
}

pub fn whole(rules: &Rules, part: &mut Part, transfer: Transfer) -> Outcome {
    match transfer {
        Transfer::Instruction(byte) => instruct(rules, part, byte),
        Transfer::Data(byte) => (rules.write_data)(rules, part, byte),
        Transfer::Status => done((rules.status)(part)),
        Transfer::Read => (rules.read_data)(rules, part),
    }
}

pub fn write_data(rules: &Rules, part: &mut Part, byte: u8) -> Outcome {
    *addressed(part) = byte;
    let wrap = step(rules, part, part.up);
    if part.memory == Memory::Display && part.shift_on_write {
        move_display(rules, part, part.up);
    }
    part.busy = 10;
    stepped(0, wrap)
}

pub fn read_data(rules: &Rules, part: &mut Part) -> Outcome {
    let byte = *addressed(part);
    let wrap = step(rules, part, part.up);
    part.busy = 10;
    stepped(byte, wrap)
}

pub fn status(part: &mut Part) -> u8 {
    if part.busy > 0 {
        128 | part.address
    } else {
        part.address
    }
}
