//! Instructions: what a byte written with RS = 0 does, and its ticks.

use super::part::{Memory, Part};
use super::rules::Rules;
use super::transfer::{done, refused, stepped, Outcome};

#[derive(Clone, Copy, PartialEq, Eq, Debug)]
pub enum Instruction {
    Nothing,
    Clear,
    Home,
    EntryMode,
    Settings,
    Move,
    Function,
    CharacterAddress,
    DisplayAddress,
}

/// The highest bit that is set decides.
pub fn decide(byte: u8) -> Instruction {
    match byte {
        0x00 => Instruction::Nothing,
        0x01 => Instruction::Clear,
        0x02..=0x03 => Instruction::Home,
        0x04..=0x07 => Instruction::EntryMode,
        0x08..=0x0F => Instruction::Settings,
        0x10..=0x1F => Instruction::Move,
        0x20..=0x3F => Instruction::Function,
        0x40..=0x7F => Instruction::CharacterAddress,
        0x80..=0xFF => Instruction::DisplayAddress,
    }
}

pub fn ticks(instruction: Instruction) -> u16 {
    match instruction {
        Instruction::Clear | Instruction::Home => 410,
        _ => 10,
    }
}

/// Acts, and answers 0 or 3.
pub fn instruct(rules: &Rules, part: &mut Part, byte: u8) -> Outcome {
    let instruction = (rules.decide)(byte);
    let mut outcome = done(0);
    match instruction {
        Instruction::Nothing => {}
        Instruction::Clear => (rules.clear)(part),
        Instruction::Home => (rules.home)(part),
        Instruction::EntryMode => (rules.entry_mode)(part, byte),
        Instruction::Settings => (rules.settings)(part, byte),
        Instruction::Move => outcome = stepped(0, (rules.move_by)(rules, part, byte)),
        Instruction::Function => (rules.function)(part, byte),
        Instruction::CharacterAddress => point(part, Memory::Character, byte & 0x3F),
        Instruction::DisplayAddress => {
            if !(rules.has_address)(part.two_lines, byte & 0x7F) {
                return refused(3);
            }
            point(part, Memory::Display, byte & 0x7F);
        }
    }
    part.busy = (rules.ticks)(instruction);
    outcome
}

pub fn point(part: &mut Part, memory: Memory, address: u8) {
    part.memory = memory;
    part.address = address;
}

pub fn bit(byte: u8, number: u8) -> bool {
    byte >> number & 1 == 1
}

pub fn clear(part: &mut Part) {
    part.display = [0x20; 80];
    point(part, Memory::Display, 0x00);
    part.shift = 0;
    part.up = true;
}

pub fn home(part: &mut Part) {
    point(part, Memory::Display, 0x00);
    part.shift = 0;
}

pub fn entry_mode(part: &mut Part, byte: u8) {
    part.up = bit(byte, 1);
    part.shift_on_write = bit(byte, 0);
}

pub fn settings(part: &mut Part, byte: u8) {
    part.display_on = bit(byte, 2);
    part.cursor_on = bit(byte, 1);
    part.blink_on = bit(byte, 0);
}

/// Whether the counter passed an end; a move of the display steps no counter.
pub fn move_by(rules: &Rules, part: &mut Part, byte: u8) -> bool {
    if bit(byte, 3) {
        move_display(rules, part, !bit(byte, 2));
        false
    } else {
        step(rules, part, bit(byte, 2))
    }
}

/// One step of the counter in whichever memory it belongs to; whether it passed an end.
pub fn step(rules: &Rules, part: &mut Part, up: bool) -> bool {
    let rule = if up { rules.step_up } else { rules.step_down };
    let step = rule(part.memory, part.two_lines, part.address);
    part.address = step.address;
    step.wrap
}

pub fn move_display(rules: &Rules, part: &mut Part, left: bool) {
    let shifted = if left {
        rules.shift_left
    } else {
        rules.shift_right
    };
    part.shift = shifted(part.two_lines, part.shift);
}

pub fn function(part: &mut Part, byte: u8) {
    let two_lines = bit(byte, 3);
    if two_lines != part.two_lines {
        point(part, Memory::Display, 0x00);
        part.shift = 0;
    }
    part.eight_lines = bit(byte, 4);
    part.two_lines = two_lines;
    part.tall = bit(byte, 2);
    part.half = None;
}
