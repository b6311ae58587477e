//! Memories and counters: addresses and cells, steps of the counter, the shift, the busy time.

use super::part::{Memory, Part};

/// The display addresses that a line mode has.
pub fn has_address(two_lines: bool, address: u8) -> bool {
    if two_lines {
        matches!(address, 0x00..=0x27 | 0x40..=0x67)
    } else {
        matches!(address, 0x00..=0x4F)
    }
}

pub fn cell_at(two_lines: bool, address: u8) -> usize {
    let address = usize::from(address);
    if two_lines && address >= 0x40 {
        address - 0x40 + 40
    } else {
        address
    }
}

pub fn address_of(two_lines: bool, cell: usize) -> u8 {
    let address = if two_lines && cell >= 40 {
        cell - 40 + 0x40
    } else {
        cell
    };
    address as u8
}

/// The byte that the counter addresses. The remainders bind only wrong models, which leave the
/// range.
pub fn addressed(part: &mut Part) -> &mut u8 {
    match part.memory {
        Memory::Display => &mut part.display[cell_at(part.two_lines, part.address) % 80],
        Memory::Character => &mut part.character[usize::from(part.address) % 64],
    }
}

/// Where a step of the counter leads, and whether it passed an end (02, 8/12).
#[derive(Clone, Copy, PartialEq, Eq, Debug)]
pub struct Step {
    pub address: u8,
    pub wrap: bool,
}

pub fn past_an_end(address: u8) -> Step {
    Step {
        address,
        wrap: true,
    }
}

pub fn to_the_next(address: u8) -> Step {
    Step {
        address,
        wrap: false,
    }
}

pub fn step_up(memory: Memory, two_lines: bool, address: u8) -> Step {
    match (memory, two_lines, address) {
        (Memory::Display, false, 0x4F) => past_an_end(0x00),
        (Memory::Display, true, 0x27) => past_an_end(0x40),
        (Memory::Display, true, 0x67) => past_an_end(0x00),
        (Memory::Character, _, 0x3F) => past_an_end(0x00),
        _ => to_the_next(address.wrapping_add(1)),
    }
}

pub fn step_down(memory: Memory, two_lines: bool, address: u8) -> Step {
    match (memory, two_lines, address) {
        (Memory::Display, false, 0x00) => past_an_end(0x4F),
        (Memory::Display, true, 0x40) => past_an_end(0x27),
        (Memory::Display, true, 0x00) => past_an_end(0x67),
        (Memory::Character, _, 0x00) => past_an_end(0x3F),
        _ => to_the_next(address.wrapping_sub(1)),
    }
}

/// The number of shifts, after which it wraps.
pub fn shifts(two_lines: bool) -> u8 {
    if two_lines {
        40
    } else {
        80
    }
}

pub fn shift_left(two_lines: bool, shift: u8) -> u8 {
    (shift + 1) % shifts(two_lines)
}

pub fn shift_right(two_lines: bool, shift: u8) -> u8 {
    (shift + shifts(two_lines) - 1) % shifts(two_lines)
}

pub fn wait(part: &mut Part, ticks: u16) {
    part.busy = part.busy.saturating_sub(ticks);
}
