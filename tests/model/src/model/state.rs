//! The state for C: a part put as 159 bytes, and taken from them.

use super::counter::{has_address, shifts};
use super::part::{Half, Memory, Part};

pub const STATE_BYTES: usize = 159;

/// The bytes behind the two memories, in their order.
pub const MEMORY: usize = 144;
pub const NUMBER: usize = 156;
pub const BUSY: usize = 157;

/// The most ticks of a busy time.
pub const MOST_BUSY: u16 = 3750;

pub fn put(part: &Part) -> Vec<u8> {
    let mut bytes = part.display.to_vec();
    bytes.extend(part.character);
    bytes.push(match part.memory {
        Memory::Display => 0,
        Memory::Character => 1,
    });
    bytes.extend([part.address, part.shift]);
    bytes.extend(flags(part).map(u8::from));
    bytes.extend(put_half(part.half));
    bytes.extend(part.busy.to_be_bytes());
    bytes
}

fn flags(part: &Part) -> [bool; 8] {
    [
        part.eight_lines,
        part.two_lines,
        part.tall,
        part.up,
        part.shift_on_write,
        part.display_on,
        part.cursor_on,
        part.blink_on,
    ]
}

/// Which half waits, and its number.
fn put_half(half: Option<Half>) -> [u8; 2] {
    match half {
        None => [0, 0],
        Some(half) => {
            let kind = match (half.rs, half.read) {
                (false, false) => 1,
                (true, false) => 2,
                (false, true) => 3,
                (true, true) => 4,
            };
            [kind, half.upper]
        }
    }
}

/// The part in range that is put as these bytes, if there is one.
pub fn take(bytes: &[u8]) -> Option<Part> {
    if bytes.len() != STATE_BYTES {
        return None;
    }
    let flag = |place: usize| bytes[place] == 1;
    let part = Part {
        display: bytes[..80].try_into().ok()?,
        character: bytes[80..MEMORY].try_into().ok()?,
        memory: if flag(MEMORY) {
            Memory::Character
        } else {
            Memory::Display
        },
        address: bytes[145],
        shift: bytes[146],
        eight_lines: flag(147),
        two_lines: flag(148),
        tall: flag(149),
        up: flag(150),
        shift_on_write: flag(151),
        display_on: flag(152),
        cursor_on: flag(153),
        blink_on: flag(154),
        half: take_half(bytes[155], bytes[NUMBER]),
        busy: u16::from_be_bytes([bytes[BUSY], bytes[BUSY + 1]]),
    };
    // A byte that says nothing else than another is put back as that other one.
    (in_range(&part) && put(&part) == bytes).then_some(part)
}

fn take_half(kind: u8, upper: u8) -> Option<Half> {
    let (rs, read) = match kind {
        1 => (false, false),
        2 => (true, false),
        3 => (false, true),
        4 => (true, true),
        _ => return None,
    };
    Some(Half { rs, read, upper })
}

pub fn in_range(part: &Part) -> bool {
    let address = match part.memory {
        Memory::Display => has_address(part.two_lines, part.address),
        Memory::Character => part.address <= 0x3F,
    };
    let half = match part.half {
        None => true,
        Some(half) => !part.eight_lines && half.upper <= if half.read { 0 } else { 15 },
    };
    address && half && part.shift < shifts(part.two_lines) && part.busy <= MOST_BUSY
}
