//! The part as plain data: two memories, the counter, the settings and the half that waits.

#[derive(Clone, Copy, PartialEq, Eq, Debug)]
pub enum Memory {
    Display,
    Character,
}

/// The first half of a transfer on four lines; a read's half is 0.
#[derive(Clone, Copy, PartialEq, Eq, Debug)]
pub struct Half {
    pub rs: bool,
    pub read: bool,
    pub upper: u8,
}

#[derive(Clone, PartialEq, Eq, Debug)]
pub struct Part {
    pub display: [u8; 80],
    pub character: [u8; 64],
    pub memory: Memory,
    pub address: u8,
    pub shift: u8,
    pub busy: u16,
    pub eight_lines: bool,
    /// N = 1.
    pub two_lines: bool,
    /// F = 1.
    pub tall: bool,
    pub up: bool,
    pub shift_on_write: bool,
    pub display_on: bool,
    pub cursor_on: bool,
    pub blink_on: bool,
    pub half: Option<Half>,
}

pub fn switched_on() -> Part {
    Part {
        display: [0x20; 80],
        character: [0; 64],
        memory: Memory::Display,
        address: 0x00,
        shift: 0,
        busy: 3750,
        eight_lines: true,
        two_lines: false,
        tall: false,
        up: true,
        shift_on_write: false,
        display_on: false,
        cursor_on: false,
        blink_on: false,
        half: None,
    }
}

impl Part {
    /// Lines of the screen.
    pub fn lines(&self) -> usize {
        if self.two_lines {
            2
        } else {
            1
        }
    }
}
