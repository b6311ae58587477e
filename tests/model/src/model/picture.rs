//! The picture: one byte a digit and row, in the order line, row, digit.

use super::counter::address_of;
use super::part::Part;
use super::rules::Rules;

pub const ROM_BYTES: usize = 4096;

/// What a picture is asked with; `dark` is the blink phase.
#[derive(Clone, Debug)]
pub struct View {
    pub digits: u8,
    pub rom: Vec<u8>,
    pub dark: bool,
}

/// The bytes of the picture, or refusal 4 or 5.
pub fn picture(rules: &Rules, part: &Part, view: &View) -> Result<Vec<u8>, u8> {
    (rules.picture_refusal)(rules, part, view)?;
    let mut bytes = Vec::new();
    for line in 0..part.lines() {
        for row in 0..(rules.rows)(part) {
            for digit in 0..usize::from(view.digits) {
                let dots = (rules.dots)(rules, part, view, line, row, digit);
                bytes.push((rules.five_dots)(dots));
            }
        }
    }
    Ok(bytes)
}

pub fn picture_refusal(rules: &Rules, part: &Part, view: &View) -> Result<(), u8> {
    if view.digits == 0 || view.digits > (rules.most_digits)(part) {
        return Err(4);
    }
    if !(rules.rom_length)(view.rom.len()) {
        return Err(5);
    }
    Ok(())
}

pub fn most_digits(part: &Part) -> u8 {
    if part.two_lines {
        40
    } else {
        80
    }
}

pub fn rom_length(bytes: usize) -> bool {
    bytes == ROM_BYTES
}

pub fn rows(part: &Part) -> usize {
    if !part.two_lines && part.tall {
        11
    } else {
        8
    }
}

/// The cell that a digit of a line shows.
pub fn cell_shown(part: &Part, line: usize, digit: usize) -> usize {
    let shift = usize::from(part.shift);
    if part.two_lines {
        40 * line + (digit + shift) % 40
    } else {
        (digit + shift) % 80
    }
}

/// All dots of a digit's row: its pattern, then cursor and blink where they stand.
pub fn dots(rules: &Rules, part: &Part, view: &View, line: usize, row: usize, digit: usize) -> u8 {
    if !part.display_on {
        return 0;
    }
    let rows = (rules.rows)(part);
    let cell = (rules.cell_shown)(part, line, digit);
    let pattern = (rules.pattern)(part, &view.rom, part.display[cell], rows, row);
    if !(rules.marked)(part, cell) {
        return pattern;
    }
    let cursor = part.cursor_on && row == (rules.cursor_row)(rows);
    if cursor || (rules.blinks)(part, view.dark) {
        0x1F
    } else {
        pattern
    }
}

pub fn five_dots(dots: u8) -> u8 {
    dots & 0x1F
}

/// The dots of a code's row, where a pattern has so many rows.
pub fn pattern(part: &Part, rom: &[u8], code: u8, rows: usize, row: usize) -> u8 {
    let code = usize::from(code);
    if code >= 0x10 {
        rom[16 * code + row]
    } else if rows == 8 {
        part.character[8 * (code % 8) + row]
    } else {
        part.character[16 * ((code / 2) % 4) + row]
    }
}

/// Whether a cell's display address equals the counter, whatever memory the counter belongs to.
pub fn marked(part: &Part, cell: usize) -> bool {
    address_of(part.two_lines, cell) == part.address
}

pub fn cursor_row(rows: usize) -> usize {
    rows - 1
}

pub fn blinks(part: &Part, dark: bool) -> bool {
    part.blink_on && dark
}
