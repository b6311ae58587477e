//! What the screen program prints: its arguments, the picture as text and as a raw PBM image.

use super::part::Part;
use super::picture::{picture, View};
use super::record::led;
use super::rules::Rules;
use super::table::refusal;

#[derive(Clone, Copy, PartialEq, Eq, Debug)]
pub enum Form {
    Text,
    Pbm,
}

#[derive(Clone, PartialEq, Eq, Debug)]
pub struct Arguments {
    pub digits: u8,
    pub rom: String,
    pub dark: bool,
    pub form: Form,
}

/// `DIGITS ROM plain|dark [pbm]`, or nothing where one usage line is due.
pub fn arguments(list: &[String]) -> Option<Arguments> {
    let (digits, rom, phase, form) = match list {
        [digits, rom, phase] => (digits, rom, phase, Form::Text),
        [digits, rom, phase, form] if form == "pbm" => (digits, rom, phase, Form::Pbm),
        _ => return None,
    };
    Some(Arguments {
        digits: digits.parse().ok()?,
        rom: rom.clone(),
        dark: match phase.as_str() {
            "plain" => false,
            "dark" => true,
            _ => return None,
        },
        form,
    })
}

pub fn screen(rules: &Rules, input: &[u8], view: &View, form: Form) -> Vec<u8> {
    if (rules.too_long)(input.len()) {
        return b"too long\n".to_vec();
    }
    let shown = (rules.events)(rules, input).and_then(|events| {
        let part = led(rules, &events);
        let bytes = picture(rules, &part, view)?;
        Ok((rules.dot_lines)(rules, &part, view, &bytes))
    });
    match shown {
        Ok(lines) if form == Form::Pbm => pbm(rules, &lines, view),
        Ok(lines) => text(&lines),
        Err(number) => refusal(number).into_bytes(),
    }
}

/// The picture as text, line by line without their ends.
pub type DotLines = Vec<Vec<u8>>;

pub fn width(view: &View) -> usize {
    6 * usize::from(view.digits) - 1
}

/// A line for each dot row, one column between digits, an empty line between lines of the screen.
/// Every bit that is set is drawn, so that a sixth one would show.
pub fn dot_lines(rules: &Rules, part: &Part, view: &View, bytes: &[u8]) -> DotLines {
    let digits = usize::from(view.digits);
    let rows = (rules.rows)(part);
    let mut lines = Vec::new();
    for (place, dots) in bytes.chunks(digits).enumerate() {
        if place > 0 && place % rows == 0 {
            lines.push(Vec::new());
        }
        lines.push(dot_line(dots, width(view)));
    }
    lines
}

pub fn dot_line(dots: &[u8], width: usize) -> Vec<u8> {
    let mut line: Vec<u8> = (0..width)
        .map(|column| if column % 6 == 5 { b' ' } else { b'.' })
        .collect();
    for (digit, byte) in dots.iter().enumerate() {
        for bit in (0..8).filter(|bit| byte >> bit & 1 == 1) {
            if let Some(column) = (6 * digit + 4).checked_sub(bit) {
                line[column] = b'#';
            }
        }
    }
    line
}

pub fn text(lines: &[Vec<u8>]) -> Vec<u8> {
    let mut text = Vec::new();
    for line in lines {
        text.extend(line);
        text.push(b'\n');
    }
    text
}

pub fn pbm(rules: &Rules, lines: &[Vec<u8>], view: &View) -> Vec<u8> {
    let width = width(view);
    let mut image = format!("P4\n{width} {}\n", lines.len()).into_bytes();
    for line in lines {
        let mut packed = vec![0; width.div_ceil(8)];
        for column in (0..line.len()).filter(|&column| line[column] == b'#') {
            packed[column / 8] |= (rules.pbm_bit)(column);
        }
        image.extend(packed);
    }
    image
}

/// The leftmost dot of eight is the highest bit.
pub fn pbm_bit(column: usize) -> u8 {
    0x80 >> (column % 8)
}
