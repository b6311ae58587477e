//! Wrong models of the picture and of how it is printed.

use super::Wrong;
use crate::model::part::{Memory, Part};
use crate::model::picture::*;
use crate::model::rules::{Rules, PAPER};
use crate::model::screen::dot_lines;

pub const LIST: &[Wrong] = &[
    Wrong {
        name: "10-rows",
        rules: Rules {
            rows: |part| rows(part).min(10),
            ..PAPER
        },
    },
    Wrong {
        name: "f-counts-with-two-lines",
        rules: Rules {
            rows: |part| if part.tall { 11 } else { 8 },
            ..PAPER
        },
    },
    Wrong {
        name: "cursor-in-row-8-of-11",
        rules: Rules {
            cursor_row: |_| 7,
            ..PAPER
        },
    },
    Wrong {
        name: "cursor-in-row-7-of-8",
        rules: Rules {
            cursor_row: |rows| rows - 2,
            ..PAPER
        },
    },
    Wrong {
        name: "cursor-hidden-in-character-memory",
        rules: Rules {
            marked: |part, cell| part.memory == Memory::Display && marked(part, cell),
            ..PAPER
        },
    },
    Wrong {
        name: "cursor-shown-for-28-to-3f",
        rules: Rules {
            marked: |part, cell| {
                let between = part.two_lines && matches!(part.address, 0x28..=0x3F);
                marked(part, cell) || between && cell == usize::from(part.address)
            },
            ..PAPER
        },
    },
    Wrong {
        name: "cursor-at-cell-number",
        rules: Rules {
            marked: |part, cell| cell == usize::from(part.address),
            ..PAPER
        },
    },
    Wrong {
        name: "cursor-ignores-shift",
        rules: Rules {
            marked: |part, cell| {
                let (cells, shift) = (80 / part.lines(), usize::from(part.shift));
                let digit = (cell % cells + cells - shift) % cells;
                marked(part, cell / cells * cells + digit)
            },
            ..PAPER
        },
    },
    Wrong {
        name: "blink-without-phase",
        rules: Rules {
            blinks: |part, _| part.blink_on,
            ..PAPER
        },
    },
    Wrong {
        name: "blink-in-plain-phase",
        rules: Rules {
            blinks: |part, dark| blinks(part, !dark),
            ..PAPER
        },
    },
    Wrong {
        name: "blink-needs-cursor",
        rules: Rules {
            blinks: |part, dark| blinks(part, dark) && part.cursor_on,
            ..PAPER
        },
    },
    Wrong {
        name: "display-off-shows",
        rules: Rules {
            dots: |rules, part, view, line, row, digit| {
                let lit = Part {
                    display_on: true,
                    ..part.clone()
                };
                dots(rules, &lit, view, line, row, digit)
            },
            ..PAPER
        },
    },
    Wrong {
        name: "cursor-shows-while-display-off",
        rules: Rules {
            dots: |rules, part, view, line, row, digit| {
                let lit = Part {
                    display_on: part.display_on || part.cursor_on && marked_at(part, line, digit),
                    ..part.clone()
                };
                dots(rules, &lit, view, line, row, digit)
            },
            ..PAPER
        },
    },
    Wrong {
        name: "line-two-runs-on",
        rules: Rules {
            cell_shown: |part, line, digit| (40 * line + digit + usize::from(part.shift)) % 80,
            ..PAPER
        },
    },
    Wrong {
        name: "line-two-as-line-one",
        rules: Rules {
            cell_shown: |part, _, digit| cell_shown(part, 0, digit),
            ..PAPER
        },
    },
    Wrong {
        name: "picture-shifted-other-way",
        rules: Rules {
            cell_shown: |part, line, digit| {
                let back = Part {
                    shift: 80 - part.shift,
                    ..part.clone()
                };
                cell_shown(&back, line, digit)
            },
            ..PAPER
        },
    },
    Wrong {
        name: "line-two-not-shifted",
        rules: Rules {
            cell_shown: |part, line, digit| match line {
                0 => cell_shown(part, line, digit),
                _ => cell_shown(&unshifted(part), line, digit),
            },
            ..PAPER
        },
    },
    Wrong {
        name: "first-stretch-ends-a-cell-early",
        rules: Rules {
            cell_shown: |part, line, digit| a_cell_further(part, line, digit, line_end(part) - 1),
            ..PAPER
        },
    },
    Wrong {
        name: "second-stretch-starts-a-cell-late",
        rules: Rules {
            cell_shown: |part, line, digit| a_cell_further(part, line, digit, line_end(part)),
            ..PAPER
        },
    },
    Wrong {
        name: "sixth-bit",
        rules: Rules {
            five_dots: |dots| dots & 0x3F,
            ..PAPER
        },
    },
    Wrong {
        name: "leftmost-dot-is-bit-5",
        rules: Rules {
            five_dots: |dots| dots >> 1 & 0x1F,
            ..PAPER
        },
    },
    Wrong {
        name: "leftmost-dot-is-bit-0",
        rules: Rules {
            five_dots: |dots| dots.reverse_bits() >> 3,
            ..PAPER
        },
    },
    Wrong {
        name: "tall-pattern-as-small",
        rules: Rules {
            pattern: |part, rom, code, rows, row| match code {
                0x00..=0x0F => part.character[(8 * usize::from(code % 8) + row) % 64],
                _ => pattern(part, rom, code, rows, row),
            },
            ..PAPER
        },
    },
    Wrong {
        name: "tall-pattern-by-code-mod-4",
        rules: Rules {
            pattern: |part, rom, code, rows, row| match code {
                0x00..=0x0F if rows == 11 => pattern(part, rom, code % 4 * 2, rows, row),
                _ => pattern(part, rom, code, rows, row),
            },
            ..PAPER
        },
    },
    Wrong {
        name: "codes-08-to-0f-from-rom",
        rules: Rules {
            pattern: |part, rom, code, rows, row| match code {
                0x08..=0x0F => rom[16 * usize::from(code) + row],
                _ => pattern(part, rom, code, rows, row),
            },
            ..PAPER
        },
    },
    Wrong {
        name: "code-10-from-character-memory",
        rules: Rules {
            pattern: |part, rom, code, rows, row| {
                pattern(part, rom, if code == 0x10 { 0 } else { code }, rows, row)
            },
            ..PAPER
        },
    },
    Wrong {
        name: "rom-of-8-bytes-a-code",
        rules: Rules {
            pattern: |part, rom, code, rows, row| match code {
                0x10..=0xFF => rom[8 * usize::from(code) + row],
                _ => pattern(part, rom, code, rows, row),
            },
            ..PAPER
        },
    },
    Wrong {
        name: "41-digits-taken-with-two-lines",
        rules: Rules {
            most_digits: |_| 80,
            ..PAPER
        },
    },
    Wrong {
        name: "81-digits-taken-with-one-line",
        rules: Rules {
            most_digits: |part| if part.two_lines { 40 } else { 81 },
            ..PAPER
        },
    },
    Wrong {
        name: "80-digits-refused",
        rules: Rules {
            most_digits: |part| most_digits(part).min(79),
            ..PAPER
        },
    },
    Wrong {
        name: "rom-of-4097-taken",
        rules: Rules {
            rom_length: |bytes| bytes >= ROM_BYTES,
            ..PAPER
        },
    },
    Wrong {
        name: "refusal-5-before-4",
        rules: Rules {
            picture_refusal: |rules, part, view| {
                if rom_length(view.rom.len()) {
                    picture_refusal(rules, part, view)
                } else {
                    Err(5)
                }
            },
            ..PAPER
        },
    },
    Wrong {
        name: "no-refusal-while-display-off",
        rules: Rules {
            picture_refusal: |rules, part, view| {
                if part.display_on || view.digits == 0 {
                    picture_refusal(rules, part, view)
                } else {
                    Ok(())
                }
            },
            ..PAPER
        },
    },
    Wrong {
        name: "no-row-between-lines",
        rules: Rules {
            dot_lines: |rules, part, view, bytes| {
                let mut lines = dot_lines(rules, part, view, bytes);
                lines.retain(|line| !line.is_empty());
                lines
            },
            ..PAPER
        },
    },
    Wrong {
        name: "pbm-lowest-bit-first",
        rules: Rules {
            pbm_bit: |column| 1 << (column % 8),
            ..PAPER
        },
    },
];

fn unshifted(part: &Part) -> Part {
    Part {
        shift: 0,
        ..part.clone()
    }
}

/// The digit at which a shifted line ends.
fn line_end(part: &Part) -> usize {
    usize::from(most_digits(part) - part.shift)
}

/// From one digit on each shows the cell behind its own.
fn a_cell_further(part: &Part, line: usize, digit: usize, from: usize) -> usize {
    cell_shown(part, line, digit + usize::from(digit >= from))
}

fn marked_at(part: &Part, line: usize, digit: usize) -> bool {
    marked(part, cell_shown(part, line, digit))
}
