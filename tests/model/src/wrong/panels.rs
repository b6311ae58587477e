//! Wrong models of the panel; the eight that the request names come first.

use super::Wrong;
use crate::model::counter::cell_at;
use crate::model::mend::{line_alone, Written};
use crate::model::panel::*;
use crate::model::part::{Memory, Part};
use crate::model::record::*;
use crate::model::rules::{Rules, PAPER};
use crate::model::table::refusal;
use crate::model::transfer::Transfer;

/// The refusals of a log call but for 17.
fn log_refusal_but_17(part: &Part, night: u8, quarters: u8) -> Result<(), u8> {
    let rules = Rules {
        ready: |_| true,
        ..PAPER
    };
    log_refusal(&rules, part, night, quarters)
}

fn instruction(byte: u8) -> Transfer {
    Transfer::Instruction(byte)
}

/// A record of these events, with this line.
fn written_as(events: &[Event], line: &str) -> Written {
    Written {
        record: record(events),
        line: line.as_bytes().to_vec(),
    }
}

pub const LIST: &[Wrong] = &[
    Wrong {
        name: "mark-at-40-plus-night",
        rules: Rules {
            log_bytes: |night, quarters| {
                let mut bytes = log_bytes(night, quarters);
                bytes[2] = display_address(0x40 + night);
                bytes
            },
            mark_cell: |_, night| cell_at(true, 0x40 + night),
            ..PAPER
        },
    },
    Wrong {
        name: "line-1-at-28",
        rules: Rules {
            text_bytes: |line, characters| {
                let mut bytes = text_bytes(line, characters);
                if line == 1 {
                    bytes[0] = display_address(0x28);
                }
                bytes
            },
            ..PAPER
        },
    },
    Wrong {
        name: "figure-and-mark-exchanged",
        rules: Rules {
            log_bytes: |night, quarters| {
                let mut bytes = log_bytes(night, quarters);
                bytes.swap(1, 3);
                bytes
            },
            figure_cell: mark_cell,
            mark_cell: figure_cell,
            ..PAPER
        },
    },
    Wrong {
        name: "refusal-12-before-11",
        rules: Rules {
            log_refusal: |rules, part, night, quarters| match log_refusal(
                rules, part, night, quarters,
            ) {
                Err(11) if !has_quarters(quarters) => Err(12),
                other => other,
            },
            ..PAPER
        },
    },
    Wrong {
        name: "written-by-any-mark-but-20",
        rules: Rules {
            marks_written: |mark| mark != 0x20,
            ..PAPER
        },
    },
    Wrong {
        name: "look-up-by-line-mode-in-force",
        rules: Rules {
            figure_cell: |part, night| cell_at(part.two_lines, FIGURES + night) % 80,
            mark_cell: |part, night| cell_at(part.two_lines, MARKS + night) % 80,
            ..PAPER
        },
    },
    Wrong {
        name: "last-transfer-left-out",
        rules: Rules {
            call_events: |rules, part, bytes| {
                let mut events = call_events(rules, part, bytes);
                events.truncate(events.len() - 2);
                events
            },
            ..PAPER
        },
    },
    Wrong {
        name: "panel-waits-410",
        rules: Rules {
            panel_ticks: 410,
            ..PAPER
        },
    },
    // 17.
    Wrong {
        name: "ready-with-one-line",
        rules: Rules {
            ready: |part| {
                ready(&Part {
                    two_lines: true,
                    ..part.clone()
                })
            },
            ..PAPER
        },
    },
    Wrong {
        name: "ready-with-direction-down",
        rules: Rules {
            ready: |part| {
                ready(&Part {
                    up: true,
                    ..part.clone()
                })
            },
            ..PAPER
        },
    },
    Wrong {
        name: "ready-with-shift-on-write",
        rules: Rules {
            ready: |part| {
                ready(&Part {
                    shift_on_write: false,
                    ..part.clone()
                })
            },
            ..PAPER
        },
    },
    Wrong {
        name: "ready-with-shift",
        rules: Rules {
            ready: |part| {
                ready(&Part {
                    shift: 0,
                    ..part.clone()
                })
            },
            ..PAPER
        },
    },
    Wrong {
        name: "ready-with-half",
        rules: Rules {
            ready: |part| {
                ready(&Part {
                    half: None,
                    ..part.clone()
                })
            },
            ..PAPER
        },
    },
    Wrong {
        name: "ready-with-half-of-read",
        rules: Rules {
            ready: |part| {
                ready(&Part {
                    half: part.half.filter(|half| !half.read),
                    ..part.clone()
                })
            },
            ..PAPER
        },
    },
    Wrong {
        name: "ready-with-half-of-0",
        rules: Rules {
            ready: |part| {
                ready(&Part {
                    half: part.half.filter(|half| half.upper > 0),
                    ..part.clone()
                })
            },
            ..PAPER
        },
    },
    Wrong {
        name: "not-ready-on-eight-lines",
        rules: Rules {
            ready: |part| ready(part) && !part.eight_lines,
            ..PAPER
        },
    },
    Wrong {
        name: "not-ready-on-four-lines",
        rules: Rules {
            ready: |part| ready(part) && part.eight_lines,
            ..PAPER
        },
    },
    Wrong {
        name: "not-ready-while-busy",
        rules: Rules {
            ready: |part| ready(part) && part.busy == 0,
            ..PAPER
        },
    },
    Wrong {
        name: "not-ready-in-character-memory",
        rules: Rules {
            ready: |part| ready(part) && part.memory == Memory::Display,
            ..PAPER
        },
    },
    Wrong {
        name: "not-ready-away-from-00",
        rules: Rules {
            ready: |part| ready(part) && part.address == 0,
            ..PAPER
        },
    },
    Wrong {
        name: "not-ready-with-display-off",
        rules: Rules {
            ready: |part| ready(part) && part.display_on,
            ..PAPER
        },
    },
    Wrong {
        name: "not-ready-with-cursor",
        rules: Rules {
            ready: |part| ready(part) && !part.cursor_on,
            ..PAPER
        },
    },
    Wrong {
        name: "not-ready-with-blink",
        rules: Rules {
            ready: |part| ready(part) && !part.blink_on,
            ..PAPER
        },
    },
    Wrong {
        name: "not-ready-with-f",
        rules: Rules {
            ready: |part| ready(part) && !part.tall,
            ..PAPER
        },
    },
    Wrong {
        name: "look-up-refused-17",
        rules: Rules {
            night_refusal: |rules, part, night| {
                if !ready(part) {
                    return Err(17);
                }
                night_refusal(rules, part, night)
            },
            ..PAPER
        },
    },
    Wrong {
        name: "look-up-refused-17-behind-11",
        rules: Rules {
            night_refusal: |rules, part, night| {
                night_refusal(rules, part, night)?;
                if ready(part) {
                    Ok(())
                } else {
                    Err(17)
                }
            },
            ..PAPER
        },
    },
    // 18.
    Wrong {
        name: "refusal-18-before-17",
        rules: Rules {
            text_refusal: |rules, part, line, characters| {
                if !text_length(characters.len()) || !has_line(line) {
                    return Err(18);
                }
                text_refusal(rules, part, line, characters)
            },
            ..PAPER
        },
    },
    Wrong {
        name: "text-of-15-taken",
        rules: Rules {
            text_length: |characters| characters == 15 || text_length(characters),
            ..PAPER
        },
    },
    Wrong {
        name: "text-of-17-taken",
        rules: Rules {
            text_length: |characters| characters == 17 || text_length(characters),
            ..PAPER
        },
    },
    Wrong {
        name: "text-of-17-cut",
        rules: Rules {
            text_length: |characters| characters >= CHARACTERS,
            text_bytes: |line, characters| text_bytes(line, &characters[..CHARACTERS]),
            ..PAPER
        },
    },
    Wrong {
        name: "text-of-15-filled-with-blanks",
        rules: Rules {
            text_length: |characters| characters <= CHARACTERS,
            text_bytes: |line, characters| {
                let mut filled = characters.to_vec();
                filled.resize(CHARACTERS, 0x20);
                text_bytes(line, &filled)
            },
            ..PAPER
        },
    },
    Wrong {
        name: "empty-text-taken",
        rules: Rules {
            text_length: |characters| characters == 0 || text_length(characters),
            ..PAPER
        },
    },
    Wrong {
        name: "text-length-by-low-byte",
        rules: Rules {
            text_length: |characters| text_length(characters % 256),
            ..PAPER
        },
    },
    Wrong {
        name: "text-length-by-low-two-bytes",
        rules: Rules {
            text_length: |characters| text_length(characters % 65_536),
            ..PAPER
        },
    },
    Wrong {
        name: "text-of-16-refused",
        rules: Rules {
            text_length: |characters| characters < CHARACTERS,
            ..PAPER
        },
    },
    Wrong {
        name: "line-0-refused",
        rules: Rules {
            has_line: |line| line == 1,
            ..PAPER
        },
    },
    Wrong {
        name: "line-1-refused",
        rules: Rules {
            has_line: |line| line == 0,
            ..PAPER
        },
    },
    Wrong {
        name: "line-2-taken",
        rules: Rules {
            has_line: |line| line <= 2,
            ..PAPER
        },
    },
    Wrong {
        name: "line-by-lowest-bit",
        rules: Rules {
            has_line: |_| true,
            text_bytes: |line, characters| text_bytes(line % 2, characters),
            ..PAPER
        },
    },
    Wrong {
        name: "lines-from-1",
        rules: Rules {
            has_line: |line| line == 1 || line == 2,
            text_bytes: |line, characters| text_bytes(line - 1, characters),
            ..PAPER
        },
    },
    // 11.
    Wrong {
        name: "refusal-11-before-17",
        rules: Rules {
            log_refusal: |rules, part, night, quarters| {
                if !has_night(night) {
                    return Err(11);
                }
                log_refusal(rules, part, night, quarters)
            },
            ..PAPER
        },
    },
    Wrong {
        name: "night-24-taken",
        rules: Rules {
            has_night: |night| night <= NIGHTS,
            mark_cell: |part, night| mark_cell(part, night) % 80,
            ..PAPER
        },
    },
    Wrong {
        name: "night-24-looked-up",
        rules: Rules {
            night_refusal: |_, _, night| if night <= NIGHTS { Ok(()) } else { Err(11) },
            mark_cell: |part, night| mark_cell(part, night) % 80,
            ..PAPER
        },
    },
    Wrong {
        name: "night-23-refused",
        rules: Rules {
            has_night: |night| night < NIGHTS - 1,
            ..PAPER
        },
    },
    Wrong {
        name: "night-0-refused",
        rules: Rules {
            has_night: |night| night > 0 && has_night(night),
            ..PAPER
        },
    },
    Wrong {
        name: "nights-from-1",
        rules: Rules {
            has_night: |night| (1..=NIGHTS).contains(&night),
            log_bytes: |night, quarters| log_bytes(night - 1, quarters),
            figure_cell: |part, night| figure_cell(part, night - 1),
            mark_cell: |part, night| mark_cell(part, night - 1),
            ..PAPER
        },
    },
    Wrong {
        name: "look-up-not-refused-11",
        rules: Rules {
            night_refusal: |_, _, _| Ok(()),
            look_up: |rules, part, night| {
                has_night(night)
                    .then(|| look_up(rules, part, night))
                    .flatten()
            },
            ..PAPER
        },
    },
    // 12.
    Wrong {
        name: "refusal-12-before-17",
        rules: Rules {
            log_refusal: |rules, part, night, quarters| {
                if has_night(night) && !has_quarters(quarters) {
                    return Err(12);
                }
                log_refusal(rules, part, night, quarters)
            },
            ..PAPER
        },
    },
    Wrong {
        name: "97-quarters-taken",
        rules: Rules {
            has_quarters: |quarters| quarters <= MOST_QUARTERS + 1,
            ..PAPER
        },
    },
    Wrong {
        name: "96-quarters-refused",
        rules: Rules {
            has_quarters: |quarters| quarters < MOST_QUARTERS,
            ..PAPER
        },
    },
    Wrong {
        name: "0-quarters-refused",
        rules: Rules {
            has_quarters: |quarters| quarters > 0 && has_quarters(quarters),
            ..PAPER
        },
    },
    Wrong {
        name: "refusal-12-not-given",
        rules: Rules {
            has_quarters: |_| true,
            ..PAPER
        },
    },
    // 13.
    Wrong {
        name: "refusal-13-not-given",
        rules: Rules {
            log_refusal: |rules, part, night, quarters| match log_refusal(
                rules, part, night, quarters,
            ) {
                Err(13) => Ok(()),
                other => other,
            },
            ..PAPER
        },
    },
    Wrong {
        name: "refusal-13-before-12",
        rules: Rules {
            log_refusal: |rules, part, night, quarters| match log_refusal(
                rules, part, night, quarters,
            ) {
                Err(12) if look_up(rules, part, night).is_some() => Err(13),
                other => other,
            },
            ..PAPER
        },
    },
    Wrong {
        name: "refusal-13-before-17",
        rules: Rules {
            log_refusal: |rules, part, night, quarters| {
                if log_refusal_but_17(part, night, quarters) == Err(13) {
                    return Err(13);
                }
                log_refusal(rules, part, night, quarters)
            },
            ..PAPER
        },
    },
    Wrong {
        name: "same-figure-taken-again",
        rules: Rules {
            log_refusal: |rules, part, night, quarters| {
                let refusal = log_refusal(rules, part, night, quarters);
                match look_up(rules, part, night.min(23)) {
                    Some(figure) if refusal == Err(13) && figure == quarters => Ok(()),
                    _ => refusal,
                }
            },
            ..PAPER
        },
    },
    Wrong {
        name: "written-figure-of-0-taken-again",
        rules: Rules {
            log_refusal: |rules, part, night, quarters| {
                let refusal = log_refusal(rules, part, night, quarters);
                match look_up(rules, part, night.min(23)) {
                    Some(0) if refusal == Err(13) => Ok(()),
                    _ => refusal,
                }
            },
            ..PAPER
        },
    },
    Wrong {
        name: "refusal-13-by-any-mark-but-20",
        rules: Rules {
            log_refusal: |rules, part, night, quarters| {
                log_refusal(rules, part, night, quarters)?;
                if part.display[mark_cell(part, night)] == 0x20 {
                    Ok(())
                } else {
                    Err(13)
                }
            },
            ..PAPER
        },
    },
    // Looking up.
    Wrong {
        name: "written-by-any-mark-but-00",
        rules: Rules {
            marks_written: |mark| mark != 0x00,
            ..PAPER
        },
    },
    Wrong {
        name: "written-by-lowest-bit-of-mark",
        rules: Rules {
            marks_written: |mark| mark & 0x01 == 0x01,
            ..PAPER
        },
    },
    Wrong {
        name: "written-by-low-seven-bits-of-mark",
        rules: Rules {
            marks_written: |mark| mark & 0x7F == MARK,
            ..PAPER
        },
    },
    Wrong {
        name: "written-by-small-mark",
        rules: Rules {
            marks_written: |mark| mark <= MARK,
            ..PAPER
        },
    },
    Wrong {
        name: "always-written",
        rules: Rules {
            marks_written: |_| true,
            ..PAPER
        },
    },
    Wrong {
        name: "never-written",
        rules: Rules {
            marks_written: |_| false,
            ..PAPER
        },
    },
    Wrong {
        name: "figure-above-96-not-yet-written",
        rules: Rules {
            look_up: |rules, part, night| {
                look_up(rules, part, night).filter(|&figure| has_quarters(figure))
            },
            ..PAPER
        },
    },
    Wrong {
        name: "figure-above-96-read-as-96",
        rules: Rules {
            look_up: |rules, part, night| {
                let figure = look_up(rules, part, night)?;
                Some(figure.min(MOST_QUARTERS))
            },
            ..PAPER
        },
    },
    Wrong {
        name: "figure-of-0-not-yet-written",
        rules: Rules {
            look_up: |rules, part, night| look_up(rules, part, night).filter(|&figure| figure > 0),
            ..PAPER
        },
    },
    Wrong {
        name: "figure-read-beside",
        rules: Rules {
            figure_cell: |part, night| figure_cell(part, night) + 1,
            ..PAPER
        },
    },
    Wrong {
        name: "mark-read-at-50-cells",
        rules: Rules {
            mark_cell: |_, night| usize::from(MARKS + night) % 80,
            ..PAPER
        },
    },
    Wrong {
        name: "mark-read-of-next-night",
        rules: Rules {
            mark_cell: |part, night| (mark_cell(part, night) + 1).min(79),
            ..PAPER
        },
    },
    Wrong {
        name: "look-up-not-written-with-one-line",
        rules: Rules {
            look_up: |rules, part, night| look_up(rules, part, night).filter(|_| part.two_lines),
            ..PAPER
        },
    },
    Wrong {
        name: "look-up-not-written-while-half-waits",
        rules: Rules {
            look_up: |rules, part, night| {
                look_up(rules, part, night).filter(|_| part.half.is_none())
            },
            ..PAPER
        },
    },
    Wrong {
        name: "look-up-through-shift",
        rules: Rules {
            figure_cell: |part, night| (figure_cell(part, night) + usize::from(part.shift)) % 40,
            mark_cell: |part, night| {
                40 + (mark_cell(part, night) - 40 + usize::from(part.shift)) % 40
            },
            ..PAPER
        },
    },
    Wrong {
        name: "look-up-by-transfers",
        rules: Rules {
            called: |rules, call, events| {
                let mut written = called(rules, call, events);
                if let (Call::Night(night), true) = (call, events.len() < MOST_EVENTS) {
                    let address = event_of(display_address(FIGURES + night % NIGHTS));
                    written.record = record(&[events, &[address]].concat());
                }
                written
            },
            ..PAPER
        },
    },
    // Bytes of a text.
    Wrong {
        name: "lines-exchanged",
        rules: Rules {
            text_bytes: |line, characters| text_bytes(1 - line, characters),
            ..PAPER
        },
    },
    Wrong {
        name: "both-lines-at-00",
        rules: Rules {
            text_bytes: |_, characters| text_bytes(0, characters),
            ..PAPER
        },
    },
    Wrong {
        name: "text-without-its-address",
        rules: Rules {
            text_bytes: |line, characters| text_bytes(line, characters).split_off(1),
            ..PAPER
        },
    },
    Wrong {
        name: "text-without-last-character",
        rules: Rules {
            text_bytes: |line, characters| text_bytes(line, &characters[..characters.len() - 1]),
            ..PAPER
        },
    },
    Wrong {
        name: "text-backwards",
        rules: Rules {
            text_bytes: |line, characters| {
                let mut characters = characters.to_vec();
                characters.reverse();
                text_bytes(line, &characters)
            },
            ..PAPER
        },
    },
    Wrong {
        name: "text-in-seven-bits",
        rules: Rules {
            text_bytes: |line, characters| {
                let characters: Vec<u8> = characters.iter().map(|code| code & 0x7F).collect();
                text_bytes(line, &characters)
            },
            ..PAPER
        },
    },
    Wrong {
        name: "text-by-instruction-writes",
        rules: Rules {
            text_bytes: |line, characters| {
                let bytes = text_bytes(line, characters);
                bytes
                    .into_iter()
                    .map(|byte| instruction(byte.lines()))
                    .collect()
            },
            ..PAPER
        },
    },
    Wrong {
        name: "text-clears-first",
        rules: Rules {
            text_bytes: |line, characters| {
                [vec![instruction(0x01)], text_bytes(line, characters)].concat()
            },
            ..PAPER
        },
    },
    Wrong {
        name: "text-ends-at-its-line",
        rules: Rules {
            text_bytes: |line, characters| {
                let mut bytes = text_bytes(line, characters);
                let last = bytes.len() - 1;
                bytes[last] = bytes[0];
                bytes
            },
            ..PAPER
        },
    },
    Wrong {
        name: "text-ends-with-home",
        rules: Rules {
            text_bytes: |line, characters| {
                let mut bytes = text_bytes(line, characters);
                let last = bytes.len() - 1;
                bytes[last] = instruction(0x02);
                bytes
            },
            ..PAPER
        },
    },
    // Bytes of a log call.
    Wrong {
        name: "mark-before-figure",
        rules: Rules {
            log_bytes: |night, quarters| {
                let mut bytes = log_bytes(night, quarters);
                bytes.swap(0, 2);
                bytes.swap(1, 3);
                bytes
            },
            ..PAPER
        },
    },
    Wrong {
        name: "mark-not-written",
        rules: Rules {
            log_bytes: |night, quarters| {
                let mut bytes = log_bytes(night, quarters);
                bytes.drain(2..4);
                bytes
            },
            ..PAPER
        },
    },
    Wrong {
        name: "mark-80-written",
        rules: Rules {
            log_bytes: |night, quarters| {
                let mut bytes = log_bytes(night, quarters);
                bytes[3] = Transfer::Data(0x80);
                bytes
            },
            ..PAPER
        },
    },
    Wrong {
        name: "figure-of-night-10-decimal",
        rules: Rules {
            log_bytes: |night, quarters| {
                let mut bytes = log_bytes(night, quarters);
                bytes[0] = display_address(10 + night);
                bytes
            },
            ..PAPER
        },
    },
    Wrong {
        name: "mark-at-cell-for-address",
        rules: Rules {
            log_bytes: |night, quarters| {
                let mut bytes = log_bytes(night, quarters);
                bytes[2] = display_address(56 + night);
                bytes
            },
            ..PAPER
        },
    },
    Wrong {
        name: "log-ends-at-10",
        rules: Rules {
            log_bytes: |night, quarters| {
                let mut bytes = log_bytes(night, quarters);
                bytes[4] = display_address(FIGURES);
                bytes
            },
            ..PAPER
        },
    },
    Wrong {
        name: "log-ends-with-home",
        rules: Rules {
            log_bytes: |night, quarters| {
                let mut bytes = log_bytes(night, quarters);
                bytes[4] = instruction(0x02);
                bytes
            },
            ..PAPER
        },
    },
    Wrong {
        name: "log-ends-before-address-00",
        rules: Rules {
            log_bytes: |night, quarters| {
                let mut bytes = log_bytes(night, quarters);
                bytes.pop();
                bytes
            },
            ..PAPER
        },
    },
    // Halves and waits.
    Wrong {
        name: "panel-sends-lower-half-first",
        rules: Rules {
            halves: |byte| {
                let [upper, lower] = halves(byte);
                [lower, upper]
            },
            ..PAPER
        },
    },
    Wrong {
        name: "lower-half-not-shifted-up",
        rules: Rules {
            halves: |byte| [byte & 0xF0, byte & 0x0F],
            ..PAPER
        },
    },
    Wrong {
        name: "upper-half-with-lower-below",
        rules: Rules {
            halves: |byte| [byte, byte << 4],
            ..PAPER
        },
    },
    Wrong {
        name: "upper-half-shifted-down",
        rules: Rules {
            halves: |byte| [byte >> 4, byte & 0x0F],
            ..PAPER
        },
    },
    Wrong {
        name: "whole-bytes-on-four-lines",
        rules: Rules {
            transfers: |_, _, byte| vec![byte],
            ..PAPER
        },
    },
    Wrong {
        name: "halves-on-eight-lines",
        rules: Rules {
            transfers: |rules, part, byte| {
                let four_lines = Part {
                    eight_lines: false,
                    ..part.clone()
                };
                transfers(rules, &four_lines, byte)
            },
            ..PAPER
        },
    },
    Wrong {
        name: "no-wait-before-second-half",
        rules: Rules {
            call_events: |rules, part, bytes| {
                let mut events = Vec::new();
                for &byte in bytes {
                    events.push(wait_of(PANEL_TICKS));
                    events.extend(transfers(rules, part, byte).into_iter().map(event_of));
                }
                events
            },
            ..PAPER
        },
    },
    Wrong {
        name: "no-wait-before-first-transfer",
        rules: Rules {
            call_events: |rules, part, bytes| call_events(rules, part, bytes).split_off(1),
            ..PAPER
        },
    },
    Wrong {
        name: "no-wait-when-not-busy",
        rules: Rules {
            call_events: |rules, part, bytes| {
                let skipped = usize::from(part.busy == 0);
                call_events(rules, part, bytes).split_off(skipped)
            },
            ..PAPER
        },
    },
    Wrong {
        name: "no-waits",
        rules: Rules {
            call_events: |rules, part, bytes| {
                let events = call_events(rules, part, bytes).into_iter();
                events.filter(|event| event.kind != WAIT).collect()
            },
            ..PAPER
        },
    },
    Wrong {
        name: "wait-behind-last-transfer",
        rules: Rules {
            call_events: |rules, part, bytes| {
                let mut events = call_events(rules, part, bytes);
                events.push(wait_of(PANEL_TICKS));
                events
            },
            ..PAPER
        },
    },
    Wrong {
        name: "waits-behind-transfers",
        rules: Rules {
            call_events: |rules, part, bytes| {
                let mut events = call_events(rules, part, bytes);
                events.rotate_left(1);
                events
            },
            ..PAPER
        },
    },
    Wrong {
        name: "panel-waits-3749",
        rules: Rules {
            panel_ticks: PANEL_TICKS - 1,
            ..PAPER
        },
    },
    Wrong {
        name: "panel-waits-3751",
        rules: Rules {
            panel_ticks: PANEL_TICKS + 1,
            ..PAPER
        },
    },
    Wrong {
        name: "panel-waits-10",
        rules: Rules {
            panel_ticks: 10,
            ..PAPER
        },
    },
    // The record.
    Wrong {
        name: "refused-call-writes-no-record",
        rules: Rules {
            called: |rules, call, events| match answer(rules, &led(&PAPER, events), call) {
                Err(number) => line_alone(refusal(number)),
                Ok(_) => called(rules, call, events),
            },
            ..PAPER
        },
    },
    Wrong {
        name: "refused-call-writes-its-events",
        rules: Rules {
            called: |rules, call, events| {
                let any = Rules {
                    log_refusal: |_, _, night, _| if has_night(night) { Ok(()) } else { Err(11) },
                    ..PAPER
                };
                let Written { line, record } = called(rules, call, events);
                match line.as_slice() {
                    b"refused 13\n" => Written {
                        record: called(&any, call, events).record,
                        line,
                    },
                    _ => Written { record, line },
                }
            },
            ..PAPER
        },
    },
    Wrong {
        name: "look-up-writes-no-record",
        rules: Rules {
            called: |rules, call, events| match called(rules, call, events) {
                Written { line, .. } if matches!(call, Call::Night(_)) => Written {
                    record: Vec::new(),
                    line,
                },
                written => written,
            },
            ..PAPER
        },
    },
    Wrong {
        name: "own-events-alone-written",
        rules: Rules {
            called: |rules, call, events| match answer(rules, &led(&PAPER, events), call) {
                Ok(Answer::Done(own)) if !overfull(events.len() + own.len()) => {
                    written_as(&own, "done\n")
                }
                _ => called(rules, call, events),
            },
            ..PAPER
        },
    },
    Wrong {
        name: "own-events-put-first",
        rules: Rules {
            called: |rules, call, events| match answer(rules, &led(&PAPER, events), call) {
                Ok(Answer::Done(own)) if !overfull(events.len() + own.len()) => {
                    written_as(&[&own, events].concat(), "done\n")
                }
                _ => called(rules, call, events),
            },
            ..PAPER
        },
    },
    Wrong {
        name: "length-of-done-call-not-mended",
        rules: Rules {
            panel: |rules, call, input| {
                let mut written = panel(rules, call, input);
                if !written.record.is_empty() {
                    written.record[..2].copy_from_slice(&input[..2]);
                }
                written
            },
            ..PAPER
        },
    },
    Wrong {
        name: "length-of-done-call-in-low-byte",
        rules: Rules {
            panel: |rules, call, input| {
                let mut written = panel(rules, call, input);
                if !written.record.is_empty() {
                    written.record[0] = input[0];
                }
                written
            },
            ..PAPER
        },
    },
    Wrong {
        name: "call-on-part-switched-on",
        rules: Rules {
            answer: |rules, part, call| {
                let fresh = Part {
                    two_lines: part.two_lines,
                    ..led(&PAPER, &[])
                };
                answer(rules, &fresh, call)
            },
            ..PAPER
        },
    },
    Wrong {
        name: "refusal-10-at-4096-events",
        rules: Rules {
            overfull: |events| events >= MOST_EVENTS,
            ..PAPER
        },
    },
    Wrong {
        name: "4097-events-written",
        rules: Rules {
            overfull: |events| events > MOST_EVENTS + 1,
            ..PAPER
        },
    },
    Wrong {
        name: "refusal-10-by-full-record-alone",
        rules: Rules {
            called: |rules, call, events| {
                let any = Rules {
                    overfull: |_| false,
                    ..PAPER
                };
                if events.len() == MOST_EVENTS {
                    called(rules, call, events)
                } else {
                    called(&any, call, events)
                }
            },
            ..PAPER
        },
    },
    Wrong {
        name: "refusal-10-writes-the-record",
        rules: Rules {
            called: |rules, call, events| match called(rules, call, events) {
                Written { line, .. } if line == b"refused 10\n" => {
                    written_as(events, "refused 10\n")
                }
                written => written,
            },
            ..PAPER
        },
    },
    Wrong {
        name: "refusal-10-before-those-of-the-call",
        rules: Rules {
            called: |rules, call, events| {
                if events.len() == MOST_EVENTS && !matches!(call, Call::Night(_)) {
                    return line_alone(refusal(10));
                }
                called(rules, call, events)
            },
            ..PAPER
        },
    },
    Wrong {
        name: "look-up-refused-10",
        rules: Rules {
            called: |rules, call, events| {
                if events.len() == MOST_EVENTS && matches!(call, Call::Night(_)) {
                    return line_alone(refusal(10));
                }
                called(rules, call, events)
            },
            ..PAPER
        },
    },
    Wrong {
        name: "refused-record-written",
        rules: Rules {
            panel: |rules, call, input| {
                let mut written = panel(rules, call, input);
                if events(&PAPER, input).is_err() {
                    written.record = input.to_vec();
                }
                written
            },
            ..PAPER
        },
    },
    Wrong {
        name: "refused-record-taken-as-empty",
        rules: Rules {
            panel: |rules, call, input| match events(&PAPER, input) {
                Err(_) if !too_long(input.len()) => called(rules, call, &[]),
                _ => panel(rules, call, input),
            },
            ..PAPER
        },
    },
    Wrong {
        name: "refused-record-before-too-long",
        rules: Rules {
            panel: |rules, call, input| match events(&PAPER, input) {
                Err(number) => line_alone(refusal(number)),
                Ok(_) => panel(rules, call, input),
            },
            ..PAPER
        },
    },
    Wrong {
        name: "11-before-refused-record",
        rules: Rules {
            panel: |rules, call, input| match *call {
                Call::Log(night, _) | Call::Night(night) if !has_night(night) => {
                    let written = panel(rules, call, input);
                    match written.record.is_empty() {
                        true => line_alone(refusal(11)),
                        false => written,
                    }
                }
                _ => panel(rules, call, input),
            },
            ..PAPER
        },
    },
    // The line.
    Wrong {
        name: "panel-line-on-standard-output",
        rules: Rules {
            panel: |rules, call, input| {
                let Written { record, line } = panel(rules, call, input);
                Written {
                    record: [record, line].concat(),
                    line: Vec::new(),
                }
            },
            ..PAPER
        },
    },
    Wrong {
        name: "no-line-for-done-call",
        rules: Rules {
            panel: |rules, call, input| {
                let Written { record, line } = panel(rules, call, input);
                Written {
                    record,
                    line: if line == b"done\n" { Vec::new() } else { line },
                }
            },
            ..PAPER
        },
    },
    Wrong {
        name: "figure-in-hex",
        rules: Rules {
            called: |rules, call, events| match answer(rules, &led(&PAPER, events), call) {
                Ok(Answer::Figure(figure)) => written_as(events, &format!("{figure:X}\n")),
                _ => called(rules, call, events),
            },
            ..PAPER
        },
    },
    Wrong {
        name: "not-yet-written-told-as-0",
        rules: Rules {
            called: |rules, call, events| match answer(rules, &led(&PAPER, events), call) {
                Ok(Answer::NotYetWritten) => written_as(events, "0\n"),
                _ => called(rules, call, events),
            },
            ..PAPER
        },
    },
];
