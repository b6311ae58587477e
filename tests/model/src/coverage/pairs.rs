//! What the pairs of a run have met, and what they should have met.

use super::{line_count, listed, range, Coverage, Group, PASSED_ON_EIGHT_LINES, RANGES, SHIFTS};
use crate::generator::case::{end_of, Shown};
use crate::generator::pair::Pair;
use crate::model::part::{switched_on, Memory, Part};
use crate::model::picture;
use crate::model::record::*;
use crate::model::rules::PAPER;
use crate::model::transfer::Outcome;

#[rustfmt::skip]
const CLASSES: [Group; 9] = [
    ("openings", &["on eight lines", "on four lines", "refused 1", "refused 2", "refused 3", "N changed", "N as it was"]),
    ("parts where the story begins", &["one line", "two lines", "F = 1", "address not 00", "counter of characters", "direction down", "shift on write", "shift", "display on"]),
    ("instruction writes", &["done", "refused 1", "refused 3"]),
    ("data writes", &["refused 1", "in display memory", "in character memory", "20-3F"]),
    ("status reads", &["busy", "free", "one line", "two lines"]),
    ("data reads", &["refused 1", "in display memory", "in character memory", "two halves that differ"]),
    ("waits", &["not busy", "more left", "1 tick left", "none left"]),
    ("halves", &["refused 1", "second of 2 or 3", "second refused 3", "lower lines not 0"]),
    ("pictures", &["refused", "display off", "one line", "two lines", "11 rows", "shift", "cursor or blink"]),
];

impl Coverage {
    pub fn of_pairs() -> Coverage {
        let mut order = [
            listed(&CLASSES),
            listed(&PASSED_ON_EIGHT_LINES),
            listed(&SHIFTS),
        ]
        .concat();
        let told = RANGES.into_iter().filter(|&range| range != "20-3F");
        order.extend(told.map(|range| ("instructions", range.to_string())));
        Coverage::new("pairs, ", order)
    }

    pub fn note_pair(&mut self, pair: &Pair) {
        let [eight, four] = pair.events();
        let (opening, story) = eight.split_at(pair.parting.story);
        let mut part = self.note_opening(opening, pair.parting.event);
        self.note_each(Self::note_told, &mut part, story);
        let (opening, halves) = four.split_at(pair.parting.story);
        self.note_each(Self::note_half, &mut led(&PAPER, opening), halves);
        self.note_seen(&pair.wirings[0]);
    }

    /// Gives the part where the story begins.
    fn note_opening(&mut self, opening: &[Event], parting: usize) -> Part {
        let group = "openings";
        let mut part = switched_on();
        self.note_each(Self::note_refusal, &mut part, &opening[..parting]);
        let lines = if part.eight_lines { "eight" } else { "four" };
        self.met(group, format!("on {lines} lines"));
        let two_lines = part.two_lines;
        self.note_each(Self::note_refusal, &mut part, &opening[parting..]);
        let changed = part.two_lines != two_lines;
        self.met(group, if changed { "N changed" } else { "N as it was" });
        self.note_begin(&part);
        part
    }

    fn note_refusal(&mut self, _: &Part, _: Event, outcome: Outcome, _: &Part) {
        self.met_listed("openings", format!("refused {}", outcome.answer));
    }

    fn note_begin(&mut self, part: &Part) {
        let group = "parts where the story begins";
        self.met(group, line_count(part));
        self.met_if(part.tall, group, "F = 1");
        self.met_if(part.address > 0, group, "address not 00");
        let characters = part.memory == Memory::Character;
        self.met_if(characters, group, "counter of characters");
        self.met_if(!part.up, group, "direction down");
        self.met_if(part.shift_on_write, group, "shift on write");
        self.met_if(part.shift > 0, group, "shift");
        self.met_if(part.display_on, group, "display on");
    }

    /// An event of the story on eight lines.
    fn note_told(&mut self, before: &Part, event: Event, outcome: Outcome, after: &Part) {
        let group = match event.kind {
            INSTRUCTION_WRITE => "instruction writes",
            DATA_WRITE => "data writes",
            STATUS_READ => "status reads",
            DATA_READ => "data reads",
            _ => return self.note_wait(before, after),
        };
        if outcome.answer > 0 {
            self.met(group, format!("refused {}", outcome.answer));
            return;
        }
        let memory = match before.memory {
            Memory::Display => "in display memory",
            Memory::Character => "in character memory",
        };
        match event.kind {
            INSTRUCTION_WRITE => {
                self.met(group, "done");
                self.met("instructions", range(event.value as u8));
            }
            DATA_WRITE => {
                self.met(group, memory);
                let function_set = (0x20..=0x3F).contains(&event.value);
                self.met_if(function_set, group, "20-3F");
            }
            STATUS_READ => {
                self.met(group, if before.busy > 0 { "busy" } else { "free" });
                self.met(group, line_count(before));
            }
            _ => {
                self.met(group, memory);
                let differ = outcome.value >> 4 != outcome.value & 0x0F;
                self.met_if(differ, group, "two halves that differ");
            }
        }
        self.note_ends(before, event, after);
    }

    fn note_wait(&mut self, before: &Part, after: &Part) {
        let class = match (before.busy, after.busy) {
            (0, _) => "not busy",
            (_, 0) => "none left",
            (_, 1) => "1 tick left",
            _ => "more left",
        };
        self.met("waits", class);
    }

    /// An event of the story on four lines.
    fn note_half(&mut self, before: &Part, event: Event, outcome: Outcome, _: &Part) {
        let group = "halves";
        let second = before.half.is_some();
        self.met_if(outcome.answer == 1, group, "refused 1");
        self.met_if(second && outcome.answer == 3, group, "second refused 3");
        if event.kind == INSTRUCTION_WRITE {
            let as_function_set = second && matches!(event.value >> 4, 2 | 3);
            self.met_if(as_function_set, group, "second of 2 or 3");
            self.met_if(event.value & 0x0F > 0, group, "lower lines not 0");
        }
    }

    fn note_seen(&mut self, shown: &Shown) {
        let group = "pictures";
        let part = end_of(&shown.record);
        if picture::picture(&PAPER, &part, &shown.view).is_err() {
            self.met(group, "refused");
        } else if part.display_on {
            self.met(group, line_count(&part));
            self.met_if(picture::rows(&part) == 11, group, "11 rows");
            self.met_if(part.shift > 0, group, "shift");
            let lights = part.cursor_on || part.blink_on;
            self.met_if(lights, group, "cursor or blink");
        } else {
            self.met(group, "display off");
        }
    }
}
