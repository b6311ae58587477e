//! What the scripts of a run have met, and what they should have met.

use super::{listed, Coverage, Group};
use crate::generator::script::{Given, Script};
use crate::model::panel::*;
use crate::model::part::{Memory, Part};
use crate::model::record::*;
use crate::model::rules::PAPER;

#[rustfmt::skip]
const CLASSES: [Group; 7] = [
    ("records given to panel", &["sound", "empty record", "full record", "refused 7", "refused 8", "refused 9", "too long"]),
    ("texts", &["done on eight lines", "done on four lines", "refused 17", "refused 18", "refused 10", "17 and 18 at once",
        "line 0", "line 1", "line 2", "0 characters", "15 characters", "16 characters", "17 characters"]),
    ("logs", &["done on eight lines", "done on four lines", "refused 17", "refused 11", "refused 12", "refused 13", "refused 10",
        "17 and 11 at once", "17 and 12 at once", "17 and 13 at once", "11 and 12 at once", "12 and 13 at once",
        "night 0", "night 22", "night 23", "night 24", "0 quarters", "95 quarters", "96 quarters", "97 quarters", "255 quarters",
        "over mark 00", "over mark 02", "over mark 20", "over mark 81", "over mark FF"]),
    ("look-ups", &["written", "not yet written", "refused 11", "night 0", "night 22", "night 23", "night 24", "above 96 quarters",
        "mark 00", "mark 02", "mark 20", "mark 81", "mark FF", "written, one line in force", "not yet written, one line in force"]),
    ("17 by one condition", &["N = 0", "direction down", "shift on write", "shift", "half of a write", "half of a read"]),
    ("done with", &["display on", "display off", "F = 1", "10 ticks busy", "410 ticks busy", "not busy", "a counter of characters", "an address not 00",
        "a call before", "4096 events in all"]),
    ("full records", &["refused call", "look-up"]),
];

impl Coverage {
    pub fn of_scripts() -> Coverage {
        Coverage::new("", listed(&CLASSES))
    }

    pub fn note_script(&mut self, script: &Script) {
        let mut before = false;
        for given in &script.calls {
            let done = self.note_given(given);
            self.met_if(done && before, "done with", "a call before");
            before |= done;
        }
    }

    /// Whether the call was done.
    fn note_given(&mut self, given: &Given) -> bool {
        let group = "records given to panel";
        if too_long(given.record.len()) {
            self.met(group, "too long");
            return false;
        }
        match events(&PAPER, &given.record) {
            Err(number) => {
                self.met(group, format!("refused {number}"));
                false
            }
            Ok(events) => {
                self.met(group, "sound");
                self.met_if(events.is_empty(), group, "empty record");
                self.met_if(events.len() == MOST_EVENTS, group, "full record");
                let call = call(&given.words).expect("a script's words are a call");
                self.note_call(&call, &led(&PAPER, &events), events.len())
            }
        }
    }

    fn note_call(&mut self, call: &Call, part: &Part, events: usize) -> bool {
        let group = match *call {
            Call::Text(line, ref characters) => self.note_text(part, line, characters.len()),
            Call::Log(night, quarters) => self.note_log(part, night, quarters),
            Call::Night(night) => self.note_look_up(part, night),
        };
        let full = events == MOST_EVENTS;
        match answer(&PAPER, part, call) {
            Err(number) => {
                self.met(group, format!("refused {number}"));
                self.met_if(full, "full records", "refused call");
                false
            }
            Ok(Answer::Done(own)) if overfull(events + own.len()) => {
                self.met(group, "refused 10");
                false
            }
            Ok(Answer::Done(own)) => {
                let lines = if part.eight_lines { "eight" } else { "four" };
                self.met(group, format!("done on {lines} lines"));
                let fits = events + own.len() == MOST_EVENTS;
                self.met_if(fits, "done with", "4096 events in all");
                self.note_done_with(part);
                true
            }
            Ok(_) => {
                self.met_if(full, "full records", "look-up");
                false
            }
        }
    }

    /// A number counts where the refusals before its own are not given.
    fn note_text(&mut self, part: &Part, line: u8, characters: usize) -> &'static str {
        let group = "texts";
        if ready(part) {
            self.met_listed(group, format!("line {line}"));
            self.met_listed(group, format!("{characters} characters"));
        } else {
            self.note_unready(part);
            let both = !text_length(characters) || !has_line(line);
            self.met_if(both, group, "17 and 18 at once");
        }
        group
    }

    fn note_log(&mut self, part: &Part, night: u8, quarters: u8) -> &'static str {
        let group = "logs";
        let (no_night, no_quarters) = (!has_night(night), !has_quarters(quarters));
        let written = !no_night && look_up(&PAPER, part, night).is_some();
        if !ready(part) {
            self.note_unready(part);
            self.met_if(no_night, group, "17 and 11 at once");
            self.met_if(no_quarters, group, "17 and 12 at once");
            self.met_if(written, group, "17 and 13 at once");
            return group;
        }
        self.met_if(no_night && no_quarters, group, "11 and 12 at once");
        self.met_if(no_quarters && written, group, "12 and 13 at once");
        self.met_listed(group, format!("night {night}"));
        if !no_night {
            self.met_listed(group, format!("{quarters} quarters"));
            if !no_quarters {
                let mark = part.display[mark_cell(part, night)];
                self.met_listed(group, format!("over mark {mark:02X}"));
            }
        }
        group
    }

    fn note_look_up(&mut self, part: &Part, night: u8) -> &'static str {
        let group = "look-ups";
        self.met_listed(group, format!("night {night}"));
        if has_night(night) {
            let mark = part.display[mark_cell(part, night)];
            let figure = look_up(&PAPER, part, night);
            let class = match figure {
                Some(_) => "written",
                None => "not yet written",
            };
            self.met(group, class);
            let one_line = format!("{class}, one line in force");
            self.met_if(!part.two_lines, group, one_line);
            self.met_listed(group, format!("mark {mark:02X}"));
            let above = figure.is_some_and(|figure| !has_quarters(figure));
            self.met_if(above, group, "above 96 quarters");
        }
        group
    }

    fn note_unready(&mut self, part: &Part) {
        let half = part.half;
        let broken = [
            (!part.two_lines, "N = 0"),
            (!part.up, "direction down"),
            (part.shift_on_write, "shift on write"),
            (part.shift > 0, "shift"),
            (half.is_some_and(|half| !half.read), "half of a write"),
            (half.is_some_and(|half| half.read), "half of a read"),
        ];
        let mut broken = broken.into_iter().filter(|(broken, _)| *broken);
        if let (Some((_, alone)), None) = (broken.next(), broken.next()) {
            self.met("17 by one condition", alone);
        }
    }

    fn note_done_with(&mut self, part: &Part) {
        let group = "done with";
        let display = if part.display_on { "on" } else { "off" };
        self.met(group, format!("display {display}"));
        self.met_if(part.tall, group, "F = 1");
        self.met_if(part.busy == 0, group, "not busy");
        self.met_listed(group, format!("{} ticks busy", part.busy));
        let characters = part.memory == Memory::Character;
        self.met_if(characters, group, "a counter of characters");
        self.met_if(part.address > 0, group, "an address not 00");
    }
}
