//! What the records of a run have met, and what they should have met; its scripts and pairs and the
//! calls from C likewise.

mod calls;
mod pairs;
mod scripts;

use crate::generator::author::WAITS;
use crate::generator::case::{end_of, Case, Shown, DIGITS};
use crate::generator::damage::DAMAGES;
use crate::model::mend::{self, Mended, MOST_CAPTURED};
use crate::model::part::{switched_on, Half, Memory, Part};
use crate::model::picture::{self, View};
use crate::model::record::*;
use crate::model::rules::PAPER;
use crate::model::screen::Form;
use crate::model::transfer::Outcome;
use std::collections::BTreeMap;

/// Below so many records, scripts or pairs, a run need not meet every class of theirs.
pub const ENOUGH_RECORDS: u64 = 1000;
pub const ENOUGH_SCRIPTS: u64 = 500;
pub const ENOUGH_PAIRS: u64 = 300;

const RANGES: [&str; 9] = [
    "00", "01", "02-03", "04-07", "08-0F", "10-1F", "20-3F", "40-7F", "80-FF",
];

const KINDS: [&str; 4] = ["data write", "status read", "data read", "busy status read"];

#[rustfmt::skip]
const CLASSES: [Group; 11] = [
    ("records", &["sound", "empty record", "full record", "refused 7", "refused 8", "refused 9", "too long"]),
    ("mendings", &["refused 7", "refused 8", "too long", "too long, version not 1", "sound", "nothing dropped, length altered", "bytes dropped, length kept", "bytes dropped, length altered",
        "no event kept", "4096 kept", "4096 kept of more", "event cut", "events behind an ill-formed one", "events behind the length", "12291 bytes", "more than 12291 bytes", "65537 bytes"]),
    ("answers", &["0", "20", "1", "2", "3"]),
    ("instructions on eight lines", &RANGES),
    ("instructions on four lines", &RANGES),
    ("transfers on eight lines", &KINDS),
    ("transfers on four lines", &KINDS),
    ("reads", &["status with one line", "status with two lines", "data with one line", "data with two lines"]),
    ("halves", &["waited through", "kept by refusal 1", "another RS", "another R/W", "refusal 3", "refusal 3 by a half of 3", "03 completed by 3", "bus to eight lines"]),
    ("function set", &["one to two lines", "two to one line", "an address that is lost", "a shift that is lost", "N as it was, address not 00", "N as it was, shift not 0"]),
    ("pictures", &["shown", "refused 4", "refused 5", "4 and 5 at once", "one line", "two lines", "11 rows", "plain", "dark", "text", "pbm",
        "display off", "cursor seen", "cursor without blink", "blink seen", "blink without cursor", "cursor of character memory", "28-3F with two lines", "code 00-0F, 8 rows", "code 00-0F, 11 rows", "shift",
        "past the end, one line", "past the end, two lines"]),
];

/// The ends of both memories, in either direction.
const ENDS: [&str; 10] = [
    "27 to 40",
    "67 to 00",
    "40 to 27",
    "00 to 67",
    "4F to 00",
    "00 to 4F",
    "3F to 00 of characters, one line",
    "00 to 3F of characters, one line",
    "3F to 00 of characters, two lines",
    "00 to 3F of characters, two lines",
];

/// The ends that are passed by each kind of step.
const PASSED_ON_EIGHT_LINES: [Group; 3] = [
    ("ends passed by data writes on eight lines", &ENDS),
    ("ends passed by data reads on eight lines", &ENDS),
    ("ends passed by cursor moves on eight lines", &ENDS),
];
const PASSED_ON_FOUR_LINES: [Group; 3] = [
    ("ends passed by data writes on four lines", &ENDS),
    ("ends passed by data reads on four lines", &ENDS),
    ("ends passed by cursor moves on four lines", &ENDS),
];

/// What passes no end, where a step in the set direction would.
#[rustfmt::skip]
const NOT_PASSED: [Group; 1] = [
    ("ends not passed", &["by a wait", "by a status read", "by a first half", "by a data write refused 1", "by a data read refused 1", "by an instruction refused 1",
        "by a half refused 2", "by an address refused 3", "by clear", "by home", "by a display move", "by a change of N", "by N as it was", "by a character address", "by a display address", "by 80"]),
];

/// Steps beside which another memory or line mode has an end.
const NO_ENDS: [Group; 1] = [(
    "steps that pass no end",
    &[
        "27 to 28 with one line",
        "28 to 27 with one line",
        "3F to 40 with one line",
        "40 to 3F with one line",
        "4F to 50 with two lines",
        "50 to 4F with two lines",
        "27 to 28 of characters",
        "28 to 27 of characters",
    ],
)];

/// The ends of the shift, passed in either direction, and shift on write.
#[rustfmt::skip]
const SHIFTS: [Group; 1] = [
    ("shifts", &["79 to 0", "0 to 79", "39 to 0", "0 to 39", "on write, left", "on write, right", "not on a character write"]),
];

/// A group's name and its classes.
type Group = (&'static str, &'static [&'static str]);

type Class = (&'static str, String);

/// Notes an event, with the part before it, what it was answered and the part behind it.
type Note = fn(&mut Coverage, &Part, Event, Outcome, &Part);

pub struct Coverage {
    /// Told before the groups whose names would not say what they are of.
    of: &'static str,
    counts: BTreeMap<Class, u64>,
    order: Vec<Class>,
}

impl Coverage {
    pub fn of_records() -> Coverage {
        let mut order = [
            listed(&CLASSES),
            listed(&PASSED_ON_EIGHT_LINES),
            listed(&PASSED_ON_FOUR_LINES),
            listed(&NOT_PASSED),
            listed(&NO_ENDS),
            listed(&SHIFTS),
        ]
        .concat();
        order.extend(DAMAGES.map(|(name, _)| ("damages", name.to_string())));
        order.extend(WAITS.map(|wait| ("waits", wait.to_string())));
        order.extend(DIGITS.map(|digits| ("digits", digits.to_string())));
        Coverage::new("", order)
    }

    fn new(of: &'static str, order: Vec<Class>) -> Coverage {
        let counts = order.iter().map(|class| (class.clone(), 0)).collect();
        Coverage { of, counts, order }
    }

    fn met(&mut self, group: &'static str, class: impl ToString) {
        let class = (group, class.to_string());
        let count = self.counts.get_mut(&class);
        *count.unwrap_or_else(|| panic!("{class:?} is no class")) += 1;
    }

    /// Counts what need not be a class.
    fn met_listed(&mut self, group: &'static str, class: String) {
        if let Some(count) = self.counts.get_mut(&(group, class)) {
            *count += 1;
        }
    }

    fn met_if(&mut self, condition: bool, group: &'static str, class: impl ToString) {
        if condition {
            self.met(group, class);
        }
    }

    fn print(&self) {
        let mut groups: Vec<&str> = self.order.iter().map(|(group, _)| *group).collect();
        groups.dedup();
        for group in groups {
            let classes = self.order.iter().filter(|class| class.0 == group);
            let counts: Vec<String> = classes
                .map(|class| format!("{}: {}", class.1, self.counts[class]))
                .collect();
            println!("{}{group} | {}", self.of, counts.join(" | "));
        }
    }

    /// Prints what was met; whether every class was, which a run of enough has to.
    pub fn covered(&self, enough: bool) -> bool {
        self.print();
        let missed = self.order.iter().filter(|class| self.counts[class] == 0);
        let missed: Vec<&Class> = missed.filter(|_| enough).collect();
        for (group, class) in &missed {
            println!("never met: {}{group}, {class}", self.of);
        }
        missed.is_empty()
    }

    pub fn note(&mut self, case: &Case) {
        if let Some(damage) = case.damage {
            self.met("damages", damage);
        }
        self.note_mending(&case.capture);
        let record = &case.shown.record;
        if too_long(record.len()) {
            self.met("records", "too long");
            return;
        }
        match events(&PAPER, record) {
            Err(number) => self.met("records", format!("refused {number}")),
            Ok(events) => {
                self.met("records", "sound");
                self.met_if(events.is_empty(), "records", "empty record");
                self.met_if(events.len() == MOST_EVENTS, "records", "full record");
                self.note_each(Self::note_event, &mut switched_on(), &events);
                self.note_picture(&case.shown);
            }
        }
    }

    fn note_mending(&mut self, capture: &[u8]) {
        let group = "mendings";
        if mend::captured_too_long(capture.len()) {
            self.met(group, "too long");
            let refused = mend::head_refusal(capture).is_err();
            self.met_if(refused, group, "too long, version not 1");
            return;
        }
        match mend::mend(&PAPER, capture, MOST_BYTES) {
            Err(number) => self.met(group, format!("refused {number}")),
            Ok(mended) => self.note_mended(capture, &mended),
        }
    }

    fn note_mended(&mut self, capture: &[u8], mended: &Mended) {
        let group = "mendings";
        let class = match (mended.dropped > 0, mended.altered) {
            (false, false) => "sound",
            (false, true) => "nothing dropped, length altered",
            (true, false) => "bytes dropped, length kept",
            (true, true) => "bytes dropped, length altered",
        };
        self.met(group, class);
        let (kept, end) = (mended.kept, mended.record.len());
        let full = kept == MOST_EVENTS;
        self.met_if(kept == 0, group, "no event kept");
        self.met_if(full, group, "4096 kept");
        let more = full && mend::stands(capture, end);
        self.met_if(more, group, "4096 kept of more");
        let cut = !full && (1..3).contains(&mended.dropped);
        self.met_if(cut, group, "event cut");
        let behind = !full
            && (end..capture.len())
                .step_by(3)
                .any(|place| mend::stands(capture, place));
        self.met_if(behind, group, "events behind an ill-formed one");
        let unspoken = 2 + length(capture) < end;
        self.met_if(unspoken, group, "events behind the length");
        self.met_if(capture.len() == MOST_BYTES, group, "12291 bytes");
        self.met_if(capture.len() > MOST_BYTES, group, "more than 12291 bytes");
        self.met_if(capture.len() == MOST_CAPTURED, group, "65537 bytes");
    }

    /// Runs the events on a part and notes each.
    fn note_each(&mut self, note: Note, part: &mut Part, events: &[Event]) {
        for &event in events {
            let before = part.clone();
            let outcome = run(&PAPER, part, event);
            note(self, &before, event, outcome, part);
        }
    }

    fn note_event(&mut self, before: &Part, event: Event, outcome: Outcome, after: &Part) {
        let waits = before.half.is_some();
        if at_an_end(before) {
            self.note_not_passed(before, event, outcome, after);
        }
        if event.kind == WAIT {
            self.met_if(WAITS.contains(&event.value), "waits", event.value);
            self.met_if(waits && event.value > 0, "halves", "waited through");
            return;
        }
        self.met("answers", outcome.answer);
        self.met_if(waits && outcome.answer == 1, "halves", "kept by refusal 1");
        let lacking = waits && outcome.answer == 3;
        self.met_if(lacking, "halves", "refusal 3");
        let by_three = lacking && event.value >> 4 == 3;
        self.met_if(by_three, "halves", "refusal 3 by a half of 3");
        if let (Some(half), 2) = (before.half, outcome.answer) {
            let rs = event.kind == DATA_WRITE || event.kind == DATA_READ;
            self.met_if(half.rs != rs, "halves", "another RS");
            self.met_if(half.rs == rs, "halves", "another R/W");
        }
        if outcome.answer == 0 {
            self.note_done(before, event, after);
        }
    }

    fn note_done(&mut self, before: &Part, event: Event, after: &Part) {
        let (instructions, transfers) = if before.eight_lines {
            ("instructions on eight lines", "transfers on eight lines")
        } else {
            ("instructions on four lines", "transfers on four lines")
        };
        match event.kind {
            INSTRUCTION_WRITE => {
                let byte = completed(before.half, event.value as u8);
                self.met(instructions, range(byte));
                self.note_function(before, byte, after);
                let by_three = before.half.is_some() && byte == 0x03;
                self.met_if(by_three, "halves", "03 completed by 3");
            }
            DATA_WRITE => self.met(transfers, "data write"),
            STATUS_READ => {
                self.met(transfers, "status read");
                self.met_if(before.busy > 0, transfers, "busy status read");
            }
            _ => self.met(transfers, "data read"),
        }
        self.note_read(before, event);
        self.note_no_end(before, event, after);
        self.note_ends(before, event, after);
    }

    fn note_ends(&mut self, before: &Part, event: Event, after: &Part) {
        if event.kind == DATA_WRITE {
            self.note_shift_on_write(before);
        }
        self.note_step(before, event, after);
        self.note_shift(before, after);
    }

    fn note_read(&mut self, before: &Part, event: Event) {
        let read = match event.kind {
            STATUS_READ => "status",
            DATA_READ => "data",
            _ => return,
        };
        self.met("reads", format!("{read} with {}", line_count(before)));
    }

    fn note_function(&mut self, before: &Part, byte: u8, after: &Part) {
        if !(0x20..=0x3F).contains(&byte) {
            return;
        }
        let changes = before.two_lines != after.two_lines;
        let group = "function set";
        self.met_if(changes && after.two_lines, group, "one to two lines");
        self.met_if(changes && !after.two_lines, group, "two to one line");
        let lost = before.memory == Memory::Display
            && !(PAPER.has_address)(after.two_lines, before.address);
        self.met_if(changes && lost, group, "an address that is lost");
        self.met_if(changes && before.shift > 0, group, "a shift that is lost");
        let address = !changes && before.address > 0;
        self.met_if(address, group, "N as it was, address not 00");
        let shift = !changes && before.shift > 0;
        self.met_if(shift, group, "N as it was, shift not 0");
        let to_eight = !before.eight_lines && after.eight_lines;
        self.met_if(to_eight, "halves", "bus to eight lines");
    }

    fn note_shift_on_write(&mut self, before: &Part) {
        let display = before.memory == Memory::Display;
        let class = match (before.shift_on_write, display, before.up) {
            (false, _, _) => return,
            (true, false, _) => "not on a character write",
            (true, true, true) => "on write, left",
            (true, true, false) => "on write, right",
        };
        self.met("shifts", class);
    }

    fn note_step(&mut self, before: &Part, event: Event, after: &Part) {
        let (from, to) = (before.address, after.address);
        let passed = ends(before).contains(&(from, to)) || ends(before).contains(&(to, from));
        if let (Some(step), true) = (step_of(before, event), passed) {
            let groups = match before.eight_lines {
                true => PASSED_ON_EIGHT_LINES,
                false => PASSED_ON_FOUR_LINES,
            };
            let memory = match before.memory {
                Memory::Display => String::new(),
                Memory::Character => format!(" of characters, {}", line_count(before)),
            };
            self.met(groups[step].0, format!("{from:02X} to {to:02X}{memory}"));
        }
    }

    /// Counts a step that is listed.
    fn note_no_end(&mut self, before: &Part, event: Event, after: &Part) {
        let memory = match before.memory {
            Memory::Display => format!("with {}", line_count(before)),
            Memory::Character => "of characters".to_string(),
        };
        if step_of(before, event).is_some() {
            let step = format!("{:02X} to {:02X} {memory}", before.address, after.address);
            self.met_listed("steps that pass no end", step);
        }
    }

    fn note_not_passed(&mut self, before: &Part, event: Event, outcome: Outcome, after: &Part) {
        let byte = completed(before.half, event.value as u8);
        let class = match (outcome.answer, event.kind) {
            (0, WAIT) => "by a wait",
            (20, _) => "by a first half",
            (1, DATA_WRITE) => "by a data write refused 1",
            (1, DATA_READ) => "by a data read refused 1",
            (1, _) => "by an instruction refused 1",
            (2, _) => "by a half refused 2",
            (3, _) => "by an address refused 3",
            (0, STATUS_READ) => "by a status read",
            (0, INSTRUCTION_WRITE) => match byte {
                0x01 => "by clear",
                0x02..=0x03 => "by home",
                0x18..=0x1F => "by a display move",
                0x20..=0x3F if before.two_lines != after.two_lines => "by a change of N",
                0x20..=0x3F => "by N as it was",
                0x40..=0x7F => "by a character address",
                0x80 => "by 80",
                0x81..=0xFF => "by a display address",
                _ => return,
            },
            _ => return,
        };
        self.met("ends not passed", class);
    }

    fn note_shift(&mut self, before: &Part, after: &Part) {
        let last = if before.two_lines { 39 } else { 79 };
        let wraps = [(last, 0), (0, last)].contains(&(before.shift, after.shift));
        if wraps && before.two_lines == after.two_lines {
            self.met("shifts", format!("{} to {}", before.shift, after.shift));
        }
    }

    fn note_picture(&mut self, shown: &Shown) {
        let part = end_of(&shown.record);
        let view = &shown.view;
        let listed = DIGITS.contains(&view.digits);
        self.met_if(listed, "digits", view.digits);
        let group = "pictures";
        if let Err(number) = picture::picture(&PAPER, &part, view) {
            self.met(group, format!("refused {number}"));
            let both = number == 4 && !picture::rom_length(view.rom.len());
            self.met_if(both, group, "4 and 5 at once");
            return;
        }
        self.met(group, "shown");
        self.met(group, if view.dark { "dark" } else { "plain" });
        self.met(group, ["text", "pbm"][usize::from(shown.form == Form::Pbm)]);
        if part.display_on {
            self.note_dots(&part, view);
        } else {
            self.met(group, "display off");
        }
    }

    fn note_dots(&mut self, part: &Part, view: &View) {
        let group = "pictures";
        let tall = picture::rows(part) == 11;
        self.met(group, line_count(part));
        self.met_if(tall, group, "11 rows");
        self.met_if(part.shift > 0, group, "shift");
        let past = view.digits > picture::most_digits(part) - part.shift;
        self.met_if(past, group, format!("past the end, {}", line_count(part)));
        let digits = 0..usize::from(view.digits);
        let cells: Vec<usize> = (0..part.lines())
            .flat_map(|line| digits.clone().map(move |digit| (line, digit)))
            .map(|(line, digit)| picture::cell_shown(part, line, digit))
            .collect();
        let characters = cells.iter().any(|&cell| part.display[cell] < 0x10);
        self.met_if(characters && !tall, group, "code 00-0F, 8 rows");
        self.met_if(characters && tall, group, "code 00-0F, 11 rows");
        let wanted = part.cursor_on || part.blink_on;
        let nowhere = part.two_lines && (0x28..=0x3F).contains(&part.address);
        self.met_if(wanted && nowhere, group, "28-3F with two lines");
        if !cells.iter().any(|&cell| picture::marked(part, cell)) {
            return;
        }
        let blinks = part.blink_on && view.dark;
        self.met_if(part.cursor_on, group, "cursor seen");
        self.met_if(part.cursor_on && !blinks, group, "cursor without blink");
        self.met_if(blinks, group, "blink seen");
        self.met_if(blinks && !part.cursor_on, group, "blink without cursor");
        let characters = part.memory == Memory::Character;
        self.met_if(wanted && characters, group, "cursor of character memory");
    }
}

fn listed(groups: &[Group]) -> Vec<Class> {
    let classes =
        |&(group, classes): &Group| classes.iter().map(move |class| (group, class.to_string()));
    groups.iter().flat_map(classes).collect()
}

fn line_count(part: &Part) -> &'static str {
    ["one line", "two lines"][part.lines() - 1]
}

/// The range of an instruction: the highest bit that is set decides.
fn range(byte: u8) -> &'static str {
    RANGES[(8 - byte.leading_zeros()) as usize]
}

/// The ends of the counter's memory, upwards.
fn ends(part: &Part) -> &'static [(u8, u8)] {
    match (part.memory, part.two_lines) {
        (Memory::Display, false) => &[(0x4F, 0x00)],
        (Memory::Display, true) => &[(0x27, 0x40), (0x67, 0x00)],
        (Memory::Character, _) => &[(0x3F, 0x00)],
    }
}

/// Whether a step in the set direction would pass an end.
fn at_an_end(part: &Part) -> bool {
    let mut ends = ends(part).iter();
    ends.any(|&(last, first)| part.address == if part.up { last } else { first })
}

/// Which kind of step an event that is done is, in the order of the groups, if it is one.
fn step_of(before: &Part, event: Event) -> Option<usize> {
    let byte = completed(before.half, event.value as u8);
    match event.kind {
        DATA_WRITE => Some(0),
        DATA_READ => Some(1),
        INSTRUCTION_WRITE if (0x10..=0x17).contains(&byte) => Some(2),
        _ => None,
    }
}

/// The byte that a write completes.
fn completed(half: Option<Half>, lines: u8) -> u8 {
    match half {
        Some(half) => half.upper << 4 | lines >> 4,
        None => lines,
    }
}
