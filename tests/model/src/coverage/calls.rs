//! What the calls from C have met, and what they should have met.

use super::{listed, Coverage, Group};
use crate::calls::name;
use crate::generator::calls::bases;
use crate::model::library::{answers_room, stands, Call, Left};
use crate::model::part::{Half, Memory, Part};
use crate::model::record::MOST_EVENTS;
use crate::model::state::{put, take, MEMORY, STATE_BYTES};

/// Of each function which conditions of a refusal held at once, the first of them given; `done` where
/// none did.
#[rustfmt::skip]
const REFUSALS: [Group; 10] = [
    ("switch_on", &["done", "6"]),
    ("run_list", &["done", "16", "16 with 6", "16 with 9", "16 with 6 with 9", "6", "6 with 9", "9"]),
    ("restart", &["done", "16"]),
    ("picture", &["done", "16", "16 with 4", "16 with 5", "16 with 6", "4", "4 with 5", "4 with 6", "5", "5 with 6", "6"]),
    ("text", &["done", "16", "16 with 18", "17", "17 with 18", "18"]),
    ("log_night", &["done", "16", "16 with 11", "16 with 12", "17", "17 with 11", "17 with 12", "17 with 13", "11", "11 with 12", "12", "12 with 13", "13"]),
    ("look_up", &["done", "16", "16 with 11", "11"]),
    ("quarter_bias", &["done", "21", "21 with 22", "22"]),
    ("fifth_bias", &["done", "21", "21 with 22", "22"]),
    ("mend", &["done", "7 with 8", "7 with 8 with 6", "8", "8 with 6", "6"]),
];

#[rustfmt::skip]
const CLASSES: [Group; 7] = [
    ("runs of no bytes", &["state", "state to switch on", "events", "answers", "rom", "dots", "text", "record", "mended"]),
    ("states", &["158 bytes", "159 bytes", "160 bytes", "display, one line", "display, two lines", "character, one line", "character, two lines",
        "eight lines", "no half", "instruction write", "data write", "status read", "data read", "half of 0", "half of 15", "not busy", "busy", "busy above 255", "busy 3750",
        "F = 1", "direction down", "shift on write", "shift", "display", "cursor", "blink"]),
    ("lists", &["1 event", "4096 events", "4097 events", "4097 events with room", "not whole with room", "not whole without room",
        "room to the byte", "room one byte short", "ill-formed first", "ill-formed in the middle", "ill-formed last"]),
    ("answers to events", &["0", "1", "2", "3", "20", "a value read", "a wrap", "one done behind a refused one"]),
    ("pictures from C", &["plain", "dark 1", "dark above 1", "room to the byte", "room one byte short"]),
    ("panel from C", &["text on line 0", "text on line 1", "on eight lines", "on four lines", "night 22 logged", "night 23 logged on eight lines", "night 23 logged on four lines",
        "a night that is written", "a night that is not"]),
    ("mendings from C", &["nothing kept", "4096 kept", "bytes dropped", "above 65535 dropped", "length altered", "length kept", "room to the byte", "room one byte short"]),
];

const CHANGED: [&str; 2] = ["a byte changed, refused", "a byte changed, taken"];

impl Coverage {
    pub fn of_calls() -> Coverage {
        let mut order = [listed(&REFUSALS), listed(&CLASSES)].concat();
        let places = MEMORY..STATE_BYTES;
        order.extend(places.clone().map(|place| (CHANGED[0], place.to_string())));
        order.extend(places.map(|place| (CHANGED[1], place.to_string())));
        Coverage::new("C: ", order)
    }

    pub fn note_call_from_c(&mut self, call: &Call) {
        let refusals: Vec<String> = call.refusals().iter().map(u8::to_string).collect();
        let done = refusals.is_empty();
        let class = if done {
            "done".to_string()
        } else {
            refusals.join(" with ")
        };
        self.met_listed(name(call), class);
        if let Some(state) = call.state() {
            self.note_state(state);
        }
        let left = call.left().unwrap_or_default();
        match call {
            Call::SwitchOn { room } => self.note_none(*room, "state to switch on"),
            Call::RunList { events, room, .. } => self.note_list(events, *room, &left),
            Call::Picture {
                dark, room, rom, ..
            } => self.note_view(*dark, *room, rom, &left, call),
            Call::Text { line, text, state } => {
                self.note_none(text.len(), "text");
                self.met_if(done, "panel from C", format!("text on line {line}"));
                self.note_wiring(done, state, "");
            }
            Call::LogNight { state, night, .. } => {
                self.note_wiring(done, state, "");
                self.met_if(done && *night == 22, "panel from C", "night 22 logged");
                let logged = done && *night == 23;
                self.note_wiring(logged, state, "night 23 logged ");
            }
            Call::LookUp { .. } => {
                let class = ["a night that is not", "a night that is written"];
                if let [Left::Number(written), _] = left[..] {
                    self.met("panel from C", class[written]);
                }
            }
            Call::Mend { record, room } => self.note_mend(record, *room, &left, call),
            _ => {}
        }
    }

    fn note_none(&mut self, bytes: usize, class: &str) {
        self.met_if(bytes == 0, "runs of no bytes", class);
    }

    fn note_state(&mut self, state: &[u8]) {
        self.note_none(state.len(), "state");
        self.met_listed("states", format!("{} bytes", state.len()));
        let part = take(state);
        for base in bases() {
            self.note_changed(&put(&base), state, part.is_some());
        }
        if let Some(part) = part {
            self.note_part(&part);
        }
    }

    fn note_changed(&mut self, base: &[u8], state: &[u8], taken: bool) {
        if base.len() != state.len() {
            return;
        }
        let places = (0..base.len()).filter(|&place| base[place] != state[place]);
        if let [place] = places.collect::<Vec<usize>>()[..] {
            self.met_listed(CHANGED[usize::from(taken)], place.to_string());
        }
    }

    fn note_part(&mut self, part: &Part) {
        let group = "states";
        let memory = match part.memory {
            Memory::Display => "display",
            Memory::Character => "character",
        };
        let line_count = super::line_count(part);
        self.met(group, format!("{memory}, {line_count}"));
        self.met(group, half_name(part));
        let number = part.half.filter(|half| !half.read).map(|half| half.upper);
        self.met_if(number == Some(0), group, "half of 0");
        self.met_if(number == Some(15), group, "half of 15");
        let conditions = [
            (part.busy == 0, "not busy"),
            (part.busy > 0, "busy"),
            (part.busy > 255, "busy above 255"),
            (part.busy == 3750, "busy 3750"),
            (part.tall, "F = 1"),
            (!part.up, "direction down"),
            (part.shift_on_write, "shift on write"),
            (part.shift > 0, "shift"),
            (part.display_on, "display"),
            (part.cursor_on, "cursor"),
            (part.blink_on, "blink"),
        ];
        for (condition, class) in conditions {
            self.met_if(condition, group, class);
        }
    }

    fn note_list(&mut self, events: &[u8], room: usize, left: &[Left]) {
        let group = "lists";
        self.note_none(events.len(), "events");
        self.note_none(room, "answers");
        let (count, asked) = (events.len() / 3, answers_room(events));
        let whole = events.chunks_exact(3).remainder().is_empty();
        self.met_if(whole && count == 1, group, "1 event");
        self.met_if(whole && count == MOST_EVENTS, group, "4096 events");
        let more = whole && count == MOST_EVENTS + 1;
        self.met_if(more, group, "4097 events");
        self.met_if(more && room >= asked, group, "4097 events with room");
        self.met_if(!whole && room >= asked, group, "not whole with room");
        self.met_if(!whole && room < asked, group, "not whole without room");
        self.met_if(room == asked, group, "room to the byte");
        self.met_if(room + 1 == asked, group, "room one byte short");
        self.note_ill_formed(events);
        if let [_, Left::Bytes(answers)] = left {
            self.note_answers(answers);
        }
    }

    /// The first that is ill-formed.
    fn note_ill_formed(&mut self, events: &[u8]) {
        let whole = events.chunks_exact(3);
        let last = whole.len().saturating_sub(1);
        let place = whole.clone().position(|bytes| !stands(bytes));
        let class = match place {
            None => return,
            Some(0) => "ill-formed first",
            Some(place) if place == last => "ill-formed last",
            Some(_) => "ill-formed in the middle",
        };
        self.met("lists", class);
    }

    fn note_answers(&mut self, answers: &[u8]) {
        let group = "answers to events";
        let mut refused = false;
        for answer in answers.chunks_exact(3) {
            self.met(group, answer[0]);
            self.met_if(answer[1] > 0, group, "a value read");
            self.met_if(answer[2] == 1, group, "a wrap");
            let behind = refused && answer[0] == 0;
            self.met_if(behind, group, "one done behind a refused one");
            refused |= (1..=3).contains(&answer[0]);
        }
    }

    fn note_view(&mut self, dark: u8, room: usize, rom: &[u8], left: &[Left], call: &Call) {
        let group = "pictures from C";
        self.note_none(rom.len(), "rom");
        self.note_none(room, "dots");
        let class = ["plain", "dark 1", "dark above 1"][usize::from(dark.min(2))];
        self.met_if(call.answer() == 0, group, class);
        self.note_room(group, room, left, call);
    }

    /// A call that is done with room for what it writes, or one that a byte more would do.
    fn note_room(&mut self, group: &'static str, room: usize, left: &[Left], call: &Call) {
        if let [Left::Bytes(bytes), ..] = left {
            self.met_if(bytes.len() == room, group, "room to the byte");
        }
        let longer = match call.clone() {
            Call::Picture {
                state,
                digits,
                rom,
                dark,
                room,
            } => Call::Picture {
                state,
                digits,
                rom,
                dark,
                room: room + 1,
            },
            Call::Mend { record, room } => Call::Mend {
                record,
                room: room + 1,
            },
            _ => return,
        };
        let short = call.refusals() == [6] && longer.answer() == 0;
        self.met_if(short, group, "room one byte short");
    }

    fn note_wiring(&mut self, done: bool, state: &[u8], what: &str) {
        if let (true, Some(part)) = (done, take(state)) {
            let lines = if part.eight_lines { "eight" } else { "four" };
            self.met("panel from C", format!("{what}on {lines} lines"));
        }
    }

    fn note_mend(&mut self, record: &[u8], room: usize, left: &[Left], call: &Call) {
        let group = "mendings from C";
        self.note_none(record.len(), "record");
        self.note_none(room, "mended");
        self.note_room(group, room, left, call);
        if let [_, Left::Number(kept), Left::Number(dropped), Left::Number(altered)] = left[..] {
            self.met_if(kept == 0, group, "nothing kept");
            self.met_if(kept == MOST_EVENTS, group, "4096 kept");
            self.met_if(dropped > 0, group, "bytes dropped");
            self.met_if(dropped > 65_535, group, "above 65535 dropped");
            self.met(group, ["length kept", "length altered"][altered]);
        }
    }
}

fn half_name(part: &Part) -> &'static str {
    match part.half {
        None if part.eight_lines => "eight lines",
        None => "no half",
        Some(Half {
            rs: false,
            read: false,
            ..
        }) => "instruction write",
        Some(Half {
            rs: true,
            read: false,
            ..
        }) => "data write",
        Some(Half {
            rs: false,
            read: true,
            ..
        }) => "status read",
        Some(Half {
            rs: true,
            read: true,
            ..
        }) => "data read",
    }
}
