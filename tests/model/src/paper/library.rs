//! Tests of the library for C, as the model has it, by the request of whole lists (02, 7/12), whose
//! answers are three bytes an event since 8/12, and by the example host's output.

use crate::generator::author::events;
use crate::generator::calls::bases;
use crate::generator::random::Random;
use crate::model::library::{bytes_of_list, Bytes, Call, Left};
use crate::model::part::switched_on;
use crate::model::record::{led, record, MOST_EVENTS};
use crate::model::rules::PAPER;
use crate::model::state::{put, take, BUSY, MEMORY, NUMBER, STATE_BYTES};
use crate::model::table::bench;
use std::rc::Rc;

fn fresh() -> Bytes {
    put(&switched_on())
}

fn list(state: &[u8], events: &[u8], room: usize) -> Call {
    Call::RunList {
        state: state.to_vec(),
        events: events.to_vec(),
        room,
    }
}

#[test]
fn switched_on_is_put_byte_by_byte() {
    let mut bytes = vec![0x20; 80];
    bytes.extend([0; 64]);
    bytes.extend([0, 0, 0, 1, 0, 0, 1, 0, 0, 0, 0, 0, 0, 0x0E, 0xA6]);
    assert_eq!(fresh(), bytes);
}

#[test]
fn a_controller_put_and_taken_is_the_same() {
    for number in 0..300 {
        let random = &mut Random::new(7, number);
        let part = led(&PAPER, &events(random, 120));
        assert_eq!(take(&put(&part)), Some(part));
    }
}

#[test]
fn bytes_that_no_controller_is_put_as_are_refused() {
    let refused = |change: fn(&mut Bytes)| {
        let mut state = fresh();
        change(&mut state);
        list(&state, &[], 0).answer()
    };
    assert_eq!(refused(|_| ()), 0);
    assert_eq!(refused(|state| state[MEMORY] = 2), 16);
    assert_eq!(refused(|state| state[145] = 0x50), 16);
    assert_eq!(refused(|state| state[146] = 80), 16);
    assert_eq!(refused(|state| state[154] = 2), 16);
    assert_eq!(refused(|state| state[155] = 1), 16);
    assert_eq!(refused(|state| state[NUMBER] = 1), 16);
    assert_eq!(refused(|state| state[BUSY + 1] += 1), 16);
    assert_eq!(refused(|state| state.push(0)), 16);
    assert_eq!(refused(|state| state.truncate(158)), 16);
    assert_eq!(refused(Vec::clear), 16);
}

#[test]
fn no_two_bytes_say_the_same() {
    for base in bases() {
        for place in 0..STATE_BYTES {
            for value in 0..=255 {
                let mut state = put(&base);
                state[place] = value;
                assert!(take(&state).is_none_or(|part| put(&part) == state));
            }
        }
    }
}

#[test]
fn a_list_answers_as_its_events_given_singly() {
    let events = bytes_of_list(&events(&mut Random::new(7, 1), 200));
    let mut state = fresh();
    let mut singly = Vec::new();
    for event in events.chunks_exact(3) {
        match list(&state, event, 3).left().as_deref() {
            Some([Left::Bytes(after), Left::Bytes(answer)]) => {
                state.clone_from(after);
                singly.extend(answer);
            }
            other => panic!("{other:?}"),
        }
    }
    let whole = list(&fresh(), &events, 600).left();
    assert_eq!(whole, Some(vec![Left::Bytes(state), Left::Bytes(singly)]));
}

#[test]
fn a_list_is_refused_in_the_order_16_6_9() {
    let bad = [5, 0, 0];
    assert_eq!(list(&[], &bad, 2).refusals(), [16, 6, 9]);
    assert_eq!(list(&fresh(), &bad, 2).refusals(), [6, 9]);
    assert_eq!(list(&fresh(), &bad, 3).refusals(), [9]);
    assert_eq!(list(&fresh(), &[4, 0, 0, 4], 3).refusals(), [9]);
    assert_eq!(list(&fresh(), &[4, 0, 0, 4, 0], 2).refusals(), [6, 9]);
    assert_eq!(list(&fresh(), &[4, 0], 0).refusals(), [9]);
    assert_eq!(list(&fresh(), &[4, 0, 0], 2).refusals(), [6]);
    let more = [4; 3 * (MOST_EVENTS + 1)];
    assert_eq!(list(&fresh(), &more, 12_290).refusals(), [6, 9]);
    assert_eq!(list(&fresh(), &more, 12_291).refusals(), [9]);
    assert_eq!(list(&fresh(), &more[3..], 12_288).refusals(), []);
    assert_eq!(list(&fresh(), &[], 0).refusals(), []);
}

/// The evening of examples/host.c.
struct Host {
    state: Bytes,
    printed: String,
}

impl Host {
    fn say(&mut self, what: &str, call: impl FnOnce(Bytes) -> Call) {
        let call = call(self.state.clone());
        self.printed += &format!("{what}: {}\n", call.answer());
        if let Some([Left::Bytes(state), ..]) = call.left().as_deref() {
            self.state.clone_from(state);
        }
    }

    fn text(&mut self, line: u8, text: &str) {
        self.say(text, |state| Call::Text {
            state,
            line,
            text: text.as_bytes().to_vec(),
        });
    }

    fn log(&mut self, night: u8, quarters: u8) {
        let what = format!("log night {night}, {quarters} quarter hours");
        self.say(&what, |state| Call::LogNight {
            state,
            night,
            quarters,
        });
    }

    fn look_up(&mut self, night: u8) {
        let state = self.state.clone();
        let call = Call::LookUp { state, night };
        let told = match call.left().as_deref() {
            Some([Left::Number(1), Left::Number(quarters)]) => format!("{quarters} quarter hours"),
            other => {
                assert_eq!(other, Some([Left::Number(0), Left::Number(0)].as_slice()));
                "not yet written".to_string()
            }
        };
        self.printed += &format!("night {night}: {told}\n");
    }

    /// A list and its table, with the heading and the columns of the bench program.
    fn list(&mut self, events: &[[u8; 3]]) {
        let call = list(&self.state, &events.concat(), 3 * events.len());
        let left = call.left().expect("a list that is done");
        self.say("list", |_| call);
        let Left::Bytes(answers) = &left[1] else {
            panic!("{left:?}");
        };
        self.printed += &bench(&PAPER, &record(&[]));
        for (place, (event, answer)) in events.iter().zip(answers.chunks_exact(3)).enumerate() {
            let value = u16::from_be_bytes([event[1], event[2]]);
            let row = [place as u16 + 1, event[0].into(), value];
            let row = row.map(|column| column.to_string()).join(" ");
            let answer = [answer[0], answer[1], answer[2]];
            let answer = answer.map(|column| column.to_string()).join(" ");
            self.printed += &format!("{row} {answer}\n");
        }
    }

    fn show(&mut self) {
        let call = Call::Picture {
            state: self.state.clone(),
            digits: 16,
            rom: Rc::new(include_bytes!("../../../../examples/rom.bin").to_vec()),
            dark: 0,
            room: 256,
        };
        self.printed += &format!("picture: {}\n", call.answer());
        let left = call.left().expect("a picture that is done");
        let Left::Bytes(dots) = &left[0] else {
            panic!("{left:?}");
        };
        for (row, digits) in dots.chunks_exact(16).enumerate() {
            let digits = digits.iter().map(|dots| {
                let dots = format!("{dots:05b}");
                dots.replace('0', ".").replace('1', "#")
            });
            let digits: Vec<String> = digits.collect();
            let gap = if row % 8 == 0 { "\n" } else { "" };
            self.printed += &format!("{gap}{}\n", digits.join(" "));
        }
    }
}

#[test]
fn the_host_prints_its_evening() {
    let mut host = Host {
        state: Vec::new(),
        printed: String::new(),
    };
    host.say("switch on", |_| Call::SwitchOn { room: STATE_BYTES });
    host.say("restart", |state| Call::Restart { state });
    host.text(0, "Good night, Anna");
    host.text(1, "Slept 7 1/4 h   ");
    host.log(3, 29);
    host.log(3, 30);
    host.look_up(3);
    host.look_up(4);
    host.say("restart", |state| Call::Restart { state });
    host.look_up(3);
    host.list(&[
        [4, 0, 10],
        [0, 0, 0x00],
        [0, 0, 0xE0],
        [0, 0, 0x80],
        [4, 0, 10],
        [0, 0, 0x10],
        [0, 0, 0x00],
        [4, 0, 10],
        [0, 0, 0x80],
        [0, 0, 0xF0],
        [2, 0, 0],
        [2, 0, 0],
    ]);
    host.show();
    let due = include_str!("../../../../examples/host.stdout");
    assert_eq!(host.printed, due);
}
