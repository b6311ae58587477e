//! Calls of the library from C: on states that records reach, on damaged ones, and with each refusal
//! alone and beside the next.

use super::author::{self, Author};
use super::damage;
use super::random::Random;
use crate::model::library::{answers_room, bytes_of_list, Bytes, Call};
use crate::model::mend::{bytes_of, kept};
use crate::model::panel;
use crate::model::part::{switched_on, Half, Memory, Part};
use crate::model::picture::{most_digits, rows, ROM_BYTES};
use crate::model::record::*;
use crate::model::rules::PAPER;
use crate::model::state::{put, take, MEMORY, MOST_BUSY, STATE_BYTES};
use std::rc::Rc;

/// Set in the number of a part of the calls, so that it has a stream of its own.
const CALLS: u64 = 1 << 34;

const LISTS: usize = 3000;
const RESTARTS: usize = 1000;
const PICTURES: usize = 300;
const PANEL_CALLS: usize = 4000;
const SHEETS: usize = 400;
const MENDINGS: usize = 1000;

/// Room for any picture.
const ROOM_FOR_DOTS: usize = 880;

pub fn calls(seed: u64) -> Vec<Call> {
    let makers: [fn(&mut Random) -> Vec<Call>; 9] = [
        |_| switchings_on(),
        lists,
        list_lengths,
        restarts,
        pictures,
        panel_calls,
        sheets,
        mendings,
        changed_states,
    ];
    let made = makers.into_iter().zip(CALLS..).flat_map(|(make, number)| {
        let random = &mut Random::new(seed, number);
        make(random)
    });
    made.collect()
}

fn events(random: &mut Random) -> Vec<Event> {
    let room = match random.below(10) {
        0 => random.between(0, 3),
        1 => random.between(200, 500),
        _ => random.between(20, 150),
    };
    author::events(random, room)
}

fn state(random: &mut Random) -> Bytes {
    let events = events(random);
    let mut state = put(&led(&PAPER, &events));
    if random.percent(12) {
        damage_state(random, &mut state);
    }
    state
}

/// As a rule no part is put so any more.
fn damage_state(random: &mut Random, state: &mut Bytes) {
    match random.below(8) {
        0 => state.clear(),
        1 => state.truncate(STATE_BYTES - 1),
        2 => state.push(0),
        3 => state.truncate(random.below(STATE_BYTES)),
        4 => state.extend(random.bytes(STATE_BYTES)),
        _ => {
            let place = random.between(MEMORY, STATE_BYTES - 1);
            let any = random.byte();
            state[place] = random.pick(&[2, 0x28, 0x40, 0x68, 255, any]);
        }
    }
}

/// Rooms about the one that is asked for.
fn room(random: &mut Random, asked: usize) -> usize {
    let short = random.below(asked + 1);
    let more = asked + random.between(1, 40);
    let listed = [asked, asked, asked, asked + 1, more, more];
    match random.below(10) {
        0 => 0,
        1 => short,
        2 | 3 => asked.saturating_sub(1),
        _ => random.pick(&listed),
    }
}

fn switchings_on() -> Vec<Call> {
    let rooms = (0..=200).chain([318, 4096]);
    rooms.map(|room| Call::SwitchOn { room }).collect()
}

/// A story told in two: the first part leads to the state, the second is the list.
fn lists(random: &mut Random) -> Vec<Call> {
    let list = |_| {
        let events = events(random);
        let (before, after) = events.split_at(random.below(events.len() + 1));
        let mut state = put(&led(&PAPER, before));
        if random.percent(15) {
            damage_state(random, &mut state);
        }
        let mut events = bytes_of_list(after);
        if random.percent(35) {
            damage_list(random, &mut events);
        }
        Call::RunList {
            room: room(random, answers_room(&events)),
            state,
            events,
        }
    };
    (0..LISTS).map(list).collect()
}

/// Bytes that are no whole event, or an ill-formed one: first, in the middle or last.
fn damage_list(random: &mut Random, events: &mut Bytes) {
    if random.percent(25) {
        let more = random.pick(&[1, 2]);
        events.extend(random.bytes(more));
        return;
    }
    if events.is_empty() {
        events.extend([0; 3]);
    }
    let last = events.len() / 3 - 1;
    let place = 3 * random.pick(&[0, last / 2, last]);
    ill_form(random, &mut events[place..place + 3]);
}

fn ill_form(random: &mut Random, event: &mut [u8]) {
    let (write, read) = (random.pick(&[0, 1]), random.pick(&[2, 3]));
    let any = random.between(5, 255) as u8;
    let byte = random.byte();
    let some = random.between(1, 255) as u8;
    event.copy_from_slice(&random.pick(&[
        [5, 0, 0],
        [any, 0, byte],
        [write, 1, 0],
        [write, some, byte],
        [read, 0, 1],
        [read, 1, 0],
        [read, some, some],
    ]));
}

/// Each number of events with each number of bytes behind them, each room about what is asked for,
/// sound and with an ill-formed event, on a part and on no part.
fn list_lengths(random: &mut Random) -> Vec<Call> {
    let full = author::events(random, MOST_EVENTS);
    let mut calls = Vec::new();
    for count in [0, 1, 2, 16, MOST_EVENTS, MOST_EVENTS + 1] {
        let whole: Vec<Event> = full.iter().cycle().take(count).copied().collect();
        for behind in 0..3 {
            let mut events = bytes_of_list(&whole);
            events.extend([0; 2].iter().take(behind));
            let asked = answers_room(&events);
            for room in [asked, asked + 1, asked + 2, asked.saturating_sub(1), 0] {
                for state in [
                    put(&switched_on()),
                    put(&written()),
                    vec![0xFF; STATE_BYTES],
                ] {
                    let events = events.clone();
                    calls.push(Call::RunList {
                        state,
                        events,
                        room,
                    });
                }
            }
        }
    }
    calls.extend(ill_formed_lists(random, &full));
    calls
}

fn ill_formed_lists(random: &mut Random, full: &[Event]) -> Vec<Call> {
    let list = |count: usize, place: usize, random: &mut Random| {
        let mut events = bytes_of_list(&full[..count]);
        ill_form(random, &mut events[3 * place..3 * place + 3]);
        let asked = answers_room(&events);
        [asked, asked - 1].map(|room| Call::RunList {
            state: put(&written()),
            events: events.clone(),
            room,
        })
    };
    let places = [1, 2, 16, MOST_EVENTS].into_iter().flat_map(|count| {
        [0, count / 2, count - 1]
            .into_iter()
            .map(move |place| (count, place))
    });
    places
        .flat_map(|(count, place)| list(count, place, random))
        .collect()
}

fn restarts(random: &mut Random) -> Vec<Call> {
    let restart = |_| Call::Restart {
        state: state(random),
    };
    (0..RESTARTS).map(restart).collect()
}

/// For each image so many, one image after the other.
fn pictures(random: &mut Random) -> Vec<Call> {
    let images = [
        ROM_BYTES,
        ROM_BYTES,
        ROM_BYTES,
        0,
        ROM_BYTES - 1,
        ROM_BYTES + 1,
    ];
    let mut calls = Vec::new();
    for length in images {
        let rom = Rc::new(random.bytes(length));
        calls.extend((0..PICTURES).map(|_| picture(random, &rom)));
    }
    calls
}

fn picture(random: &mut Random, rom: &Rc<Bytes>) -> Call {
    let state = state(random);
    let part = take(&state).unwrap_or_else(switched_on);
    let most = most_digits(&part);
    let any = random.byte();
    let few = random.between(1, usize::from(most)) as u8;
    let digits = random.pick(&[most, most, few, few, 1, 16, 0, most + 1, any]);
    let asked = part.lines() * rows(&part) * usize::from(digits);
    Call::Picture {
        room: room(random, asked),
        state,
        digits,
        rom: rom.clone(),
        dark: random.pick(&[0, 0, 1, 1, 2, 128, 255, any]),
    }
}

/// As the scripts have them: on a part that is ready as a rule, with nights that are written.
fn panel_calls(random: &mut Random) -> Vec<Call> {
    let mut calls = Vec::new();
    while calls.len() < PANEL_CALLS {
        let mut author = Author::new(random, MOST_EVENTS);
        author.lead();
        for _ in 0..3 {
            let call = author.call();
            let mut state = put(&author.part);
            author.take(&call);
            if author.random.percent(10) {
                damage_state(author.random, &mut state);
            }
            calls.push(on_state(author.random, state, call));
        }
    }
    calls
}

/// A text from C may hold any byte, also 0.
fn on_state(random: &mut Random, state: Bytes, call: panel::Call) -> Call {
    match call {
        panel::Call::Text(line, mut text) => {
            if let Some(last) = text.last_mut() {
                let any = random.byte();
                *last = random.pick(&[0, any, *last]);
            }
            Call::Text { state, line, text }
        }
        panel::Call::Log(night, quarters) => Call::LogNight {
            state,
            night,
            quarters,
        },
        panel::Call::Night(night) => Call::LookUp { state, night },
    }
}

/// The borders of both refusals with one another, and any sheets.
fn sheets(random: &mut Random) -> Vec<Call> {
    let border = |least: u16, most: u16| {
        let about = [least - 1, least, least + 1, most - 1, most, most + 1];
        [0, 1, 255, 256, 65535].into_iter().chain(about)
    };
    let borders = border(288, 352).flat_map(|vdd| border(192, 512).map(move |span| (vdd, span)));
    let mut asked: Vec<(u16, u16)> = borders.chain([(320, 256)]).collect();
    asked.extend((0..SHEETS).map(|_| {
        let vdd = random.between(288, 352) as u16;
        (vdd, random.between(192, 512) as u16)
    }));
    let both = |(vdd, span)| {
        [
            Call::QuarterBias { vdd, span },
            Call::FifthBias { vdd, span },
        ]
    };
    asked.into_iter().flat_map(both).collect()
}

/// Captures as the records have them, shorter ones oftener; full ones, and one of which more is
/// dropped than 16 bits can say; and heads alone.
fn mendings(random: &mut Random) -> Vec<Call> {
    let mut calls: Vec<Call> = (0..MENDINGS).map(|_| mending(random)).collect();
    let full = record(&author::events(random, MOST_EVENTS));
    let more = [full.clone(), vec![4; 9]].concat();
    let long = [vec![0, 4, 1, 5], random.bytes(70_000)].concat();
    for record in [full, more, long] {
        let asked = bytes_of(kept(&PAPER, &record));
        let rooms = [asked - 1, asked, asked + 1, asked + 40, 0];
        calls.extend(rooms.map(|room| mend(&record, room)));
    }
    let heads: [&[u8]; 5] = [&[], &[1], &[0, 1], &[0, 1, 1], &[0, 1, 2]];
    for room in 0..8 {
        calls.extend(heads.map(|head| mend(head, room)));
    }
    calls
}

fn mending(random: &mut Random) -> Call {
    let events = events(random);
    let mut record = record(&events[..events.len().min(60)]);
    if random.percent(70) {
        damage::damage(random, &mut record);
    }
    let asked = bytes_of(kept(&PAPER, &record));
    mend(&record, room(random, asked))
}

fn mend(record: &[u8], room: usize) -> Call {
    Call::Mend {
        record: record.to_vec(),
        room,
    }
}

/// States of which each byte behind the memories is set to every other value. The first two are lent to every function that takes a state, the others to the restart.
pub fn bases() -> [Part; 4] {
    [written(), in_character_memory(), one_line(), reading()]
}

/// After a restart, with night 3 logged: the panel is ready.
fn written() -> Part {
    let mut part = switched_on();
    part.eight_lines = false;
    part.two_lines = true;
    part.busy = 10;
    part.display[16 + 3] = 29;
    part.display[56 + 3] = panel::MARK;
    part
}

/// An instruction half waits on four lines; the counter belongs to character memory, at its end.
fn in_character_memory() -> Part {
    let mut part = written();
    part.memory = Memory::Character;
    part.address = 0x3F;
    part.shift = 39;
    part.up = false;
    part.shift_on_write = true;
    part.display_on = true;
    part.blink_on = true;
    part.half = Some(Half {
        rs: false,
        read: false,
        upper: 9,
    });
    part
}

fn one_line() -> Part {
    let mut part = switched_on();
    part.address = 0x4F;
    part.shift = 79;
    part.tall = true;
    part.display_on = true;
    part.cursor_on = true;
    part.busy = MOST_BUSY;
    part
}

fn reading() -> Part {
    let mut part = one_line();
    part.eight_lines = false;
    part.address = 0x27;
    part.busy = 0;
    part.half = Some(Half {
        rs: true,
        read: true,
        upper: 0,
    });
    part
}

fn changed_states(random: &mut Random) -> Vec<Call> {
    let rom = Rc::new(random.bytes(ROM_BYTES));
    let mut calls = Vec::new();
    for (number, base) in bases().iter().enumerate() {
        let base = put(base);
        calls.extend(on_every(base.clone(), &rom));
        for length in [0, 1, STATE_BYTES - 1, STATE_BYTES + 1, 2 * STATE_BYTES] {
            let lengthened: Bytes = base.iter().cycle().take(length).copied().collect();
            calls.extend(on_every(lengthened, &rom));
        }
        for place in MEMORY..STATE_BYTES {
            for value in (0..=255).filter(|&value| value != base[place]) {
                let mut state = base.clone();
                state[place] = value;
                if number < 2 {
                    calls.extend(on_every(state, &rom));
                } else {
                    calls.push(Call::Restart { state });
                }
            }
        }
    }
    calls
}

/// One call of each function that takes a state; none is refused on the first base.
fn on_every(state: Bytes, rom: &Rc<Bytes>) -> [Call; 6] {
    let lent = || state.clone();
    let events = [
        [2, 0, 0],
        [0, 0, 0x41],
        [4, 0, 9],
        [3, 0, 0],
        [4, 0, 1],
        [3, 0, 0],
    ]
    .concat();
    [
        Call::RunList {
            state: lent(),
            room: answers_room(&events) + 2,
            events,
        },
        Call::Restart { state: lent() },
        Call::Picture {
            state: lent(),
            digits: 40,
            rom: rom.clone(),
            dark: 1,
            room: ROOM_FOR_DOTS,
        },
        Call::Text {
            state: lent(),
            line: 1,
            text: b"Good night, Anna".to_vec(),
        },
        Call::LogNight {
            state: lent(),
            night: 4,
            quarters: 30,
        },
        Call::LookUp {
            state: lent(),
            night: 3,
        },
    ]
}
