//! Tests of the model by the request of text that runs off a line (02, 8/12).

use super::panel::met;
use super::{give, instruct};
use crate::generator::case::{case, sound};
use crate::model::library::{bytes_of_list, Call, Left};
use crate::model::part::{switched_on, Half, Memory, Part};
use crate::model::record::*;
use crate::model::rules::PAPER;
use crate::model::state::put;
use crate::model::table::bench;
use crate::model::transfer::{refused, Outcome, Transfer};

/// What steps the counter: a data write, a data read, a cursor move.
const STEPS: [fn(bool) -> Transfer; 3] = [
    |_| Transfer::Data(0x41),
    |_| Transfer::Read,
    |up| Transfer::Instruction(if up { 0x14 } else { 0x10 }),
];

/// The ends: of which memory, whether with two lines, and the addresses upwards.
const ENDS: [(Memory, bool, u8, u8); 5] = [
    (Memory::Display, true, 0x27, 0x40),
    (Memory::Display, true, 0x67, 0x00),
    (Memory::Display, false, 0x4F, 0x00),
    (Memory::Character, false, 0x3F, 0x00),
    (Memory::Character, true, 0x3F, 0x00),
];

/// A part that is not busy, with this counter and direction, on eight lines.
fn at(memory: Memory, two_lines: bool, address: u8, up: bool) -> Part {
    Part {
        memory,
        two_lines,
        address,
        up,
        busy: 0,
        ..switched_on()
    }
}

fn on_four_lines(part: &Part) -> Part {
    Part {
        eight_lines: false,
        ..part.clone()
    }
}

/// Every counter that there is, with either direction.
fn every_counter() -> Vec<Part> {
    let mut parts = Vec::new();
    for up in [false, true] {
        for address in 0x00..=0x4F {
            parts.push(at(Memory::Display, false, address, up));
        }
        for address in (0x00..=0x27).chain(0x40..=0x67) {
            parts.push(at(Memory::Display, true, address, up));
        }
        for address in 0x00..=0x3F {
            parts.push(at(Memory::Character, false, address, up));
            parts.push(at(Memory::Character, true, address, up));
        }
    }
    parts
}

/// Whether a step from here passes one of the ends.
fn passes(part: &Part, up: bool) -> bool {
    ENDS.iter().any(|&(memory, two_lines, last, first)| {
        let from = if up { last } else { first };
        (part.memory, part.two_lines, part.address) == (memory, two_lines, from)
    })
}

/// The two halves of a transfer on four lines.
fn in_halves(part: &mut Part, transfer: Transfer) -> [Outcome; 2] {
    let byte = transfer.lines();
    [byte, byte << 4].map(|half| give(part, transfer.of(half)))
}

#[test]
fn each_end_by_each_step_in_either_direction() {
    for (memory, two_lines, last, first) in ENDS {
        for (up, from, to) in [(true, last, first), (false, first, last)] {
            for transfer in STEPS.map(|step| step(up)) {
                let mut eight = at(memory, two_lines, from, up);
                let mut four = on_four_lines(&eight);
                let outcome = give(&mut eight, transfer);
                assert_eq!((outcome.answer, outcome.wrap), (0, true));
                let halves = in_halves(&mut four, transfer);
                let said = halves.map(|half| (half.answer, half.wrap));
                assert_eq!(said, [(20, false), (0, true)]);
                assert_eq!((eight.address, four.address), (to, to));
            }
        }
    }
}

#[test]
fn no_other_step_says_it() {
    for before in every_counter() {
        for up in [false, true] {
            let moves = if up { 0x14..=0x17 } else { 0x10..=0x13 };
            let mut steps: Vec<Transfer> = moves.map(Transfer::Instruction).collect();
            if up == before.up {
                steps.extend([Transfer::Data(0x00), Transfer::Read]);
            }
            for transfer in steps {
                let mut part = before.clone();
                let outcome = give(&mut part, transfer);
                assert_eq!(outcome.wrap, passes(&before, up));
                let next = if up {
                    before.address + 1
                } else {
                    before.address.wrapping_sub(1)
                };
                assert_eq!(outcome.wrap, part.address != next);
            }
        }
    }
}

#[test]
fn shift_on_write_and_a_write_say_what_the_write_alone_does() {
    for before in every_counter() {
        let mut part = Part {
            shift_on_write: true,
            ..before.clone()
        };
        let outcome = give(&mut part, Transfer::Data(0x41));
        assert_eq!(outcome.wrap, passes(&before, before.up));
    }
}

/// Also clear, home, a change of N, and addresses that are set.
#[test]
fn no_other_instruction_says_it() {
    for before in every_counter() {
        for byte in (0x00..=0xFF).filter(|byte| !(0x10..=0x17).contains(byte)) {
            let instruction = Transfer::Instruction(byte);
            assert!(!give(&mut before.clone(), instruction).wrap);
            let halves = in_halves(&mut on_four_lines(&before), instruction);
            assert!(halves.iter().all(|half| !half.wrap), "{byte:02X}");
        }
    }
}

#[test]
fn status_reads_and_waits_say_no() {
    for before in every_counter() {
        for mut part in [before.clone(), on_four_lines(&before)] {
            let wait = Event {
                kind: WAIT,
                value: 10,
            };
            assert!(!run(&PAPER, &mut part, wait).wrap);
            let status = [(); 2].map(|_| give(&mut part, Transfer::Status));
            assert!(status.iter().all(|outcome| !outcome.wrap));
        }
    }
}

#[test]
fn refusals_say_no() {
    for before in every_counter() {
        let busy = Part {
            busy: 1,
            ..before.clone()
        };
        let waiting = Part {
            half: Some(Half {
                rs: false,
                read: true,
                upper: 0,
            }),
            ..on_four_lines(&before)
        };
        for transfer in STEPS.map(|step| step(before.up)) {
            let outcome = (PAPER.transfer)(&PAPER, &mut busy.clone(), transfer);
            assert_eq!(outcome, refused(1));
            let outcome = (PAPER.transfer)(&PAPER, &mut waiting.clone(), transfer);
            assert_eq!(outcome, refused(2));
        }
        let outcome = give(&mut before.clone(), Transfer::Instruction(0xFF));
        assert_eq!(outcome, refused(3));
    }
}

/// Exactly when: over the event and the part before, along what records tell.
#[test]
fn an_event_says_it_exactly_when_its_step_passes_an_end() {
    let records = (1..=300).map(|number| case(5, number).shown.record);
    let mut said = 0;
    for record in records.filter(|record| sound(record)) {
        let mut part = switched_on();
        for event in events(&PAPER, &record).unwrap() {
            let before = part.clone();
            let outcome = run(&PAPER, &mut part, event);
            let due = stepped_by(&before, event).is_some_and(|up| passes(&before, up));
            assert_eq!(outcome.wrap, due, "{event:?}");
            said += usize::from(due);
        }
    }
    assert!(said > 500, "{said}");
}

/// The direction in which an event steps the counter, if it does.
fn stepped_by(part: &Part, event: Event) -> Option<bool> {
    let agrees = |rs, read| match part.half {
        None => part.eight_lines,
        Some(half) => (half.rs, half.read) == (rs, read),
    };
    let byte = match part.half {
        None => event.value,
        Some(half) => u16::from(half.upper) << 4 | event.value >> 4,
    };
    match event.kind {
        _ if part.busy > 0 => None,
        INSTRUCTION_WRITE if agrees(false, false) => match byte {
            0x10..=0x13 => Some(false),
            0x14..=0x17 => Some(true),
            _ => None,
        },
        DATA_WRITE if agrees(true, false) => Some(part.up),
        DATA_READ if agrees(true, true) => Some(part.up),
        _ => None,
    }
}

/// 3 on the upper lines completes 13 hex, a cursor move.
#[test]
fn the_first_write_of_the_restart_may_pass_an_end() {
    for (address, wrap) in [(0x00, true), (0x40, true), (0x27, false), (0x67, false)] {
        let mut part = on_four_lines(&at(Memory::Display, true, address, true));
        assert_eq!(instruct(&mut part, 0x10), 20);
        let outcome = give(&mut part, Transfer::Instruction(0x30));
        assert_eq!((outcome.answer, outcome.wrap), (0, wrap));
    }
}

/// The wrap of a call from C that is not refused.
fn wrap_of(call: &Call) -> Option<bool> {
    match call.left()?[..] {
        [Left::Bytes(_), Left::Number(wrap)] => Some(wrap == 1),
        ref other => panic!("{other:?}"),
    }
}

fn text(part: &Part, line: u8) -> Call {
    Call::Text {
        state: put(part),
        line,
        text: b"Good night, Anna".to_vec(),
    }
}

fn log_night(part: &Part, night: u8) -> Call {
    Call::LogNight {
        state: put(part),
        night,
        quarters: 29,
    }
}

#[test]
fn a_text_never_says_it() {
    let mut done = 0;
    for (part, _) in met() {
        for line in 0..3 {
            let wrap = wrap_of(&text(&part, line));
            assert_ne!(wrap, Some(true));
            done += usize::from(wrap.is_some());
        }
    }
    assert!(done > 500);
}

#[test]
fn a_night_that_is_logged_says_it_exactly_for_night_23() {
    let mut done = [0, 0];
    for (part, _) in met() {
        for night in 0..=24 {
            if let Some(wrap) = wrap_of(&log_night(&part, night)) {
                assert_eq!(wrap, night == 23);
                done[usize::from(part.eight_lines)] += usize::from(wrap);
            }
        }
    }
    assert!(done.iter().all(|&times| times > 50), "{done:?}");
}

#[test]
fn the_third_byte_of_an_answer_is_the_wrap() {
    let events = [(4, 3750), (0, 0x38), (4, 10), (0, 0xA7), (1, 0x41), (4, 10)];
    let events = [&events[..], &[(1, 0x41), (4, 10), (0, 0x10), (2, 0)]].concat();
    let events: Vec<Event> = events
        .into_iter()
        .map(|(kind, value)| Event { kind, value })
        .collect();
    let list = Call::RunList {
        state: put(&switched_on()),
        events: bytes_of_list(&events),
        room: 30,
    };
    // 27, a busy write refused there, a write to 40, a step down to 27.
    let answers = [
        [0, 0, 0],
        [0, 0, 0],
        [0, 0, 0],
        [0, 0, 0],
        [1, 0, 0],
        [0, 0, 0],
        [0, 0, 1],
        [0, 0, 0],
        [0, 0, 1],
        [0, 0xA7, 0],
    ];
    let left = list.left().expect("a list that is done");
    assert_eq!(left[1], Left::Bytes(answers.concat()));
    let table = bench(&PAPER, &record(&events));
    let wraps = table.lines().skip(1).map(|line| line.ends_with(" 1"));
    let said = answers.map(|answer| answer[2] == 1);
    assert_eq!(wraps.collect::<Vec<bool>>(), said);
}
