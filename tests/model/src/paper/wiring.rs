//! Tests of the model by the request of both wirings (02, 5/12), and of joining.

use super::instruct;
use crate::generator::pair::{pair, Pair};
use crate::joining::{join, Parting};
use crate::model::part::{switched_on, Memory, Part};
use crate::model::record::*;
use crate::model::rules::PAPER;
use crate::model::table::{bench, HEADING};
use crate::model::transfer::{Outcome, Transfer};

/// What a transfer is answered on eight lines, and its halves on four.
type Told = (Outcome, [Outcome; 2]);

/// What the halves are answered exactly where eight lines answer so: there is no other case. The
/// second says the wrap that the one transfer says, the first none.
fn agreed_with(answer: u8, value: u8, wrap: bool) -> Told {
    let outcome = |answer, value, wrap| Outcome {
        answer,
        value,
        wrap,
    };
    let halves = match (answer, value, wrap) {
        (0, ..) => [
            outcome(20, value & 0xF0, false),
            outcome(0, value << 4, wrap),
        ],
        (1, 0, false) => [outcome(1, 0, false), outcome(1, 0, false)],
        (3, 0, false) => [outcome(20, 0, false), outcome(3, 0, false)],
        other => panic!("{other:?}"),
    };
    (outcome(answer, value, wrap), halves)
}

/// The same where no end is passed.
fn agreed(answer: u8, value: u8) -> Told {
    agreed_with(answer, value, false)
}

/// Two parts equal but for the wiring, with these N and F.
fn wirings(rest: u8) -> [Part; 2] {
    [0x30, 0x20].map(|lines| {
        let mut part = switched_on();
        assert_eq!(instruct(&mut part, lines | rest), 0);
        part
    })
}

fn equal_but_for_the_wiring([eight, four]: &[Part; 2]) -> bool {
    let on_eight = Part {
        eight_lines: true,
        ..four.clone()
    };
    *eight == on_eight && !four.eight_lines && four.half.is_none()
}

/// A transfer on eight lines, and in halves on four with these lower lines.
fn tell(parts: &mut [Part; 2], transfer: Transfer, lower: u8) -> Told {
    let [eight, four] = parts;
    let whole = (PAPER.transfer)(&PAPER, eight, transfer);
    let byte = transfer.lines();
    let halves = [byte & 0xF0 | lower, byte << 4 | lower ^ 0x0F];
    let halves = halves.map(|half| (PAPER.transfer)(&PAPER, four, transfer.of(half)));
    assert!(equal_but_for_the_wiring(parts), "{transfer:?}");
    (whole, halves)
}

/// The busy time is waited out before.
fn tell_free(parts: &mut [Part; 2], transfer: Transfer) -> Told {
    for part in parts.iter_mut() {
        part.busy = 0;
    }
    tell(parts, transfer, 0x05)
}

#[test]
fn status_reads_agree_busy_and_free() {
    for (address, busy) in [(0x00, 10), (0x25, 410), (0x4F, 1), (0x4F, 0)] {
        let mut parts = wirings(0x00);
        for part in &mut parts {
            (part.address, part.busy) = (address, busy);
        }
        let value = if busy > 0 { 128 + address } else { address };
        assert_eq!(tell(&mut parts, Transfer::Status, 0), agreed(0, value));
    }
}

#[test]
fn every_byte_is_written_and_read_in_either_memory() {
    for memory in [Memory::Display, Memory::Character] {
        for byte in 0..=255 {
            let mut parts = wirings(0x08);
            for part in &mut parts {
                (part.memory, part.address, part.busy) = (memory, 0x07, 0);
            }
            let told = tell(&mut parts, Transfer::Data(byte), byte >> 4);
            assert_eq!(told, agreed(0, 0));
            tell_free(&mut parts, Transfer::Instruction(0x10));
            assert_eq!(tell_free(&mut parts, Transfer::Read), agreed(0, byte));
            assert_eq!((parts[1].address, parts[1].busy), (0x08, 10));
        }
    }
}

#[test]
fn every_instruction_but_20_to_3f_agrees() {
    for rest in [0x00, 0x04, 0x08, 0x0C] {
        for byte in (0x00..=0xFF).filter(|byte| !(0x20..=0x3F).contains(byte)) {
            let lacking = byte >= 0x80 && !(PAPER.has_address)(rest >= 0x08, byte & 0x7F);
            let answer = if lacking { 3 } else { 0 };
            let told = tell_free(&mut wirings(rest), Transfer::Instruction(byte));
            let down_from_00 = (0x10..=0x13).contains(&byte);
            assert_eq!(told, agreed_with(answer, 0, down_from_00));
        }
    }
}

#[test]
fn both_halves_of_a_busy_transfer_are_refused_with_1() {
    for transfer in [
        Transfer::Instruction(0x01),
        Transfer::Instruction(0xFF),
        Transfer::Data(0x20),
        Transfer::Read,
    ] {
        let mut parts = wirings(0x08);
        let before = parts.clone();
        assert_eq!(tell(&mut parts, transfer, 0x0A), agreed(1, 0));
        assert_eq!(parts, before);
    }
}

#[test]
fn refusal_3_comes_behind_the_first_half_and_takes_no_ticks() {
    let mut parts = wirings(0x08);
    for _ in 0..2 {
        let told = tell_free(&mut parts, Transfer::Instruction(0xA8));
        assert_eq!(told, agreed(3, 0));
        assert_eq!(parts[1].busy, 0);
    }
}

/// What the bench prints for these kinds and values.
fn printed(events: &[(u8, u16)]) -> Vec<u8> {
    let events: Vec<Event> = events
        .iter()
        .map(|&(kind, value)| Event { kind, value })
        .collect();
    bench(&PAPER, &record(&events)).into_bytes()
}

/// Both parts have the lines that it sets, so that each transfer behind it is one in both.
#[test]
fn a_function_set_ends_the_story() {
    for byte in 0x20..=0x3F {
        let [mut eight, mut four] = wirings(0x00);
        assert_eq!(instruct(&mut eight, byte), 0);
        assert_eq!(instruct(&mut four, byte & 0xF0), 20);
        assert_eq!(instruct(&mut four, byte << 4), 0);
        assert_eq!(eight, four);
        assert_eq!(eight.eight_lines, byte >= 0x30);
    }
    let lead = |function| [(4, 3750), (0, function), (4, 10)];
    let eight = [&lead(0x30)[..], &[(0, 0x20), (2, 0)]].concat();
    let four = [&lead(0x20)[..], &[(0, 0x20), (0, 0x00), (2, 0), (2, 0)]].concat();
    let parting = Parting { event: 1, story: 2 };
    assert_eq!(
        join(&parting, &printed(&eight), &printed(&four)).unwrap_err(),
        "eight lines: 5 2 0 20 128 0; four lines: 6 2 0 20 128 0, 7 2 0 0 0 0"
    );
}

fn pairs() -> impl Iterator<Item = Pair> {
    (1..=300).map(|number| pair(9, number))
}

#[test]
fn an_opening_leaves_parts_equal_but_for_the_wiring() {
    for pair in pairs() {
        let Parting { event, story } = pair.parting;
        let [eight, mut four] = pair.events();
        let parts = [&eight, &four].map(|events| led(&PAPER, &events[..story]));
        assert!(equal_but_for_the_wiring(&parts));
        assert_eq!(parts[1].busy, 10);
        four[event].value += 0x10;
        assert_eq!(eight[..story], four[..story]);
    }
}

#[test]
fn a_story_leaves_parts_equal_but_for_the_wiring_after_each_transfer() {
    for pair in pairs() {
        let events = pair.events();
        let mut parts = [0, 1].map(|wiring| led(&PAPER, &events[wiring][..pair.parting.story]));
        let [story, halves] = [0, 1].map(|wiring| &events[wiring][pair.parting.story..]);
        let mut halves = halves.iter();
        let mut next = |part: &mut Part| run(&PAPER, part, *halves.next().unwrap());
        for &event in story {
            let whole = run(&PAPER, &mut parts[0], event);
            let first = next(&mut parts[1]);
            if event.kind == WAIT {
                assert_eq!(whole, first);
            } else {
                let second = next(&mut parts[1]);
                let due = agreed_with(whole.answer, whole.value, whole.wrap);
                assert_eq!((whole, [first, second]), due);
            }
            assert!(equal_but_for_the_wiring(&parts));
        }
        assert!(halves.next().is_none());
    }
}

#[test]
fn a_story_has_no_function_set() {
    for pair in pairs() {
        let [eight, _] = pair.events();
        let function_set =
            |event: &Event| event.kind == INSTRUCTION_WRITE && matches!(event.value, 0x20..=0x3F);
        assert!(!eight[pair.parting.story..].iter().any(function_set));
    }
}

#[test]
fn the_tables_of_a_pair_join() {
    for pair in pairs() {
        let [eight, _] = pair.events();
        let story = eight[pair.parting.story..].iter();
        let transfers = story.filter(|event| event.kind != WAIT).count();
        let tables = pair.wirings.each_ref();
        let [eight, four] = tables.map(|shown| bench(&PAPER, &shown.record));
        let joined = join(&pair.parting, eight.as_bytes(), four.as_bytes());
        assert_eq!(joined, Ok(transfers as u64));
    }
}

/// A table of these rows, numbered from 1.
fn table(rows: &[&str]) -> Vec<u8> {
    let rows = (1..)
        .zip(rows)
        .map(|(number, row)| format!("{number} {row}\n"));
    [HEADING.to_string(), rows.collect()].concat().into_bytes()
}

/// Joins these rows behind a function set that parts the two.
fn joined(eight: &[&str], four: &[&str]) -> Result<u64, String> {
    let eight = table(&[&["0 48 0 0 0"], eight].concat());
    let four = table(&[&["0 32 0 0 0"], four].concat());
    join(&Parting { event: 0, story: 1 }, &eight, &four)
}

#[test]
fn rows_that_join() {
    for (eight, four) in [
        ("2 0 0 133 0", ["2 0 20 128 0", "2 0 0 80 0"]),
        ("3 0 0 47 0", ["3 0 20 32 0", "3 0 0 240 0"]),
        ("1 65 0 0 0", ["1 64 20 0 0", "1 16 0 0 0"]),
        ("1 65 0 0 0", ["1 79 20 0 0", "1 31 0 0 0"]),
        ("1 47 0 0 0", ["1 35 20 0 0", "1 243 0 0 0"]),
        ("0 1 1 0 0", ["0 0 1 0 0", "0 16 1 0 0"]),
        ("3 0 1 0 0", ["3 0 1 0 0", "3 0 1 0 0"]),
        ("0 208 3 0 0", ["0 208 20 0 0", "0 0 3 0 0"]),
        ("1 65 0 0 1", ["1 64 20 0 0", "1 16 0 0 1"]),
        ("3 0 0 47 1", ["3 0 20 32 0", "3 0 0 240 1"]),
        ("0 20 0 0 1", ["0 16 20 0 0", "0 64 0 0 1"]),
    ] {
        assert_eq!(joined(&[eight], &four), Ok(1), "{eight}");
    }
    assert_eq!(joined(&[], &[]), Ok(0));
    assert_eq!(joined(&["4 10 0 0 0"], &["4 10 0 0 0"]), Ok(0));
}

#[test]
fn rows_that_do_not_join() {
    let refused: [(&str, &[&str]); 43] = [
        // Done: the answers, the value's halves, and what was sent.
        ("1 65 0 0 0", &["1 64 0 0 0", "1 16 0 0 0"]),
        ("1 65 0 0 0", &["1 64 20 0 0", "1 16 20 0 0"]),
        ("1 65 0 0 0", &["1 64 20 0 0", "1 16 1 0 0"]),
        ("1 65 0 0 0", &["1 64 20 0 0", "1 16 2 0 0"]),
        ("1 65 0 0 0", &["1 64 1 0 0", "1 16 1 0 0"]),
        ("3 0 0 47 0", &["3 0 20 240 0", "3 0 0 32 0"]),
        ("3 0 0 47 0", &["3 0 20 32 0", "3 0 0 32 0"]),
        ("3 0 0 47 0", &["3 0 20 240 0", "3 0 0 240 0"]),
        ("3 0 0 47 0", &["3 0 20 47 0", "3 0 0 240 0"]),
        ("3 0 0 47 0", &["3 0 20 32 0", "3 0 0 15 0"]),
        ("2 0 0 133 0", &["2 0 1 0 0", "2 0 1 0 0"]),
        ("2 0 0 133 0", &["2 0 20 0 0", "2 0 0 80 0"]),
        ("1 65 0 0 0", &["1 16 20 0 0", "1 64 0 0 0"]),
        ("1 65 0 0 0", &["1 64 20 0 0", "1 64 0 0 0"]),
        ("1 65 0 0 0", &["0 64 20 0 0", "0 16 0 0 0"]),
        ("1 65 0 0 0", &["1 64 20 0 0", "0 16 0 0 0"]),
        // Refused with 1, and with 3.
        ("1 65 1 0 0", &["1 64 20 0 0", "1 16 1 0 0"]),
        ("1 65 1 0 0", &["1 64 1 0 0", "1 16 20 0 0"]),
        ("3 0 1 0 0", &["3 0 1 32 0", "3 0 1 0 0"]),
        ("3 0 1 47 0", &["3 0 1 0 0", "3 0 1 0 0"]),
        ("0 208 3 0 0", &["0 208 3 0 0", "0 0 20 0 0"]),
        ("0 208 3 0 0", &["0 208 20 0 0", "0 0 0 0 0"]),
        ("0 208 3 0 0", &["0 208 20 0 0", "0 0 1 0 0"]),
        ("0 208 0 0 0", &["0 208 20 0 0", "0 0 3 0 0"]),
        // The wrap, which the second half says where it is done, and 0 or 1.
        ("1 65 0 0 1", &["1 64 20 0 0", "1 16 0 0 0"]),
        ("1 65 0 0 0", &["1 64 20 0 0", "1 16 0 0 1"]),
        ("1 65 0 0 1", &["1 64 20 0 1", "1 16 0 0 0"]),
        ("1 65 0 0 1", &["1 64 20 0 1", "1 16 0 0 1"]),
        ("1 65 0 0 2", &["1 64 20 0 0", "1 16 0 0 2"]),
        ("3 0 0 47 1", &["3 0 20 32 0", "3 0 0 240 0"]),
        ("1 65 1 0 1", &["1 64 1 0 0", "1 16 1 0 1"]),
        ("1 65 1 0 0", &["1 64 1 0 1", "1 16 1 0 0"]),
        ("0 208 3 0 1", &["0 208 20 0 0", "0 0 3 0 1"]),
        ("0 208 3 0 0", &["0 208 20 0 1", "0 0 3 0 0"]),
        // No other case.
        ("1 65 2 0 0", &["1 64 20 0 0", "1 16 2 0 0"]),
        ("1 65 2 0 0", &["1 64 2 0 0", "1 16 2 0 0"]),
        ("1 65 20 0 0", &["1 64 20 0 0", "1 16 0 0 0"]),
        // Rows too few or too many, and waits.
        ("1 65 0 0 0", &[]),
        ("1 65 0 0 0", &["1 65 0 0 0"]),
        ("1 65 0 0 0", &["1 64 20 0 0", "4 0 0 0 0", "1 16 0 0 0"]),
        ("1 65 0 0 0", &["1 64 20 0 0", "1 16 0 0 0", "4 0 0 0 0"]),
        ("4 10 0 0 0", &["4 9 0 0 0"]),
        ("4 10 0 0 0", &["4 10 0 0 0", "4 10 0 0 0"]),
    ];
    for (eight, four) in refused {
        assert!(joined(&[eight], four).is_err(), "{eight} and {four:?}");
    }
    assert!(joined(&[], &["4 0 0 0 0"]).is_err());
}

#[test]
fn openings_that_do_not_join() {
    let opened = |eight: &str, four: &str| {
        let parting = Parting { event: 1, story: 2 };
        let (eight, four) = (["4 1 0 0 0", eight], ["4 1 0 0 0", four]);
        join(&parting, &table(&eight), &table(&four))
    };
    assert_eq!(opened("0 63 0 0 0", "0 47 0 0 0"), Ok(0));
    for (eight, four) in [
        ("0 63 0 0 0", "0 63 0 0 0"),
        ("0 47 0 0 0", "0 63 0 0 0"),
        ("0 63 0 0 0", "0 46 0 0 0"),
        ("0 63 0 0 0", "0 47 20 0 0"),
        ("0 63 0 0 0", "0 47 0 1 0"),
        ("0 63 0 0 0", "1 47 0 0 0"),
    ] {
        assert!(opened(eight, four).is_err(), "{eight} and {four}");
    }
    let parting = Parting { event: 0, story: 1 };
    let whole = table(&["0 48 0 0 0"]);
    for four in ["", "refused 9\n", HEADING] {
        assert!(join(&parting, &whole, four.as_bytes()).is_err());
        assert!(join(&parting, four.as_bytes(), four.as_bytes()).is_err());
    }
    for row in [
        "2 0 32 0 0 0\n",
        "1 0 32 0 0\n",
        "1 0 32 0 0 0 0\n",
        "1 0 32 0 0 0",
    ] {
        let four = format!("{HEADING}{row}");
        assert!(join(&parting, &whole, four.as_bytes()).is_err(), "{row:?}");
    }
}

#[test]
fn rows_that_do_not_join_are_told() {
    let told = |eight, four: &[&str]| joined(&[eight], four).unwrap_err();
    assert_eq!(
        told("1 65 0 0 0", &["1 79 20 0 0", "1 16 20 0 0"]),
        "eight lines: 2 1 65 0 0 0; four lines: 2 1 79 20 0 0, 3 1 16 20 0 0"
    );
    assert_eq!(
        told("4 10 0 0 0", &[]),
        "eight lines: 2 4 10 0 0 0; four lines: nothing"
    );
    assert_eq!(
        told("4 10 0 0 0", &["4 10 0 0 0", "2 0 20 0 0"]),
        "four lines go on: 3 2 0 20 0 0"
    );
    assert_eq!(
        told("4 10 0 0 0", &["4 ten 0 0 0"]),
        "no row 2: \"2 4 ten 0 0 0\\n\""
    );
}
