//! A case: what one run of each program is given.

use super::author;
use super::damage;
use super::random::Random;
use crate::model::part::Part;
use crate::model::picture::{View, ROM_BYTES};
use crate::model::record::{self, record, MOST_EVENTS};
use crate::model::rules::PAPER;
use crate::model::screen::Form;

pub const DIGITS: [u8; 12] = [0, 1, 16, 20, 24, 39, 40, 41, 79, 80, 81, 255];

pub struct Case {
    pub shown: Shown,
    /// The damage's name, or nothing for a sound record.
    pub damage: Option<&'static str>,
    /// What is mended: the record, or a sound one damaged.
    pub capture: Vec<u8>,
}

/// A record, and how the state that it ends in is looked at.
#[derive(Clone)]
pub struct Shown {
    pub record: Vec<u8>,
    /// Where the input pauses, so that it arrives in two pieces.
    pub pause: Option<usize>,
    pub view: View,
    pub form: Form,
}

/// The case of a seed with this number.
pub fn case(seed: u64, number: u64) -> Case {
    let random = &mut Random::new(seed, number);
    let (record, damage) = if random.percent(25) {
        let (record, name) = damage::damaged(random);
        (record, Some(name))
    } else {
        let room = room(random);
        (record(&author::events(random, room)), None)
    };
    let shown = shown(random, record);
    Case {
        capture: capture(random, &shown.record, damage.is_some()),
        shown,
        damage,
    }
}

/// A record with any view of the state that it ends in.
pub fn shown(random: &mut Random, record: Vec<u8>) -> Shown {
    let most = if end_of(&record).two_lines { 40 } else { 80 };
    Shown {
        pause: random
            .percent(10)
            .then(|| random.below(record.len().max(1))),
        view: View {
            digits: digits(random, most),
            rom: rom(random),
            dark: random.percent(50),
        },
        form: random.pick(&[Form::Text, Form::Pbm]),
        record,
    }
}

/// So many sound records are damaged that of all captures some seven in ten are.
fn capture(random: &mut Random, record: &[u8], damaged: bool) -> Vec<u8> {
    let mut capture = record.to_vec();
    if !damaged && random.percent(60) {
        damage::damage(random, &mut capture);
    }
    capture
}

pub fn sound(record: &[u8]) -> bool {
    record::events(&PAPER, record).is_ok()
}

/// The part that a sound record ends in; switched on for another.
pub fn end_of(record: &[u8]) -> Part {
    let events = record::events(&PAPER, record).unwrap_or_default();
    record::led(&PAPER, &events)
}

fn room(random: &mut Random) -> usize {
    match random.below(100) {
        0 => 0,
        1 => MOST_EVENTS,
        2..=5 => random.between(1, 30),
        6..=15 => random.between(600, 1000),
        _ => random.between(100, 400),
    }
}

fn digits(random: &mut Random, most: u8) -> u8 {
    let any = random.byte();
    let listed = random.pick(&DIGITS);
    random.pick(&[
        most,
        most,
        most,
        most,
        most - 1,
        listed,
        listed,
        listed,
        any,
    ])
}

fn rom(random: &mut Random) -> Vec<u8> {
    let any = random.below(10_000);
    let wrong = random.pick(&[0, 1, 4095, 4097, 8192, any]);
    let length = if random.percent(92) { ROM_BYTES } else { wrong };
    random.bytes(length)
}
