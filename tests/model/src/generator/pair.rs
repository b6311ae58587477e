//! Pairs: two records which are one up to a function set that differs in the wiring alone, and
//! which then tell the same story, the one on eight lines and the other in halves on four.

use super::author::Author;
use super::case::{shown, Shown};
use super::random::Random;
use crate::joining::{Parting, EIGHT_LINES};
use crate::model::instruction::{decide, Instruction};
use crate::model::panel::halves;
use crate::model::record::*;
use crate::model::rules::PAPER;

/// Set in a pair's number, so that it has a stream of its own beside the record of that number.
const PAIRS: u64 = 1 << 33;

pub struct Pair {
    pub parting: Parting,
    /// Eight lines, then four; both are looked at in the same way.
    pub wirings: [Shown; 2],
}

impl Pair {
    /// The events on eight lines, and those on four.
    pub fn events(&self) -> [Vec<Event>; 2] {
        let sound = "the records of a pair are sound";
        let wirings = self.wirings.each_ref();
        wirings.map(|shown| events(&PAPER, &shown.record).expect(sound))
    }
}

/// The pair of a seed with this number.
pub fn pair(seed: u64, number: u64) -> Pair {
    let random = &mut Random::new(seed, PAIRS | number);
    let room = opening_room(random);
    let mut author = Author::new(random, room);
    author.open();
    author.fill_with(Author::act, room);
    let parting = author.part_ways();
    // A transfer of the story is two events in the record of four lines.
    let most = (MOST_EVENTS - parting.story) / 2;
    let room = parting.story + story_room(author.random).min(most);
    author.patience = author.random.pick(&[100, 90, 60, 30]);
    author.close_behind(Author::tell, room);
    let Author { random, events, .. } = author;
    let eight = shown(random, record(&events));
    let four = Shown {
        record: record(&on_four_lines(random, &parting, &events)),
        ..eight.clone()
    };
    Pair {
        parting,
        wirings: [eight, four],
    }
}

fn opening_room(random: &mut Random) -> usize {
    match random.below(20) {
        0 => 0,
        1 | 2 => random.between(1, 30),
        _ => random.between(50, 400),
    }
}

fn story_room(random: &mut Random) -> usize {
    match random.below(100) {
        0 => MOST_EVENTS,
        1..=9 => random.between(1, 50),
        _ => random.between(100, 400),
    }
}

/// The same opening but for the wiring, and each transfer of the story as two like halves.
fn on_four_lines(random: &mut Random, parting: &Parting, events: &[Event]) -> Vec<Event> {
    let (opening, story) = events.split_at(parting.story);
    let mut told = opening.to_vec();
    told[parting.event].value ^= EIGHT_LINES;
    for &event in story {
        match event.kind {
            INSTRUCTION_WRITE | DATA_WRITE => {
                let halves = halves(event.value as u8);
                told.extend(halves.map(|half| with_any_lower_lines(random, event.kind, half)));
            }
            WAIT => told.push(event),
            _ => told.extend([event; 2]),
        }
    }
    told
}

fn with_any_lower_lines(random: &mut Random, kind: u8, half: u8) -> Event {
    let lower = random.byte() >> 4;
    Event {
        kind,
        value: u16::from(half | lower),
    }
}

/// A function set would end the story: without its bit 5 the byte is another instruction.
fn no_function_set(byte: u8) -> u8 {
    match decide(byte) {
        Instruction::Function => byte & 0x1F,
        _ => byte,
    }
}

impl Author<'_> {
    /// From any place makes the part free, with no half waiting, and sets eight lines on the wiring
    /// that it has.
    fn part_ways(&mut self) -> Parting {
        self.room = MOST_EVENTS;
        self.carefully(Self::settle);
        let transfers = if self.part.eight_lines { 1 } else { 2 };
        self.carefully(Self::set_eight_lines);
        let story = self.events.len();
        Parting {
            event: story - transfers,
            story,
        }
    }

    /// With any F, and as a rule N as it was, so that address and shift stay.
    fn set_eight_lines(&mut self) {
        let any = self.random.byte() & 0x0F;
        let kept = self.line_count() | any & 0x07;
        let rest = self.random.pick(&[kept, kept, any]);
        self.instruct(0x30 | rest);
    }

    /// One thing of the story, on eight lines.
    fn tell(&mut self) {
        match self.random.below(18) {
            0 => self.pause(),
            1 | 2 => self.tell_instruction(),
            3 => self.border_address(),
            4 => self.text(),
            5 => self.tell_codes(),
            6 => self.read_on(),
            7..=9 => self.cross_border(),
            10 => self.characters(),
            11 => self.move_display(),
            12 => self.show(),
            13 => self.entry_mode(),
            14 => self.home_or_clear(),
            _ => self.tell_in_haste(),
        }
        if self.random.percent(40) {
            self.status();
        }
    }

    fn tell_instruction(&mut self) {
        let byte = no_function_set(self.instruction());
        self.instruct(byte);
    }

    /// Data that would be function sets if they were instructions.
    fn tell_codes(&mut self) {
        for _ in 0..self.random.between(1, 6) {
            let code = self.random.between(0x20, 0x3F) as u8;
            self.write(code);
        }
    }

    /// Transfers of any kind and a wait among them, whether the part is busy or not.
    fn tell_in_haste(&mut self) {
        for _ in 0..self.random.between(1, 5) {
            match self.random.below(5) as u8 {
                INSTRUCTION_WRITE => {
                    let byte = no_function_set(self.instruction());
                    self.push(INSTRUCTION_WRITE, u16::from(byte));
                }
                WAIT => {
                    let wait = self.random.below(12) as u16;
                    self.wait(wait);
                }
                kind => {
                    let value = self.any_value(kind);
                    self.push(kind, u16::from(value));
                }
            }
        }
    }
}
