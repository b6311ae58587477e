//! Scripts: bench events and panel calls in turn, each call on the record that those before it left.

use super::author::{Author, WAITS};
use super::damage;
use super::random::Random;
use crate::model::counter::address_of;
use crate::model::panel::*;
use crate::model::record::*;
use crate::model::rules::PAPER;

/// Set in a script's number, so that it has a stream of its own beside the record of that number.
const SCRIPTS: u64 = 1 << 32;

pub struct Script {
    pub calls: Vec<Given>,
    /// As the last call leaves it, if any was done.
    pub record: Option<Vec<u8>>,
}

/// What one run of `panel` is given.
pub struct Given {
    pub words: Vec<Word>,
    pub record: Vec<u8>,
    /// Where the input pauses, so that it arrives in two pieces.
    pub pause: Option<usize>,
}

/// The script of a seed with this number.
pub fn script(seed: u64, number: u64) -> Script {
    let random = &mut Random::new(seed, SCRIPTS | number);
    let count = random.pick(&[1, 1, 2, 2, 2, 2, 3, 4]);
    let mut author = Author::new(random, MOST_EVENTS);
    let mut calls = Vec::new();
    let mut done = false;
    for _ in 0..count {
        author.lead();
        let call = author.call();
        author.fill_before(&call);
        let mut given = record(&author.events);
        if author.random.percent(7) {
            damage::damage_for_each_refusal(author.random, &mut given);
        } else {
            done |= author.take(&call);
        }
        calls.push(author.given(call, given));
    }
    Script {
        calls,
        record: done.then(|| record(&author.events)),
    }
}

impl Author<'_> {
    /// None, or any events; as a rule a part that is ready then, log cells written straight, and
    /// often one thing that 17 forbids or one that it does not ask for; now and then a call cut off.
    pub(super) fn lead(&mut self) {
        if self.random.percent(4) {
            return;
        }
        if self.random.percent(40) {
            for _ in 0..self.random.between(1, 3) {
                self.act();
            }
        }
        if self.random.percent(92) {
            self.make_ready();
        }
        if self.random.percent(75) {
            self.carefully(Self::write_log);
        }
        match self.random.below(20) {
            0..=4 => self.carefully(Self::forbid),
            5..=10 => self.carefully(Self::allow),
            11 => self.carefully(|author| author.instruct(0x01)),
            12 => self.cut_call(),
            _ => {}
        }
    }

    /// The standard restart, or the like of it on eight lines, from any place.
    fn make_ready(&mut self) {
        if self.random.percent(50) {
            self.upper_lines(&[3, 3, 3, 2, 2, 8, 0, 8, 0, 2, 0, 6]);
            return;
        }
        self.upper_lines(&[3, 3, 3]);
        self.carefully(|author| {
            let font = author.random.pick(&[0x00, 0x04]);
            for byte in [0x38 | font, 0x08, 0x02, 0x06] {
                author.instruct(byte);
            }
        });
    }

    /// A few nights, with figures above 96 and marks other than 01 among them.
    fn write_log(&mut self) {
        self.settle();
        for _ in 0..self.random.between(1, 5) {
            let some = self.random.below(24);
            let night = self.random.pick(&[0, 22, 23, some, some]);
            let any = self.random.byte();
            let figure = self.random.pick(&[0, 1, 95, 96, 97, 255, any, any]);
            let other = self.random.pick(&[0x00, 0x02, 0x20, 0x81, 0xFF, any]);
            let mark = self.random.pick(&[MARK, MARK, MARK, other, other]);
            self.write_cell(16 + night, figure);
            self.write_cell(56 + night, mark);
        }
    }

    fn write_cell(&mut self, cell: usize, byte: u8) {
        self.instruct(0x80 | address_of(self.part.two_lines, cell));
        self.write(byte);
    }

    /// One thing that 17 forbids.
    fn forbid(&mut self) {
        self.settle();
        match self.random.below(8) {
            0 | 1 => self.instruct(self.bus()),
            2 => self.instruct(0x04),
            3 => self.instruct(0x07),
            4 | 5 => self.move_display(),
            _ => self.leave_half(),
        }
    }

    fn leave_half(&mut self) {
        if self.part.eight_lines {
            self.instruct(0x28);
        }
        let kind = self.random.below(4) as u8;
        let any = self.random.byte();
        self.transfer(kind, if kind < STATUS_READ { any } else { 0 });
    }

    /// One thing that 17 does not ask for.
    fn allow(&mut self) {
        self.settle();
        match self.random.below(6) {
            0 => self.show(),
            1 => self.characters(),
            2 => self.border_address(),
            3 => self.instruct(self.bus() | 0x0C),
            4 => self.instruct(0x02),
            _ => self.pause(),
        }
    }

    /// The first of a call's own events, as if it had broken off.
    fn cut_call(&mut self) {
        let call = self.call();
        if let Ok(Answer::Done(own)) = answer(&PAPER, &self.part, &call) {
            let kept = self.random.below(own.len());
            for event in &own[..kept] {
                self.push(event.kind, event.value);
            }
        }
    }

    pub(super) fn call(&mut self) -> Call {
        match self.random.below(10) {
            0..=2 => self.text_call(),
            3..=6 => self.log_call(),
            _ => Call::Night(self.night()),
        }
    }

    fn text_call(&mut self) -> Call {
        let any = self.random.byte();
        let other = self.random.pick(&[2, 2, 2, 3, 255, any]);
        let line = self.random.pick(&[0, 0, 0, 1, 1, 1, other]);
        let any = self.random.below(40);
        // The last two are 16 in their low byte, or their low two.
        let other = self.random.pick(&[any, 0, 0, 15, 15, 17, 17, 272, 65_552]);
        let length = self.random.pick(&[16, 16, 16, other]);
        Call::Text(line, (0..length).map(|_| self.character()).collect())
    }

    /// Any byte but 0, which no word holds; often the mark.
    fn character(&mut self) -> u8 {
        let any = self.random.between(1, 255) as u8;
        self.random.pick(&[MARK, any, any, any])
    }

    /// Now and then with the figure that stands there; beside no night, often with no figure.
    fn log_call(&mut self) -> Call {
        let night = self.night();
        let there = self.part.display[16 + usize::from(night % NIGHTS)];
        let some = self.random.below(97) as u8;
        let any = self.random.byte();
        let other = self.random.pick(&[97, 97, 97, 98, 255, any]);
        let quarters = if has_night(night) {
            let listed = [0, 95, 96, some, some, some, there, other, other];
            self.random.pick(&listed)
        } else {
            self.random.pick(&[some, other])
        };
        Call::Log(night, quarters)
    }

    /// Often one for which something was written.
    fn night(&mut self) -> u8 {
        let some = self.random.below(24) as u8;
        let any = self.random.byte();
        let other = self.random.pick(&[24, 24, 24, 25, 255, any]);
        let night = self.random.pick(&[0, 22, 23, some, some, other, other]);
        let met: Vec<u8> = (0..NIGHTS)
            .filter(|&night| self.part.display[56 + usize::from(night)] != 0x20)
            .collect();
        if met.is_empty() || self.random.percent(35) {
            night
        } else {
            self.random.pick(&met)
        }
    }

    /// Now and then waits, so that the call's own events just fill the record, or are one too many
    /// or too few; more often where there are some.
    fn fill_before(&mut self, call: &Call) {
        let own = match answer(&PAPER, &self.part, call) {
            Ok(Answer::Done(own)) => own.len(),
            _ => 0,
        };
        if !self.random.percent(if own > 0 { 15 } else { 3 }) {
            return;
        }
        let room = self
            .random
            .pick(&[own, own, own + 1, own.saturating_sub(1), 0]);
        while self.events.len() + room < MOST_EVENTS {
            let wait = self.random.pick(&WAITS);
            self.wait(wait);
        }
    }

    /// Puts the call's own events behind those there; whether it has any.
    pub(super) fn take(&mut self, call: &Call) -> bool {
        let before = self.events.len();
        let written = panel(&PAPER, call, &record(&self.events));
        let all = events(&PAPER, &written.record).unwrap_or_default();
        for event in all.into_iter().skip(before) {
            self.push(event.kind, event.value);
        }
        self.events.len() > before
    }

    fn given(&mut self, call: Call, record: Vec<u8>) -> Given {
        let words = match call {
            Call::Text(line, characters) => vec![b"text".to_vec(), self.numeral(line), characters],
            Call::Log(night, quarters) => {
                let (night, quarters) = (self.numeral(night), self.numeral(quarters));
                vec![b"log".to_vec(), night, quarters]
            }
            Call::Night(night) => vec![b"night".to_vec(), self.numeral(night)],
        };
        let pause = self.random.percent(5);
        Given {
            words,
            pause: pause.then(|| self.random.below(record.len().max(1))),
            record,
        }
    }

    /// Now and then with zeros before it.
    fn numeral(&mut self, number: u8) -> Word {
        let width = self.random.pick(&[1, 1, 1, 1, 1, 1, 3, 6]);
        format!("{number:0width$}").into_bytes()
    }
}
