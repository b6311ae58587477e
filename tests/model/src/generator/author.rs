//! Sound records: an author who drives a part and writes down what was done.

use super::random::Random;
use crate::model::part::{switched_on, Part};
use crate::model::record::*;
use crate::model::rules::PAPER;

pub const WAITS: [u16; 10] = [0, 1, 9, 10, 11, 409, 410, 3749, 3750, 65535];

const BORDERS: [u8; 15] = [
    0x00, 0x01, 0x26, 0x27, 0x28, 0x3F, 0x40, 0x41, 0x4E, 0x4F, 0x50, 0x66, 0x67, 0x68, 0x7F,
];

/// Events kept for the settings that make the end worth looking at.
const ROOM_TO_CLOSE: usize = 20;

const DISPLAY_LEFT: u8 = 0x18;
const DISPLAY_RIGHT: u8 = 0x1C;

pub struct Author<'r> {
    pub(super) random: &'r mut Random,
    pub(super) part: Part,
    pub(super) events: Vec<Event>,
    pub(super) room: usize,
    /// How often, in percent, a busy part is waited for.
    pub(super) patience: usize,
    /// How often, in percent, something befalls a half.
    slips: usize,
}

/// The events of a sound record, at most `room`; as many if a record holds no more.
pub fn events(random: &mut Random, room: usize) -> Vec<Event> {
    let mut author = Author::new(random, room.saturating_sub(ROOM_TO_CLOSE));
    author.open();
    author.close_behind(Author::act, room);
    if room == MOST_EVENTS {
        author.fill();
    }
    author.events
}

impl Author<'_> {
    /// An author of some habits, with a part just switched on and room for so many events.
    pub(super) fn new(random: &mut Random, room: usize) -> Author<'_> {
        let patience = random.pick(&[100, 100, 97, 90, 60]);
        let slips = random.pick(&[0, 0, 5, 15, 40]);
        Author {
            random,
            part: switched_on(),
            events: Vec::new(),
            room,
            patience,
            slips,
        }
    }

    /// Does one thing after the other until there are so many events.
    pub(super) fn fill_with(&mut self, act: fn(&mut Self), room: usize) {
        self.room = room;
        while self.events.len() < room {
            act(self);
        }
    }

    /// The same, with the last of the room kept for the close.
    pub(super) fn close_behind(&mut self, act: fn(&mut Self), room: usize) {
        self.fill_with(act, room.saturating_sub(ROOM_TO_CLOSE));
        self.room = room;
        self.close();
    }

    pub(super) fn push(&mut self, kind: u8, value: u16) {
        if self.events.len() < self.room {
            let event = Event { kind, value };
            run(&PAPER, &mut self.part, event);
            self.events.push(event);
        }
    }

    pub(super) fn wait(&mut self, ticks: u16) {
        self.push(WAIT, ticks);
    }

    /// Waits the busy time out, as a rule: exactly, in two waits, or too long; else not at all or
    /// one tick too few.
    fn ready(&mut self) {
        let busy = self.part.busy;
        if busy == 0 {
            return;
        }
        if !self.random.percent(self.patience) {
            if self.random.percent(50) {
                self.wait(busy - 1);
            }
            return;
        }
        match self.random.below(6) {
            0 => {
                self.wait(busy - 1);
                self.wait(1);
            }
            1 => {
                let enough: Vec<u16> = WAITS.into_iter().filter(|&wait| wait >= busy).collect();
                let wait = self.random.pick(&enough);
                self.wait(wait);
            }
            _ => self.wait(busy),
        }
    }

    /// One transfer on the bus, a half on four lines.
    pub(super) fn transfer(&mut self, kind: u8, value: u8) {
        self.ready();
        self.push(kind, u16::from(value));
    }

    /// One half with any lower lines; it may be lost, doubled or disturbed.
    fn half(&mut self, kind: u8, upper: u8) {
        let writes = kind == INSTRUCTION_WRITE || kind == DATA_WRITE;
        let value = if writes {
            upper << 4 | self.random.byte() >> 4
        } else {
            0
        };
        if self.random.percent(self.slips) {
            match self.random.below(5) {
                0 => return,
                1 => self.transfer(kind, value),
                2 => self.transfer(STATUS_READ, 0),
                3 => {
                    let wait = self.random.pick(&WAITS);
                    self.wait(wait);
                }
                _ => {
                    let other = self
                        .random
                        .pick(&[INSTRUCTION_WRITE, DATA_WRITE, DATA_READ]);
                    self.transfer(other, 0);
                }
            }
        }
        self.transfer(kind, value);
    }

    /// A whole transfer of a byte, in two halves on four lines.
    fn send(&mut self, kind: u8, byte: u8) {
        if self.part.eight_lines {
            self.transfer(kind, byte);
        } else {
            self.half(kind, byte >> 4);
            self.half(kind, byte & 0x0F);
        }
    }

    pub(super) fn instruct(&mut self, byte: u8) {
        self.send(INSTRUCTION_WRITE, byte);
    }

    pub(super) fn write(&mut self, byte: u8) {
        self.send(DATA_WRITE, byte);
    }

    fn read(&mut self) {
        self.send(DATA_READ, 0);
    }

    pub(super) fn status(&mut self) {
        self.send(STATUS_READ, 0);
    }

    /// Ends a waiting half: by its second, or by one that disagrees.
    pub(super) fn settle(&mut self) {
        let Some(half) = self.part.half else {
            return;
        };
        let own = match (half.rs, half.read) {
            (false, false) => INSTRUCTION_WRITE,
            (true, false) => DATA_WRITE,
            (false, true) => STATUS_READ,
            (true, true) => DATA_READ,
        };
        let any = self.random.below(4) as u8;
        let kind = self.random.pick(&[own, any]);
        let value = self.any_value(kind);
        self.transfer(kind, value);
    }

    /// Any byte for a write, 0 for a read.
    pub(super) fn any_value(&mut self, kind: u8) -> u8 {
        if kind < STATUS_READ {
            self.random.byte()
        } else {
            0
        }
    }

    /// Does something without slips and with all patience.
    pub(super) fn carefully(&mut self, action: fn(&mut Self)) {
        let habits = (self.patience, self.slips);
        (self.patience, self.slips) = (100, 0);
        action(self);
        (self.patience, self.slips) = habits;
    }

    pub(super) fn open(&mut self) {
        match self.random.below(8) {
            0 => {}
            1 => self.pause(),
            2 => {
                self.status();
                self.wait(3749);
                self.status();
                self.wait(1);
            }
            3 => self.restart(),
            _ => self.wait(3750),
        }
        if self.random.percent(60) {
            self.change_bus();
        }
        if self.random.percent(60) {
            self.carefully(Self::function);
        }
        if self.random.percent(40) {
            self.carefully(Self::fill_characters);
        }
        if self.random.percent(40) {
            self.carefully(Self::show);
        }
    }

    pub(super) fn act(&mut self) {
        if self.random.percent(60) {
            self.settle();
        }
        match self.random.below(20) {
            0 => self.pause(),
            1 => self.any_instruction(),
            2 => self.border_address(),
            3 | 4 => self.text(),
            5 => self.read_on(),
            6 => self.status(),
            7..=9 => self.cross_border(),
            10 => self.characters(),
            11 => self.move_display(),
            12 => self.change_line_count(),
            13 => self.change_bus(),
            14 => self.restart(),
            15 => self.show(),
            16 => self.stray_half(),
            17 => self.entry_mode(),
            18 => self.home_or_clear(),
            _ => self.unready(),
        }
        if self.random.percent(40) {
            self.status();
        }
    }

    fn close(&mut self) {
        if self.random.percent(15) {
            return;
        }
        self.carefully(|author| {
            author.settle();
            match author.random.below(4) {
                0 => author.border_address(),
                1 => {
                    let address = author.random.byte();
                    author.instruct(0x40 | address & 0x3F);
                }
                2 => {
                    let address = author.random.byte();
                    author.instruct(0x80 | address);
                }
                _ => {}
            }
            author.show();
            author.status();
        });
    }

    /// A full record ends with status reads, which leave the picture as it is.
    fn fill(&mut self) {
        while self.events.len() < self.room {
            self.push(STATUS_READ, 0);
        }
    }

    pub(super) fn pause(&mut self) {
        let any = self.random.next() as u16;
        let listed = self.random.pick(&WAITS);
        let wait = self.random.pick(&[listed, listed, listed, any]);
        self.wait(wait);
    }

    fn any_instruction(&mut self) {
        let byte = self.instruction();
        self.instruct(byte);
    }

    /// A byte of any range, each as likely.
    pub(super) fn instruction(&mut self) -> u8 {
        let (first, last) = self.random.pick(&[
            (0x00, 0x00),
            (0x01, 0x01),
            (0x02, 0x03),
            (0x04, 0x07),
            (0x08, 0x0F),
            (0x10, 0x1F),
            (0x20, 0x3F),
            (0x40, 0x7F),
            (0x80, 0xFF),
        ]);
        self.random.between(first, last) as u8
    }

    pub(super) fn border_address(&mut self) {
        let address = self.random.pick(&BORDERS);
        let memory = self.random.pick(&[0x80, 0x80, 0x40]);
        self.instruct(memory | address);
    }

    fn code(&mut self) -> u8 {
        let small = self.random.below(0x20) as u8;
        let any = self.random.byte();
        self.random.pick(&[small, any])
    }

    pub(super) fn text(&mut self) {
        for _ in 0..self.random.between(1, 12) {
            let code = self.code();
            self.write(code);
        }
    }

    pub(super) fn read_on(&mut self) {
        let count = self.random.pick(&[1, 2, 5, 10, 80]);
        for _ in 0..count {
            self.read();
        }
    }

    /// Over a border of either memory, in either direction, by writes, reads and steps.
    pub(super) fn cross_border(&mut self) {
        if self.random.percent(50) {
            self.pass_end();
            return;
        }
        if self.random.percent(70) {
            self.entry_mode();
        }
        self.border_address();
        for _ in 0..self.random.between(1, 4) {
            match self.random.below(4) {
                0 => self.read(),
                1 => {
                    let step = self.random.byte();
                    self.instruct(0x10 | step & 0x07);
                }
                _ => {
                    let code = self.code();
                    self.write(code);
                }
            }
            if self.random.percent(50) {
                self.status();
            }
        }
    }

    /// Over an end of either memory, in either direction, by a write, a read or a cursor move.
    fn pass_end(&mut self) {
        let mode = 0x04 | self.random.byte() & 0x03;
        let up = mode & 0x02 > 0;
        self.instruct(mode);
        let display: &[(u8, u8)] = match self.part.two_lines {
            false => &[(0xCF, 0x80)],
            true => &[(0xA7, 0xC0), (0xE7, 0x80)],
        };
        let display = self.random.pick(display);
        let (last, first) = self.random.pick(&[display, display, (0x7F, 0x40)]);
        self.instruct(if up { last } else { first });
        match self.random.below(3) {
            0 => self.read(),
            1 => {
                let any = self.random.byte() & 0x03;
                self.instruct(if up { 0x14 } else { 0x10 } | any);
            }
            _ => {
                let code = self.code();
                self.write(code);
            }
        }
        if self.random.percent(50) {
            self.status();
        }
    }

    pub(super) fn characters(&mut self) {
        let border = self.random.pick(&[0x00, 0x01, 0x3E, 0x3F]);
        let any = self.random.byte() & 0x3F;
        let address = self.random.pick(&[border, any]);
        self.instruct(0x40 | address);
        for _ in 0..self.random.between(1, 9) {
            if self.random.percent(80) {
                let dots = self.random.byte();
                self.write(dots);
            } else {
                self.read();
            }
        }
    }

    fn fill_characters(&mut self) {
        self.settle();
        self.instruct(0x40);
        for _ in 0..64 {
            let dots = self.random.byte();
            self.write(dots);
        }
        let back = self.random.pick(&[0x02, 0x80]);
        self.instruct(back);
        for _ in 0..self.random.between(8, 24) {
            let code = self.random.below(0x12) as u8;
            self.write(code);
        }
    }

    pub(super) fn move_display(&mut self) {
        let way = self.random.pick(&[DISPLAY_LEFT, DISPLAY_RIGHT]);
        let count = self.random.pick(&[1, 2, 3, 41]);
        for _ in 0..count {
            let any = self.random.byte() & 0x03;
            self.instruct(way | any);
        }
    }

    fn function(&mut self) {
        let byte = self.random.byte() & 0x0F;
        self.instruct(self.bus() | byte);
    }

    /// The function byte's upper half that keeps the bus as it is.
    pub(super) fn bus(&self) -> u8 {
        if self.part.eight_lines {
            0x30
        } else {
            0x20
        }
    }

    /// The function byte's bit that keeps N as it is.
    pub(super) fn line_count(&self) -> u8 {
        if self.part.two_lines {
            0x08
        } else {
            0x00
        }
    }

    fn change_line_count(&mut self) {
        let line_count = self.line_count() ^ 0x08;
        let rest = self.random.byte() & 0x07;
        if self.random.percent(60) {
            self.border_address();
        }
        self.instruct(self.bus() | line_count | rest);
        self.status();
        self.read();
    }

    fn change_bus(&mut self) {
        let bus = if self.part.eight_lines { 0x20 } else { 0x30 };
        let any = self.random.byte() & 0x0F;
        let rest = self.random.pick(&[self.line_count(), any]);
        self.instruct(bus | rest);
    }

    /// The standard restart, from any place, with any lower lines; it may break off.
    fn restart(&mut self) {
        let breaks_off = self.random.percent(15);
        let writes = if breaks_off {
            self.random.between(1, 11)
        } else {
            12
        };
        let uppers = [3, 3, 3, 2, 2, 8, 0, 8, 0, 2, 0, 6];
        self.upper_lines(&uppers[..writes]);
    }

    /// Instruction writes of these upper lines, with any lower ones, the busy time waited out.
    pub(super) fn upper_lines(&mut self, uppers: &[u8]) {
        for upper in uppers {
            let lower = self.random.byte() >> 4;
            let busy = self.part.busy;
            if busy > 0 {
                self.wait(busy);
            }
            self.push(INSTRUCTION_WRITE, u16::from(upper << 4 | lower));
        }
    }

    pub(super) fn show(&mut self) {
        let hidden = self.random.pick(&[0x08, 0x09, 0x0A, 0x0B]);
        let shown = self.random.pick(&[0x0C, 0x0D, 0x0E, 0x0F, 0x0F]);
        let settings = if self.random.percent(15) {
            hidden
        } else {
            shown
        };
        self.instruct(settings);
    }

    pub(super) fn entry_mode(&mut self) {
        let mode = self.random.byte() & 0x03;
        self.instruct(0x04 | mode);
    }

    pub(super) fn home_or_clear(&mut self) {
        let byte = self.random.pick(&[0x01, 0x02, 0x03]);
        self.instruct(byte);
        if self.random.percent(50) {
            self.wait(409);
            self.status();
        }
    }

    /// A half alone, or on eight lines a byte alone.
    fn stray_half(&mut self) {
        let kind = self.random.below(4) as u8;
        let value = self.any_value(kind);
        self.transfer(kind, value);
        if self.random.percent(40) {
            self.pause();
        }
        if self.random.percent(30) {
            self.restart();
        }
    }

    /// Transfers to a part that is busy.
    fn unready(&mut self) {
        self.instruct(0x00);
        for _ in 0..self.random.between(1, 4) {
            let kind = self.random.below(4) as u8;
            let value = self.any_value(kind);
            self.push(kind, u16::from(value));
        }
    }
}
