//! Damaged records: one kind of damage each, now and then two.

// All damages are of one type, so that they make one list.
#![allow(clippy::ptr_arg)]

use super::author;
use super::random::Random;
use crate::model::record::{record, MOST_BYTES, MOST_EVENTS};

type Damage = fn(&mut Random, &mut Vec<u8>);

pub const DAMAGES: [(&str, Damage); 18] = [
    ("empty input", |_, record| record.clear()),
    ("too short", too_short),
    ("length one more", |_, record| change_length(record, 1)),
    ("length one less", |_, record| change_length(record, -1)),
    ("length by 256", length_by_256),
    ("length any", length_any),
    ("length short of events", length_short_of_events),
    ("length little-endian", |_, record| record.swap(0, 1)),
    ("version", version),
    ("cut off", cut_off),
    ("cut anywhere", cut_anywhere),
    ("trailing bytes", trailing_bytes),
    ("not whole events", not_whole_events),
    ("kind", kind),
    ("value of a write", value_of_write),
    ("value of a read", value_of_read),
    ("too long", too_long),
    ("noise", noise),
];

/// A damaged record and the name of the damage.
pub fn damaged(random: &mut Random) -> (Vec<u8>, &'static str) {
    let room = random.pick(&[0, 1, 2, 25, 40, 85, MOST_EVENTS]);
    let mut record = record(&author::events(random, room));
    let name = damage(random, &mut record);
    (record, name)
}

/// Damages a sound record, and gives the name of the damage.
pub fn damage(random: &mut Random, record: &mut Vec<u8>) -> &'static str {
    if random.percent(15) {
        let (name, damage) = random.pick(&DAMAGES[2..16]);
        damage(random, record);
        if record.len() < 3 {
            return name;
        }
    }
    let (name, damage) = random.pick(&DAMAGES);
    damage(random, record);
    name
}

/// Damages a sound record, so that each way of refusing it is as likely.
pub fn damage_for_each_refusal(random: &mut Random, record: &mut Vec<u8>) {
    let damages: [Damage; 5] = [length_any, version, kind, too_long, |random, record| {
        damage(random, record);
    }];
    random.pick(&damages)(random, record);
}

fn put_length(record: &mut [u8], length: usize) {
    record[..2].copy_from_slice(&(length as u16).to_be_bytes());
}

/// Makes the length agree with the bytes there.
fn mend_length(record: &mut [u8]) {
    put_length(record, record.len() - 2);
}

fn change_length(record: &mut [u8], difference: i32) {
    let length = i32::from(u16::from_be_bytes([record[0], record[1]]));
    record[..2].copy_from_slice(&((length + difference) as u16).to_be_bytes());
}

fn too_short(random: &mut Random, record: &mut Vec<u8>) {
    let length = random.below(3);
    let head = random.pick(&[0x00, 0x01]);
    record.truncate(length);
    if let Some(last) = record.last_mut() {
        *last = head;
    }
}

fn length_by_256(random: &mut Random, record: &mut Vec<u8>) {
    let difference = random.pick(&[-256, 256]);
    change_length(record, difference);
}

fn length_any(random: &mut Random, record: &mut Vec<u8>) {
    let any = random.below(65_536);
    let length = random.pick(&[0, 0xFFFF, any, any]);
    put_length(record, length);
}

/// A length that ends behind an event, before the last.
fn length_short_of_events(random: &mut Random, record: &mut Vec<u8>) {
    let events = record.len() / 3 - 1;
    let spoken_of = random.below(events.max(1));
    put_length(record, 1 + 3 * spoken_of);
}

fn version(random: &mut Random, record: &mut Vec<u8>) {
    let any = random.byte();
    record[2] = random.pick(&[0, 2, 2, any]);
}

fn cut_off(random: &mut Random, record: &mut Vec<u8>) {
    let bytes = random.pick(&[1, 2, 3]);
    let kept = record.len().saturating_sub(bytes);
    record.truncate(kept);
}

/// The cable pulled at any moment behind the head.
fn cut_anywhere(random: &mut Random, record: &mut Vec<u8>) {
    let kept = random.between(3, record.len());
    record.truncate(kept);
}

fn trailing_bytes(random: &mut Random, record: &mut Vec<u8>) {
    let count = random.pick(&[1, 1, 2, 3, 6, 30]);
    let zero = random.percent(50);
    record.extend(if zero {
        vec![0; count]
    } else {
        random.bytes(count)
    });
}

fn not_whole_events(random: &mut Random, record: &mut Vec<u8>) {
    let bytes = random.pick(&[1, 2]);
    if random.percent(50) && record.len() > 5 {
        record.truncate(record.len() - bytes);
    } else {
        record.extend(vec![0; bytes]);
    }
    mend_length(record);
}

/// The place of an event of the record, an added one if there is none.
fn event_place(random: &mut Random, record: &mut Vec<u8>) -> usize {
    if record.len() < 6 {
        record.extend([0; 3]);
        mend_length(record);
    }
    let last = record.len() / 3 - 1;
    let place = random.between(1, last);
    3 * random.pick(&[1, place, last])
}

fn kind(random: &mut Random, record: &mut Vec<u8>) {
    let place = event_place(random, record);
    let any = random.between(5, 255) as u8;
    record[place] = random.pick(&[5, 5, any]);
}

fn value_of_write(random: &mut Random, record: &mut Vec<u8>) {
    let any = random.between(256, 65535) as u16;
    let value = random.pick(&[256, 256, any]);
    put_event(random, record, 0, value);
}

fn value_of_read(random: &mut Random, record: &mut Vec<u8>) {
    let any = random.between(1, 65535) as u16;
    let value = random.pick(&[1, 256, any]);
    put_event(random, record, 2, value);
}

/// Puts an event of this kind or the next in some event's place.
fn put_event(random: &mut Random, record: &mut Vec<u8>, kind: u8, value: u16) {
    let place = event_place(random, record);
    record[place] = kind + random.pick(&[0, 1]);
    record[place + 1..place + 3].copy_from_slice(&value.to_be_bytes());
}

fn too_long(random: &mut Random, record: &mut Vec<u8>) {
    let any = random.between(MOST_BYTES + 1, 20_000);
    let length = random.pick(&[
        MOST_BYTES + 1,
        MOST_BYTES + 1,
        MOST_BYTES + 2,
        MOST_BYTES + 3,
        16_384,
        65_537,
        65_537,
        65_538,
        65_538,
        70_000,
        any,
    ]);
    // Three bytes of 0 are an event, three of FF are none.
    let filling = random.pick(&[0x00, 0x00, 0x00, 0xFF]);
    record.resize(length, filling);
    match random.below(5) {
        0 => {}
        1 => put_length(record, MOST_BYTES - 2),
        _ => mend_length(record),
    }
    if random.percent(30) {
        version(random, record);
    }
}

fn noise(random: &mut Random, record: &mut Vec<u8>) {
    let count = random.below(40);
    *record = random.bytes(count);
    if count >= 3 && random.percent(80) {
        mend_length(record);
        if random.percent(70) {
            record[2] = 1;
        }
    }
}
