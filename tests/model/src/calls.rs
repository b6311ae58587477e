//! The file of calls that the C harness makes: a line for each call, with what it must be answered
//! and leave.
//!
//! A line is the function's name, what it is given, the answer and what it leaves, in the header's
//! order, all in hex. `-` is a run of no bytes, and what is left as it was. The ROM image stands in a
//! line of its own, `rom`, before the pictures that are drawn with it.

use crate::coverage::Coverage;
use crate::generator::calls::calls;
use crate::model::library::{Call, Left};
use std::fs::File;
use std::io::{self, BufWriter, Write};

/// Below so many calls a file says little.
const ENOUGH: usize = 10_000;

/// Writes the calls of a seed; false where a class of calls was never met.
pub fn write(path: &str, seed: u64) -> io::Result<bool> {
    let calls = calls(seed);
    let mut file = BufWriter::new(File::create(path)?);
    let mut coverage = Coverage::of_calls();
    let mut image: &[u8] = &[];
    for call in &calls {
        if let Call::Picture { rom, .. } = call {
            if image != rom.as_slice() {
                image = rom;
                writeln!(file, "rom {}", bytes(image))?;
            }
        }
        writeln!(file, "{}", line(call))?;
        coverage.note_call_from_c(call);
    }
    file.flush()?;
    let covered = coverage.covered(true);
    println!("model: {} calls written", calls.len());
    Ok(covered && calls.len() >= ENOUGH)
}

fn line(call: &Call) -> String {
    let (mut fields, lefts) = given(call);
    fields.push(format!("{:x}", call.answer()));
    match call.left() {
        Some(left) => fields.extend(left.iter().map(left_field)),
        None => fields.extend(vec!["-".to_string(); lefts]),
    }
    fields.join(" ")
}

/// The name and what is given; and how many things the call leaves.
#[rustfmt::skip]
fn given(call: &Call) -> (Vec<String>, usize) {
    let number = |number: usize| format!("{number:x}");
    let byte = |byte: &u8| format!("{byte:x}");
    let word = |word: &u16| format!("{word:x}");
    let name = name(call).to_string();
    match call {
        Call::SwitchOn { room } => (vec![name, number(*room)], 1),
        Call::RunList { state, events, room } => (vec![name, bytes(state), bytes(events), number(*room)], 2),
        Call::Restart { state } => (vec![name, bytes(state)], 1),
        Call::Picture { state, digits, dark, room, .. } => (vec![name, bytes(state), byte(digits), byte(dark), number(*room)], 1),
        Call::Text { state, line, text } => (vec![name, bytes(state), byte(line), bytes(text)], 2),
        Call::LogNight { state, night, quarters } => (vec![name, bytes(state), byte(night), byte(quarters)], 2),
        Call::LookUp { state, night } => (vec![name, bytes(state), byte(night)], 2),
        Call::QuarterBias { vdd, span } => (vec![name, word(vdd), word(span)], 3),
        Call::FifthBias { vdd, span } => (vec![name, word(vdd), word(span)], 4),
        Call::Mend { record, room } => (vec![name, bytes(record), number(*room)], 4),
    }
}

/// As in the header, behind `trestlecap_`.
pub fn name(call: &Call) -> &'static str {
    match call {
        Call::SwitchOn { .. } => "switch_on",
        Call::RunList { .. } => "run_list",
        Call::Restart { .. } => "restart",
        Call::Picture { .. } => "picture",
        Call::Text { .. } => "text",
        Call::LogNight { .. } => "log_night",
        Call::LookUp { .. } => "look_up",
        Call::QuarterBias { .. } => "quarter_bias",
        Call::FifthBias { .. } => "fifth_bias",
        Call::Mend { .. } => "mend",
    }
}

fn left_field(left: &Left) -> String {
    match left {
        Left::Bytes(left) => bytes(left),
        Left::Number(number) => format!("{number:x}"),
    }
}

fn bytes(bytes: &[u8]) -> String {
    const DIGITS: &[u8; 16] = b"0123456789abcdef";
    if bytes.is_empty() {
        return "-".to_string();
    }
    let digits = bytes.iter().flat_map(|byte| [byte >> 4, byte & 0x0F]);
    digits
        .map(|digit| char::from(DIGITS[usize::from(digit)]))
        .collect()
}
