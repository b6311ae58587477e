//! The two tables of a pair, joined: what eight lines answered beside what the halves were answered.
//! Rows are read back from what was printed, and nothing is asked of the model.

use std::fmt;

/// The kind that is no transfer.
const WAIT: u32 = 4;

/// The bit of a function byte that is 1 for eight lines.
pub const EIGHT_LINES: u16 = 0x10;

/// Where two records part: the place of the one event before the story that differs, and the place
/// where the story begins.
pub struct Parting {
    pub event: usize,
    pub story: usize,
}

#[derive(Clone, Copy, PartialEq, Eq)]
struct Row {
    number: u32,
    kind: u32,
    value: u32,
    answer: u32,
    result: u32,
    wrap: u32,
}

/// How many transfers of the story were joined, or the first rows that tell another one.
pub fn join(parting: &Parting, eight: &[u8], four: &[u8]) -> Result<u64, String> {
    let (eight, four) = (rows(eight)?, rows(four)?);
    if eight.len() < parting.story {
        return Err(format!("{} rows, and no story", eight.len()));
    }
    let mut left = four.as_slice();
    let mut transfers = 0;
    for (place, row) in eight.iter().enumerate() {
        let whole = place < parting.story || row.kind == WAIT;
        let count = if whole { 1 } else { 2 };
        let (told, rest) = left.split_at(count.min(left.len()));
        let alike = match *told {
            [other] if place == parting.event => but_for_the_wiring(row, other),
            [other] if whole => the_same(row, other),
            [first, second] => in_halves(row, first, second),
            _ => false,
        };
        if !alike {
            return Err(unlike(row, told));
        }
        transfers += u64::from(!whole);
        left = rest;
    }
    match left {
        [] => Ok(transfers),
        more => Err(format!("four lines go on: {}", listed(more))),
    }
}

/// The rows behind the heading.
fn rows(table: &[u8]) -> Result<Vec<Row>, String> {
    let text = String::from_utf8_lossy(table);
    let lines = text.split_inclusive('\n').skip(1);
    let numbered = (1..).zip(lines);
    numbered
        .map(|(number, line)| row(number, line).ok_or(format!("no row {number}: {line:?}")))
        .collect()
}

fn row(number: u32, line: &str) -> Option<Row> {
    let columns = line.strip_suffix('\n')?.split(' ');
    let columns: Option<Vec<u32>> = columns.map(|column| column.parse().ok()).collect();
    match columns?[..] {
        [first, kind, value, answer, result, wrap] if first == number => Some(Row {
            number,
            kind,
            value,
            answer,
            result,
            wrap,
        }),
        _ => None,
    }
}

/// The function set that parts the two is answered alike.
fn but_for_the_wiring(eight: &Row, four: Row) -> bool {
    let on_eight = Row {
        value: four.value | u32::from(EIGHT_LINES),
        ..four
    };
    on_eight == *eight && four != *eight
}

/// Behind a transfer in halves the numbers differ, and nothing else.
fn the_same(eight: &Row, four: Row) -> bool {
    let numbered = Row {
        number: eight.number,
        ..four
    };
    numbered == *eight
}

/// What was sent counts on the upper four lines alone. 0 with a value is 20 and 0 with its halves,
/// and the second says the wrap; 1 is 1 twice; 3 is 20 and 3; and there is no other case.
fn in_halves(whole: &Row, first: Row, second: Row) -> bool {
    let sent = [first, second].map(|half| (half.kind, half.value & 0xF0));
    let answered = [first, second].map(|half| (half.answer, half.result, half.wrap));
    let [upper, lower] = halves(whole.result);
    let due = match (whole.answer, whole.result, whole.wrap) {
        (0, _, wrap @ 0..=1) => [(20, upper, 0), (0, lower, wrap)],
        (1, 0, 0) => [(1, 0, 0), (1, 0, 0)],
        (3, 0, 0) => [(20, 0, 0), (3, 0, 0)],
        _ => return false,
    };
    sent == halves(whole.value).map(|half| (whole.kind, half)) && answered == due
}

/// Each in the upper four bits.
fn halves(byte: u32) -> [u32; 2] {
    [byte & 0xF0, byte << 4 & 0xF0]
}

fn unlike(eight: &Row, four: &[Row]) -> String {
    format!("eight lines: {eight}; four lines: {}", listed(four))
}

fn listed(rows: &[Row]) -> String {
    let rows: Vec<String> = rows.iter().map(Row::to_string).collect();
    match rows.as_slice() {
        [] => "nothing".to_string(),
        rows => rows.join(", "),
    }
}

impl fmt::Display for Row {
    fn fmt(&self, to: &mut fmt::Formatter) -> fmt::Result {
        let Row {
            number,
            kind,
            value,
            answer,
            result,
            wrap,
        } = self;
        write!(to, "{number} {kind} {value} {answer} {result} {wrap}")
    }
}
