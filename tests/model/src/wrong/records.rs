//! Wrong models of the bench record and of the table.

use super::Wrong;
use crate::model::record::*;
use crate::model::rules::{Rules, PAPER};
use crate::model::table::{table, table_line, HEADING};

pub const LIST: &[Wrong] = &[
    Wrong {
        name: "length-little-endian",
        rules: Rules {
            length: |record| usize::from(u16::from_le_bytes([record[0], record[1]])),
            ..PAPER
        },
    },
    Wrong {
        name: "length-counts-itself",
        rules: Rules {
            length: |record| length(record).wrapping_sub(2),
            ..PAPER
        },
    },
    Wrong {
        name: "length-by-low-byte",
        rules: Rules {
            length: |record| length(record) % 256 + (record.len() - 2) / 256 * 256,
            ..PAPER
        },
    },
    Wrong {
        name: "trailing-bytes-taken",
        rules: Rules {
            events: |rules, record| {
                let end = if record.len() < 3 {
                    record.len()
                } else {
                    record.len().min(2 + length(record))
                };
                events(rules, &record[..end])
            },
            ..PAPER
        },
    },
    Wrong {
        name: "empty-input-taken-as-empty-record",
        rules: Rules {
            events: |rules, record| match record.len() {
                0 => Ok(Vec::new()),
                _ => events(rules, record),
            },
            ..PAPER
        },
    },
    Wrong {
        name: "version-0-taken",
        rules: Rules {
            version: |version| version <= 1,
            ..PAPER
        },
    },
    Wrong {
        name: "version-2-taken",
        rules: Rules {
            version: |version| version == 1 || version == 2,
            ..PAPER
        },
    },
    Wrong {
        name: "refusal-8-before-7",
        rules: Rules {
            events: |rules, record| {
                if record.len() >= 3 && !version(record[2]) {
                    return Err(8);
                }
                events(rules, record)
            },
            ..PAPER
        },
    },
    Wrong {
        name: "refusal-9-before-8",
        rules: Rules {
            events: |rules, record| {
                let mut right = record.to_vec();
                if let Some(version) = right.get_mut(2) {
                    *version = 1;
                }
                events(rules, &right)?;
                events(rules, record)
            },
            ..PAPER
        },
    },
    Wrong {
        name: "piece-of-event-taken",
        rules: Rules {
            events: |rules, record| match record.len() % 3 {
                0 => events(rules, record),
                piece if record.len() > 3 && length(record) == record.len() - 2 => {
                    let mut whole = record[..record.len() - piece].to_vec();
                    let length = (whole.len() - 2) as u16;
                    whole[..2].copy_from_slice(&length.to_be_bytes());
                    events(rules, &whole)
                }
                _ => events(rules, record),
            },
            ..PAPER
        },
    },
    Wrong {
        name: "kind-5-taken",
        rules: Rules {
            well_formed: |event| well_formed(event) || event.kind == 5,
            ..PAPER
        },
    },
    Wrong {
        name: "write-of-256-taken",
        rules: Rules {
            well_formed: |event| {
                well_formed(event) || event.kind <= DATA_WRITE && event.value == 256
            },
            ..PAPER
        },
    },
    Wrong {
        name: "read-with-value-taken",
        rules: Rules {
            well_formed: |event| {
                well_formed(event) || matches!(event.kind, STATUS_READ | DATA_READ)
            },
            ..PAPER
        },
    },
    Wrong {
        name: "wait-above-3750-refused",
        rules: Rules {
            well_formed: |event| well_formed(event) && event.value <= 3750,
            ..PAPER
        },
    },
    Wrong {
        name: "last-event-unchecked",
        rules: Rules {
            events: |rules, record| {
                let mut spared = record.to_vec();
                if record.len() >= 6 && record.len() % 3 == 0 {
                    let last = record.len() - 3;
                    if !well_formed(event([record[last], record[last + 1], record[last + 2]])) {
                        spared[last..].copy_from_slice(&[WAIT, 0, 0]);
                    }
                }
                events(rules, &spared)
            },
            ..PAPER
        },
    },
    Wrong {
        name: "value-little-endian",
        rules: Rules {
            event: |bytes| event([bytes[0], bytes[2], bytes[1]]),
            ..PAPER
        },
    },
    Wrong {
        name: "12292-bytes-not-too-long",
        rules: Rules {
            too_long: |bytes| bytes > MOST_BYTES + 1,
            ..PAPER
        },
    },
    Wrong {
        name: "12291-bytes-too-long",
        rules: Rules {
            too_long: |bytes| bytes >= MOST_BYTES,
            ..PAPER
        },
    },
    Wrong {
        name: "events-numbered-from-0",
        rules: Rules {
            table_line: |number, event, outcome| table_line(number - 1, event, outcome),
            ..PAPER
        },
    },
    Wrong {
        name: "no-heading-for-empty-record",
        rules: Rules {
            table: |rules, events| match events {
                [] => String::new(),
                _ => table(rules, events),
            },
            ..PAPER
        },
    },
    Wrong {
        name: "table-stops-at-refused-event",
        rules: Rules {
            table: |rules, events| {
                let mut part = (rules.switched_on)();
                let refuses = |&event: &Event| {
                    let answer = run(rules, &mut part, event).answer;
                    answer != 0 && answer != 20
                };
                let end = events.iter().position(refuses);
                table(
                    rules,
                    &events[..end.map_or(events.len(), |place| place + 1)],
                )
            },
            ..PAPER
        },
    },
    Wrong {
        name: "part-switched-on-at-each-event",
        rules: Rules {
            table: |rules, events| {
                let mut text = HEADING.to_string();
                for (place, &event) in events.iter().enumerate() {
                    let outcome = run(rules, &mut (rules.switched_on)(), event);
                    text.push_str(&table_line(place + 1, event, outcome));
                }
                text
            },
            ..PAPER
        },
    },
];
