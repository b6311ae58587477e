//! Wrong models of mending; the five that the request names come first.

use super::Wrong;
use crate::model::mend::*;
use crate::model::record::*;
use crate::model::rules::{Rules, PAPER};
use crate::model::table::refusal;

/// Whether it is an ill-formed event, and no cut one, that ends what is kept.
fn ill_formed_behind(bytes: &[u8], kept: usize) -> bool {
    kept < MOST_EVENTS && dropped(bytes, kept) >= 3
}

pub const LIST: &[Wrong] = &[
    Wrong {
        name: "mend-stops-at-length",
        rules: Rules {
            kept: |rules, bytes| kept(rules, bytes).min(length(bytes).saturating_sub(1) / 3),
            ..PAPER
        },
    },
    Wrong {
        name: "mend-needs-room-of-input",
        rules: Rules {
            room_needed: |bytes, _| bytes.len(),
            ..PAPER
        },
    },
    Wrong {
        name: "mend-stops-at-4095-events",
        rules: Rules {
            kept: |rules, bytes| kept(rules, bytes).min(MOST_EVENTS - 1),
            ..PAPER
        },
    },
    Wrong {
        name: "cut-event-not-counted-as-dropped",
        rules: Rules {
            dropped: |bytes, kept| dropped(bytes, kept) / 3 * 3,
            ..PAPER
        },
    },
    Wrong {
        name: "altered-whenever-dropped",
        rules: Rules {
            altered: |bytes, kept| dropped(bytes, kept) > 0,
            ..PAPER
        },
    },
    Wrong {
        name: "mend-keeps-4097-events",
        rules: Rules {
            kept: |rules, bytes| {
                let kept = kept(rules, bytes);
                kept + usize::from(kept == MOST_EVENTS && stands(bytes, MOST_BYTES))
            },
            ..PAPER
        },
    },
    Wrong {
        name: "mend-loses-last-event",
        rules: Rules {
            kept: |rules, bytes| kept(rules, bytes).min(bytes.len().saturating_sub(4) / 3),
            ..PAPER
        },
    },
    Wrong {
        name: "mend-keeps-ill-formed-event",
        rules: Rules {
            kept: |rules, bytes| {
                let kept = kept(rules, bytes);
                kept + usize::from(ill_formed_behind(bytes, kept))
            },
            ..PAPER
        },
    },
    Wrong {
        name: "mend-keeps-all-before-last-event",
        rules: Rules {
            kept: |_, bytes| {
                let last = (0..MOST_EVENTS)
                    .rev()
                    .find(|&before| stands(bytes, bytes_of(before)));
                last.map_or(0, |before| before + 1)
            },
            ..PAPER
        },
    },
    Wrong {
        name: "mend-leaves-ill-formed-events-out",
        rules: Rules {
            mend: |rules, bytes, room| {
                head_refusal(bytes)?;
                let places = (3..bytes.len())
                    .step_by(3)
                    .filter(|&place| stands(bytes, place));
                let events = places.flat_map(|place| bytes[place..place + 3].to_vec());
                let left: Vec<u8> = bytes[..3].iter().copied().chain(events).collect();
                let mut mended = mend(rules, &left, room)?;
                mended.dropped += bytes.len() - left.len();
                Ok(mended)
            },
            ..PAPER
        },
    },
    Wrong {
        name: "mend-keeps-nothing-beside-ill-formed-event",
        rules: Rules {
            kept: |rules, bytes| {
                let kept = kept(rules, bytes);
                if ill_formed_behind(bytes, kept) {
                    0
                } else {
                    kept
                }
            },
            ..PAPER
        },
    },
    Wrong {
        name: "mend-fills-cut-event-with-0",
        rules: Rules {
            mend: |rules, bytes, room| {
                head_refusal(bytes)?;
                let mut filled = bytes.to_vec();
                filled.resize(bytes.len().next_multiple_of(3), 0);
                mend(rules, &filled, room)
            },
            ..PAPER
        },
    },
    Wrong {
        name: "mend-keeps-kind-5",
        rules: Rules {
            stands: |bytes, place| {
                stands(bytes, place)
                    || whole_event(bytes, place).is_some_and(|event| event.kind == 5)
            },
            ..PAPER
        },
    },
    Wrong {
        name: "mend-keeps-write-of-256",
        rules: Rules {
            stands: |bytes, place| {
                let taken = |event: Event| event.kind <= DATA_WRITE && event.value == 256;
                stands(bytes, place) || whole_event(bytes, place).is_some_and(taken)
            },
            ..PAPER
        },
    },
    Wrong {
        name: "mend-keeps-read-with-value",
        rules: Rules {
            stands: |bytes, place| {
                let taken = |event: Event| matches!(event.kind, STATUS_READ | DATA_READ);
                stands(bytes, place) || whole_event(bytes, place).is_some_and(taken)
            },
            ..PAPER
        },
    },
    Wrong {
        name: "mend-ends-at-wait-above-3750",
        rules: Rules {
            stands: |bytes, place| {
                let taken = |event| well_formed(event) && event.value <= 3750;
                whole_event(bytes, place).is_some_and(taken)
            },
            ..PAPER
        },
    },
    Wrong {
        name: "cut-event-alone-counted-as-dropped",
        rules: Rules {
            dropped: |bytes, kept| dropped(bytes, kept) % 3,
            ..PAPER
        },
    },
    Wrong {
        name: "dropped-counted-in-events",
        rules: Rules {
            dropped: |bytes, kept| dropped(bytes, kept).div_ceil(3),
            ..PAPER
        },
    },
    Wrong {
        name: "dropped-counted-from-length",
        rules: Rules {
            dropped: |bytes, kept| (2 + length(bytes)).saturating_sub(bytes_of(kept)),
            ..PAPER
        },
    },
    Wrong {
        name: "dropped-counted-to-12291-bytes",
        rules: Rules {
            dropped: |bytes, kept| bytes.len().min(MOST_BYTES) - bytes_of(kept),
            ..PAPER
        },
    },
    Wrong {
        name: "altered-only-when-dropped",
        rules: Rules {
            altered: |bytes, kept| altered(bytes, kept) && dropped(bytes, kept) > 0,
            ..PAPER
        },
    },
    Wrong {
        name: "altered-where-length-was-wrong",
        rules: Rules {
            altered: |bytes, _| length(bytes) != bytes.len() - 2,
            ..PAPER
        },
    },
    Wrong {
        name: "altered-by-low-byte",
        rules: Rules {
            altered: |bytes, kept| bytes[1] != new_length(kept)[1],
            ..PAPER
        },
    },
    Wrong {
        name: "altered-by-high-byte",
        rules: Rules {
            altered: |bytes, kept| bytes[0] != new_length(kept)[0],
            ..PAPER
        },
    },
    Wrong {
        name: "altered-only-to-less",
        rules: Rules {
            altered: |bytes, kept| length(bytes) > 1 + 3 * kept,
            ..PAPER
        },
    },
    Wrong {
        name: "altered-only-to-more",
        rules: Rules {
            altered: |bytes, kept| length(bytes) < 1 + 3 * kept,
            ..PAPER
        },
    },
    Wrong {
        name: "mended-length-not-written",
        rules: Rules {
            mended_record: |_, bytes, kept| bytes[..bytes_of(kept)].to_vec(),
            ..PAPER
        },
    },
    Wrong {
        name: "mended-length-in-low-byte",
        rules: Rules {
            mended_record: |rules, bytes, kept| {
                let mut record = mended_record(rules, bytes, kept);
                record[0] = bytes[0];
                record
            },
            ..PAPER
        },
    },
    Wrong {
        name: "mended-length-little-endian",
        rules: Rules {
            new_length: |kept| ((1 + 3 * kept) as u16).to_le_bytes(),
            ..PAPER
        },
    },
    Wrong {
        name: "mended-length-counts-itself",
        rules: Rules {
            new_length: |kept| (bytes_of(kept) as u16).to_be_bytes(),
            ..PAPER
        },
    },
    Wrong {
        name: "mended-length-without-version",
        rules: Rules {
            new_length: |kept| ((3 * kept) as u16).to_be_bytes(),
            ..PAPER
        },
    },
    Wrong {
        name: "mended-version-not-written",
        rules: Rules {
            mended_record: |rules, bytes, kept| {
                let mut record = mended_record(rules, bytes, kept);
                record[2] = 0;
                record
            },
            ..PAPER
        },
    },
    Wrong {
        name: "dropped-bytes-written",
        rules: Rules {
            mended_record: |_, bytes, kept| [&new_length(kept), &bytes[2..]].concat(),
            ..PAPER
        },
    },
    Wrong {
        name: "whole-buffer-written",
        rules: Rules {
            mended_record: |rules, bytes, kept| {
                let mut record = mended_record(rules, bytes, kept);
                record.resize(MOST_BYTES, 0);
                record
            },
            ..PAPER
        },
    },
    Wrong {
        name: "mend-needs-room-of-length",
        rules: Rules {
            room_needed: |bytes, kept| bytes_of(kept).max(2 + length(bytes)),
            ..PAPER
        },
    },
    Wrong {
        name: "mend-needs-a-byte-more",
        rules: Rules {
            room_needed: |_, kept| bytes_of(kept) + 1,
            ..PAPER
        },
    },
    Wrong {
        name: "mend-takes-two-bytes",
        rules: Rules {
            mend: |rules, bytes, room| match bytes {
                [high, low] => mend(rules, &[*high, *low, 1], room),
                _ => mend(rules, bytes, room),
            },
            ..PAPER
        },
    },
    Wrong {
        name: "mend-refuses-three-bytes",
        rules: Rules {
            head_refusal: |bytes| {
                if bytes.len() == 3 {
                    Err(7)
                } else {
                    head_refusal(bytes)
                }
            },
            ..PAPER
        },
    },
    Wrong {
        name: "mend-refuses-wrong-length",
        rules: Rules {
            head_refusal: |bytes| {
                if bytes.len() >= 3 && length(bytes) != bytes.len() - 2 {
                    Err(7)
                } else {
                    head_refusal(bytes)
                }
            },
            ..PAPER
        },
    },
    Wrong {
        name: "mend-refuses-bytes-behind-length",
        rules: Rules {
            mend: |rules, bytes, room| {
                head_refusal(bytes)?;
                if length(bytes) < bytes.len() - 2 {
                    return Err(7);
                }
                mend(rules, bytes, room)
            },
            ..PAPER
        },
    },
    Wrong {
        name: "mend-refuses-ill-formed-event",
        rules: Rules {
            mend: |rules, bytes, room| {
                let mended = mend(rules, bytes, room)?;
                if ill_formed_behind(bytes, mended.kept) {
                    return Err(9);
                }
                Ok(mended)
            },
            ..PAPER
        },
    },
    Wrong {
        name: "mend-refuses-what-has-no-event",
        rules: Rules {
            mend: |rules, bytes, room| {
                let mended = mend(rules, bytes, room)?;
                if mended.kept == 0 && mended.dropped > 0 {
                    return Err(9);
                }
                Ok(mended)
            },
            ..PAPER
        },
    },
    Wrong {
        name: "mend-takes-any-version",
        rules: Rules {
            head_refusal: |bytes| if bytes.len() < 3 { Err(7) } else { Ok(()) },
            ..PAPER
        },
    },
    Wrong {
        name: "mend-takes-version-0",
        rules: Rules {
            head_refusal: |bytes| {
                if bytes.len() >= 3 && bytes[2] == 0 {
                    Ok(())
                } else {
                    head_refusal(bytes)
                }
            },
            ..PAPER
        },
    },
    Wrong {
        name: "mend-takes-version-2",
        rules: Rules {
            head_refusal: |bytes| {
                if bytes.len() >= 3 && bytes[2] == 2 {
                    Ok(())
                } else {
                    head_refusal(bytes)
                }
            },
            ..PAPER
        },
    },
    Wrong {
        name: "mend-12292-bytes-too-long",
        rules: Rules {
            captured_too_long: |bytes| bytes > MOST_BYTES,
            ..PAPER
        },
    },
    Wrong {
        name: "mend-65537-bytes-too-long",
        rules: Rules {
            captured_too_long: |bytes| bytes >= MOST_CAPTURED,
            ..PAPER
        },
    },
    Wrong {
        name: "mend-65538-bytes-not-too-long",
        rules: Rules {
            captured_too_long: |bytes| bytes > MOST_CAPTURED + 1,
            ..PAPER
        },
    },
    Wrong {
        name: "mend-reads-65537-bytes-of-more",
        rules: Rules {
            written: |rules, input| written(rules, &input[..input.len().min(MOST_CAPTURED)]),
            ..PAPER
        },
    },
    Wrong {
        name: "mend-refuses-before-too-long",
        rules: Rules {
            written: |rules, input| match head_refusal(input) {
                Ok(()) => written(rules, input),
                Err(number) => line_alone(refusal(number)),
            },
            ..PAPER
        },
    },
    Wrong {
        name: "mend-line-on-standard-output",
        rules: Rules {
            written: |rules, input| {
                let Written { record, line } = written(rules, input);
                Written {
                    record: [record, line].concat(),
                    line: Vec::new(),
                }
            },
            ..PAPER
        },
    },
    Wrong {
        name: "mend-refusal-on-standard-output",
        rules: Rules {
            written: |rules, input| {
                let Written { record, line } = written(rules, input);
                if record.is_empty() {
                    Written {
                        record: line,
                        line: record,
                    }
                } else {
                    Written { record, line }
                }
            },
            ..PAPER
        },
    },
    Wrong {
        name: "mend-writes-empty-record-when-refused",
        rules: Rules {
            written: |rules, input| {
                let mut all = written(rules, input);
                if all.record.is_empty() {
                    all.record = record(&[]);
                }
                all
            },
            ..PAPER
        },
    },
];
