//! Tests of the model by the request to mend a record that was cut (02, 2/12).

use crate::generator::case::{case, sound};
use crate::model::mend::{bytes_of, mend, stands, written, Mended, MOST_CAPTURED};
use crate::model::record::{record, Event, MOST_BYTES, MOST_EVENTS};
use crate::model::rules::PAPER;
use crate::model::table::bench;

const EXAMPLE: [u8; 21] = [
    0x00, 0x13, 0x01, 0x00, 0x00, 0x38, 0x04, 0x0E, 0xA6, 0x00, 0x00, 0x38, 0x02, 0x00, 0x00, 0x04,
    0x00, 0x0A, 0x02, 0x00, 0x00,
];

/// What a mending with room enough says.
fn said(bytes: &[u8]) -> (usize, usize, bool) {
    let mended = mend(&PAPER, bytes, MOST_BYTES).unwrap();
    (mended.kept, mended.dropped, mended.altered)
}

/// A record's head with this length, and so many waits of one tick.
fn waits(length: u16, count: usize) -> Vec<u8> {
    let waits = record(&vec![Event { kind: 4, value: 1 }; count]);
    [&length.to_be_bytes(), &waits[2..]].concat()
}

#[test]
fn the_example_whole_and_cut() {
    assert_eq!(said(&EXAMPLE), (6, 0, false));
    assert_eq!(said(&EXAMPLE[..20]), (5, 2, true));
    assert_eq!(said(&EXAMPLE[..19]), (5, 1, true));
    assert_eq!(said(&EXAMPLE[..18]), (5, 0, true));
    assert_eq!(said(&EXAMPLE[..3]), (0, 0, true));
}

#[test]
fn the_requests_other_examples() {
    assert_eq!(said(&[0x00, 0x01, 0x01, 0x05]), (0, 1, false));
    assert_eq!(said(&[0x00, 0x01, 0x01, 0x02, 0x00, 0x00]), (1, 0, true));
    assert_eq!(said(&[0x00, 0x03, 0x01, 0x02, 0x00]), (0, 2, true));
    assert_eq!(said(&waits(12_289, 4097)), (4096, 3, false));
    assert_eq!(said(&waits(12_292, 4097)), (4096, 3, true));
}

#[test]
fn all_behind_the_first_ill_formed_event_is_dropped() {
    let wait = Event { kind: 4, value: 1 };
    let ill_formed = Event { kind: 5, value: 0 };
    let bytes = record(&[wait, wait, ill_formed, wait]);
    let expected = Mended {
        kept: 2,
        dropped: 6,
        altered: true,
        record: record(&[wait, wait]),
    };
    assert_eq!(mend(&PAPER, &bytes, MOST_BYTES), Ok(expected));
}

#[test]
fn the_length_is_not_looked_at() {
    for length in 0..=u16::MAX {
        let mended = mend(&PAPER, &waits(length, 2), MOST_BYTES).unwrap();
        let said = (mended.kept, mended.dropped, mended.altered);
        assert_eq!(said, (2, 0, length != 7));
        assert_eq!(mended.record, waits(7, 2));
    }
}

#[test]
fn refusals_7_8_and_6_in_this_order() {
    let numbers = |bytes: &[u8]| [0, 2, 3, 6].map(|room| mend(&PAPER, bytes, room).err());
    for bytes in [&[][..], &[0x00], &[0x00, 0x02]] {
        assert_eq!(numbers(bytes), [Some(7); 4]);
    }
    for version in (0x00..=0xFF).filter(|&version| version != 0x01) {
        assert_eq!(numbers(&[0x00, 0x01, version]), [Some(8); 4]);
    }
    let short = Some(6);
    assert_eq!(numbers(&[0x00, 0x01, 0x01]), [short, short, None, None]);
    assert_eq!(numbers(&waits(0x00, 1)), [short, short, short, None]);
}

#[test]
fn the_room_needed_is_that_of_the_record_and_not_of_the_bytes() {
    let bytes = [&EXAMPLE[..], &[0xFF; 100]].concat();
    assert_eq!(mend(&PAPER, &bytes, 20), Err(6));
    assert_eq!(mend(&PAPER, &bytes, 21).unwrap().record, EXAMPLE);
    assert_eq!(mend(&PAPER, &waits(0, 5000), 12_290), Err(6));
    assert_eq!(mend(&PAPER, &waits(0, 5000), 12_291).unwrap().kept, 4096);
}

#[test]
fn what_the_mend_program_writes() {
    let line = |input: &[u8]| {
        let written = written(&PAPER, input);
        let line = String::from_utf8(written.line).unwrap();
        (line, written.record.len())
    };
    let expected = |line: &str, bytes| (format!("{line}\n"), bytes);
    assert_eq!(line(&EXAMPLE), expected("kept 6 dropped 0 length kept", 21));
    assert_eq!(
        line(&EXAMPLE[..20]),
        expected("kept 5 dropped 2 length altered", 18)
    );
    assert_eq!(line(&EXAMPLE[..2]), expected("refused 7", 0));
    assert_eq!(line(&[0x00, 0x01, 0x02]), expected("refused 8", 0));
    let mut bytes = waits(0xFFFF, 21_845);
    assert_eq!(bytes.len(), MOST_CAPTURED + 1);
    assert_eq!(line(&bytes), expected("too long", 0));
    bytes[2] = 0x02;
    assert_eq!(line(&bytes), expected("too long", 0));
    assert_eq!(line(&bytes[..MOST_CAPTURED]), expected("refused 8", 0));
    bytes[2] = 0x01;
    assert_eq!(
        line(&bytes[..MOST_CAPTURED]),
        expected("kept 4096 dropped 53246 length altered", 12_291)
    );
}

#[test]
fn a_mended_record_is_sound_and_as_long_as_can_be() {
    for number in 1..=2000 {
        let capture = case(5, number).capture;
        let Ok(mended) = mend(&PAPER, &capture, MOST_BYTES) else {
            continue;
        };
        let kept = mended.kept;
        assert!(sound(&mended.record));
        assert_eq!(bench(&PAPER, &mended.record).lines().count(), 1 + kept);
        assert_eq!(mended.record[2..], capture[2..bytes_of(kept)]);
        assert!(kept == MOST_EVENTS || !stands(&capture, bytes_of(kept)));
    }
}

#[test]
fn a_sound_record_comes_out_unchanged_and_so_does_a_mended_one() {
    for number in 1..=2000 {
        let capture = case(5, number).capture;
        let Ok(mended) = mend(&PAPER, &capture, MOST_BYTES) else {
            continue;
        };
        assert_eq!(sound(&capture), mended.record == capture);
        let again = mend(&PAPER, &mended.record, MOST_BYTES).unwrap();
        assert_eq!((again.dropped, again.altered), (0, false));
        assert_eq!(again.record, mended.record);
    }
}
