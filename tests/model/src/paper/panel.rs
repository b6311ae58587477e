//! Tests of the model by the request of the bedside panel (02, 4/12).

use super::{give, instruct, one_line, two_lines};
use crate::generator::script::script;
use crate::model::panel::*;
use crate::model::part::{switched_on, Half, Memory, Part};
use crate::model::record::*;
use crate::model::rules::PAPER;
use crate::model::transfer::Transfer;

const TEXT: &[u8; 16] = b"Good night, Anna";
const RESTART: [u8; 12] = [3, 3, 3, 2, 2, 8, 0, 8, 0, 2, 0, 6];
const WAIT_BEFORE: (u8, u16) = (4, 3750);

fn two_lines_on_four() -> Part {
    let mut part = switched_on();
    assert_eq!(instruct(&mut part, 0x28), 0);
    part
}

fn own_events(part: &Part, call: &Call) -> Vec<Event> {
    match answer(&PAPER, part, call) {
        Ok(Answer::Done(own)) => own,
        other => panic!("{call:?}: {other:?}"),
    }
}

/// Kinds and values, each behind its wait.
fn transfers_of(part: &Part, call: &Call) -> Vec<(u8, u16)> {
    let events = own_events(part, call);
    let pairs = events.chunks_exact(2).map(|pair| {
        assert_eq!((pair[0].kind, pair[0].value), WAIT_BEFORE);
        (pair[1].kind, pair[1].value)
    });
    pairs.collect()
}

fn text(line: u8) -> Call {
    Call::Text(line, TEXT.to_vec())
}

fn refusal(part: &Part, call: Call) -> Option<u8> {
    answer(&PAPER, part, &call).err()
}

fn log_of(part: &Part) -> Vec<Option<u8>> {
    (0..24).map(|night| look_up(&PAPER, part, night)).collect()
}

/// The part behind a call that is done; as it was for one that is refused.
fn after(part: &Part, call: &Call) -> Part {
    let mut part = part.clone();
    if let Ok(Answer::Done(own)) = answer(&PAPER, &part, call) {
        for event in own {
            let outcome = run(&PAPER, &mut part, event);
            assert!([0, 20].contains(&outcome.answer));
        }
    }
    part
}

/// The parts and calls that a few hundred scripts meet.
pub(super) fn met() -> Vec<(Part, Call)> {
    let scripts = (1..=300).map(|number| script(9, number));
    let given = scripts.flat_map(|script| script.calls);
    let sound = given.filter_map(|given| {
        let events = events(&PAPER, &given.record).ok()?;
        Some((led(&PAPER, &events), call(&given.words)?))
    });
    sound.collect()
}

#[test]
fn the_transfers_of_a_text_on_eight_lines() {
    for (line, first) in [(0, 0x80), (1, 0xC0)] {
        let mut expected = vec![(0, first)];
        expected.extend(TEXT.map(|code| (1, u16::from(code))));
        expected.push((0, 0x80));
        assert_eq!(transfers_of(&two_lines(), &text(line)), expected);
        assert_eq!(own_events(&two_lines(), &text(line)).len(), 36);
    }
}

#[test]
fn the_transfers_of_a_text_on_four_lines() {
    let transfers = transfers_of(&two_lines_on_four(), &text(1));
    assert_eq!(transfers.len(), 36);
    assert_eq!(transfers[..4], [(0, 0xC0), (0, 0x00), (1, 0x40), (1, 0x70)]);
    assert_eq!(
        transfers[32..],
        [(1, 0x60), (1, 0x10), (0, 0x80), (0, 0x00)]
    );
}

#[test]
fn the_transfers_of_a_log_call() {
    let call = Call::Log(22, 90);
    let expected = [(0, 0xA6), (1, 0x5A), (0, 0xE6), (1, 0x01), (0, 0x80)];
    assert_eq!(transfers_of(&two_lines(), &call), expected);
    let expected = [
        (0, 0xA0),
        (0, 0x60),
        (1, 0x50),
        (1, 0xA0),
        (0, 0xE0),
        (0, 0x60),
        (1, 0x00),
        (1, 0x10),
        (0, 0x80),
        (0, 0x00),
    ];
    assert_eq!(transfers_of(&two_lines_on_four(), &call), expected);
}

#[test]
fn seventeen_asks_for_five_things() {
    let ready = two_lines_on_four();
    let half = |rs, read| Half { rs, read, upper: 0 };
    let mut broken = vec![
        Part {
            two_lines: false,
            ..ready.clone()
        },
        Part {
            up: false,
            ..ready.clone()
        },
        Part {
            shift_on_write: true,
            ..ready.clone()
        },
    ];
    broken.extend([1, 39].map(|shift| Part {
        shift,
        ..ready.clone()
    }));
    let kinds = [(false, false), (true, false), (false, true), (true, true)];
    broken.extend(kinds.map(|(rs, read)| Part {
        half: Some(half(rs, read)),
        ..ready.clone()
    }));
    for part in broken {
        assert_eq!(refusal(&part, text(0)), Some(17));
        assert_eq!(refusal(&part, Call::Log(0, 0)), Some(17));
        assert_eq!(refusal(&part, Call::Text(2, Vec::new())), Some(17));
        assert_eq!(refusal(&part, Call::Log(24, 97)), Some(17));
        assert_eq!(refusal(&part, Call::Night(0)), None);
    }
}

#[test]
fn seventeen_asks_for_nothing_else() {
    for settings in 0..64 {
        let bit = |number: u8| settings >> number & 1 == 1;
        let part = Part {
            display_on: bit(0),
            cursor_on: bit(1),
            blink_on: bit(2),
            tall: bit(3),
            eight_lines: bit(4),
            memory: if bit(5) {
                Memory::Character
            } else {
                Memory::Display
            },
            address: settings % 40,
            busy: 59 * u16::from(settings),
            ..two_lines()
        };
        assert_eq!(refusal(&part, text(1)), None);
        assert_eq!(refusal(&part, Call::Log(0, 0)), None);
    }
}

#[test]
fn eighteen_for_any_text_but_16_characters_on_line_0_or_1() {
    for line in 0..=255 {
        for length in [0, 1, 15, 16, 17, 32, 272, 65_552] {
            let due = (line > 1 || length != 16).then_some(18);
            let call = Call::Text(line, vec![0x41; length]);
            assert_eq!(refusal(&two_lines(), call), due);
        }
    }
}

#[test]
fn eleven_twelve_and_thirteen_in_this_order() {
    let mut part = two_lines();
    part.display[16 + 7] = 97;
    part.display[56 + 7] = 0x01;
    for night in 0..=255 {
        for quarters in 0..=255 {
            let due = match (night, quarters) {
                (24.., _) => Some(11),
                (_, 97..) => Some(12),
                (7, _) => Some(13),
                _ => None,
            };
            assert_eq!(refusal(&part, Call::Log(night, quarters)), due);
        }
        let due = (night > 23).then_some(11);
        assert_eq!(refusal(&part, Call::Night(night)), due);
    }
}

#[test]
fn any_mark_but_01_means_not_yet_written() {
    for mut part in [one_line(), two_lines(), two_lines_on_four()] {
        for mark in 0..=255 {
            part.display[16] = mark ^ 0xA5;
            part.display[56] = mark;
            let figure = (mark == 0x01).then_some(0xA4);
            assert_eq!(look_up(&PAPER, &part, 0), figure);
            if part.two_lines {
                let due = figure.map(|_| 13);
                assert_eq!(refusal(&part, Call::Log(0, 0)), due);
            }
        }
    }
}

#[test]
fn a_night_is_two_cells_of_two_line_storage() {
    for night in 0..24 {
        let mut part = two_lines();
        instruct(&mut part, 0x90 + night);
        give(&mut part, Transfer::Data(40 + night));
        instruct(&mut part, 0xD0 + night);
        give(&mut part, Transfer::Data(0x01));
        assert_eq!(look_up(&PAPER, &part, night), Some(40 + night));
        assert_eq!(log_of(&part).iter().flatten().count(), 1);
        instruct(&mut part, 0x30);
        assert_eq!(look_up(&PAPER, &part, night), Some(40 + night));
    }
}

#[test]
fn a_text_never_changes_the_log() {
    for (part, _) in met() {
        for line in 0..3 {
            let after = after(&part, &text(line));
            assert_eq!(log_of(&after), log_of(&part));
            assert_eq!(after.character, part.character);
            let first = 40 * usize::from(line);
            let other = (0..80).filter(|cell| !(first..first + 16).contains(cell));
            for cell in other {
                assert_eq!(after.display[cell], part.display[cell]);
            }
            if refusal(&part, text(line)).is_none() {
                assert_eq!(after.display[first..first + 16], TEXT[..]);
            }
        }
    }
}

#[test]
fn a_log_call_changes_two_cells_only_and_is_read() {
    for (part, _) in met() {
        for (night, quarters) in [(0, 96), (5, 0), (23, 33), (24, 1), (7, 97)] {
            let call = Call::Log(night, quarters);
            let after = after(&part, &call);
            assert_eq!(after.character, part.character);
            let mut display = part.display;
            let mut log = log_of(&part);
            if refusal(&part, call).is_none() {
                let place = usize::from(night);
                display[16 + place] = quarters;
                display[56 + place] = 0x01;
                log[place] = Some(quarters);
            }
            assert_eq!(after.display, display);
            assert_eq!(log_of(&after), log);
        }
    }
}

#[test]
fn a_written_night_keeps_its_figure_whatever_call_follows() {
    for (part, call) in met() {
        let kept = log_of(&after(&part, &call));
        for (before, after) in log_of(&part).into_iter().zip(kept) {
            assert!(before.is_none() || before == after);
        }
    }
}

#[test]
fn where_a_call_that_is_done_ends() {
    for (part, call) in met() {
        let done = matches!(answer(&PAPER, &part, &call), Ok(Answer::Done(_)));
        let after = after(&part, &call);
        let expected = Part {
            display: after.display,
            memory: Memory::Display,
            address: 0x00,
            busy: 10,
            ..part.clone()
        };
        assert_eq!(after, if done { expected } else { part });
    }
}

#[test]
fn a_log_call_that_is_cut_leaves_the_night_as_it_was_or_as_logged() {
    for (part, call) in met() {
        let (Call::Log(night, quarters), Ok(Answer::Done(own))) =
            (&call, answer(&PAPER, &part, &call))
        else {
            continue;
        };
        let mut cut = part.clone();
        for event in own {
            run(&PAPER, &mut cut, event);
            let figure = look_up(&PAPER, &cut, *night);
            assert!(figure.is_none() || figure == Some(*quarters));
        }
        assert_eq!(look_up(&PAPER, &cut, *night), Some(*quarters));
    }
}

#[test]
fn the_log_reads_the_same_after_each_write_of_the_restart() {
    for (number, (mut part, _)) in met().into_iter().enumerate() {
        let log = log_of(&part);
        for (place, upper) in RESTART.into_iter().enumerate() {
            let lower = (number + 5 * place) as u8 % 16;
            instruct(&mut part, upper << 4 | lower);
            assert_eq!(log_of(&part), log);
        }
        assert!(ready(&part));
        for call in [text(0), text(1)] {
            assert_eq!(refusal(&part, call), None);
        }
    }
}

#[test]
fn what_the_panel_program_writes() {
    let line = |call: Call, input: &[u8]| {
        let written = panel(&PAPER, &call, input);
        (String::from_utf8(written.line).unwrap(), written.record)
    };
    let told = |line: &str, record: &[u8]| (format!("{line}\n"), record.to_vec());
    let lead = [0x00, 0x07, 0x01, 0x04, 0x0E, 0xA6, 0x00, 0x00, 0x38];
    let (done, logged) = line(Call::Log(23, 96), &lead);
    assert_eq!(done, "done\n");
    assert_eq!(logged.len(), 9 + 30);
    assert_eq!(logged[..3], [0x00, 0x25, 0x01]);
    assert_eq!(logged[3..9], lead[3..]);
    assert_eq!(logged[33..], [0x04, 0x0E, 0xA6, 0x00, 0x00, 0x80]);
    let calls = [
        (Call::Log(23, 1), "refused 13"),
        (Call::Log(22, 97), "refused 12"),
        (Call::Log(24, 97), "refused 11"),
        (Call::Text(0, b"Good night, Ann".to_vec()), "refused 18"),
        (Call::Night(23), "96"),
        (Call::Night(22), "not yet written"),
        (Call::Night(24), "refused 11"),
    ];
    for (call, due) in calls {
        assert_eq!(line(call, &logged), told(due, &logged));
    }
    let empty = [0x00, 0x01, 0x01];
    assert_eq!(line(text(0), &empty), told("refused 17", &empty));
    assert_eq!(line(text(0), &[0x00, 0x01]), told("refused 7", &[]));
    assert_eq!(line(text(0), &[0x00, 0x01, 0x02]), told("refused 8", &[]));
    let ill_formed = [0x00, 0x04, 0x01, 0x05, 0x00, 0x00];
    assert_eq!(line(Call::Night(24), &ill_formed), told("refused 9", &[]));
    assert_eq!(line(Call::Night(0), &[0; 12_292]), told("too long", &[]));
}

#[test]
fn ten_for_more_than_4096_events_in_all() {
    for (function, text_events, log_events) in [(0x38, 36, 10), (0x28, 72, 20)] {
        for (call, own) in [(text(0), text_events), (Call::Log(0, 0), log_events)] {
            for (before, due) in [(4096 - own, "done\n"), (4097 - own, "refused 10\n")] {
                let mut lead = vec![wait_of(3750); before - 1];
                lead.push(event_of(Transfer::Instruction(function)));
                let written = panel(&PAPER, &call, &record(&lead));
                assert_eq!(written.line, due.as_bytes());
                assert_eq!(
                    written.record.len(),
                    if due == "done\n" { 12_291 } else { 0 }
                );
            }
        }
    }
    let full = record(&vec![wait_of(0); 4096]);
    for call in [text(0), Call::Log(0, 0), Call::Night(0), Call::Night(24)] {
        assert_eq!(panel(&PAPER, &call, &full).record, full);
    }
}

#[test]
fn the_words_of_a_call() {
    let list = |words: &[&str]| -> Option<Call> {
        let words: Vec<Word> = words.iter().map(|word| word.as_bytes().to_vec()).collect();
        call(&words)
    };
    assert_eq!(list(&["night", "0"]), Some(Call::Night(0)));
    assert_eq!(list(&["night", "000255"]), Some(Call::Night(255)));
    assert_eq!(list(&["log", "23", "096"]), Some(Call::Log(23, 96)));
    assert_eq!(list(&["text", "1", ""]), Some(Call::Text(1, Vec::new())));
    for number in [
        "", "256", "1000", "-1", "+1", " 1", "1 ", "1x", "0x1", "one",
    ] {
        assert_eq!(list(&["night", number]), None);
        assert_eq!(list(&["log", number, "0"]), None);
        assert_eq!(list(&["log", "0", number]), None);
        assert_eq!(list(&["text", number, "Good night, Anna"]), None);
    }
    for words in [
        &[][..],
        &["night"],
        &["night", "0", "0"],
        &["log", "0"],
        &["text", "0"],
        &["Night", "0"],
        &["nights", "0"],
        &["0"],
    ] {
        assert_eq!(list(words), None);
    }
}
