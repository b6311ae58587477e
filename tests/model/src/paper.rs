//! Tests of the model by the paper's own words: its example, P1 to P11, each refusal; by what 02, 3/12 says of Clear; and by
//! the sheet's tables of shifted screens (02, 6/12).

mod library;
mod mending;
mod panel;
mod wiring;
mod wrap;

use crate::compare::{compare, Run};
use crate::generator::case::{case, end_of};
use crate::model::counter::address_of;
use crate::model::part::{switched_on, Half, Memory, Part};
use crate::model::picture::{cell_shown, picture, View, ROM_BYTES};
use crate::model::record::{record, Event, MOST_BYTES};
use crate::model::rules::PAPER;
use crate::model::screen::{arguments, screen, Form};
use crate::model::table::{bench, HEADING};
use crate::model::transfer::{done, stepped, Outcome, Transfer};
use crate::programs::Itself;
use crate::wrong;
use std::collections::BTreeSet;

/// The busy time is waited out before each transfer.
fn give(part: &mut Part, transfer: Transfer) -> Outcome {
    part.busy = 0;
    (PAPER.transfer)(&PAPER, part, transfer)
}

fn instruct(part: &mut Part, byte: u8) -> u8 {
    give(part, Transfer::Instruction(byte)).answer
}

fn status(part: &mut Part) -> Outcome {
    (PAPER.transfer)(&PAPER, part, Transfer::Status)
}

fn one_line() -> Part {
    let mut part = switched_on();
    assert_eq!(instruct(&mut part, 0x30), 0);
    part
}

fn two_lines() -> Part {
    let mut part = switched_on();
    assert_eq!(instruct(&mut part, 0x38), 0);
    part
}

fn four_lines() -> Part {
    let mut part = switched_on();
    assert_eq!(instruct(&mut part, 0x20), 0);
    part
}

#[test]
fn the_example_prints_its_table() {
    let input = [
        0x00, 0x13, 0x01, 0x00, 0x00, 0x38, 0x04, 0x0E, 0xA6, 0x00, 0x00, 0x38, 0x02, 0x00, 0x00,
        0x04, 0x00, 0x0A, 0x02, 0x00, 0x00,
    ];
    let expected = "event kind value answer result wrap\n\
                    1 0 56 1 0 0\n\
                    2 4 3750 0 0 0\n\
                    3 0 56 0 0 0\n\
                    4 2 0 0 128 0\n\
                    5 4 10 0 0 0\n\
                    6 2 0 0 0 0\n";
    assert_eq!(bench(&PAPER, &input), expected);
}

#[test]
fn an_empty_record_prints_the_heading() {
    assert_eq!(record(&[]), [0x00, 0x01, 0x01]);
    assert_eq!(bench(&PAPER, &[0x00, 0x01, 0x01]), HEADING);
}

#[test]
fn p1_switched_on_status_reads_128() {
    assert_eq!(status(&mut switched_on()), done(128));
}

#[test]
fn p2_a7_then_data_fills_cell_39() {
    let mut part = two_lines();
    assert_eq!(instruct(&mut part, 0xA7), 0);
    assert_eq!(give(&mut part, Transfer::Data(0x41)), stepped(0, true));
    assert_eq!(part.display[39], 0x41);
    assert_eq!(part.address, 0x40);
}

#[test]
fn p3_a8_is_an_address_of_one_line() {
    assert_eq!(instruct(&mut one_line(), 0xA8), 0);
    assert_eq!(instruct(&mut two_lines(), 0xA8), 3);
}

#[test]
fn p4_one_line_ends_at_4f() {
    assert_eq!(instruct(&mut one_line(), 0xCF), 0);
    assert_eq!(instruct(&mut one_line(), 0xD0), 3);
}

#[test]
fn p5_two_lines_end_at_67() {
    assert_eq!(instruct(&mut two_lines(), 0xE7), 0);
    assert_eq!(instruct(&mut two_lines(), 0xE8), 3);
}

#[test]
fn p6_67_steps_up_to_00() {
    let mut part = two_lines();
    instruct(&mut part, 0xE7);
    give(&mut part, Transfer::Data(0x41));
    assert_eq!(part.display[79], 0x41);
    assert_eq!(part.address, 0x00);
}

#[test]
fn p7_00_steps_down_to_the_last_address() {
    for (mut part, last) in [(one_line(), 0x4F), (two_lines(), 0x67)] {
        instruct(&mut part, 0x04);
        give(&mut part, Transfer::Data(0x41));
        assert_eq!(part.display[0], 0x41);
        assert_eq!(part.address, last);
    }
}

#[test]
fn p8_display_moves_change_the_cells_shown() {
    for (byte, cells) in [(0x1C, [39, 79]), (0x18, [1, 41])] {
        let mut part = two_lines();
        instruct(&mut part, byte);
        assert_eq!([0, 1].map(|line| cell_shown(&part, line, 0)), cells);
    }
}

#[test]
fn p9_7f_then_a_write_reaches_character_address_00() {
    let mut part = one_line();
    instruct(&mut part, 0x7F);
    give(&mut part, Transfer::Data(0xFF));
    assert_eq!(part.character[63], 0xFF);
    assert_eq!((part.memory, part.address), (Memory::Character, 0x00));
}

#[test]
fn p10_the_restart_completes_a_waiting_half() {
    for lower in 0..16 {
        let mut part = four_lines();
        part.address = 0x05;
        assert_eq!(instruct(&mut part, 0x00), 20);
        assert_eq!(instruct(&mut part, 0x30 | lower), 0);
        assert_eq!((part.address, part.busy, part.half), (0x00, 410, None));
    }
}

#[test]
fn p11_an_instruction_half_ends_a_data_half() {
    let mut part = four_lines();
    assert_eq!(give(&mut part, Transfer::Data(0x40)).answer, 20);
    let cells = part.display;
    assert_eq!(instruct(&mut part, 0x40), 2);
    assert_eq!((part.display, part.half), (cells, None));
}

#[test]
fn clear_sets_the_direction_to_up_and_keeps_shift_on_write() {
    for (entry, shift) in [(0x04, 0), (0x05, 2), (0x06, 0), (0x07, 2)] {
        let mut part = two_lines();
        instruct(&mut part, entry);
        assert_eq!(instruct(&mut part, 0x01), 0);
        for byte in [0x41, 0x42] {
            assert_eq!(give(&mut part, Transfer::Data(byte)), stepped(0, false));
        }
        assert_eq!(part.display[..2], [0x41, 0x42]);
        assert_eq!((part.address, part.shift), (0x02, shift));
    }
}

/// Those of sixteen digits; those of eight are their fronts.
#[test]
#[rustfmt::skip]
fn shifted_screens_show_the_addresses_of_the_sheets_tables() {
    let tables = [
        (one_line(), 0x1C, 0, [0x4F, 0x00, 0x01, 0x02, 0x03, 0x04, 0x05, 0x06, 0x07, 0x08, 0x09, 0x0A, 0x0B, 0x0C, 0x0D, 0x0E]),
        (one_line(), 0x18, 0, [0x01, 0x02, 0x03, 0x04, 0x05, 0x06, 0x07, 0x08, 0x09, 0x0A, 0x0B, 0x0C, 0x0D, 0x0E, 0x0F, 0x10]),
        (two_lines(), 0x1C, 0, [0x27, 0x00, 0x01, 0x02, 0x03, 0x04, 0x05, 0x06, 0x07, 0x08, 0x09, 0x0A, 0x0B, 0x0C, 0x0D, 0x0E]),
        (two_lines(), 0x1C, 1, [0x67, 0x40, 0x41, 0x42, 0x43, 0x44, 0x45, 0x46, 0x47, 0x48, 0x49, 0x4A, 0x4B, 0x4C, 0x4D, 0x4E]),
        (two_lines(), 0x18, 0, [0x01, 0x02, 0x03, 0x04, 0x05, 0x06, 0x07, 0x08, 0x09, 0x0A, 0x0B, 0x0C, 0x0D, 0x0E, 0x0F, 0x10]),
        (two_lines(), 0x18, 1, [0x41, 0x42, 0x43, 0x44, 0x45, 0x46, 0x47, 0x48, 0x49, 0x4A, 0x4B, 0x4C, 0x4D, 0x4E, 0x4F, 0x50]),
    ];
    for (mut part, byte, line, addresses) in tables {
        assert_eq!(instruct(&mut part, byte), 0);
        for (digit, address) in addresses.into_iter().enumerate() {
            assert_eq!(address_of(part.two_lines, cell_shown(&part, line, digit)), address);
        }
    }
}

#[test]
fn refusal_1_leaves_the_whole_state() {
    for kind in [
        Transfer::Instruction(0x01),
        Transfer::Data(0x41),
        Transfer::Read,
    ] {
        for half in [None, Some((false, true)), Some((true, false))] {
            let mut part = four_lines();
            part.half = half.map(|(rs, read)| Half { rs, read, upper: 0 });
            let before = part.clone();
            let outcome = (PAPER.transfer)(&PAPER, &mut part, kind);
            assert_eq!((outcome.answer, outcome.value), (1, 0));
            assert_eq!(part, before);
        }
    }
    assert_eq!(status(&mut four_lines()).answer, 20);
}

#[test]
fn refusal_2_forgets_the_half_alone() {
    let kinds = [
        Transfer::Instruction(0x80),
        Transfer::Data(0x40),
        Transfer::Status,
        Transfer::Read,
    ];
    for first in kinds {
        for second in kinds.into_iter().filter(|&second| second != first) {
            let mut part = four_lines();
            part.busy = 0;
            let before = part.clone();
            assert_eq!(give(&mut part, first).answer, 20);
            let outcome = give(&mut part, second);
            assert_eq!((outcome.answer, outcome.value), (2, 0));
            assert_eq!(part, before);
        }
    }
}

#[test]
fn refusal_3_takes_no_ticks_and_forgets_the_half() {
    let mut part = four_lines();
    instruct(&mut part, 0x40);
    instruct(&mut part, 0x50);
    part.busy = 0;
    let before = part.clone();
    assert_eq!(before.memory, Memory::Character);
    assert_eq!(instruct(&mut part, 0xD0), 20);
    assert_eq!(instruct(&mut part, 0x0F), 3);
    assert_eq!(part, before);
}

#[test]
fn refusals_4_and_5_in_this_order() {
    let rom = vec![0; ROM_BYTES];
    let ask = |part: &Part, digits, rom: &[u8]| {
        let view = View {
            digits,
            rom: rom.to_vec(),
            dark: false,
        };
        picture(&PAPER, part, &view).map(|bytes| bytes.len())
    };
    for (part, most, bytes) in [(one_line(), 80, 640), (two_lines(), 40, 640)] {
        assert_eq!(ask(&part, 0, &rom), Err(4));
        assert_eq!(ask(&part, most, &rom), Ok(bytes));
        assert_eq!(ask(&part, most + 1, &rom), Err(4));
        assert_eq!(ask(&part, 255, &rom), Err(4));
        assert_eq!(ask(&part, 1, &rom[1..]), Err(5));
        assert_eq!(ask(&part, 1, &[rom.as_slice(), &[0]].concat()), Err(5));
        assert_eq!(ask(&part, 0, &[]), Err(4));
    }
}

#[test]
fn refusals_7_8_and_9_in_this_order() {
    let refused: [(&[u8], u8); 17] = [
        (&[], 7),
        (&[0x00], 7),
        (&[0x00, 0x00], 7),
        (&[0x00, 0x00, 0x01], 7),
        (&[0x00, 0x02, 0x01], 7),
        (&[0x01, 0x00, 0x01], 7),
        (&[0x00, 0x01, 0x01, 0x00], 7),
        (&[0x00, 0x02, 0x02], 7),
        (&[0x00, 0x01, 0x00], 8),
        (&[0x00, 0x01, 0x02], 8),
        (&[0x00, 0x04, 0x02, 0x05, 0x00, 0x00], 8),
        (&[0x00, 0x02, 0x01, 0x00], 9),
        (&[0x00, 0x03, 0x01, 0x00, 0x00], 9),
        (&[0x00, 0x04, 0x01, 0x05, 0x00, 0x00], 9),
        (&[0x00, 0x04, 0x01, 0x01, 0x01, 0x00], 9),
        (&[0x00, 0x04, 0x01, 0x02, 0x00, 0x01], 9),
        (&[0x00, 0x04, 0x01, 0x03, 0x01, 0x00], 9),
    ];
    for (input, number) in refused {
        let expected = format!("refused {number}\n");
        assert_eq!(bench(&PAPER, input), expected, "{input:02X?}");
        assert_eq!(shown(input, 0, Form::Text), expected.as_bytes());
    }
}

#[test]
fn too_long_comes_first() {
    let wait = Event { kind: 4, value: 1 };
    let full = record(&[wait; 4096]);
    assert_eq!(full.len(), MOST_BYTES);
    assert_eq!(bench(&PAPER, &full).lines().count(), 4097);
    for longer in [record(&[wait; 4097]), [full, vec![0]].concat()] {
        assert_eq!(bench(&PAPER, &longer), "too long\n");
        assert_eq!(shown(&longer, 0, Form::Pbm), b"too long\n");
    }
}

/// What screen shows of a ROM image whose row r of code c is c + r.
fn shown(input: &[u8], digits: u8, form: Form) -> Vec<u8> {
    let rom = (0..ROM_BYTES).map(|at| (at / 16 + at % 16) as u8).collect();
    let view = View {
        digits,
        rom,
        dark: true,
    };
    screen(&PAPER, input, &view, form)
}

/// Writes code E1 on line one and 3F on line two, and shows the cursor behind it.
fn two_codes() -> Vec<u8> {
    let event = |kind, value| Event { kind, value };
    let writes = [(0, 0x38), (1, 0xE1), (0, 0xC0), (1, 0x3F), (0, 0x0E)];
    let events: Vec<Event> = writes
        .into_iter()
        .flat_map(|(kind, value)| [event(4, 3750), event(kind, value)])
        .collect();
    record(&events)
}

#[test]
fn a_screen_of_two_lines_as_text() {
    let expected = "\
....# .....
...#. ....#
...## ...#.
..#.. ...##
..#.# ..#..
..##. ..#.#
..### ..##.
.#... ..###

##### .....
..... ....#
....# ...#.
...#. ...##
...## ..#..
..#.. ..#.#
..#.# ..##.
..##. #####
";
    let text = String::from_utf8(shown(&two_codes(), 2, Form::Text)).unwrap();
    assert_eq!(text, expected);
}

#[test]
fn a_screen_of_two_lines_as_pbm() {
    let image = shown(&two_codes(), 2, Form::Pbm);
    let header = b"P4\n11 17\n";
    assert_eq!(&image[..header.len()], header);
    let rows = &image[header.len()..];
    assert_eq!(rows.len(), 17 * 2);
    assert_eq!(rows[..6], [0x08, 0x00, 0x10, 0x20, 0x18, 0x40]);
    assert_eq!(rows[16..20], [0x00, 0x00, 0xF8, 0x00]);
    assert_eq!(rows[32..], [0x33, 0xE0]);
}

#[test]
fn a_tall_screen_has_eleven_rows_and_wide_patterns() {
    let mut part = one_line();
    for byte in [0x34, 0x50] {
        assert_eq!(instruct(&mut part, byte), 0);
    }
    for dots in 1..=11 {
        give(&mut part, Transfer::Data(0xE0 | dots));
    }
    for byte in [0x0F, 0x80] {
        assert_eq!(instruct(&mut part, byte), 0);
    }
    for code in [0x02, 0x0B, 0x04] {
        give(&mut part, Transfer::Data(code));
    }
    let view = View {
        digits: 4,
        rom: vec![0; ROM_BYTES],
        dark: false,
    };
    let bytes = picture(&PAPER, &part, &view).unwrap();
    let expected: Vec<u8> = (1..=11)
        .flat_map(|row| [row, row, 0, if row == 11 { 0x1F } else { 0 }])
        .collect();
    assert_eq!(bytes, expected);
    let dark = View { dark: true, ..view };
    let bytes = picture(&PAPER, &part, &dark).unwrap();
    assert!(bytes.chunks(4).all(|row| row[3] == 0x1F));
}

#[test]
fn the_cursor_of_character_memory_marks_display_addresses() {
    for (byte, digit) in [
        (0x40, Some(0)),
        (0x67, Some(39)),
        (0x68, None),
        (0x7F, None),
    ] {
        let mut part = two_lines();
        instruct(&mut part, 0x0E);
        instruct(&mut part, byte);
        let view = View {
            digits: 40,
            rom: vec![0; ROM_BYTES],
            dark: false,
        };
        let bytes = picture(&PAPER, &part, &view).unwrap();
        let lit: Vec<usize> = (0..640).filter(|&at| bytes[at] != 0).collect();
        let expected: Vec<usize> = digit.map(|digit| 7 * 40 + digit).into_iter().collect();
        assert_eq!(lit, expected);
    }
}

#[test]
fn the_restart_ends_in_one_state_from_any_other() {
    for number in 1..=300 {
        let mut part = end_of(&case(7, number).shown.record);
        let uppers = [3, 3, 3, 2, 2, 8, 0, 8, 0, 2, 0, 6];
        for (place, upper) in uppers.into_iter().enumerate() {
            let lower = (number as usize + 5 * place) as u8 % 16;
            instruct(&mut part, upper << 4 | lower);
        }
        let expected = Part {
            display: part.display,
            character: part.character,
            busy: 10,
            eight_lines: false,
            two_lines: true,
            ..switched_on()
        };
        assert_eq!(part, expected);
    }
}

#[test]
fn the_restart_is_refused_at_its_first_write_alone() {
    for (part, lacking) in [
        (one_line(), vec![0xD, 0xE, 0xF]),
        (two_lines(), vec![0xB, 0xF]),
    ] {
        for half in 0..16 {
            let mut part = part.clone();
            let bus = if part.two_lines { 0x28 } else { 0x20 };
            instruct(&mut part, bus);
            assert_eq!(instruct(&mut part, half << 4), 20);
            let answers =
                [3, 3, 3, 2, 2, 8, 0, 8, 0, 2, 0, 6].map(|upper| instruct(&mut part, upper << 4));
            let first = if lacking.contains(&half) { 3 } else { 0 };
            assert_eq!(answers[0], first);
            assert!(answers[1..].iter().all(|answer| [0, 20].contains(answer)));
        }
    }
}

#[test]
fn reads_on_four_lines_answer_upper_then_lower_half() {
    let mut part = four_lines();
    part.display[0] = 0xA5;
    let halves = [Transfer::Read; 2].map(|read| give(&mut part, read));
    assert_eq!((halves[0].answer, halves[0].value), (20, 0xA0));
    assert_eq!((halves[1].answer, halves[1].value), (0, 0x50));
    assert_eq!((part.address, part.busy), (0x01, 10));
    let halves = [(); 2].map(|_| status(&mut part));
    assert_eq!((halves[0].answer, halves[0].value), (20, 0x80));
    assert_eq!((halves[1].answer, halves[1].value), (0, 0x10));
}

#[test]
fn screen_arguments_are_digits_rom_phase_and_perhaps_pbm() {
    let list = |words: &str| -> Vec<String> { words.split(' ').map(String::from).collect() };
    for words in ["0 rom plain", "255 rom dark", "40 rom dark pbm"] {
        assert!(arguments(&list(words)).is_some(), "{words}");
    }
    for words in [
        "256 rom plain",
        "-1 rom plain",
        "x rom plain",
        "1 rom",
        "1 rom bright",
        "1 rom plain png",
        "1 rom plain pbm pbm",
    ] {
        assert!(arguments(&list(words)).is_none(), "{words}");
    }
}

#[test]
fn the_generator_meets_every_class() {
    let run = Run {
        seed: 3,
        records: 2000,
        scripts: 500,
        pairs: 300,
        only: None,
    };
    assert!(compare(&run, &Itself { rules: &PAPER }, &PAPER, ""));
}

#[test]
fn wrong_models_have_names_of_their_own() {
    let names: BTreeSet<&str> = wrong::all().iter().map(|wrong| wrong.name).collect();
    assert_eq!(names.len(), wrong::all().len());
    assert!(wrong::EARLIER_FIRMWARE
        .iter()
        .all(|name| names.contains(name)));
}
