//! Argument lists that `screen` answers with one line, and `panel` with its usage line, whose text
//! is not compared.

use crate::model::panel::Word;
use crate::programs::Programs;

/// Wrong lists, and at the end ROM files that cannot be read.
const ONE_LINE: [&[&str]; 19] = [
    &[],
    &["16"],
    &["16", "/dev/null"],
    &["16", "/dev/null", "bright"],
    &["16", "/dev/null", "Plain"],
    &["16", "/dev/null", ""],
    &["16", "/dev/null", "plain", "png"],
    &["16", "/dev/null", "plain", ""],
    &["16", "/dev/null", "plain", "pbm", "pbm"],
    &["plain", "/dev/null", "16"],
    &["256", "/dev/null", "plain"],
    &["1000", "/dev/null", "plain"],
    &["99999999999999999999999", "/dev/null", "dark", "pbm"],
    &["-1", "/dev/null", "plain"],
    &["", "/dev/null", "plain"],
    &["1x", "/dev/null", "plain"],
    &["sixteen", "/dev/null", "plain"],
    &["16", "/no such folder/rom", "plain"],
    &["16", "/no such folder/rom", "dark", "pbm"],
];

/// Lists that are no call.
const NO_CALL: [&[&str]; 20] = [
    &[],
    &[""],
    &["text"],
    &["text", "0"],
    &["text", "0", "Good night, Anna", ""],
    &["text", "", "Good night, Anna"],
    &["text", "256", "Good night, Anna"],
    &["text", "one", "Good night, Anna"],
    &["text", "+1", "Good night, Anna"],
    &["Text", "0", "Good night, Anna"],
    &["log", "0"],
    &["log", "0", "0", "0"],
    &["log", "256", "0"],
    &["log", "0", "256"],
    &["log", "0", "1 "],
    &["logs", "0", "0"],
    &["night"],
    &["night", "0", "0"],
    &["night", "-1"],
    &["night", "99999999999999999999999"],
];

/// Tries every list, and tells the ones that are answered otherwise.
pub fn arguments_alike(programs: &dyn Programs) -> bool {
    let alike = [screen_alike(programs), panel_alike(programs)];
    alike == [true; 2]
}

fn panel_alike(programs: &dyn Programs) -> bool {
    let mut answered = 0;
    for list in NO_CALL {
        let words: Vec<Word> = list.iter().map(|word| word.as_bytes().to_vec()).collect();
        match programs.panel_usage(&words) {
            Ok(true) => answered += 1,
            Ok(false) => println!("panel {list:?} was not answered by its usage line alone"),
            Err(failure) => println!("panel {list:?}: {failure}"),
        }
    }
    println!(
        "words of panel | answered with the usage line: {answered} of {}",
        NO_CALL.len()
    );
    answered == NO_CALL.len()
}

fn screen_alike(programs: &dyn Programs) -> bool {
    let mut answered = 0;
    for list in ONE_LINE {
        let list: Vec<String> = list.iter().map(|word| word.to_string()).collect();
        match programs.screen_lines(&list) {
            Ok(1) => answered += 1,
            Ok(lines) => println!("screen {list:?} printed {lines} lines instead of one"),
            Err(failure) => println!("screen {list:?}: {failure}"),
        }
    }
    println!(
        "argument lists | answered with one line: {answered} of {}",
        ONE_LINE.len()
    );
    answered == ONE_LINE.len()
}
