//! The four programs under test: the built ones, or the model itself in their place.

use crate::generator::case::{Case, Shown};
use crate::generator::script::Given;
use crate::model::mend::Written;
use crate::model::panel::{call, Word};
use crate::model::record::Event;
use crate::model::rules::Rules;
use crate::model::screen::{arguments, screen, Form};
use crate::model::table::bench;
use std::ffi::{OsStr, OsString};
use std::fs;
use std::io::{self, Write};
use std::os::unix::ffi::OsStringExt;
use std::path::PathBuf;
use std::process::{Command, Output, Stdio};
use std::thread::sleep;
use std::time::Duration;

const NO_WORDS: &[&str] = &[];

/// What a program printed, or how it failed to end as it should.
pub type Printed = Result<Vec<u8>, String>;

pub trait Programs: Sync {
    fn bench(&self, shown: &Shown) -> Printed;
    fn screen(&self, shown: &Shown) -> Printed;
    fn mend(&self, case: &Case) -> Result<Written, String>;
    fn panel(&self, given: &Given) -> Result<Written, String>;
    /// What `bench` prints for a record that another program wrote.
    fn written_table(&self, record: &[u8]) -> Printed;
    /// Lines that `screen` prints, to whichever stream, for a list of arguments and no record.
    fn screen_lines(&self, arguments: &[String]) -> Result<usize, String>;
    /// Whether `panel` answers these words and no record with its usage line alone.
    fn panel_usage(&self, words: &[Word]) -> Result<bool, String>;
}

/// The model in the programs' place.
pub struct Itself<'r> {
    pub rules: &'r Rules,
}

impl Programs for Itself<'_> {
    fn bench(&self, shown: &Shown) -> Printed {
        Ok(bench(self.rules, &shown.record).into_bytes())
    }

    fn screen(&self, shown: &Shown) -> Printed {
        Ok(screen(self.rules, &shown.record, &shown.view, shown.form))
    }

    fn mend(&self, case: &Case) -> Result<Written, String> {
        Ok((self.rules.written)(self.rules, &case.capture))
    }

    /// Words that are no call are never given here.
    fn panel(&self, given: &Given) -> Result<Written, String> {
        let call = call(&given.words).ok_or("a usage line is due")?;
        Ok((self.rules.panel)(self.rules, &call, &given.record))
    }

    /// The table of the events, with no look at the head: such a record is never refused.
    fn written_table(&self, record: &[u8]) -> Printed {
        let events: Vec<Event> = record[3..]
            .chunks_exact(3)
            .map(|bytes| (self.rules.event)([bytes[0], bytes[1], bytes[2]]))
            .collect();
        Ok((self.rules.table)(self.rules, &events).into_bytes())
    }

    fn screen_lines(&self, list: &[String]) -> Result<usize, String> {
        let unreadable = |rom: &str| fs::read(rom).is_err();
        match arguments(list) {
            Some(arguments) if !unreadable(&arguments.rom) => Err("a picture is due".to_string()),
            _ => Ok(1),
        }
    }

    fn panel_usage(&self, words: &[Word]) -> Result<bool, String> {
        Ok(call(words).is_none())
    }
}

/// The built programs, with a folder of their own for ROM images.
pub struct Built {
    bench: String,
    screen: String,
    mend: String,
    panel: String,
    folder: PathBuf,
}

impl Built {
    pub fn new([bench, screen, mend, panel]: [&str; 4]) -> Result<Built, String> {
        for program in [bench, screen, mend, panel] {
            fs::metadata(program).map_err(|error| format!("{program}: {error}"))?;
        }
        let name = format!("screen-model-{}", std::process::id());
        let folder = std::env::temp_dir().join(name);
        fs::create_dir_all(&folder).map_err(|error| format!("{}: {error}", folder.display()))?;
        Ok(Built {
            bench: bench.to_string(),
            screen: screen.to_string(),
            mend: mend.to_string(),
            panel: panel.to_string(),
            folder,
        })
    }

    fn rom(&self) -> PathBuf {
        self.folder.join("rom")
    }

    fn table(&self, record: &[u8], pause: Option<usize>) -> Printed {
        let output = run(&self.bench, NO_WORDS, record, pause)?;
        ended_well(&output)?;
        Ok(output.stdout)
    }
}

impl Drop for Built {
    fn drop(&mut self) {
        // Nothing can be done about a folder that stays.
        let _ = fs::remove_dir_all(&self.folder);
    }
}

impl Programs for Built {
    fn bench(&self, shown: &Shown) -> Printed {
        self.table(&shown.record, shown.pause)
    }

    fn screen(&self, shown: &Shown) -> Printed {
        let rom = self.rom();
        fs::write(&rom, &shown.view.rom).map_err(|error| format!("{}: {error}", rom.display()))?;
        let arguments = screen_arguments(shown, &rom.display().to_string());
        let output = run(&self.screen, &arguments, &shown.record, shown.pause)?;
        ended(&output)?;
        Ok(output.stdout)
    }

    fn mend(&self, case: &Case) -> Result<Written, String> {
        let output = run(&self.mend, NO_WORDS, &case.capture, case.shown.pause)?;
        ended_well(&output)?;
        Ok(Written {
            record: output.stdout,
            line: output.stderr,
        })
    }

    fn panel(&self, given: &Given) -> Result<Written, String> {
        let output = run(
            &self.panel,
            &spelled(&given.words),
            &given.record,
            given.pause,
        )?;
        ended_well(&output)?;
        Ok(Written {
            record: output.stdout,
            line: output.stderr,
        })
    }

    fn written_table(&self, record: &[u8]) -> Printed {
        self.table(record, None)
    }

    fn screen_lines(&self, arguments: &[String]) -> Result<usize, String> {
        let output = run(&self.screen, arguments, &[0x00, 0x01, 0x01], None)?;
        ended(&output)?;
        let printed = [output.stdout, output.stderr].concat();
        if !printed.is_empty() && !printed.ends_with(b"\n") {
            return Err("a line without its end".to_string());
        }
        Ok(lines(&printed))
    }

    fn panel_usage(&self, words: &[Word]) -> Result<bool, String> {
        let output = run(&self.panel, &spelled(words), &[0x00, 0x01, 0x01], None)?;
        ended_well(&output)?;
        let printed = output.stdout;
        let line = printed.ends_with(b"\n") && lines(&printed) == 1;
        Ok(line && printed.starts_with(b"usage: panel") && output.stderr.is_empty())
    }
}

fn lines(printed: &[u8]) -> usize {
    printed.iter().filter(|&&byte| byte == b'\n').count()
}

/// Words of any bytes, as the system takes them.
fn spelled(words: &[Word]) -> Vec<OsString> {
    let words = words.iter().cloned();
    words.map(OsString::from_vec).collect()
}

pub fn screen_arguments(shown: &Shown, rom: &str) -> Vec<String> {
    let phase = if shown.view.dark { "dark" } else { "plain" };
    let mut arguments = vec![shown.view.digits.to_string(), rom.into(), phase.into()];
    if shown.form == Form::Pbm {
        arguments.push("pbm".into());
    }
    arguments
}

/// Bench, mend and panel end with status 0.
fn ended_well(output: &Output) -> Result<(), String> {
    match output.status.success() {
        true => Ok(()),
        false => Err(format!("{}", output.status)),
    }
}

/// A program ended by itself, with whatever status.
fn ended(output: &Output) -> Result<(), String> {
    match output.status.code() {
        Some(_) => Ok(()),
        None => Err(format!("{}", output.status)),
    }
}

fn run(
    program: &str,
    arguments: &[impl AsRef<OsStr>],
    input: &[u8],
    pause: Option<usize>,
) -> Result<Output, String> {
    let attempt = || {
        let mut child = Command::new(program)
            .args(arguments)
            .stdin(Stdio::piped())
            .stdout(Stdio::piped())
            .stderr(Stdio::piped())
            .spawn()?;
        let mut stdin = child.stdin.take().expect("standard input is a pipe");
        let (first, second) = input.split_at(pause.unwrap_or(input.len()).min(input.len()));
        give(&mut stdin, first)?;
        if pause.is_some() {
            sleep(Duration::from_millis(2));
        }
        give(&mut stdin, second)?;
        drop(stdin);
        child.wait_with_output()
    };
    attempt().map_err(|error: io::Error| format!("{program}: {error}"))
}

/// A program may end before it has read all: what is too long need not be read to its end.
fn give(stdin: &mut impl Write, bytes: &[u8]) -> io::Result<()> {
    match stdin.write_all(bytes) {
        Err(error) if error.kind() == io::ErrorKind::BrokenPipe => Ok(()),
        given => given,
    }
}
