//! A difference between the model and a program, and how it is told.

use crate::programs::Printed;

/// What the model expects of a program beside what was found.
pub struct Compared {
    expected: Printed,
    found: Printed,
}

impl Compared {
    pub fn new(expected: Printed, found: Printed) -> Compared {
        Compared { expected, found }
    }

    pub fn alike(&self) -> bool {
        self.expected == self.found
    }

    pub fn tell(&self, program: &str, image: bool) {
        if self.alike() {
            return;
        }
        println!("  {program}");
        match (&self.expected, &self.found) {
            (Ok(expected), Ok(found)) if image => tell_byte(expected, found),
            (Ok(expected), Ok(found)) => tell_line(expected, found),
            (_, found) => println!("    failed: {}", found.as_ref().err().unwrap()),
        }
    }
}

fn tell_line(expected: &[u8], found: &[u8]) {
    let mut expected = expected.split_inclusive(|&byte| byte == b'\n');
    let mut found = found.split_inclusive(|&byte| byte == b'\n');
    for line in 1.. {
        let (wanted, given) = (expected.next(), found.next());
        if wanted != given {
            println!("    line {line} expected: {}", line_text(wanted));
            println!("    line {line} found:    {}", line_text(given));
            return;
        }
    }
}

fn line_text(line: Option<&[u8]>) -> String {
    match line {
        Some(line) => format!("{:?}", String::from_utf8_lossy(line)),
        None => "nothing".to_string(),
    }
}

fn tell_byte(expected: &[u8], found: &[u8]) {
    let same = expected.iter().zip(found).take_while(|(a, b)| a == b);
    let place = same.count();
    for (name, bytes) in [("expected", expected), ("found", found)] {
        let end = bytes.len().min(place + 8);
        let bytes = hex(&bytes[place..end]);
        println!("    byte {place} and on, {name}: {bytes}");
    }
    println!("    bytes: {} and {}", expected.len(), found.len());
}

pub fn hex(bytes: &[u8]) -> String {
    let bytes: Vec<String> = bytes.iter().map(|byte| format!("{byte:02X}")).collect();
    bytes.join(" ")
}
