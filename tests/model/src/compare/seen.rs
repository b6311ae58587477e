//! What `bench` and `screen` print of a record, and how a difference of it is told.

use crate::difference::{hex, Compared};
use crate::generator::case::Shown;
use crate::model::screen::Form;
use crate::programs::{screen_arguments, Printed};

#[derive(PartialEq)]
pub struct Seen {
    pub table: Printed,
    pub picture: Printed,
}

pub fn tell_seen(shown: &Shown, expected: Seen, found: Seen) {
    println!("  record (hex): {}", hex(&shown.record));
    Compared::new(expected.table, found.table).tell("bench", false);
    let arguments = screen_arguments(shown, "ROM").join(" ");
    let image = shown.form == Form::Pbm;
    Compared::new(expected.picture, found.picture).tell(&format!("screen {arguments}"), image);
}
