//! The model: the part, the record and its mending, the panel, the bench table and the screen's
//! output, the library for C, rule by rule.

pub mod bias;
pub mod counter;
pub mod halves;
pub mod instruction;
pub mod library;
pub mod mend;
pub mod panel;
pub mod part;
pub mod picture;
pub mod record;
pub mod rules;
pub mod screen;
pub mod state;
pub mod table;
pub mod transfer;
