//! The generator: from a seed and a number, one record, one view of the state it ends in and one
//! capture to mend; one script of bench events and panel calls; one pair of records, which tell the
//! same story on both wirings; and from a seed alone the calls of the library from C.

pub mod author;
pub mod calls;
pub mod case;
pub mod damage;
pub mod pair;
pub mod random;
pub mod script;
