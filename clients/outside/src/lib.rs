//! The library for C, seen from outside and held to the reference: what the programs `vectors` and `differential` share.
//! A list is lent as numbers, so what a call leaves is compared number by number, and past the list's end too.

pub mod accepted;
pub mod acts;
pub mod boards;
pub mod calls;
pub mod corpus;
pub mod course;
pub mod days;
pub mod deadline_lists;
pub mod deadline_walks;
pub mod distances;
pub mod encoding;
pub mod engines;
pub mod expected;
pub mod handed;
pub mod lent;
pub mod lists;
pub mod notebooks;
pub mod shaken;
pub mod sights;
pub mod spans;
pub mod stored;
pub mod tables;
pub mod taken_back;
pub mod tally;
pub mod texts;
pub mod waits;
pub mod walks;
