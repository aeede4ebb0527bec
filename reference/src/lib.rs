//! The box of `docs/SPECIFICATION.md` in plain Rust, written from the user's papers alone, to be run beside the proved program; README.md
//! names what is not of the papers. It speaks the user's words; each file's first lines name the sections of the specification that it
//! renders.

pub mod answer;
pub mod board;
pub mod board_list;
pub mod deadline;
pub mod generator;
pub mod list;
pub mod machine;
pub mod notebook;
pub mod promises;
pub mod reckoning;
pub mod recording;
pub mod replay;
pub mod spans;
pub mod summary;
