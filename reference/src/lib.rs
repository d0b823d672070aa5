//! The independent program of Dirgeflint.
//!
//! It is written from the customer's papers and, for the calls, the header; it shares no code with the library. `model`
//! says what every call must answer, as plainly as possible and without care for speed. `compare` puts anything that
//! implements the traits of `parts` beside the model, and `bridge` makes the library such a thing. `fast` gives the
//! same answers quickly, so that the bridge can run ahead of the library. `random` makes the cases, each again from its
//! seed and index. `cases` are texts for `fontcheck` with the line each must give, and `draw` turns a drawn font into
//! its text. `cli` puts the command line beside what the model makes of the same files, and `lines` has the lines, words
//! and numbers of these.

// The model counts with remainders, as the papers do.
#![allow(clippy::manual_is_multiple_of)]

pub mod bridge;
pub mod cases;
pub mod cli;
pub mod compare;
pub mod draw;
pub mod fast;
pub mod lines;
pub mod model;
pub mod parts;
pub mod random;
