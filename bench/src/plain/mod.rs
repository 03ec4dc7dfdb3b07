//! A plain implementation over classes, written from documents 01, 02 and 001 without tricks: lists of
//! labels, successor classes by trying parameter labels, breadth-first search, rounds. It gives all that the
//! checker gives, and allocates its buffers at each call.

mod classes;
mod questions;
mod read;
mod runs;
mod steps;
mod text;

pub use questions::{ask, ask_text, Asked, Rounds};
pub use read::Refusal;
pub use steps::{reach, Reached};
