//! An independent engine for tables, targets, questions and runs (see README.md).

pub mod answer;
pub mod ask;
pub mod cases;
pub mod class;
pub mod counter;
pub mod generate;
pub mod graph;
pub mod meaning;
pub mod mutate;
pub mod paths;
pub mod print;
pub mod random;
pub mod read;
pub mod replay;
pub mod run;
pub mod table;
pub mod text;
pub mod texts;
pub mod trials;
pub mod write;
