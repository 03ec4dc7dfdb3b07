//! What the benchmark compares (see ../docs/BENCHMARKS.md).

pub mod checker;
pub mod clock;
pub mod drafts;
pub mod plain;
pub mod tables;
