//! Compares the proved settlement with the second implementation.

pub mod chance;
pub mod crafted;
pub mod interval;
pub mod library;
pub mod mismatch;
pub mod mistakes;
pub mod program;
pub mod questions;
pub mod run;
pub mod sides;
pub mod tally;
pub mod text;
