//! The proved library and the command beside the independent program, call by call: the same texts, the same lent rooms, line by line.

pub mod block;
pub mod command;
pub mod comparison;
pub mod coverage;
pub mod duties;
pub mod editions;
pub mod executor;
pub mod expected;
pub mod folder;
pub mod input;
pub mod large;
pub mod lines;
pub mod marks;
pub mod saved;
pub mod spread;
pub mod tallies;
