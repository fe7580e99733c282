//! The wrapper's tests, over the stand-in.

extern crate stand_in as _;

#[path = "../../tests/checker.rs"]
mod checker;
