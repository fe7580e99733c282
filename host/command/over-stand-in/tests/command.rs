//! The command's tests, over the stand-in.

extern crate stand_in as _;

#[path = "../../tests/command.rs"]
mod command;
