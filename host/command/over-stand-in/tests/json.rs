//! The tests of the command's objects, over the stand-in.

extern crate stand_in as _;

#[path = "../../tests/json.rs"]
mod json;
