//! The run: a line for each call, in their order.

use crate::block::Block;
use crate::calls::{call, Entry};
use crate::exports::Exports;
use crate::failure::Failure;
use crate::input::{next, Next, Texts};
use crate::lines::{line, BAD, LABEL, SKIPPED};
use crate::rooms::Rooms;
use std::io::{Read, Write};

/// Answers calls by the functions of a library until the input ends, or is no call.
pub fn run(exports: &Exports, input: &mut impl Read, output: &mut impl Write) -> Result<(), Failure> {
    let mut texts = Texts::default();
    let mut rooms = Rooms::default();
    say(output, LABEL)?;
    loop {
        match next(input, &mut texts)? {
            Next::Call(block) => say(output, &answered(exports, &block, &texts, &mut rooms)?)?,
            Next::End => return Ok(()),
            Next::Bad => return say(output, BAD),
        }
    }
}

fn answered(exports: &Exports, block: &Block, texts: &Texts, rooms: &mut Rooms) -> Result<String, Failure> {
    let entry = match Entry::of(block.entry) {
        Some(entry) => entry,
        None => return Ok(String::from(SKIPPED)),
    };
    rooms.lend(&block.rooms)?;
    let numbers = call(exports, entry, block, texts, rooms);
    Ok(line(entry, block, texts, &numbers, rooms))
}

/// A line, which whoever sent the call can read before sending the next.
fn say(output: &mut impl Write, line: &str) -> Result<(), Failure> {
    writeln!(output, "{line}").and_then(|()| output.flush()).map_err(Failure::Output)
}
