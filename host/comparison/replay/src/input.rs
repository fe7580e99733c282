//! Calls as they come: a block, then its five texts, one behind the other. No byte past a call is waited for before the call is answered.

use crate::block::{Block, BLOCK, TEXTS};
use crate::failure::Failure;
use std::io::{ErrorKind, Read};

/// A text comes in pieces: the first has so many bytes, and each other as many as there are before it. So memory is taken for bytes that come, and not for
/// all that a block promises.
const FIRST_PIECE: usize = 64 * 1024;

const NAMES: [&str; TEXTS] = ["the timetable", "the profiles", "the constraints", "the solution", "the second text"];

/// What stands where a call should.
#[derive(Debug, PartialEq, Eq)]
pub enum Next {
    /// A whole call; its texts are in the buffers.
    Call(Block),
    /// The end of the input, where a block would begin.
    End,
    /// No block, or too few bytes behind it.
    Bad,
}

/// The texts of the call that was read last. Their memory is kept for the next.
#[derive(Default)]
pub struct Texts([Vec<u8>; TEXTS]);

impl Texts {
    /// Timetable, profiles, constraints, solution, second text.
    pub fn parts(&self) -> [&[u8]; TEXTS] {
        let [timetable, profiles, constraints, solution, second] = &self.0;
        [timetable, profiles, constraints, solution, second]
    }
}

/// Reads the next call whole, whatever its entry is.
pub fn next(input: &mut impl Read, texts: &mut Texts) -> Result<Next, Failure> {
    let mut bytes = [0; BLOCK];
    let block = match fill(input, &mut bytes)? {
        0 => return Ok(Next::End),
        BLOCK => Block::of(&bytes),
        _ => None,
    };
    let block = match block {
        Some(block) => block,
        None => return Ok(Next::Bad),
    };
    for ((text, length), name) in texts.0.iter_mut().zip(block.lengths).zip(NAMES) {
        if !read_text(input, text, length, name)? {
            return Ok(Next::Bad);
        }
    }
    Ok(Next::Call(block))
}

/// Reads a text of so many bytes; whether they were all there.
fn read_text(input: &mut impl Read, text: &mut Vec<u8>, length: usize, name: &'static str) -> Result<bool, Failure> {
    text.clear();
    while text.len() < length {
        let start = text.len();
        let piece = start.max(FIRST_PIECE).min(length - start);
        text.try_reserve_exact(piece).map_err(Failure::no_memory(name))?;
        text.resize(start + piece, 0);
        if fill(input, &mut text[start..])? < piece {
            return Ok(false);
        }
    }
    Ok(true)
}

/// How many of the bytes there were before the input's end.
fn fill(input: &mut impl Read, bytes: &mut [u8]) -> Result<usize, Failure> {
    let mut filled = 0;
    while filled < bytes.len() {
        match input.read(&mut bytes[filled..]) {
            Ok(0) => break,
            Ok(more) => filled += more,
            Err(error) if error.kind() == ErrorKind::Interrupted => {}
            Err(error) => return Err(Failure::Input(error)),
        }
    }
    Ok(filled)
}
