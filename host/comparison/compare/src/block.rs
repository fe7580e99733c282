//! A call as the program `replay` reads it: a block of 256 bytes, then the five texts one behind the other.

use independent::{Call, Case, Entry, Rooms};
use std::io::{self, Read as _};

/// The length of a block with its LF.
pub const BLOCK: usize = 256;

/// The places of a block's numbers: entry, H, file, place, five lengths, ten rooms, edition, set, quarter.
pub const ENTRY: usize = 0;
pub const H: usize = 1;
const FILE: usize = 2;
const PLACE: usize = 3;
const LENGTHS: std::ops::Range<usize> = 4..9;
pub const ROOMS: std::ops::Range<usize> = 9..19;
const EDITION: usize = 19;
pub const SET: usize = 20;
pub const QUARTER: usize = 21;
pub const NUMBERS: usize = 22;

/// The number of an entry.
pub fn number_of(entry: Entry) -> u64 {
    match entry {
        Entry::Check => 1,
        Entry::Energy => 2,
        Entry::MergeEarlier => 3,
        Entry::MergeLater => 4,
        Entry::Row => 5,
        Entry::Duties => 11,
    }
}

/// The numbers of a call's block. Set and quarter are 0: no entry looks at them yet.
pub fn numbers(call: &Call) -> [u64; NUMBERS] {
    let mut numbers = [0; NUMBERS];
    let head = [number_of(call.entry), u64::from(call.case.h), u64::from(call.file), u64::from(call.place)];
    let lengths = call.case.texts.iter().map(|text| text.len() as u64);
    let rooms = call.case.rooms.numbers().map(|room| room as u64);
    for (number, value) in numbers.iter_mut().zip(head.into_iter().chain(lengths).chain(rooms)) {
        *number = value;
    }
    numbers[EDITION] = u64::from(call.case.edition);
    numbers
}

/// The block: the numbers with one space between, padded with spaces, LF last.
pub fn block(numbers: &[u64]) -> Vec<u8> {
    let words: Vec<String> = numbers.iter().map(u64::to_string).collect();
    let mut bytes = words.join(" ").into_bytes();
    bytes.resize(BLOCK - 1, b' ');
    bytes.push(b'\n');
    bytes
}

/// The whole call.
pub fn written(call: &Call) -> Vec<u8> {
    [block(&numbers(call)), call.case.texts.concat()].concat()
}

/// The whole call with another number in one place of its block.
pub fn changed(call: &Call, place: usize, number: u64) -> Vec<u8> {
    let mut numbers = numbers(call);
    numbers[place] = number;
    [block(&numbers), call.case.texts.concat()].concat()
}

/// What stands where a call should.
pub enum Read {
    Call(Box<Call>),
    /// A call of an entry that is not there.
    Unknown,
    /// No call: no block, or too few bytes behind it.
    Bad,
}

/// The calls of an input as they come in, up to its end or the first that is none.
pub struct Calls<R> {
    input: R,
    ended: bool,
}

impl<R: io::Read> Calls<R> {
    pub fn of(input: R) -> Calls<R> {
        Calls { input, ended: false }
    }

    /// The next bytes; fewer only where the input ends, or cannot be read.
    fn bytes(&mut self, length: usize) -> Vec<u8> {
        let mut bytes = Vec::new();
        let _ = self.input.by_ref().take(length as u64).read_to_end(&mut bytes);
        bytes
    }

    /// The call behind a block; none where it is no block or its texts end too soon.
    fn behind(&mut self, block: &[u8]) -> Option<Read> {
        let numbers = numbers_of(block)?;
        let mut texts = Vec::new();
        for length in &numbers[LENGTHS] {
            let text = self.bytes(*length as usize);
            if text.len() < *length as usize {
                return None;
            }
            texts.push(text);
        }
        let entry = Entry::ALL.into_iter().find(|entry| number_of(*entry) == u64::from(numbers[ENTRY]));
        Some(entry.map_or(Read::Unknown, |entry| Read::Call(Box::new(call(entry, &numbers, texts)))))
    }
}

impl<R: io::Read> Iterator for Calls<R> {
    type Item = Read;

    fn next(&mut self) -> Option<Read> {
        let block = if self.ended { Vec::new() } else { self.bytes(BLOCK) };
        if block.is_empty() {
            return None;
        }
        let read = self.behind(&block).unwrap_or(Read::Bad);
        self.ended = matches!(read, Read::Bad);
        Some(read)
    }
}

fn call(entry: Entry, numbers: &[u32], texts: Vec<Vec<u8>>) -> Call {
    let mut rooms = Rooms::all(0);
    for (room, number) in numbers[ROOMS].iter().enumerate() {
        *rooms.number_mut(room) = *number as usize;
    }
    let texts = texts.try_into().expect("five lengths give five texts");
    Call { entry, case: Case { h: numbers[H], edition: numbers[EDITION], texts, rooms }, file: numbers[FILE], place: numbers[PLACE] }
}

/// The numbers of a block, if it is one.
fn numbers_of(block: &[u8]) -> Option<Vec<u32>> {
    let line = std::str::from_utf8(block.strip_suffix(b"\n")?).ok()?.trim_end_matches(' ');
    let numbers: Vec<u32> = line.split(' ').map(whole).collect::<Option<_>>()?;
    (block.len() == BLOCK && numbers.len() == NUMBERS).then_some(numbers)
}

/// One or more digits with no needless leading zero.
fn whole(word: &str) -> Option<u32> {
    let number: u32 = word.parse().ok()?;
    (number.to_string() == word).then_some(number)
}

#[cfg(test)]
mod tests {
    use super::*;

    #[test]
    fn what_is_written_is_read() {
        let calls: Vec<Call> = cases::calls(2, 0..200, &Entry::ALL).into_iter().map(|named| named.call).collect();
        let input: Vec<u8> = calls.iter().flat_map(written).collect();
        let read: Vec<Call> = Calls::of(&input[..])
            .map(|read| match read {
                Read::Call(call) => *call,
                _ => panic!("a call that was written is not read"),
            })
            .collect();
        assert_eq!(read, calls);
    }

    #[test]
    fn a_block_of_256_bytes() {
        let named = cases::examples::worked().remove(0);
        let bytes = written(&named.call);
        assert_eq!(bytes[255], b'\n');
        assert!(bytes.starts_with(b"1 100 0 0 176 "));
        let texts: usize = named.call.case.texts.iter().map(Vec::len).sum();
        assert_eq!(bytes.len(), 256 + texts);
        assert_eq!(block(&[u64::from(u32::MAX); NUMBERS]).len(), 256);
    }
}
