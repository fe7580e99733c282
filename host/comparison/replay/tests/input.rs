//! What is read: calls of entries that are not there, input that is no call, and calls that wait for an answer.

mod common;

use common::{accepted, block, expected, lines, numbers, written, LABEL, STAND_IN};
use independent::{Call, Entry};
use replay::{run, Failure};
use std::io::{self, Read, Write};
use std::sync::mpsc::{channel, Receiver, Sender};
use std::time::Duration;

const SKIPPED: &str = "skipped";
const BAD: &str = "replay: bad case";

/// How long a line is waited for.
const PATIENCE: Duration = Duration::from_secs(60);

// The numbers of a block by their places.
const ENTRY: usize = 0;
const SET: usize = 20;
const QUARTER: usize = 21;

fn check() -> Call {
    Call::of(Entry::Check, accepted())
}

/// The check with another number in one place of its block.
fn with(place: usize, number: u64) -> Vec<u8> {
    let mut numbers = numbers(&check());
    numbers[place] = number;
    [block(&numbers), check().case.texts.concat()].concat()
}

/// The check with other bytes in place of the first of its block, which keeps its length.
fn begun(first: &str) -> Vec<u8> {
    let good = String::from_utf8(block(&numbers(&check()))).unwrap();
    let line = good.trim_end().strip_prefix("1 100 ").unwrap();
    [format!("{:255}\n", format!("{first}{line}")).into_bytes(), check().case.texts.concat()].concat()
}

#[test]
fn no_input_gives_the_label_alone() {
    assert!(lines(&STAND_IN, b"").is_empty());
}

/// The whole call is read, so that the next one is found.
#[test]
fn entries_that_are_not_there_are_skipped() {
    for entry in (6..=10).chain([0, 12, 13, 14, 255, 256, 257, 267, u64::from(u32::MAX)]) {
        let given = lines(&STAND_IN, &[with(ENTRY, entry), written(&check())].concat());
        assert_eq!(given, [String::from(SKIPPED), expected(&check())], "entry {entry}");
    }
}

/// No room is taken for a call that is skipped.
#[test]
fn a_skipped_call_lends_nothing() {
    let mut numbers = numbers(&check());
    numbers[ENTRY] = 6;
    numbers[9..19].fill(u64::from(u32::MAX));
    assert_eq!(lines(&STAND_IN, &[block(&numbers), check().case.texts.concat()].concat()), [SKIPPED]);
}

#[test]
fn set_and_quarter_skip_nothing() {
    for place in [SET, QUARTER] {
        assert_eq!(lines(&STAND_IN, &with(place, 5)), [expected(&check())]);
    }
}

/// The line of the first call is there, and then that the second is none; nothing after it is answered.
fn is_bad(name: &str, second: Vec<u8>) {
    let given = lines(&STAND_IN, &[written(&check()), second].concat());
    assert_eq!(given, [expected(&check()), String::from(BAD)], "{name}");
}

#[test]
fn blocks_that_are_none() {
    for first in
        ["01 100 ", "1  100 ", " 1 100 ", "1 +100 ", "1 -100 ", "1\t100 ", "1 1x0 ", "1 100,", "1 100  ", "1 4294967296 ", "1 ", "1 1 100 "]
    {
        is_bad(first, [begun(first), written(&check())].concat());
    }
    is_bad("past 64 bits", begun("1 18446744073709551716 "));
    assert_eq!(lines(&STAND_IN, &begun("1 100 ")), [expected(&check())]);
    let texts = check().case.texts.concat();
    is_bad("no number", [block(&[]), texts.clone()].concat());
    is_bad("21 numbers", [block(&numbers(&check())[..21]), texts.clone()].concat());
    is_bad("23 numbers", [block(&[numbers(&check()), vec![0]].concat()), texts].concat());
}

#[test]
fn padding_and_the_line_end() {
    for (place, byte) in [(255, b' '), (255, b'\r'), (254, b'\n'), (254, b'0'), (254, b'\t'), (254, 0), (254, 0xff)] {
        let mut bytes = written(&check());
        bytes[place] = byte;
        is_bad("another byte", bytes);
    }
}

#[test]
fn calls_that_end_too_soon() {
    let whole = written(&check());
    for length in [1, 100, 255, 256, 257, whole.len() - 1] {
        is_bad("too short", whole[..length].to_vec());
    }
    let skipped = with(ENTRY, 6);
    is_bad("a skipped call", skipped[..skipped.len() - 1].to_vec());
}

/// A text of 4 GiB that is promised and not there takes no memory for itself.
#[test]
fn a_text_that_is_only_promised() {
    for text in 4..9 {
        is_bad("promised", with(text, u64::from(u32::MAX)));
    }
}

/// Bytes as they are sent; the end where nobody sends any more.
struct Sent {
    bytes: Receiver<Vec<u8>>,
    left: Vec<u8>,
}

impl Read for Sent {
    fn read(&mut self, bytes: &mut [u8]) -> io::Result<usize> {
        if self.left.is_empty() {
            self.left = self.bytes.recv().unwrap_or_default();
        }
        let read = (&self.left[..]).read(bytes)?;
        self.left.drain(..read);
        Ok(read)
    }
}

/// Hands on what was written when it is flushed, and no sooner.
struct Flushed {
    lines: Sender<Vec<u8>>,
    written: Vec<u8>,
}

impl Write for Flushed {
    fn write(&mut self, bytes: &[u8]) -> io::Result<usize> {
        self.written.write(bytes)
    }

    fn flush(&mut self) -> io::Result<()> {
        self.lines.send(std::mem::take(&mut self.written)).map_err(|_| io::ErrorKind::BrokenPipe.into())
    }
}

/// Whoever sends a call gets its line before sending the next.
#[test]
fn a_line_as_soon_as_it_is_answered() {
    let (sender, bytes) = channel();
    let (lines, given) = channel();
    let running = std::thread::spawn(move || {
        run(&STAND_IN, &mut Sent { bytes, left: Vec::new() }, &mut Flushed { lines, written: Vec::new() }).unwrap();
    });
    let next = || String::from_utf8(given.recv_timeout(PATIENCE).unwrap()).unwrap();
    assert_eq!(next(), format!("{LABEL}\n"));
    for entry in Entry::ALL {
        let call = Call::of(entry, accepted());
        sender.send(written(&call)).unwrap();
        assert_eq!(next(), format!("{}\n", expected(&call)));
    }
    sender.send(vec![b'1']).unwrap();
    drop(sender);
    assert_eq!(next(), format!("{BAD}\n"));
    running.join().unwrap();
}

/// A stream that gives one byte at a time, and is interrupted between them.
struct Slow<'a>(&'a [u8], bool);

impl Read for Slow<'_> {
    fn read(&mut self, bytes: &mut [u8]) -> io::Result<usize> {
        self.1 = !self.1;
        if self.1 {
            return Err(io::ErrorKind::Interrupted.into());
        }
        let most = bytes.len().min(1);
        self.0.read(&mut bytes[..most])
    }
}

#[test]
fn a_slow_stream_is_read_whole() {
    let mut output = Vec::new();
    run(&STAND_IN, &mut Slow(&written(&check()), false), &mut output).unwrap();
    assert_eq!(String::from_utf8(output).unwrap(), format!("{LABEL}\n{}\n", expected(&check())));
}

/// A stream that breaks is no end of it.
struct Broken;

impl Read for Broken {
    fn read(&mut self, _: &mut [u8]) -> io::Result<usize> {
        Err(io::ErrorKind::Other.into())
    }
}

#[test]
fn streams_that_fail_are_told() {
    assert!(matches!(run(&STAND_IN, &mut Broken, &mut Vec::new()), Err(Failure::Input(_))));
    assert!(matches!(run(&STAND_IN, &mut &written(&check())[..], &mut &mut [0; 60][..]), Err(Failure::Output(_))));
}
