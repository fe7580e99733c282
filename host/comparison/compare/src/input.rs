//! Input beside the calls that are compared: numbers of a block that are not looked at, entries that are not there, and what is no call.

use crate::block::{block, changed, numbers, written, BLOCK, ENTRY, H, NUMBERS, QUARTER, SET};
use crate::executor::{Executor, Replay};
use crate::expected::line;
use crate::lines::{BAD, LABEL, SKIPPED};
use independent::Call;

/// No entry has these numbers yet.
const NO_ENTRIES: [u64; 9] = [0, 6, 7, 8, 9, 10, 12, 13, 14];

/// All of it. What is no call ends a process, so each such input goes to one of its own.
pub fn compare(replay: &Replay) -> Result<(), String> {
    let good = cases::examples::worked().remove(0).call;
    numbered(replay, &good)?;
    spoilt(replay, &good)?;
    let none = replay.written(Vec::new())?;
    if none != format!("{LABEL}\n") {
        return Err(format!("no input at all gives {none}"));
    }
    Ok(())
}

/// Set and quarter change nothing; an entry that is not there is skipped, with its texts. The last call shows that they were read past.
fn numbered(replay: &Replay, good: &Call) -> Result<(), String> {
    let answered = line(good).1;
    let mut calls: Vec<(Vec<u8>, &str)> = Vec::new();
    calls.extend([SET, QUARTER].map(|place| (changed(good, place, 1), answered.as_str())));
    calls.extend(NO_ENTRIES.map(|entry| (changed(good, ENTRY, entry), SKIPPED)));
    calls.push((written(good), &answered));
    for (call, expected) in calls {
        let given = replay.asked(&call)?;
        if given != expected {
            let numbers = String::from_utf8_lossy(&call[..BLOCK]).trim_end().to_string();
            return Err(format!("a call with the numbers {numbers}\n  expected {expected}\n  given    {given}"));
        }
    }
    replay.end()
}

/// Each way to spoil the second of two calls must give the first call's line, then that it is bad.
fn spoilt(replay: &Replay, good: &Call) -> Result<(), String> {
    let bytes = written(good);
    let first = line(good).1;
    let expected = format!("{LABEL}\n{first}\n{BAD}\n");
    for (name, spoiled) in spoiled(good) {
        let given = replay.written([bytes.clone(), spoiled].concat())?;
        if given != expected {
            return Err(format!("{name}\n  expected {expected}\n  given    {given}"));
        }
    }
    Ok(())
}

fn spoiled(good: &Call) -> Vec<(String, Vec<u8>)> {
    let bytes = written(good);
    let mut list = vec![
        (String::from("a text that ends too soon"), bytes[..bytes.len() - 1].to_vec()),
        (String::from("a block that ends too soon"), bytes[..BLOCK - 1].to_vec()),
        (String::from("one byte"), b"1".to_vec()),
        (String::from("one number too few"), [block(&[1; NUMBERS - 1]), good.case.texts.concat()].concat()),
        (String::from("one number too many"), block(&[0; NUMBERS + 1])),
        (String::from("a number of 2^32"), changed(good, H, 1 << 32)),
        (String::from("a number past 64 bits"), replaced(good, "1 100 ", "1 18446744073709551716 ")),
    ];
    let first_words = ["01 100 ", "1  100 ", " 1 100 ", "1 +100 ", "1 -100 ", "1\t100 ", "1 1x0 ", "1 100,"];
    list.extend(first_words.map(|words| (format!("a block that starts with {words:?}"), replaced(good, "1 100 ", words))));
    let mut no_end = bytes.clone();
    no_end[BLOCK - 1] = b' ';
    list.push((String::from("a block with no LF"), no_end));
    let mut early = bytes;
    early[BLOCK - 6] = b'\n';
    list.push((String::from("a block with an LF too soon"), early));
    list
}

/// The call with other bytes in place of its first ones; the block keeps its length.
fn replaced(good: &Call, old: &str, new: &str) -> Vec<u8> {
    let head = block(&numbers(good));
    let rest = &head[old.len()..head.len() - 1];
    let mut bytes = [new.as_bytes(), rest].concat();
    bytes.resize(BLOCK - 1, b' ');
    bytes.push(b'\n');
    [bytes, good.case.texts.concat()].concat()
}
