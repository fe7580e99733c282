//! Calls that no seed changes: one for each answer that an entry can give, rows, and calls that are larger than the others.

use cases::draw::for_target;
use cases::examples::worked;
use cases::random::Random;
use cases::target::{targets, Target};
use cases::{Named, Scale};
use independent::{Call, Entry};

/// The calls are drawn from this seed.
const SEED: u64 = 1;
/// Rows among them.
const ROWS: usize = 20;
/// More numbers than any other of these calls is lent, and more bytes than any other has in a text.
const MUCH_ROOM: usize = 64 * 1024 + 1;
const LONG_TEXT: usize = 16 * 1024 + 1;
const CONSTRAINTS: usize = 2;

pub fn calls() -> Vec<Named> {
    let mut calls = answered();
    calls.extend(cases::calls(SEED, 0..ROWS, &[Entry::Row]));
    calls.extend(large(&worked()[0].call));
    calls
}

/// A call for each target of the spread, each from a stream of its own.
fn answered() -> Vec<Named> {
    let first = worked().len();
    let mut calls = Vec::new();
    for (entry, target) in spread() {
        let mut random = Random::of(SEED, (first + calls.len()) as u64);
        let case = for_target(&mut random, entry, target, Scale::Small);
        calls.extend(case.map(|case| Named { name: format!("{target:?}"), call: Call::of(entry, case) }));
    }
    calls
}

/// Every answer of a check; of the other entries those that a check cannot give, and one of each sort.
fn spread() -> Vec<(Entry, Target)> {
    let of_check = targets(Entry::Check);
    let mut spread: Vec<(Entry, Target)> = of_check.iter().map(|target| (Entry::Check, *target)).collect();
    for entry in [Entry::Energy, Entry::MergeEarlier, Entry::MergeLater] {
        let of_all = [
            Target::Accepted,
            Target::Accepted,
            Target::Violated { kind: 5, inequality: 2, file: 4 },
            Target::Refused { number: 9, file: 3 },
        ];
        spread.extend(of_all.map(|target| (entry, target)));
        spread.extend(targets(entry).into_iter().filter(|t| !of_check.contains(t)).map(|target| (entry, target)));
    }
    spread
}

/// Much of each room, and a long text.
fn large(call: &Call) -> Vec<Named> {
    let mut calls = Vec::new();
    for room in 0..call.case.rooms.numbers().len() {
        let mut lent = call.clone();
        *lent.case.rooms.number_mut(room) = MUCH_ROOM;
        calls.push(Named { name: format!("much of room {room}"), call: lent });
    }
    let mut long = call.clone();
    long.case.texts[CONSTRAINTS].resize(LONG_TEXT, b' ');
    calls.push(Named { name: String::from("long constraints"), call: long });
    calls
}

#[cfg(test)]
mod tests {
    use super::*;

    #[test]
    fn every_target_of_the_spread_is_there() {
        assert_eq!(answered().len(), spread().len());
        assert!(crate::comparison::fixed(&Entry::ALL).len() > 500);
    }
}
