//! Editions (document 02, E4): those that are known and some that are not, and each key of kinds 3 and 4 under both.

use crate::plan::{record, Plan};
use crate::twin::{exchanged, KEYS};
use crate::Named;
use independent::{Call, Case, Entry};

/// Stated by calls.
pub const EDITIONS: [u32; 5] = [0, 1, 2, 3, 4_294_967_295];

const ENTRIES: [Entry; 4] = [Entry::Check, Entry::Energy, Entry::MergeEarlier, Entry::MergeLater];

pub fn calls() -> Vec<Named> {
    ENTRIES.into_iter().flat_map(calls_of).collect()
}

/// Those of one entry.
pub fn calls_of(entry: Entry) -> Vec<Named> {
    [stated(entry), keyed(entry)].concat()
}

/// Every edition over the files of each of the two, with a horizon that is out of range, and over no texts.
fn stated(entry: Entry) -> Vec<Named> {
    let example = Plan::of_every_kind().case();
    let cases = [
        ("of edition 1", exchanged(example.clone())),
        ("of edition 2", example.clone()),
        ("with H 0", Case { h: 0, ..example.clone() }),
        ("without texts", Case { texts: Default::default(), ..example }),
    ];
    let of_case = |(name, case): (&str, Case)| {
        EDITIONS.map(|edition| Named {
            name: format!("edition {edition} over files {name}"),
            call: Call::of(entry, Case { edition, ..case.clone() }),
        })
    };
    cases.into_iter().flat_map(of_case).collect()
}

/// No key, each key alone, and both in both orders; in a record of kind 3 and in one of kind 4.
fn keyed(entry: Entry) -> Vec<Named> {
    let [(table, dwell), (example, turnaround)] = KEYS;
    let keys: [&[&str]; 5] = [&[], &[dwell], &[turnaround], &[dwell, turnaround], &[turnaround, dwell]];
    let mut calls = Vec::new();
    for (kind, keys) in [3, 4].into_iter().flat_map(|kind| keys.map(|keys| (kind, keys))) {
        let mut plan = Plan::example();
        let members: Vec<(&str, &str)> = keys.iter().map(|key| (*key, "20")).collect();
        plan.lists[kind - 1].records = vec![record(&[&[("first_leg_id", "1"), ("second_leg_id", "2")], &members[..]].concat())];
        calls.extend([table, example].map(|edition| Named {
            name: format!("{} in kind {kind} of edition {}", keys.join(" and "), edition as u32),
            call: Call::of(entry, Case { edition: edition as u32, ..plan.case() }),
        }));
    }
    calls
}

#[cfg(test)]
mod tests {
    use super::*;
    use independent::Answer;

    /// Of a check's calls: read, 10, 11, 1 and 21.
    #[test]
    fn edges_lie_on_both_sides() {
        let answers: Vec<Answer> = calls_of(Entry::Check).into_iter().map(|named| named.call.case.check().answer).collect();
        let count = |numbers: &[i64]| answers.iter().filter(|answer| answer.numbers().starts_with(numbers)).count();
        let read = count(&[0]) + count(&[1]);
        let (unknown, missing, horizon, edition) = (count(&[2, 10]), count(&[2, 11]), count(&[2, 1, 0]), count(&[2, 21, 0]));
        assert_eq!((read, unknown, missing, horizon, edition), (2 + 4, 2 + 12, 4, 5, 9));
        assert_eq!(answers.len(), 40);
    }
}
