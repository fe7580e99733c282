//! What the edition (document 02, E4) did in a call: the cells of the table that are about it.

use cases::twin::{KEYS, TURNAROUNDS};
use cases::LIST_NAMES;
use independent::{Answer, Call, Case, Edition, Said};

/// Refusal numbers, and the file that has the keys.
const UNKNOWN_NAME: u32 = 10;
const MISSING: u32 = 11;
const EDITION: u32 = 21;
const CONSTRAINTS: u32 = 3;

/// A constraint's numbers in the table, of which the first is its kind.
const CONSTRAINT: usize = 6;
const TURNAROUND: u32 = 4;

const DWELLS: &str = LIST_NAMES[2];
const QUOTE: u8 = b'"';

/// What is met under an edition that is known.
#[derive(Clone, Copy, Debug, PartialEq, Eq, PartialOrd, Ord)]
pub enum Met {
    Turnaround,
    OtherAlone,
    OtherFirst,
    OtherLast,
    InDwell,
    NoKey,
    Alike,
}

pub const MET: [(Met, &str); 7] = [
    (Met::Turnaround, "a turnaround read by its key"),
    (Met::OtherAlone, "10 by the other edition's key"),
    (Met::OtherFirst, "10 by it, the edition's own behind it"),
    (Met::OtherLast, "10 by it, the edition's own before it"),
    (Met::InDwell, "10 by min_turnaround_time in a dwell"),
    (Met::NoKey, "11 for want of a turnaround's key"),
    (Met::Alike, "the line of its twin"),
];

pub const KNOWN: [u32; 2] = [Edition::Table as u32, Edition::Example as u32];
pub const UNKNOWN: [u32; 3] = [0, 3, 4_294_967_295];

/// A cell.
#[derive(Clone, Copy, Debug, PartialEq, Eq, PartialOrd, Ord)]
pub enum Cell {
    Known(Met, u32),
    Unknown(u32),
}

/// The cells that an entry which judges can reach, with their names.
pub fn cells() -> Vec<(Cell, String)> {
    let known =
        MET.into_iter().flat_map(|(met, name)| KNOWN.map(|edition| (Cell::Known(met, edition), format!("edition {edition}: {name}"))));
    known.chain(UNKNOWN.map(|edition| (Cell::Unknown(edition), format!("21 for edition {edition}")))).collect()
}

/// The cell of a call whose line is its twin's.
pub fn alike(call: &Call) -> Cell {
    Cell::Known(Met::Alike, call.case.edition)
}

/// The cell that a call met, if it is about its edition.
pub fn met(call: &Call, said: &Said) -> Option<Cell> {
    let case = &call.case;
    if !call.entry.is_judging() {
        return None;
    }
    let met = match said.answer()? {
        Answer::Refused { number: EDITION, .. } => return UNKNOWN.contains(&case.edition).then_some(Cell::Unknown(case.edition)),
        Answer::Refused { number: UNKNOWN_NAME, file: CONSTRAINTS, place } => At::of(case, place).unknown()?,
        Answer::Refused { number: MISSING, file: CONSTRAINTS, place } => At::of(case, place).missing()?,
        Answer::Accepted | Answer::Violated { .. } if has_turnaround(case) => Met::Turnaround,
        _ => return None,
    };
    Some(Cell::Known(met, case.edition))
}

fn has_turnaround(case: &Case) -> bool {
    case.check().tables.map_or(false, |tables| tables.constraints.chunks(CONSTRAINT).any(|entry| entry[0] == TURNAROUND))
}

/// Where a refusal points in constraints.json. Up to there everything was read, so that every second piece between quotes is a string.
struct At<'a> {
    /// The name of the last list.
    list: &'a [u8],
    /// The record's bytes before the place, and from the place on.
    before: &'a [u8],
    behind: &'a [u8],
    /// The keys of a turnaround: the edition's own, and the other's.
    own: &'static str,
    other: &'static str,
}

impl At<'_> {
    fn of(case: &Case, place: usize) -> At<'_> {
        let (before, behind) = case.texts[CONSTRAINTS as usize - 1].split_at(place);
        let strings = before.split(|byte| *byte == QUOTE).skip(1).step_by(2);
        let list = strings.filter(|string| LIST_NAMES.iter().any(|list| list.as_bytes() == *string)).last().unwrap_or_default();
        let start = before.iter().rposition(|byte| *byte == b'{').unwrap_or(0);
        let end = behind.iter().position(|byte| *byte == b'}').unwrap_or(behind.len());
        let [(table, dwell), (_, turnaround)] = KEYS;
        let (own, other) = if case.edition == table as u32 { (dwell, turnaround) } else { (turnaround, dwell) };
        At { list, before: &before[start..], behind: &behind[..end], own, other }
    }

    /// By a name that is not known here.
    fn unknown(&self) -> Option<Met> {
        let is_at = |key: &str| self.behind.starts_with(quoted(key).as_bytes());
        match (has(self.before, self.own), has(self.behind, self.own)) {
            _ if is(self.list, DWELLS) => is_at(KEYS[1].1).then_some(Met::InDwell),
            _ if !is(self.list, TURNAROUNDS) || !is_at(self.other) => None,
            (true, _) => Some(Met::OtherLast),
            (_, true) => Some(Met::OtherFirst),
            _ => Some(Met::OtherAlone),
        }
    }

    /// By a record that ends without a key.
    fn missing(&self) -> Option<Met> {
        (is(self.list, TURNAROUNDS) && self.behind.is_empty() && !has(self.before, self.own)).then_some(Met::NoKey)
    }
}

fn is(list: &[u8], name: &str) -> bool {
    list == name.as_bytes()
}

fn quoted(key: &str) -> String {
    format!("\"{key}\"")
}

fn has(part: &[u8], key: &str) -> bool {
    let key = quoted(key);
    part.windows(key.len()).any(|window| window == key.as_bytes())
}

#[cfg(test)]
mod tests {
    use super::*;
    use independent::Lent;
    use std::collections::BTreeSet;

    /// So no seed leaves a cell empty; the twins are met by every call that reads.
    #[test]
    fn the_calls_that_no_seed_changes_meet_every_cell() {
        let calls = cases::editions::calls();
        let met = |call: &Call| met(call, &call.run(&mut Lent::full_of(0, &call.case.rooms)));
        let twins = calls.iter().filter(|named| cases::twin::named(named).is_some()).map(|named| alike(&named.call));
        let met: BTreeSet<Cell> = calls.iter().filter_map(|named| met(&named.call)).chain(twins).collect();
        for (cell, name) in cells() {
            assert!(met.contains(&cell), "{name}");
        }
    }
}
