//! What is met in files of duties (document 02, E13): the cells of the table that are about them.

use cases::duties::{edges::NAMES, NODE};
use cases::target::RULES;
use independent::duties::{Duties, HEADER};
use independent::rows::{fields, row_from};
use independent::{Answer, Call, Case, Entry};

/// The numbers by which a row is refused, rising.
pub const NUMBERS: [u32; 5] = [4, 5, 6, 10, 16];

/// The lengths of names at their edges: two that may stand, and one that may not.
const LEAST_NAME: usize = 1;
const MOST_NAME: usize = 32;

// The columns of seconds.
const START: usize = 2;
const END: usize = 4;

const DAY: u32 = 86_400;
const DAYS: u32 = 10;
const LAST_SECOND: u32 = 863_999;

/// Rules that no row breaks at once: a duty that comes back begins anew.
const NEVER_BOTH: (u32, u32) = (3, 5);

/// Room that is never short.
const AMPLE: usize = 1 << 16;

/// What is met.
#[derive(Clone, Copy, Debug, PartialEq, Eq, PartialOrd, Ord)]
pub enum Met {
    /// A row refused by the first number alone, or though it is at fault by the other too.
    Refused(u32, Option<u32>),
    /// A row that breaks the first rule alone, or the other too.
    Broken(u32, Option<u32>),
    /// A refusal by this number, behind a row that breaks a rule.
    Behind(u32),
    /// A name of so many bytes in this column: accepted, and past the most refused for its sake.
    Name(usize, usize),
    /// Accepted with a time of this day.
    Day(u32),
    LastSecond,
    /// Accepted with no room left in either table, and 16 for want of one alone.
    JustTheRoom,
    NoRoomForNodes,
    NoRoomForBalances,
    /// Accepted with a node that has more ends than starts, and one with fewer.
    Above,
    Below,
    NoRows,
}

/// The names of columns in the table.
fn column_name(column: usize) -> &'static str {
    HEADER.split(',').nth(column).unwrap_or_default()
}

/// All that can be met, with its name.
pub fn all() -> Vec<(Met, String)> {
    let mut all = Vec::new();
    for (place, number) in NUMBERS.iter().copied().enumerate() {
        all.push((Met::Refused(number, None), format!("{number} alone")));
        all.extend(
            NUMBERS[place + 1..].iter().map(|other| (Met::Refused(number, Some(*other)), format!("{number} in a row that is {other} too"))),
        );
    }
    for rule in RULES {
        all.push((Met::Broken(rule, None), format!("rule {rule} alone")));
        let others = (rule + 1..=*RULES.end()).filter(|other| (rule, *other) != NEVER_BOTH);
        all.extend(others.map(|other| (Met::Broken(rule, Some(other)), format!("rule {rule} in a row that breaks {other} too"))));
    }
    all.extend(NUMBERS.map(|number| (Met::Behind(number), format!("{number} behind a broken row"))));
    for column in NAMES {
        let name = |length: usize, how: &str| (Met::Name(column, length), format!("{how} of {length} bytes in {}", column_name(column)));
        all.extend([name(LEAST_NAME, "a name"), name(MOST_NAME, "a name"), name(MOST_NAME + 1, "4 by a name")]);
    }
    all.extend((0..DAYS).map(|day| (Met::Day(day), format!("a time of day {day}"))));
    let others = [
        (Met::LastSecond, "the last second of all"),
        (Met::JustTheRoom, "accepted, both rooms full"),
        (Met::NoRoomForNodes, "16 for want of room for nodes"),
        (Met::NoRoomForBalances, "16 for want of room for balances"),
        (Met::Above, "accepted, a balance above zero"),
        (Met::Below, "accepted, a balance below zero"),
        (Met::NoRows, "accepted, no rows"),
    ];
    all.extend(others.map(|(met, name)| (met, name.to_string())));
    all
}

/// The cells that the entries can reach, with their names.
pub fn cells(entries: &[Entry]) -> Vec<(Met, String)> {
    if !entries.contains(&Entry::Duties) {
        return Vec::new();
    }
    all().into_iter().map(|(met, name)| (met, format!("duties: {name}"))).collect()
}

/// The cells that a call met.
pub fn met(call: &Call) -> Vec<Met> {
    if call.entry != Entry::Duties {
        return Vec::new();
    }
    let duties = call.case.duties();
    match duties.answer {
        Answer::Accepted => accepted(&call.case, &duties),
        Answer::Broken { .. } => together(&duties.faults, Met::Broken),
        Answer::Refused { place, .. } if NUMBERS.contains(&duties.faults[0]) => refused(&call.case, &duties, place),
        _ => Vec::new(),
    }
}

/// The lowest alone, or beside each of the others.
fn together(faults: &[u32], cell: fn(u32, Option<u32>) -> Met) -> Vec<Met> {
    match faults {
        [lowest] => vec![cell(*lowest, None)],
        [lowest, others @ ..] => others.iter().map(|other| cell(*lowest, Some(*other))).collect(),
        [] => Vec::new(),
    }
}

fn accepted(case: &Case, duties: &Duties) -> Vec<Met> {
    let text = &case.texts[0];
    let mut cells = Vec::new();
    let mut at = row_from(text, 0).1;
    while at < text.len() {
        let (row, next) = row_from(text, at);
        let fields = fields(row.bytes).unwrap_or_default();
        cells.extend(NAMES.iter().map(|column| Met::Name(*column, fields[*column].len())));
        for seconds in [START, END].map(|column| std::str::from_utf8(fields[column]).ok().and_then(|word| word.parse::<u32>().ok())) {
            cells.extend(seconds.map(|seconds| Met::Day(seconds / DAY)));
            cells.extend(seconds.filter(|seconds| *seconds == LAST_SECOND).map(|_| Met::LastSecond));
        }
        at = next;
    }
    let (nodes, balance) = (duties.nodes.as_deref().unwrap_or_default(), duties.balance.as_deref().unwrap_or_default());
    let is_met = [
        (Met::JustTheRoom, !nodes.is_empty() && (nodes.len(), balance.len()) == (case.rooms.legs, case.rooms.curves)),
        (Met::Above, balance.iter().any(|balance| *balance > 0)),
        (Met::Below, balance.iter().any(|balance| *balance < 0)),
        (Met::NoRows, nodes.is_empty()),
    ];
    cells.extend(is_met.iter().filter(|(_, is_met)| *is_met).map(|(met, _)| *met));
    cells.retain(|cell| !matches!(cell, Met::Name(_, length) if *length != LEAST_NAME && *length != MOST_NAME));
    cells
}

fn refused(case: &Case, duties: &Duties, place: usize) -> Vec<Met> {
    let mut cells = together(&duties.faults, Met::Refused);
    let lowest = duties.faults[0];
    if duties.is_behind_broken {
        cells.push(Met::Behind(lowest));
    }
    let row = row_from(&case.texts[0], place).0;
    for column in NAMES {
        let name = fields(row.bytes).and_then(|fields| fields.get(column).copied()).unwrap_or_default();
        if lowest == NUMBERS[0] && name.len() == MOST_NAME + 1 && shortened(case, name).duties().answer != duties.answer {
            cells.push(Met::Name(column, name.len()));
        }
    }
    if duties.faults == [16] {
        let again = |nodes: usize, balances: usize| {
            let mut other = case.clone();
            (other.rooms.legs, other.rooms.curves) = (nodes, balances);
            other.duties().answer == duties.answer
        };
        cells.extend(again(case.rooms.legs, AMPLE).then_some(Met::NoRoomForNodes));
        cells.extend(again(AMPLE * NODE, case.rooms.curves).then_some(Met::NoRoomForBalances));
    }
    cells
}

/// The case where a part of its text has one byte less.
fn shortened(case: &Case, part: &[u8]) -> Case {
    let mut other = case.clone();
    other.texts[0].remove(part.as_ptr() as usize - case.texts[0].as_ptr() as usize);
    other
}

#[cfg(test)]
mod tests {
    use super::*;
    use std::collections::BTreeSet;

    /// So no seed leaves a cell empty; and nothing is met that has no cell.
    #[test]
    fn the_calls_that_no_seed_changes_meet_every_cell() {
        let met: BTreeSet<Met> = cases::duties::calls().iter().flat_map(|named| met(&named.call)).collect();
        let cells = all();
        for (cell, name) in &cells {
            assert!(met.contains(cell), "{name}");
        }
        assert_eq!(met.len(), cells.len());
        assert_eq!(cells.len(), 5 + 10 + 6 + 14 + 5 + 12 + 10 + 7);
    }
}
