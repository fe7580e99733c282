//! How much was tested (document 02, E6) in a call: the cells of the table that are about it.

use cases::target::{is_merge, INEQUALITIES};
use independent::{Answer, Call, Entry, Said};

/// What is met by a verdict's counts.
#[derive(Clone, Copy, Debug, PartialEq, Eq, PartialOrd, Ord)]
pub enum Met {
    /// Accepted, and no count is 0.
    EveryKind,
    /// Accepted, and every count is 0.
    Nothing,
    /// Violated, and no count before this one is 0, nor is it the first of its kind.
    Behind { kind: u32, inequality: u32, file: u32 },
}

/// A cell: what is met by an entry.
pub type Cell = (Entry, Met);

const SOLUTION: u32 = 4;
const SECOND: u32 = 5;

/// What some entry can meet, with its name.
pub fn all() -> Vec<(Met, String)> {
    let mut all = vec![(Met::EveryKind, String::from("accepted, every kind")), (Met::Nothing, String::from("accepted, nothing"))];
    for (kind, inequalities) in INEQUALITIES {
        for (inequality, file) in inequalities.iter().flat_map(|inequality| [SOLUTION, SECOND].map(|file| (*inequality, file))) {
            all.push((Met::Behind { kind, inequality, file }, format!("violated at {kind}, {inequality} behind others, file {file}")));
        }
    }
    all
}

/// Whether the entry can meet it. A merge that is accepted is a text and has no count.
pub fn is_reached(entry: Entry, met: Met) -> bool {
    match met {
        _ if !entry.is_judging() => false,
        Met::EveryKind | Met::Nothing => !is_merge(entry),
        Met::Behind { file, .. } => file == SOLUTION || is_merge(entry),
    }
}

/// The cells that the entries can reach, with their names.
pub fn cells(entries: &[Entry]) -> Vec<(Cell, String)> {
    let of_entry = |entry: &Entry| {
        let entry = *entry;
        let reached = all().into_iter().filter(move |(met, _)| is_reached(entry, *met));
        reached.map(move |(met, name)| ((entry, met), format!("{}, tests: {name}", entry.name())))
    };
    entries.iter().flat_map(of_entry).collect()
}

/// The cell that a call met, if it has one.
pub fn met(call: &Call, said: &Said) -> Option<Cell> {
    let tally = said.tally()?;
    let met = match said.answer()? {
        Answer::Accepted if tally.kinds.iter().all(|count| *count > 0) => Met::EveryKind,
        Answer::Accepted if tally.total == 0 => Met::Nothing,
        Answer::Violated { kind, position, inequality, file, .. }
            if position > 0 && tally.kinds[..kind as usize].iter().all(|count| *count > 0) =>
        {
            Met::Behind { kind, inequality, file }
        }
        _ => return None,
    };
    Some((call.entry, met))
}

#[cfg(test)]
mod tests {
    use super::*;
    use independent::Lent;
    use std::collections::BTreeSet;

    /// So no seed leaves a cell empty.
    #[test]
    fn the_calls_that_no_seed_changes_meet_every_cell() {
        let calls = cases::tallies::calls().into_iter().chain(cases::examples::worked());
        let met = |call: &Call| met(call, &call.run(&mut Lent::full_of(0, &call.case.rooms)));
        let met: BTreeSet<Cell> = calls.filter_map(|named| met(&named.call)).collect();
        for (cell, name) in cells(&Entry::ALL) {
            assert!(met.contains(&cell), "{name}");
        }
    }
}
