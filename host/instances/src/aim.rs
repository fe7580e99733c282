//! Variants with one violation, whose answer is known: everything but the aimed record, or row, is as in the nominal solution, which is accepted.

use crate::dice::Dice;
use crate::plan::{Offer, Plan, Record};

/// A kind and an inequality of document 01's table; 0 and 0 for a choice that is not offered.
#[derive(Clone, Copy, Debug, PartialEq, Eq)]
pub struct Aim {
    pub kind: u32,
    pub inequality: u32,
}

impl Aim {
    pub const ALL: [Aim; 8] = [
        Aim { kind: 0, inequality: 0 },
        Aim { kind: 1, inequality: 1 },
        Aim { kind: 1, inequality: 2 },
        Aim { kind: 2, inequality: 1 },
        Aim { kind: 3, inequality: 1 },
        Aim { kind: 4, inequality: 1 },
        Aim { kind: 5, inequality: 1 },
        Aim { kind: 5, inequality: 2 },
    ];
}

/// Constraints and a solution, and where and by how much it fails.
#[derive(Clone, Debug)]
pub struct Violated {
    pub constraints: String,
    pub solution: String,
    pub position: usize,
    pub shortfall: u32,
}

/// The greatest aimed shortfall.
const MOST: u32 = 30;

impl Plan {
    /// None where the plan has no record that can fail so.
    pub fn violated(&self, aim: Aim, seed: u64) -> Option<Violated> {
        let mut dice = Dice::new(seed);
        if aim.kind == 0 {
            return self.not_offered(&mut dice);
        }
        let list = self.records.get(aim.kind as usize - 1)?;
        let start = dice.below(list.len().max(1));
        // From a place at will, round the list to the first record that can.
        let places = (start..list.len()).chain(0..start);
        let (position, record, shortfall) = places.into_iter().find_map(|place| {
            let (record, shortfall) = self.broken(aim, &list[place], dice.between(1, MOST))?;
            Some((place, record, shortfall))
        })?;
        let mut records = self.records.clone();
        records[aim.kind as usize - 1][position] = record;
        Some(Violated { constraints: self.constraints_of(&records), solution: self.timetable(), position, shortfall })
    }

    /// The record so changed that this inequality is its first to fail, and by how much.
    fn broken(&self, aim: Aim, record: &Record, by: u32) -> Option<(Record, u32)> {
        let (first, second) = (self.legs[record.first].nominal, self.legs[record.second].nominal);
        let after_arrival = second.departure - first.arrival().min(second.departure);
        let from = if record.by_arrival { first.arrival() } else { first.departure };
        let connected = second.departure - from.min(second.departure);
        let (departures, arrivals) = (second.departure - first.departure, second.arrival() - first.arrival());
        match (aim.kind, aim.inequality) {
            (1, 1) => Some((Record { low: departures + by, ..*record }, by)),
            (1, 2) if arrivals < departures => Some((Record { low: departures, ..*record }, departures - arrivals)),
            (2, 1) => Some((Record { first: record.second, second: record.first, ..*record }, second.arrival() - first.departure)),
            (3, 1) | (4, 1) => Some((Record { low: after_arrival + by, ..*record }, by)),
            (5, 1) => Some((Record { low: connected + by, ..*record }, by)),
            (5, 2) if connected >= by => Some((Record { high: connected - by, ..*record }, by)),
            _ => None,
        }
    }

    /// One row's choice stands in the solution's list alone: one second past the nominal, which no step offers.
    fn not_offered(&self, dice: &mut Dice) -> Option<Violated> {
        if self.legs.is_empty() {
            return None;
        }
        let position = dice.below(self.legs.len());
        let mut changed = self.clone();
        let leg = &mut changed.legs[position];
        let choice = Offer { departure: leg.nominal.departure + 1, ..leg.nominal };
        leg.nominal = choice;
        leg.offers.push(choice);
        Some(Violated { constraints: self.constraints(), solution: changed.timetable(), position, shortfall: 0 })
    }
}
