//! The verdict by hand, over the tables.

use crate::{CONFIGURATION, CONSTRAINT, LEG};

#[derive(Clone, Copy, Debug, PartialEq, Eq)]
pub struct Violation {
    pub kind: u32,
    pub position: usize,
    pub inequality: u32,
    pub shortfall: u32,
}

/// The first failure, if there is one.
pub fn verdict(legs: &[u32], configurations: &[u32], constraints: &[u32], choices: &[u32]) -> Option<Violation> {
    not_offered(legs, configurations, choices).or_else(|| failed(constraints, choices))
}

fn not_offered(legs: &[u32], configurations: &[u32], choices: &[u32]) -> Option<Violation> {
    let rows = legs.chunks_exact(LEG).zip(choices.chunks_exact(CONFIGURATION));
    let offered = |(leg, choice): (&[u32], &[u32])| {
        let (first, count) = (leg[5] as usize, leg[6] as usize);
        configurations[first * CONFIGURATION..][..count * CONFIGURATION].chunks_exact(CONFIGURATION).any(|entry| entry == choice)
    };
    let position = rows.into_iter().position(|row| !offered(row))?;
    Some(Violation { kind: 0, position, inequality: 0, shortfall: 0 })
}

fn failed(constraints: &[u32], choices: &[u32]) -> Option<Violation> {
    let (mut kind, mut start) = (0, 0);
    for (place, record) in constraints.chunks_exact(CONSTRAINT).enumerate() {
        if record[0] != kind {
            (kind, start) = (record[0], place);
        }
        let sides = inequalities(record, choices);
        for (number, (left, right)) in (1..).zip(sides) {
            if left > right {
                return Some(Violation { kind, position: place - start, inequality: number, shortfall: left - right });
            }
        }
    }
    None
}

/// A kind of one inequality has one more that always holds.
#[inline(always)]
fn inequalities(record: &[u32], choices: &[u32]) -> [(u32, u32); 2] {
    let choice = |row: u32| {
        let choice = &choices[row as usize * CONFIGURATION..][..CONFIGURATION];
        (choice[0], choice[1])
    };
    let ((d1, t1), (d2, t2)) = (choice(record[1]), choice(record[2]));
    let (low, high) = (record[3], record[4]);
    match record[0] {
        1 => [(d1 + low, d2), (d1 + t1 + low, d2 + t2)],
        5 => {
            let from = if record[5] == 1 { d1 + t1 } else { d1 };
            [(from + low, d2), (d2, from + high)]
        }
        _ => [(d1 + t1 + low, d2), (0, 0)],
    }
}
