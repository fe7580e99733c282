//! "The verdict".

use crate::answers::{Answer, Checked, Refusal, Rooms, Tally, Verdict};
use crate::constraints::Constraint;
use crate::files::{read_files, read_solution, Files};
use crate::stated::Stated;
use crate::tables::Tables;
use crate::timetable::Leg;

/// Reads the four texts and judges the solution.
pub fn check(
    stated: Stated,
    timetable: &[u8],
    profiles: &[u8],
    constraints: &[u8],
    solution: &[u8],
    rooms: &Rooms,
) -> Checked {
    match read_all(stated, timetable, profiles, constraints, solution, rooms) {
        Err(refusal) => Checked { answer: refusal.into(), tally: None, tables: None },
        Ok((files, solution)) => {
            let Verdict { answer, tally } = verdict(&files, &solution, 4);
            Checked { answer, tally: Some(tally), tables: Some(Tables::of(&files, &solution)) }
        }
    }
}

/// The four texts, read without refusal, or the first refusal.
pub fn read_all(
    stated: Stated,
    timetable: &[u8],
    profiles: &[u8],
    constraints: &[u8],
    solution: &[u8],
    rooms: &Rooms,
) -> Result<(Files, Vec<Leg>), Refusal> {
    let files = read_files(stated, timetable, profiles, constraints, rooms)?;
    let solution = read_solution(stated.horizon, solution, 4, rooms.choices, &files.legs)?;
    Ok((files, solution))
}

/// A row's choice, or an inequality: where it stands, and by how much it falls short if it fails.
struct Test {
    kind: u32,
    position: usize,
    inequality: u32,
    shortfall: Option<i64>,
}

/// "First each row in order: is the choice, all three numbers, in the draft's list? Then the
/// constraint table in order."
fn tests<'a>(files: &'a Files, solution: &'a [Leg]) -> impl Iterator<Item = Test> + 'a {
    let rows = files.legs.iter().zip(solution).enumerate();
    let choices = rows.map(|(position, (draft, leg))| {
        let is_offered = draft.list.contains(&leg.nominal);
        Test { kind: 0, position, inequality: 0, shortfall: if is_offered { None } else { Some(0) } }
    });
    let records = files.constraints.in_order();
    choices.chain(records.flat_map(move |(position, constraint)| {
        let kind = constraint.kind;
        let sides = inequalities(constraint, solution).into_iter().zip(1..);
        sides.map(move |((left, right), inequality)| {
            let shortfall = if left > right { Some(left - right) } else { None };
            Test { kind, position, inequality, shortfall }
        })
    }))
}

/// "The check stops at the first inequality that fails". The number of tests made is "one for each
/// row's choice and one for each inequality, up to and with the first that fails [...] It equals
/// the position in document 01's order" (document 02, E6): so it is the place of the last test
/// made, counted from 1.
pub fn verdict(files: &Files, solution: &[Leg], file: u32) -> Verdict {
    let mut tally = Tally::default();
    for (place, test) in (1..).zip(tests(files, solution)) {
        let Test { kind, position, inequality, shortfall } = test;
        tally.total = place;
        tally.kinds[kind as usize] += 1;
        if let Some(shortfall) = shortfall {
            let answer = Answer::Violated { kind, position, inequality, shortfall, file };
            return Verdict { answer, tally };
        }
    }
    Verdict { answer: Answer::Accepted, tally }
}

/// The inequalities of a constraint, in order, each as its left side and its right side.
fn inequalities(constraint: &Constraint, solution: &[Leg]) -> Vec<(i64, i64)> {
    let first = solution[constraint.first as usize].nominal;
    let second = solution[constraint.second as usize].nominal;
    let d1 = i64::from(first.departure);
    let t1 = i64::from(first.travel);
    let d2 = i64::from(second.departure);
    let t2 = i64::from(second.travel);
    let low = i64::from(constraint.low);
    let high = i64::from(constraint.high);
    match constraint.kind {
        1 => vec![(d1 + low, d2), (d1 + t1 + low, d2 + t2)],
        2 => vec![(d1 + t1, d2)],
        3 => vec![(d1 + t1 + low, d2)],
        4 => vec![(d1 + t1 + low, d2)],
        _ => {
            // "x is d1+t1 for `arrival_to_departure`, d1 for `departure_to_departure`."
            let x = if constraint.anchor == 1 { d1 + t1 } else { d1 };
            vec![(x + low, d2), (d2, x + high)]
        }
    }
}
