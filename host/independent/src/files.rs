//! "Order: 1; timetable; profiles; 12 and 13 over the timetable's rows; constraints; 15 over the
//! timetable's rows; solution; 14; then the same for a second solution."

use crate::answers::{Refusal, Rooms};
use crate::constraints::{self, Constraints};
use crate::profiles::{self, Profile};
use crate::stated::Stated;
use crate::timetable::{self, Leg};
use std::collections::HashMap;

/// The draft, the profiles and the constraints, read without refusal.
#[derive(Clone, Debug, PartialEq, Eq)]
pub struct Files {
    pub legs: Vec<Leg>,
    pub profiles: Vec<Profile>,
    pub constraints: Constraints,
}

/// Judges what is stated, then reads the first three texts in their order.
pub fn read_files(
    stated: Stated,
    timetable: &[u8],
    profiles: &[u8],
    constraints: &[u8],
    rooms: &Rooms,
) -> Result<Files, Refusal> {
    let edition = stated.judge()?;
    let legs = timetable::read(timetable, stated.horizon, 1, &|legs, configurations| {
        legs <= rooms.legs / 8 && configurations <= rooms.configurations / 3
    })?;
    let profiles = profiles::read(profiles, rooms)?;
    judge_profiles_of_legs(&legs, &profiles)?;
    let constraints = constraints::read(constraints, edition, &rows_by_id(&legs), rooms)?;
    judge_tracks_of_legs(&legs, &constraints)?;
    Ok(Files { legs, profiles, constraints })
}

/// Reads a solution (file 4) or a second solution (file 5), which needs room for its choices
/// alone, and compares its rows with the draft's.
pub fn read_solution(
    h: u32,
    text: &[u8],
    file: u32,
    room: usize,
    draft: &[Leg],
) -> Result<Vec<Leg>, Refusal> {
    let solution = timetable::read(text, h, file, &|legs, _| legs <= room / 3)?;
    judge_rows(&solution, draft, text.len(), file)?;
    Ok(solution)
}

/// "12 and 13 over the timetable's rows": every entry of the list counts, and in one row 12 comes
/// before 13.
fn judge_profiles_of_legs(legs: &[Leg], profiles: &[Profile]) -> Result<(), Refusal> {
    let counts: HashMap<u32, usize> =
        profiles.iter().map(|profile| (profile.id, profile.samples.len())).collect();
    for leg in legs {
        for entry in &leg.list {
            if !counts.contains_key(&entry.profile) {
                return Err(Refusal { number: 12, file: 1, place: leg.place });
            }
        }
        for entry in &leg.list {
            if counts[&entry.profile] != entry.travel as usize {
                return Err(Refusal { number: 13, file: 1, place: leg.place });
            }
        }
    }
    Ok(())
}

/// "15 over the timetable's rows": a leg's track is in no subnet.
fn judge_tracks_of_legs(legs: &[Leg], constraints: &Constraints) -> Result<(), Refusal> {
    for leg in legs {
        if constraints.subnet_of(leg.track()).is_none() {
            return Err(Refusal { number: 15, file: 1, place: leg.place });
        }
    }
    Ok(())
}

/// "For 14 the place is the first differing row in the solution, or its length if rows are
/// missing." A row past the draft's last is a differing row.
fn judge_rows(solution: &[Leg], draft: &[Leg], length: usize, file: u32) -> Result<(), Refusal> {
    for (row, leg) in solution.iter().enumerate() {
        let same = row < draft.len() && draft[row].ids == leg.ids;
        if !same {
            return Err(Refusal { number: 14, file, place: leg.place });
        }
    }
    if solution.len() < draft.len() {
        return Err(Refusal { number: 14, file, place: length });
    }
    Ok(())
}

/// The draft's row for each leg id.
fn rows_by_id(legs: &[Leg]) -> HashMap<u32, u32> {
    legs.iter().enumerate().map(|(row, leg)| (leg.id(), row as u32)).collect()
}
