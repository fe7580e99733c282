//! `profiles.csv`.

use crate::answers::{Refusal, Rooms};
use crate::numbers::{id, Sample, Whole};
use crate::rows::{fields, parts, Row, Rows};
use std::collections::HashSet;

/// The header of the profiles, without its LF.
pub const HEADER: &str = "profile_id,power_consumptions";

/// The file number of the profiles.
const FILE: u32 = 2;
/// "profiles 16,384".
const MOST_PROFILES: usize = 16_384;
/// "samples 1,048,576 in all".
const MOST_SAMPLES: usize = 1_048_576;
/// "1..3,600 a profile".
const MOST_IN_A_PROFILE: usize = 3_600;

/// A profile: its id, and one sample in kilowatts for each second.
#[derive(Clone, Debug, PartialEq, Eq)]
pub struct Profile {
    pub id: u32,
    pub samples: Vec<i32>,
}

/// What was read before a row.
struct Before {
    profiles: usize,
    samples: usize,
    ids: HashSet<u32>,
}

/// Reads the profiles.
pub fn read(text: &[u8], rooms: &Rooms) -> Result<Vec<Profile>, Refusal> {
    let mut before = Before { profiles: 0, samples: 0, ids: HashSet::new() };
    let mut profiles = Vec::new();
    for row in Rows::below(HEADER, text, FILE)? {
        let profile = read_row(&row, &before, rooms)
            .map_err(|number| Refusal { number, file: FILE, place: row.place })?;
        before.profiles += 1;
        before.samples += profile.samples.len();
        before.ids.insert(profile.id);
        profiles.push(profile);
    }
    Ok(profiles)
}

/// "the lowest number in that row counts": the numbers are tried in rising order.
fn read_row(row: &Row, before: &Before, rooms: &Rooms) -> Result<Profile, u32> {
    let (number, list) = row_form(row).ok_or(4u32)?;
    let id = id(number).ok_or(5u32)?;
    let samples = list
        .iter()
        .map(|sample| sample.kilowatts())
        .collect::<Option<Vec<i32>>>()
        .ok_or(5u32)?;
    let profiles_so_far = before.profiles + 1;
    let samples_so_far = before.samples + samples.len();
    if profiles_so_far > MOST_PROFILES
        || samples.len() > MOST_IN_A_PROFILE
        || samples_so_far > MOST_SAMPLES
    {
        return Err(6);
    }
    if before.ids.contains(&id) {
        return Err(7);
    }
    if profiles_so_far > rooms.profiles / 3 || samples_so_far > rooms.samples {
        return Err(16);
    }
    Ok(Profile { id, samples })
}

/// The form of a row: an id and a list of samples, ended by LF.
fn row_form<'a>(row: &Row<'a>) -> Option<(Whole<'a>, Vec<Sample<'a>>)> {
    if !row.ended {
        return None;
    }
    let columns = fields(row.bytes)?;
    if columns.len() != 2 {
        return None;
    }
    let number = Whole::parse(columns[0])?;
    let samples = parts(columns[1], b' ')
        .into_iter()
        .map(Sample::parse)
        .collect::<Option<Vec<_>>>()?;
    Some((number, samples))
}
