//! "The tables": what was read, as plain numbers.

use crate::constraints::Constraints;
use crate::files::Files;
use crate::profiles::Profile;
use crate::timetable::{Configuration, Leg};

/// The tables as read, where nothing is refused.
#[derive(Clone, Debug, PartialEq, Eq, Default)]
pub struct Tables {
    pub legs: Vec<u32>,
    pub configurations: Vec<u32>,
    pub profiles: Vec<u32>,
    pub samples: Vec<i32>,
    pub constraints: Vec<u32>,
    pub tracks: Vec<u32>,
    pub choices: Vec<u32>,
    pub second_choices: Vec<u32>,
}

impl Tables {
    /// The tables of the files and one solution.
    pub fn of(files: &Files, solution: &[Leg]) -> Tables {
        let mut tables = Tables::default();
        tables.add_legs(&files.legs);
        tables.add_profiles(&files.profiles);
        tables.add_constraints(&files.constraints);
        tables.choices = choices(solution);
        tables
    }

    /// "Leg: five ids in file order, first configuration, count, place of the nominal in the list
    /// (lowest match). Configuration: d, t, p."
    fn add_legs(&mut self, legs: &[Leg]) {
        let mut first = 0;
        for leg in legs {
            let nominal = leg.list.iter().position(|entry| *entry == leg.nominal).unwrap_or(0);
            self.legs.extend(leg.ids);
            self.legs.extend([first, leg.list.len() as u32, nominal as u32]);
            for entry in &leg.list {
                self.configurations.extend(three(entry));
            }
            first += leg.list.len() as u32;
        }
    }

    /// "Profile: id, first sample, count. Sample: signed kW."
    fn add_profiles(&mut self, profiles: &[Profile]) {
        let mut first = 0;
        for profile in profiles {
            let count = profile.samples.len() as u32;
            self.profiles.extend([profile.id, first, count]);
            self.samples.extend(&profile.samples);
            first += count;
        }
    }

    /// The constraints "ordered by kind and then by file"; the tracks in file order.
    fn add_constraints(&mut self, constraints: &Constraints) {
        for (_, c) in constraints.in_order() {
            self.constraints.extend([c.kind, c.first, c.second, c.low, c.high, c.anchor]);
        }
        for track in &constraints.tracks {
            self.tracks.extend([track.id, track.subnet]);
        }
    }
}

/// "Choice: d, t, p."
pub fn choices(solution: &[Leg]) -> Vec<u32> {
    solution.iter().flat_map(|leg| three(&leg.nominal)).collect()
}

/// The three numbers of a configuration.
fn three(configuration: &Configuration) -> [u32; 3] {
    [configuration.departure, configuration.travel, configuration.profile]
}
