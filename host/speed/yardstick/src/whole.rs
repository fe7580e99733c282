//! The stages one after the other, in document 01's order.

use crate::constraints::Counts;
use crate::energy::Figures;
use crate::ids::Rows;
use crate::verdict::{verdict, Violation};
use crate::{constraints, energy, profiles, solution, timetable, Said, CONFIGURATION, CONSTRAINT, LEG, PROFILE, TRACK};
use std::collections::HashMap;

/// The texts of a check.
#[derive(Clone, Copy)]
pub struct Texts<'a> {
    pub timetable: &'a [u8],
    pub profiles: &'a [u8],
    pub constraints: &'a [u8],
    pub solution: &'a [u8],
}

/// The file at which it stopped, by document 01's number.
#[derive(Clone, Copy, Debug, PartialEq, Eq)]
pub struct Stopped(pub u8);

/// The tables, with all the room that a text may need.
pub struct Tables {
    pub legs: Vec<u32>,
    pub configurations: Vec<u32>,
    pub profiles: Vec<u32>,
    pub samples: Vec<i32>,
    pub constraints: Vec<u32>,
    pub tracks: Vec<u32>,
    pub choices: Vec<u32>,
    pub curves: Vec<i32>,
    ids: Vec<u32>,
    subnets: Vec<u32>,
}

impl Tables {
    /// With room for so many numbers in each table, in document 01's order, the curves last.
    pub fn new(rooms: [usize; 8]) -> Tables {
        let [legs, configurations, profiles, samples, constraints, tracks, choices, curves] = rooms;
        Tables {
            legs: vec![0; legs],
            configurations: vec![0; configurations],
            profiles: vec![0; profiles],
            samples: vec![0; samples],
            constraints: vec![0; constraints],
            tracks: vec![0; tracks],
            choices: vec![0; choices],
            curves: vec![0; curves],
            ids: Vec::new(),
            subnets: Vec::new(),
        }
    }

    /// The first violation, if there is one.
    pub fn check(&mut self, h: u32, texts: &Texts) -> Result<Option<Violation>, Stopped> {
        Ok(self.read(h, texts)?.1)
    }

    /// The figures of an accepted solution.
    pub fn energy(&mut self, h: u32, texts: &Texts) -> Result<Option<Figures>, Stopped> {
        let (counts, violation) = self.read(h, texts)?;
        if violation.is_some() {
            return Ok(None);
        }
        let tables = energy::Tables {
            choices: &self.choices[..counts.legs * CONFIGURATION],
            profiles: &self.profiles,
            samples: &self.samples,
            subnets: &self.subnets,
        };
        let mut rows = Rows::new(&self.profiles, PROFILE, counts.profiles);
        let figures = energy::energy(h as usize, counts.constraints.subnets, &tables, &mut rows, &mut self.curves);
        figures.map(Some).ok_or(Stopped(0))
    }

    fn read(&mut self, h: u32, texts: &Texts) -> Result<(Read, Option<Violation>), Stopped> {
        let (legs, _) = counted(timetable::read(texts.timetable, h, &mut self.legs, &mut self.configurations), 1)?;
        let (profiles, _) = counted(profiles::read(texts.profiles, &mut self.profiles, &mut self.samples), 2)?;
        self.profiles_of_legs(legs, profiles).ok_or(Stopped(1))?;
        let mut rows = Rows::new(&self.legs, LEG, legs);
        let constraints = constraints::read(texts.constraints, &mut rows, &mut self.constraints, &mut self.tracks).ok_or(Stopped(3))?;
        self.subnets_of_legs(legs, constraints.tracks).ok_or(Stopped(1))?;
        counted(solution::read(texts.solution, h, &mut self.choices, &mut self.ids), 4)?;
        if !solution::agrees(&self.ids, &self.legs, legs) {
            return Err(Stopped(4));
        }
        let records = &self.constraints[..constraints.constraints * CONSTRAINT];
        let violation = verdict(&self.legs[..legs * LEG], &self.configurations, records, &self.choices[..legs * CONFIGURATION]);
        Ok((Read { legs, profiles, constraints }, violation))
    }

    /// Every entry's profile is there and has as many samples as the entry has seconds.
    fn profiles_of_legs(&self, legs: usize, profiles: usize) -> Option<()> {
        let mut rows = Rows::new(&self.profiles, PROFILE, profiles);
        let entries = self.legs[..legs * LEG].chunks_exact(LEG).last().map_or(0, |leg| (leg[5] + leg[6]) as usize);
        let mut good = (0, 0);
        for entry in self.configurations[..entries * CONFIGURATION].chunks_exact(CONFIGURATION) {
            if (entry[1], entry[2]) != good {
                let row = rows.of(entry[2])? as usize;
                if self.profiles[row * PROFILE + 2] != entry[1] {
                    return None;
                }
                good = (entry[1], entry[2]);
            }
        }
        Some(())
    }

    fn subnets_of_legs(&mut self, legs: usize, tracks: usize) -> Option<()> {
        let places: HashMap<u32, u32> = self.tracks[..tracks * TRACK].chunks_exact(TRACK).map(|track| (track[0], track[1])).collect();
        self.subnets.clear();
        for leg in self.legs[..legs * LEG].chunks_exact(LEG) {
            self.subnets.push(*places.get(&leg[2])?);
        }
        Some(())
    }
}

struct Read {
    legs: usize,
    profiles: usize,
    constraints: Counts,
}

fn counted(said: Said, file: u8) -> Result<(usize, usize), Stopped> {
    match said {
        Said::Read(rows, entries) => Ok((rows as usize, entries as usize)),
        Said::Refused(..) => Err(Stopped(file)),
    }
}
