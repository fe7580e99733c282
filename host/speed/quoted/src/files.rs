//! What is read: drafts, solutions and profiles of short rows and of long lists, plain and as a spreadsheet exports them.

use instances::exported;
use std::fmt::Write;

pub const H: u32 = 86_400;

/// How long the rows are.
#[derive(Clone, Copy, Debug, PartialEq, Eq)]
pub enum Rows {
    Short,
    Long,
}

pub const ROWS: [(Rows, &str); 2] = [(Rows::Short, "short rows"), (Rows::Long, "long lists")];

#[derive(Clone, Copy, Debug, PartialEq, Eq)]
pub enum Spelling {
    Plain,
    Quoted,
}

pub const SPELLINGS: [Spelling; 2] = [Spelling::Plain, Spelling::Quoted];

/// The rows of a timetable, and the entries of each list.
pub fn timetable_size(rows: Rows) -> (u32, u32) {
    match rows {
        Rows::Short => (10_000, 2),
        Rows::Long => (4_000, 60),
    }
}

/// The rows of profiles, and the samples of each.
pub fn profiles_size(rows: Rows) -> (u32, u32) {
    match rows {
        Rows::Short => (16_000, 4),
        Rows::Long => (500, 400),
    }
}

/// The profiles that the timetables name: from this id on so many, the first with so many samples, each other one with one more.
const FIRST_ID: u32 = 1_000;
const NAMED: u32 = 50;
const LEAST_TRAVEL: u32 = 80;

const TIMETABLE: &str =
    "leg_id,train_id,track_id,start_station_id,end_station_id,nominal_departure_configuration,departure_configurations\n";
const PROFILES: &str = "profile_id,power_consumptions\n";

pub const CONSTRAINTS: &str = "{\"headway_time_constraints\": [], \"single_track_headway_constraints\": [], \"dwell_time_constraints\": [], \
\"terminal_turnaround_constraints\": [], \"connection_constraints\": [], \"recuperation_subnets\": [{\"subnet_id\": 1, \"track_ids\": [117]}]}";

/// The texts of one length and one spelling.
pub struct Files {
    pub draft: String,
    /// The draft's rows with another choice.
    pub solution: String,
    /// The profiles that they name.
    pub named: String,
    pub no_legs: String,
    /// Profiles to be read for themselves.
    pub profiles: String,
}

impl Files {
    pub fn new(rows: Rows, spelling: Spelling) -> Files {
        let (profiles, samples) = profiles_size(rows);
        let plain = [
            timetable(rows, 0),
            timetable(rows, 1),
            profiles_of((FIRST_ID..FIRST_ID + NAMED).zip(LEAST_TRAVEL..)),
            String::from(TIMETABLE),
            profiles_of((1..=profiles).map(|id| (id, samples))),
        ];
        let [draft, solution, named, no_legs, profiles] = plain.map(|text| match spelling {
            Spelling::Plain => text,
            Spelling::Quoted => exported(&text),
        });
        Files { draft, solution, named, no_legs, profiles }
    }
}

/// The nominal of each row is this entry of its list.
fn timetable(rows: Rows, nominal: u32) -> String {
    let (legs, entries) = timetable_size(rows);
    let mut text = String::from(TIMETABLE);
    for leg in 0..legs {
        let entry = |place: u32| {
            let number = leg * 7 + place;
            let profile = number % NAMED;
            format!("{}_{}_{}", 14_000 + number % 60_000, LEAST_TRAVEL + profile, FIRST_ID + profile)
        };
        let list: Vec<String> = (0..entries).map(entry).collect();
        let (id, train, start, end) = (leg + 1, 1 + leg / 25, 1 + leg % 200, 1 + (leg + 1) % 200);
        let _ = writeln!(text, "{id},{train},117,{start},{end},{},{}", entry(nominal), list.join(" "));
    }
    text
}

/// Profiles by their ids and how many samples each has; some samples are below zero, and they have one to three digits past the point.
fn profiles_of(counted: impl Iterator<Item = (u32, u32)>) -> String {
    let mut text = String::from(PROFILES);
    for (id, count) in counted {
        let sample = |second: u32| {
            let kw = (id * 31 + second * 137) % 3_000;
            let sign = if second % 5 == 4 { "-" } else { "" };
            let thousandths = format!("{:03}", kw % 1_000);
            format!("{sign}{}.{}", kw / 1_000, &thousandths[..1 + second as usize % 3])
        };
        let samples: Vec<String> = (0..count).map(sample).collect();
        let _ = writeln!(text, "{id},{}", samples.join(" "));
    }
    text
}
