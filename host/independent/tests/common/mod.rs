//! Document 01's worked example, and short words for the tests.
#![allow(dead_code)]

use independent::{check, energy, merge, Answer, Checked, Direction, Merged, Report, Rooms, Stated};

pub const TIMETABLE_HEADER: &str =
    "leg_id,train_id,track_id,start_station_id,end_station_id,nominal_departure_configuration,departure_configurations\n";
pub const PROFILES_HEADER: &str = "profile_id,power_consumptions\n";
pub const ROW_1: &str = "1,1,1,1,2,10_4_7,10_4_7 15_4_7\n";
pub const ROW_2: &str = "2,1,2,2,3,40_3_8,40_3_8 45_3_8\n";

/// H, the edition, the four texts, a second solution, and the lent room.
#[derive(Clone)]
pub struct Texts {
    pub h: u32,
    pub edition: u32,
    pub timetable: Vec<u8>,
    pub profiles: Vec<u8>,
    pub constraints: Vec<u8>,
    pub solution: Vec<u8>,
    pub second: Vec<u8>,
    pub rooms: Rooms,
}

/// The worked example with its nominal choices.
pub fn example() -> Texts {
    let timetable = timetable(&[ROW_1, ROW_2]);
    Texts {
        h: 100,
        edition: 2,
        profiles: profiles(&["7,0.5 1.0 0.25 -0.4\n", "8,0.3 0.0 -0.2\n"]),
        constraints: lists(&[dwell(20), subnet_of_both()]),
        solution: timetable.clone(),
        second: timetable.clone(),
        timetable,
        rooms: Rooms::all(4_000_000),
    }
}

pub fn timetable(rows: &[&str]) -> Vec<u8> {
    format!("{TIMETABLE_HEADER}{}", rows.concat()).into_bytes()
}

pub fn profiles(rows: &[&str]) -> Vec<u8> {
    format!("{PROFILES_HEADER}{}", rows.concat()).into_bytes()
}

/// A list's name and its records.
pub type List = (&'static str, String);

pub fn dwell(seconds: u32) -> List {
    let record = format!("{{\"first_leg_id\":1,\"second_leg_id\":2,\"min_dwell_time\":{seconds}}}");
    ("dwell_time_constraints", record)
}

pub fn subnet_of_both() -> List {
    ("recuperation_subnets", String::from("{\"subnet_id\":1,\"track_ids\":[1,2]}"))
}

pub fn list(name: &'static str, records: &str) -> List {
    (name, records.to_string())
}

/// The text with the lists given, and the others empty, in the table's order.
pub fn lists(given: &[List]) -> Vec<u8> {
    let names = [
        "headway_time_constraints",
        "single_track_headway_constraints",
        "dwell_time_constraints",
        "terminal_turnaround_constraints",
        "connection_constraints",
        "recuperation_subnets",
    ];
    let members: Vec<String> = names
        .iter()
        .map(|name| {
            let records = given.iter().find(|list| list.0 == *name).map_or("", |list| &list.1);
            format!("\"{name}\":[{records}]")
        })
        .collect();
    format!("{{{}}}", members.join(",")).into_bytes()
}

/// The example's solution with these departures.
pub fn departures(first: u32, second: u32) -> Vec<u8> {
    timetable(&[&format!("1,1,1,1,2,{first}_4_7,10_4_7 15_4_7\n"), &format!("2,1,2,2,3,{second}_3_8,40_3_8 45_3_8\n")])
}

impl Texts {
    fn stated(&self) -> Stated {
        Stated { horizon: self.h, edition: self.edition }
    }

    pub fn checked(&self) -> Checked {
        check(self.stated(), &self.timetable, &self.profiles, &self.constraints, &self.solution, &self.rooms)
    }

    pub fn answer(&self) -> Answer {
        self.checked().answer
    }

    pub fn report(&self) -> Report {
        energy(self.stated(), &self.timetable, &self.profiles, &self.constraints, &self.solution, &self.rooms)
    }

    pub fn merged(&self, direction: Direction) -> Merged {
        merge(direction, self.stated(), &self.timetable, &self.profiles, &self.constraints, &self.solution, &self.second, &self.rooms)
    }

    /// The same with other constraints.
    pub fn with_constraints(&self, text: &[u8]) -> Texts {
        Texts { constraints: text.to_vec(), ..self.clone() }
    }

    /// The same with another draft, which is also the solution.
    pub fn with_draft(&self, text: &[u8]) -> Texts {
        Texts { timetable: text.to_vec(), solution: text.to_vec(), ..self.clone() }
    }

    pub fn with_profiles(&self, text: &[u8]) -> Texts {
        Texts { profiles: text.to_vec(), ..self.clone() }
    }

    pub fn with_solution(&self, text: &[u8]) -> Texts {
        Texts { solution: text.to_vec(), ..self.clone() }
    }

    pub fn with_second(&self, text: &[u8]) -> Texts {
        Texts { second: text.to_vec(), ..self.clone() }
    }
}

pub fn refused(number: u32, file: u32, place: usize) -> Answer {
    Answer::Refused { number, file, place }
}

pub fn violated(kind: u32, position: usize, inequality: u32, shortfall: i64) -> Answer {
    Answer::Violated { kind, position, inequality, shortfall, file: 4 }
}

/// The place of the part in the text; the part must be there once.
pub fn place_of(text: &[u8], part: &str) -> usize {
    let text = std::str::from_utf8(text).unwrap();
    assert_eq!(text.matches(part).count(), 1, "{part} in {text}");
    text.find(part).unwrap()
}
