//! Texts of the shape and size of the largest underground instance, made from a seed.

use std::fmt::Write;

pub const H: u32 = 86_400;
const ROWS: u32 = 32_000;
const PROFILES: u32 = 16_384;

/// xorshift: the same numbers for the same seed, everywhere.
pub struct Dice(u64);

impl Dice {
    pub fn new(seed: u64) -> Dice {
        Dice(seed.wrapping_mul(0x9e37_79b9_7f4a_7c15) | 1)
    }

    fn next(&mut self) -> u64 {
        self.0 ^= self.0 << 13;
        self.0 ^= self.0 >> 7;
        self.0 ^= self.0 << 17;
        self.0 >> 11
    }

    pub fn below(&mut self, n: u32) -> u32 {
        (self.next() % u64::from(n)) as u32
    }

    fn between(&mut self, least: u32, most: u32) -> u32 {
        least + self.below(most - least + 1)
    }
}

/// A draft, and a solution to it: the same rows with other nominals.
pub struct Timetables {
    pub draft: String,
    pub solution: String,
}

type Entry = (u32, u32, u32);

/// How the numbers of a list come.
#[derive(Clone, Copy)]
pub enum Lists {
    /// As in the instances: some departures in a row, each with its travel times.
    Regular,
    /// No number says how long the next one is.
    Random,
}

fn list(dice: &mut Dice, lists: Lists) -> Vec<Entry> {
    match lists {
        Lists::Regular => {
            let first = dice.between(14_000, 80_000);
            let quickest = dice.between(50, 240);
            let profiles: Vec<u32> = (0..4).map(|_| dice.between(1, 9_999)).collect();
            let travels = dice.between(1, 4);
            let mut entries = Vec::new();
            for departure in 0..dice.between(1, 14) {
                for travel in 0..travels {
                    entries.push((first + 5 * departure, quickest + 4 * travel, profiles[travel as usize]));
                }
            }
            entries
        }
        Lists::Random => (0..dice.between(1, 37)).map(|_| (any(dice, 5).min(80_000), any(dice, 3).max(10), any(dice, 4))).collect(),
    }
}

/// A number of one to so many digits, each length as likely as the others.
fn any(dice: &mut Dice, digits: u32) -> u32 {
    let most = 10u32.pow(dice.between(1, digits));
    dice.between(most / 10, most - 1)
}

fn row(text: &mut String, ids: &[u32; 5], nominal: Entry, list: &str) {
    for id in ids {
        write!(text, "{id},").unwrap();
    }
    let (d, t, p) = nominal;
    writeln!(text, "{d}_{t}_{p},{list}").unwrap();
}

pub fn timetables(seed: u64, lists: Lists) -> Timetables {
    let header = "leg_id,train_id,track_id,start_station_id,end_station_id,nominal_departure_configuration,departure_configurations\n";
    let mut dice = Dice::new(seed);
    let mut made = Timetables { draft: header.to_string(), solution: header.to_string() };
    let mut station = 1;
    for leg in 1..=ROWS {
        let entries = list(&mut dice, lists);
        let spelled: Vec<String> = entries.iter().map(|(d, t, p)| format!("{d}_{t}_{p}")).collect();
        let spelled = spelled.join(" ");
        let next = dice.between(1, 200);
        let ids = [leg, 1 + leg / 25, dice.between(1, 600), station, next];
        station = next;
        let mut some = || entries[dice.below(entries.len() as u32) as usize];
        row(&mut made.draft, &ids, some(), &spelled);
        row(&mut made.solution, &ids, some(), &spelled);
    }
    made
}

/// As many profiles as there may be, with some 1,000,000 samples of up to three digits past the point, no needless zero at their end.
pub fn profiles(seed: u64) -> String {
    let mut dice = Dice::new(seed);
    let mut text = String::from("profile_id,power_consumptions\n");
    for id in 1..=PROFILES {
        write!(text, "{id},").unwrap();
        let mut kw: i64 = 200;
        for sample in 0..dice.between(40, 82) {
            if sample > 0 {
                text.push(' ');
            }
            kw = (kw + i64::from(dice.below(801)) - 390).clamp(-4_000, 6_000);
            let mut spelled = format!("{}{}.{:03}", if kw < 0 { "-" } else { "" }, kw.abs() / 1_000, kw.abs() % 1_000);
            while spelled.ends_with('0') && !spelled.ends_with(".0") {
                spelled.pop();
            }
            text.push_str(&spelled);
        }
        text.push('\n');
    }
    text
}
