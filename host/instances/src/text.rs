//! A plan as texts, in the layouts of document 000.

use crate::plan::{Leg, Offer, Plan, Record};
use std::fmt::Write;
use std::slice;

const TIMETABLE: &str =
    "leg_id,train_id,track_id,start_station_id,end_station_id,nominal_departure_configuration,departure_configurations\n";
const PROFILES: &str = "profile_id,power_consumptions\n";
const INDENT: &str = "    ";

pub const LISTS: [&str; 5] = [
    "headway_time_constraints",
    "single_track_headway_constraints",
    "dwell_time_constraints",
    "terminal_turnaround_constraints",
    "connection_constraints",
];

/// A CSV text as a spreadsheet exports it: every field in quotes, CR LF at every line.
pub fn exported(text: &str) -> String {
    let mut written = String::with_capacity(text.len() + text.len() / 4);
    for line in text.lines() {
        for (place, field) in line.split(',').enumerate() {
            written.push_str(if place > 0 { ",\"" } else { "\"" });
            written.push_str(field);
            written.push('"');
        }
        written.push_str("\r\n");
    }
    written
}

/// The constraints with each member and each element on a line of its own, as many programs write JSON. Their strings have no blanks, brackets or commas.
pub fn indented(text: &str) -> String {
    let mut written = String::with_capacity(2 * text.len());
    let (mut depth, mut last) = (0, ' ');
    for sign in text.chars().filter(|sign| !sign.is_whitespace()) {
        let closes = matches!(sign, '}' | ']');
        depth -= usize::from(closes);
        // Behind an opening bracket or a comma, and before a closing bracket; nothing that is empty is opened.
        if matches!(last, '{' | '[' | ',') != closes {
            written.push('\n');
            written.push_str(&INDENT.repeat(depth));
        }
        written.push(sign);
        written.push_str(if sign == ':' { " " } else { "" });
        depth += usize::from(matches!(sign, '{' | '['));
        last = sign;
    }
    written.push('\n');
    written
}

/// Writing to a string cannot fail.
macro_rules! put {
    ($text:expr, $($what:tt)*) => {
        let _ = write!($text, $($what)*);
    };
}

impl Plan {
    /// The draft; as a solution it is the nominal one.
    pub fn timetable(&self) -> String {
        let nominal: Vec<Offer> = self.legs.iter().map(|leg| leg.nominal).collect();
        self.solution(&nominal)
    }

    /// The draft's rows with these choices.
    pub fn solution(&self, choices: &[Offer]) -> String {
        self.rows(choices, |leg, _| &leg.offers)
    }

    /// The same, but each list is the choice alone.
    pub fn solution_of_choices(&self, choices: &[Offer]) -> String {
        self.rows(choices, |_, choice| slice::from_ref(choice))
    }

    fn rows<'a>(&'a self, choices: &'a [Offer], list: fn(&'a Leg, &'a Offer) -> &'a [Offer]) -> String {
        let mut text = String::from(TIMETABLE);
        for (leg, choice) in self.legs.iter().zip(choices) {
            row(&mut text, leg, *choice, list(leg, choice));
        }
        text
    }

    pub fn profiles_text(&self) -> String {
        let mut text = String::from(PROFILES);
        for (id, samples) in &self.profiles {
            put!(text, "{id},");
            for (place, kw) in samples.iter().enumerate() {
                if place > 0 {
                    text.push(' ');
                }
                megawatts(&mut text, *kw);
            }
            text.push('\n');
        }
        text
    }

    pub fn constraints(&self) -> String {
        self.constraints_of(&self.records)
    }

    /// The plan's own lists, or others in their place.
    pub fn constraints_of(&self, records: &[Vec<Record>; 5]) -> String {
        let mut text = String::from("{");
        for ((kind, list), name) in (1..).zip(records).zip(LISTS) {
            put!(text, "\"{name}\": [");
            for (place, record) in list.iter().enumerate() {
                text.push_str(if place > 0 { ", " } else { "" });
                self.record(&mut text, kind, record);
            }
            text.push_str("], ");
        }
        text.push_str("\"recuperation_subnets\": [");
        for (place, tracks) in self.subnets.iter().enumerate() {
            let tracks: Vec<String> = tracks.iter().map(u32::to_string).collect();
            let comma = if place > 0 { ", " } else { "" };
            put!(text, "{comma}{{\"subnet_id\": {}, \"track_ids\": [{}]}}", place + 1, tracks.join(", "));
        }
        text.push_str("]}\n");
        text
    }

    fn record(&self, text: &mut String, kind: usize, record: &Record) {
        let (first, second) = (self.legs[record.first].id, self.legs[record.second].id);
        put!(text, "{{\"first_leg_id\": {first}, \"second_leg_id\": {second}");
        match kind {
            1 => put_seconds(text, "min_headway_time", record.low),
            2 => {}
            3 => put_seconds(text, "min_dwell_time", record.low),
            4 => put_seconds(text, self.edition().turnaround_key(), record.low),
            _ => {
                put_seconds(text, "min_connection_time", record.low);
                put_seconds(text, "max_connection_time", record.high);
                let from = if record.by_arrival { "arrival" } else { "departure" };
                put!(text, ", \"connection_type\": \"{from}_to_departure\"");
            }
        }
        text.push('}');
    }
}

fn put_seconds(text: &mut String, key: &str, seconds: u32) {
    put!(text, ", \"{key}\": {seconds}");
}

pub fn row(text: &mut String, leg: &Leg, choice: Offer, offers: &[Offer]) {
    put!(text, "{},{},{},{},{},", leg.id, leg.train, leg.track, leg.start, leg.end);
    configuration(text, choice);
    for (place, offer) in offers.iter().enumerate() {
        text.push(if place > 0 { ' ' } else { ',' });
        configuration(text, *offer);
    }
    text.push('\n');
}

fn configuration(text: &mut String, offer: Offer) {
    put!(text, "{}_{}_{}", offer.departure, offer.travel, offer.profile);
}

/// Up to three digits past the point, no needless zero at the end.
fn megawatts(text: &mut String, kw: i32) {
    let sign = if kw < 0 { "-" } else { "" };
    let (whole, thousandths) = (kw.unsigned_abs() / 1_000, kw.unsigned_abs() % 1_000);
    let digits = format!("{thousandths:03}");
    let digits = digits.trim_end_matches('0');
    put!(text, "{sign}{whole}.{}", if digits.is_empty() { "0" } else { digits });
}

#[cfg(test)]
mod tests {
    #[test]
    fn every_field_is_exported_in_quotes() {
        assert_eq!(super::exported("a,b\n1,2 3\n"), "\"a\",\"b\"\r\n\"1\",\"2 3\"\r\n");
    }

    #[test]
    fn every_member_is_indented_on_a_line() {
        let lines = ["{", "    \"a\": [],", "    \"b\": [", "        1,", "        2", "    ]", "}", ""];
        assert_eq!(super::indented("{\"a\": [], \"b\": [1, 2]}\n"), lines.join("\n"));
    }

    #[test]
    fn samples_are_spelled_short() {
        let spelled: Vec<String> = [0, 5, -400, 1_000, 12_340, -20_000]
            .into_iter()
            .map(|kw| {
                let mut text = String::new();
                super::megawatts(&mut text, kw);
                text
            })
            .collect();
        assert_eq!(spelled, ["0.0", "0.005", "-0.4", "1.0", "12.34", "-20.0"]);
    }
}
