//! The limits that want large texts, each at its edge and past it.

use crate::executor::{compared, Executor};
use cases::duties::{self, Row};
use cases::examples::worked;
use cases::spelling::exported;
use independent::{Call, Case, Entry, Rooms};

// Document 01, "Sizes".
const TEXT: usize = 67_108_864;
const LEGS: usize = 32_768;
const LISTED: usize = 64;
const CONFIGURATIONS: usize = 1_048_576;
const PROFILES: usize = 16_384;
const SAMPLED: usize = 3_600;
const SAMPLES: usize = 1_048_576;
const CONSTRAINTS: usize = 65_536;
const TRACKS: usize = 4_096;
const LONGEST_HORIZON: u32 = 176_400;

// Document 02, E13.
const DUTY_ROWS: usize = 8_192;
const NODES: usize = 1_024;
const LONGEST_NAME: usize = 32;
const LAST_SECOND: u32 = 863_999;

/// The least numbers with as many digits as an id, a departure and a travel time may have.
const LONG_ID: usize = 100_000_000;
const LONG_DEPARTURE: usize = 100_000;
const LONG_TRAVEL: usize = 1_000;

/// The texts of a case by their places.
const TIMETABLE: usize = 0;
const PROFILE_TEXT: usize = 1;
const CONSTRAINT_TEXT: usize = 2;
const SOLUTION: usize = 3;
const SECOND: usize = 4;

/// Compares each edge, and tells the answers.
pub fn compare(executor: &dyn Executor) -> Result<String, String> {
    let mut told = String::new();
    for edge in edges() {
        for past in [0, 1] {
            let call = (edge.call)(past);
            let which = if past == 0 { "the most" } else { "one more" };
            let (answer, difference) = compared(&call, executor)?;
            if let Some(lines) = difference {
                return Err(format!("{}, {which}\n{lines}", edge.name));
            }
            told.push_str(&format!("{}, {which}: {answer}\n", edge.name));
        }
    }
    executor.end()?;
    told.push_str(&format!("{} large calls compared, no difference\n", 2 * edges().len()));
    Ok(told)
}

/// A limit, and a call so far past it. Calls are made one at a time, since they are large.
struct Edge {
    name: &'static str,
    call: fn(usize) -> Call,
}

fn edges() -> Vec<Edge> {
    let edge = |name, call: fn(usize) -> Call| Edge { name, call };
    vec![
        edge("bytes of a timetable", |past| example(Entry::Check, TIMETABLE, vec![b'x'; TEXT + past])),
        edge("bytes of profiles", |past| example(Entry::Check, PROFILE_TEXT, vec![b'x'; TEXT + past])),
        edge("bytes of constraints", |past| padded(TEXT + past)),
        edge("bytes of a solution", |past| example(Entry::Check, SOLUTION, vec![b'x'; TEXT + past])),
        edge("bytes of a second solution", |past| example(Entry::MergeLater, SECOND, vec![b'x'; TEXT + past])),
        edge("legs", |past| drafted(LEGS + past, 1)),
        edge("legs of a solution", |past| solved(Entry::Check, LEGS, LEGS + past)),
        edge("legs of a second solution", |past| solved(Entry::MergeEarlier, LEGS, LEGS + past)),
        edge("configurations", |past| listed(CONFIGURATIONS / LISTED, past)),
        edge("legs and configurations in quotes", longest),
        edge("profiles", |past| example(Entry::Check, PROFILE_TEXT, profiles(&[1].repeat(PROFILES - 2 + past)))),
        edge("samples", |past| example(Entry::Check, PROFILE_TEXT, sampled(SAMPLES + past))),
        edge("constraints", |past| constrained(CONSTRAINTS + past)),
        edge("tests", |past| tested(CONSTRAINTS + past)),
        edge("tracks", |past| tracked(TRACKS + past)),
        edge("bytes of duties", |past| of_duties(vec![b'x'; TEXT + past])),
        edge("rows of duties", |past| of_duties(plain_duties(DUTY_ROWS + past))),
        edge("rows of one duty, of the longest names, in quotes", |past| of_duties(longest_duty(DUTY_ROWS + past))),
        edge("nodes", |past| of_duties(with_nodes(NODES + past))),
        edge("nodes and rows of duties", |past| of_duties(with_both(past))),
    ]
}

/// Room for everything within the sizes, and no more.
fn rooms() -> Rooms {
    Rooms {
        legs: LEGS * 8,
        configurations: CONFIGURATIONS * 3,
        profiles: PROFILES * 3,
        samples: SAMPLES,
        constraints: CONSTRAINTS * 6,
        tracks: TRACKS * 2,
        choices: LEGS * 3,
        second_choices: LEGS * 3,
        curves: 0,
        text: 1 << 21,
    }
}

/// The worked example with another text in one place.
fn example(entry: Entry, place: usize, text: Vec<u8>) -> Call {
    let nominal = worked().remove(0).call.case;
    let mut case = Case { rooms: rooms(), ..nominal };
    case.texts[place] = text;
    Call::of(entry, case)
}

/// The example's constraints with white space up to a length.
fn padded(length: usize) -> Call {
    let mut text = worked().remove(0).call.case.texts[CONSTRAINT_TEXT].clone();
    text.resize(length, b' ');
    example(Entry::Check, CONSTRAINT_TEXT, text)
}

const HEADER: &str = "leg_id,train_id,track_id,start_station_id,end_station_id,nominal_departure_configuration,departure_configurations\n";

/// So many rows, with so many entries in the list of each.
fn rows(legs: usize, entries: usize) -> String {
    let list = vec!["10_4_7"; entries].join(" ");
    let row = |leg: usize| format!("{},1,1,1,2,10_4_7,{list}\n", leg + 1);
    (0..legs).map(row).fold(String::from(HEADER), |text, row| text + &row)
}

/// A draft of so many rows as its own solution, without a constraint.
fn drafted(legs: usize, entries: usize) -> Call {
    solved_by(Entry::Check, &rows(legs, entries), &rows(legs, entries))
}

fn solved(entry: Entry, legs: usize, chosen: usize) -> Call {
    solved_by(entry, &rows(legs, 1), &rows(chosen, 1))
}

/// The last solution that the entry takes is `last`; the first of two is the draft.
fn solved_by(entry: Entry, draft: &str, last: &str) -> Call {
    let mut call = example(entry, CONSTRAINT_TEXT, constraints("", "", "1"));
    call.case.texts[TIMETABLE] = draft.as_bytes().to_vec();
    call.case.texts[SOLUTION] = draft.as_bytes().to_vec();
    let place = if entry == Entry::Check { SOLUTION } else { SECOND };
    call.case.texts[place] = last.as_bytes().to_vec();
    call
}

/// Lists of the most entries, and so many rows of one entry after them.
fn listed(legs: usize, more: usize) -> Call {
    let mut draft = rows(legs, LISTED);
    for leg in 0..more {
        draft.push_str(&format!("{},1,1,1,2,10_4_7,10_4_7\n", legs + leg + 1));
    }
    solved_by(Entry::Check, &draft, &draft)
}

/// The longest legal timetable as its own solution: as many legs and configurations as there may be, in the longest numbers, as a spreadsheet exports it; and so
/// many rows more.
fn longest(more: usize) -> Call {
    let configuration = format!("{LONG_DEPARTURE}_{LONG_TRAVEL}_{LONG_ID}");
    let list = vec![configuration.as_str(); CONFIGURATIONS / LEGS].join(" ");
    let row = |leg: usize| format!("{leg},{LONG_ID},{LONG_ID},{LONG_ID},{LONG_ID},{configuration},{list}\n");
    let plain = (LONG_ID..LONG_ID + LEGS + more).map(row).fold(String::from(HEADER), |text, row| text + &row);
    let mut call = example(Entry::Check, CONSTRAINT_TEXT, constraints("", "", &LONG_ID.to_string()));
    call.case.h = LONGEST_HORIZON;
    call.case.texts[TIMETABLE] = exported(plain.as_bytes());
    call.case.texts[SOLUTION] = call.case.texts[TIMETABLE].clone();
    call.case.texts[PROFILE_TEXT] =
        format!("profile_id,power_consumptions\n{LONG_ID},{}\n", vec!["0.1"; LONG_TRAVEL].join(" ")).into_bytes();
    call
}

/// The example's two profiles, and one more of so many samples for each length.
fn profiles(lengths: &[usize]) -> Vec<u8> {
    let mut text = String::from("profile_id,power_consumptions\n7,0.5 1.0 0.25 -0.4\n8,0.3 0.0 -0.2\n");
    for (place, length) in lengths.iter().enumerate() {
        text.push_str(&format!("{},{}\n", 100 + place, vec!["0.1"; *length].join(" ")));
    }
    text.into_bytes()
}

/// So many samples in all, of which the example has seven.
fn sampled(samples: usize) -> Vec<u8> {
    let more = samples - 7;
    let mut lengths = vec![SAMPLED; more / SAMPLED];
    lengths.push(more % SAMPLED);
    profiles(&lengths)
}

/// Headways, single-track headways, and tracks of one subnet.
fn constraints(headways: &str, single_track: &str, tracks: &str) -> Vec<u8> {
    format!(
        r#"{{"headway_time_constraints": [{headways}], "single_track_headway_constraints": [{single_track}], "dwell_time_constraints": [],
"terminal_turnaround_constraints": [], "connection_constraints": [], "recuperation_subnets": [{{"subnet_id": 1, "track_ids": [{tracks}]}}]}}
"#
    )
    .into_bytes()
}

fn constrained(records: usize) -> Call {
    let records = vec![r#"{"first_leg_id": 1, "second_leg_id": 2}"#; records].join(",\n");
    example(Entry::Check, CONSTRAINT_TEXT, constraints("", &records, "1, 2"))
}

/// The most legs, and so many records of two inequalities each, all of which hold.
fn tested(records: usize) -> Call {
    let records = vec![r#"{"first_leg_id": 1, "second_leg_id": 1, "min_headway_time": 0}"#; records].join(",\n");
    let mut call = drafted(LEGS, 1);
    call.case.texts[CONSTRAINT_TEXT] = constraints(&records, "", "1");
    call
}

fn tracked(tracks: usize) -> Call {
    let tracks: Vec<String> = (1..=tracks).map(|track| track.to_string()).collect();
    example(Entry::Check, CONSTRAINT_TEXT, constraints("", "", &tracks.join(", ")))
}

/// Duties with room for the most nodes.
fn of_duties(text: Vec<u8>) -> Call {
    Call::of(Entry::Duties, duties::case(text, NODES * duties::NODE, NODES))
}

fn text_of(rows: Vec<Row>) -> Vec<u8> {
    duties::Plan::of(rows).text()
}

/// A name of the most bytes; its last ones are those of the number.
fn long_name(first: char, number: usize) -> String {
    format!("{first}{number:0width$}", width = LONGEST_NAME - 1)
}

/// So many duties of one row.
fn plain_duties(rows: usize) -> Vec<u8> {
    text_of((0..rows).map(|row| Row::train(&format!("D{row}"), 1, (0, 1), ("x", "y"))).collect())
}

/// One duty of so many rows, which ends in the last second, or where it would pass it in an earlier one: the longest of all.
fn longest_duty(rows: usize) -> Vec<u8> {
    let first = LAST_SECOND - rows as u32;
    let row = |row: usize| {
        let (start, nodes) = (first + row as u32, [row, row + 1].map(|node| long_name('N', node % NODES)));
        let train = Row::train(&long_name('D', 0), row as u32 + 1, (start, start + 1), (&nodes[0], &nodes[1]));
        train.with(duties::COURSE, &long_name('C', row))
    };
    exported(&text_of((0..rows).map(row).collect()))
}

/// Duties of one row with two nodes each, or one in the last.
fn with_nodes(nodes: usize) -> Vec<u8> {
    let name = |node: usize| long_name('N', node.min(nodes - 1));
    let rows = (0..(nodes + 1) / 2).map(|row| Row::train(&format!("D{row}"), 1, (0, 1), (&name(2 * row), &name(2 * row + 1))));
    text_of(rows.collect())
}

/// As many duties and as many nodes as there may be; and so many rows more, each with a node of its own.
fn with_both(more: usize) -> Vec<u8> {
    let node = |row: usize| long_name('N', if row < DUTY_ROWS { row % NODES } else { row });
    let row = |row: usize| Row::train(&long_name('D', row), 1, (0, 1), (&node(row), &long_name('N', (row + 1) % NODES)));
    text_of((0..DUTY_ROWS + more).map(row).collect())
}

#[cfg(test)]
mod tests {
    use super::*;
    use crate::expected::line;
    use independent::Answer;

    /// In quotes a legal timetable is at most so long.
    #[test]
    fn the_longest_timetable_is_the_longest() {
        let call = longest(0);
        assert_eq!(call.case.texts[TIMETABLE].len(), 25_919_617);
        assert_eq!(line(&call).0.answer(), Some(Answer::Accepted));
    }

    /// In quotes a legal file of duties is about so long.
    #[test]
    fn the_longest_duty_is_accepted() {
        let call = of_duties(longest_duty(DUTY_ROWS));
        assert_eq!(call.case.texts[TIMETABLE].len(), 1_653_827);
        assert_eq!(line(&call).0.answer(), Some(Answer::Accepted));
        assert_eq!(line(&of_duties(with_both(0))).0.answer(), Some(Answer::Accepted));
        assert_eq!(line(&of_duties(with_nodes(NODES))).0.answer(), Some(Answer::Accepted));
    }

    #[test]
    fn the_most_tests_are_made() {
        let tally = line(&tested(CONSTRAINTS)).0.tally().unwrap();
        assert_eq!((tally.total, tally.kinds), (163_840, [LEGS, 2 * CONSTRAINTS, 0, 0, 0, 0]));
    }

    /// Each edge is where it is said to be: one more is refused for the limit's own sake, and the most is not.
    #[test]
    fn edges_lie_at_the_limits() {
        for edge in edges() {
            let number = |past: usize| match line(&(edge.call)(past)).0.answer() {
                Some(Answer::Refused { number, .. }) => number,
                _ => 0,
            };
            let limit = if edge.name.starts_with("bytes") { 2 } else { 6 };
            assert_eq!(number(1), limit, "{}", edge.name);
            assert_ne!(number(0), limit, "{}", edge.name);
        }
    }
}
