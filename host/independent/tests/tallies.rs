//! How much was tested (document 02, E6).

mod common;

use common::*;
use independent::{Answer, Direction, Tally};

/// A constraint record of the example's two legs, with further members.
fn record(members: &str) -> String {
    format!("{{\"first_leg_id\":1,\"second_leg_id\":2{members}}}")
}

fn headways(seconds: &[u32]) -> List {
    let records: Vec<String> = seconds.iter().map(|seconds| record(&format!(",\"min_headway_time\":{seconds}"))).collect();
    list("headway_time_constraints", &records.join(","))
}

fn connections(bounds: &[(u32, u32)]) -> List {
    let record = |(low, high): &(u32, u32)| {
        let times = format!(",\"min_connection_time\":{low},\"max_connection_time\":{high}");
        record(&format!("{times},\"connection_type\":\"departure_to_departure\""))
    };
    list("connection_constraints", &bounds.iter().map(record).collect::<Vec<String>>().join(","))
}

/// The example with these lists beside a record each of kinds 2, 3 and 4.
fn with(headways: List, connections: List) -> Texts {
    let single = list("single_track_headway_constraints", &record(""));
    let turnaround = list("terminal_turnaround_constraints", &record(",\"min_turnaround_time\":26"));
    example().with_constraints(&lists(&[headways, single, dwell(20), turnaround, connections, subnet_of_both()]))
}

fn tally(kinds: [usize; 6]) -> Option<Tally> {
    Some(Tally { total: kinds.iter().sum(), kinds })
}

/// "one for each row's choice and one for each inequality": two for each record of kinds 1 and 5, one for each of 2, 3 and 4.
#[test]
fn all_tests_of_an_accepted_solution() {
    assert_eq!(example().checked().tally, tally([2, 0, 0, 1, 0, 0]));
    let texts = with(headways(&[20, 25, 29]), connections(&[(20, 40), (30, 30)]));
    assert_eq!(texts.answer(), Answer::Accepted);
    assert_eq!(texts.checked().tally, tally([2, 6, 1, 1, 1, 4]));
    assert_eq!(texts.report().tally, tally([2, 6, 1, 1, 1, 4]));
    let nothing = example().with_draft(&timetable(&[])).with_constraints(&lists(&[]));
    assert_eq!((nothing.answer(), nothing.checked().tally), (Answer::Accepted, tally([0; 6])));
}

/// "up to and with the first that fails".
#[test]
fn the_failing_test_is_the_last() {
    let unlisted = |row: &str, choice: &str, other: &str| row.replace(other, choice);
    let first = timetable(&[&unlisted(ROW_1, "12_4_7", "10_4_7"), ROW_2]);
    let second = timetable(&[ROW_1, &unlisted(ROW_2, "12_3_8", "40_3_8")]);
    assert_eq!(example().with_solution(&first).checked().tally, tally([1, 0, 0, 0, 0, 0]));
    assert_eq!(example().with_solution(&second).checked().tally, tally([2, 0, 0, 0, 0, 0]));
    for (headway, answer, kinds) in [(31, violated(1, 1, 1, 1), [2, 3, 0, 0, 0, 0]), (30, violated(1, 1, 2, 1), [2, 4, 0, 0, 0, 0])] {
        let texts = with(headways(&[20, headway]), connections(&[]));
        assert_eq!((texts.answer(), texts.checked().tally, texts.report().tally), (answer, tally(kinds), tally(kinds)));
    }
    for (bounds, answer, kinds) in
        [((31, 40), violated(5, 1, 1, 1), [2, 2, 1, 1, 1, 3]), ((20, 29), violated(5, 1, 2, 1), [2, 2, 1, 1, 1, 4])]
    {
        let texts = with(headways(&[20]), connections(&[(20, 40), bounds]));
        assert_eq!((texts.answer(), texts.checked().tally), (answer, tally(kinds)));
    }
}

/// "It equals the position in document 01's order, and is at most legs plus twice the constraints": by counting all that stands before.
#[test]
fn the_count_is_a_position() {
    for failing in 0..4 {
        let mut seconds = [20; 4];
        seconds[failing] = 30;
        let (legs, constraints) = (2, 4 + 3);
        let tally = with(headways(&seconds), connections(&[])).checked().tally.unwrap();
        assert_eq!(tally.total, legs + 2 * failing + 2);
        assert!(tally.total <= legs + 2 * constraints);
    }
    let most = with(headways(&[20; 9]), connections(&[(20, 40); 5])).checked().tally.unwrap();
    assert_eq!(most.total, 2 + 2 * (9 + 5) + 3);
}

/// "0 on a refusal", after a verdict too.
#[test]
fn a_refusal_has_none() {
    let mut no_room = example();
    no_room.rooms.curves = 99;
    assert_eq!((no_room.report().answer, no_room.report().tally), (refused(16, 0, 0), None));
    assert_eq!(no_room.checked().tally, tally([2, 0, 0, 1, 0, 0]));
    assert_eq!(Texts { h: 0, ..example() }.checked().tally, None);
    assert_eq!(Tally::default().numbers(), [0; 7]);
}

/// The count of the verdict that fails; a text that is written is no verdict.
#[test]
fn a_merge_has_the_count_of_what_fails() {
    let texts = with(headways(&[31]), connections(&[]));
    let (late, nominal) = (departures(10, 45), departures(10, 40));
    for (first, second, file) in [(&nominal, &late, 4), (&late, &nominal, 5)] {
        let merged = texts.with_solution(first).with_second(second).merged(Direction::Earlier);
        let answer = Answer::Violated { kind: 1, position: 0, inequality: 1, shortfall: 1, file };
        assert_eq!((merged.answer, merged.tally), (answer, tally([2, 1, 0, 0, 0, 0])));
    }
    let written = example().with_solution(&late).merged(Direction::Later);
    assert_eq!((written.answer, written.tally), (Answer::Accepted, None));
}
