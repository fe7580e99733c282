//! Two editions of kind 4's key (document 02, E4).

mod common;

use common::*;
use independent::{Answer, Direction};

const DWELL: &str = "min_dwell_time";
const TURNAROUND: &str = "min_turnaround_time";

const DWELLS: &str = "dwell_time_constraints";
const TURNAROUNDS: &str = "terminal_turnaround_constraints";

/// The example with one record, of these further members, in one list.
fn with(edition: u32, name: &'static str, members: &str) -> Texts {
    let record = format!("{{\"first_leg_id\":1,\"second_leg_id\":2{members}}}");
    let text = lists(&[list(name, &record), subnet_of_both()]);
    Texts { edition, ..example().with_constraints(&text) }
}

fn member(key: &str, seconds: u32) -> String {
    format!(",\"{key}\":{seconds}")
}

/// 10 at the key.
fn unknown(texts: &Texts, key: &str) -> Answer {
    refused(10, 3, place_of(&texts.constraints, &format!("\"{key}\"")))
}

/// Kind 4's key in an edition, and the other one's.
const EDITIONS: [(u32, &str, &str); 2] = [(1, DWELL, TURNAROUND), (2, TURNAROUND, DWELL)];

#[test]
fn each_edition_has_its_key_in_kind_4() {
    for (edition, own, foreign) in EDITIONS {
        assert_eq!(with(edition, TURNAROUNDS, &member(own, 26)).answer(), Answer::Accepted);
        assert_eq!(with(edition, TURNAROUNDS, &member(own, 28)).answer(), violated(4, 0, 1, 2));
        let texts = with(edition, TURNAROUNDS, &member(foreign, 26));
        assert_eq!(texts.answer(), unknown(&texts, foreign));
    }
}

#[test]
fn kind_3_is_the_same_in_both() {
    for (edition, ..) in EDITIONS {
        assert_eq!(with(edition, DWELLS, &member(DWELL, 28)).answer(), violated(3, 0, 1, 2));
        let texts = with(edition, DWELLS, &member(TURNAROUND, 26));
        assert_eq!(texts.answer(), unknown(&texts, TURNAROUND));
    }
}

#[test]
fn a_record_with_both_is_refused_at_the_other_ones() {
    for (edition, own, foreign) in EDITIONS {
        for [first, second] in [[own, foreign], [foreign, own]] {
            let texts = with(edition, TURNAROUNDS, &[member(first, 0), member(second, 0)].concat());
            assert_eq!(texts.answer(), unknown(&texts, foreign), "edition {edition}, {first} first");
        }
    }
}

#[test]
fn a_missing_key_is_11_in_both() {
    for (edition, ..) in EDITIONS {
        let texts = with(edition, TURNAROUNDS, "");
        let record = "\"second_leg_id\":2}";
        assert_eq!(texts.answer(), refused(11, 3, place_of(&texts.constraints, record) + record.len() - 1));
    }
}

/// "tested after 1", and before every text.
#[test]
fn an_edition_that_is_not_known() {
    for edition in [0, 3, 20, 21, u32::MAX] {
        let good = Texts { edition, ..example() };
        let bad = Texts { timetable: Vec::new(), constraints: Vec::new(), ..good.clone() };
        for texts in [&good, &bad] {
            assert_eq!(texts.answer(), refused(21, 0, 0));
            assert_eq!(texts.report().answer, refused(21, 0, 0));
            assert_eq!(texts.merged(Direction::Later).answer, refused(21, 0, 0));
            assert_eq!(Texts { h: 0, ..texts.clone() }.answer(), refused(1, 0, 0));
        }
        assert_eq!(good.checked().tables, None);
    }
}

/// Equal tables and verdicts, whatever stands in kind 3.
#[test]
fn a_twin_gives_the_same() {
    for seconds in [26, 28] {
        let [one, other] = EDITIONS.map(|(edition, key, _)| {
            let record = |key: &str| format!("{{\"first_leg_id\":1,\"second_leg_id\":2{}}}", member(key, seconds));
            let text = lists(&[dwell(20), list(TURNAROUNDS, &record(key)), subnet_of_both()]);
            Texts { edition, ..example().with_constraints(&text) }
        });
        assert_eq!(one.checked(), other.checked());
        assert_eq!(one.report(), other.report());
        assert_eq!(one.merged(Direction::Earlier), other.merged(Direction::Earlier));
    }
}
