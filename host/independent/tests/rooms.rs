//! What each entry leaves in the ten lent rooms.

mod common;

use common::*;
use independent::{Answer, Call, Case, Entry, Lent, Rooms, Said};

const BEFORE: u8 = 9;

fn run(texts: &Texts, entry: Entry) -> (Said, Lent) {
    let texts = texts.clone();
    let case = Case {
        h: texts.h,
        edition: texts.edition,
        texts: [texts.timetable, texts.profiles, texts.constraints, texts.solution, texts.second],
        rooms: Rooms::all(300),
    };
    let mut lent = Lent::full_of(BEFORE, &case.rooms);
    let said = Call::of(entry, case).run(&mut lent);
    (said, lent)
}

fn untouched() -> Lent {
    Lent::full_of(BEFORE, &Rooms::all(300))
}

#[test]
fn tables_are_written_at_the_front_and_the_rest_keeps_its_contents() {
    let (_, lent) = run(&example(), Entry::Check);
    assert_eq!(lent.legs[..8], [1, 1, 1, 1, 2, 0, 2, 0]);
    assert_eq!(lent.legs[15..18], [0, 9, 9]);
    assert_eq!(lent.samples[..8], [500, 1_000, 250, -400, 300, 0, -200, 9]);
    assert_eq!(lent.constraints[..7], [3, 0, 1, 20, 0, 0, 9]);
    assert_eq!(lent.choices[..7], [10, 4, 7, 40, 3, 8, 9]);
    assert_eq!((lent.second_choices, lent.curves, lent.text), (untouched().second_choices, untouched().curves, untouched().text));
}

#[test]
fn a_refusal_fills_what_the_entry_was_lent() {
    let bad = example().with_solution(b"");
    for entry in [Entry::Check, Entry::Energy, Entry::MergeEarlier] {
        let (_, lent) = run(&bad, entry);
        for table in [&lent.legs, &lent.configurations, &lent.profiles, &lent.constraints, &lent.tracks, &lent.choices] {
            assert_eq!(*table, vec![u32::MAX; 300]);
        }
        assert_eq!(lent.samples, vec![i32::MIN; 300]);
        let merging = entry == Entry::MergeEarlier;
        assert_eq!(lent.second_choices, vec![if merging { u32::MAX } else { 9 }; 300]);
        assert_eq!(lent.curves, vec![if entry == Entry::Energy { i32::MIN } else { 9 }; 300]);
        assert_eq!(lent.text, vec![if merging { 0 } else { 9 }; 300]);
    }
}

#[test]
fn a_violation_keeps_the_tables_and_fills_curves_and_text() {
    let late = example().with_constraints(&lists(&[dwell(27), subnet_of_both()]));
    let (_, lent) = run(&late, Entry::Energy);
    assert_eq!(lent.tracks[..5], [1, 0, 2, 0, 9]);
    assert_eq!(lent.curves, vec![i32::MIN; 300]);
    let (_, lent) = run(&late.with_second(&departures(15, 45)), Entry::MergeLater);
    assert_eq!(lent.second_choices[..7], [15, 4, 7, 45, 3, 8, 9]);
    assert_eq!(lent.text, vec![0; 300]);
}

#[test]
fn curves_and_texts_are_written_at_the_front() {
    let (said, lent) = run(&example(), Entry::Energy);
    assert!(matches!(said, Said::Reported(_, _, figures, ..) if figures.drawn == 2_050));
    assert_eq!(lent.curves[9..15], [0, 500, 1_000, 250, -400, 0]);
    assert_eq!(lent.curves[99..102], [0, 9, 9]);
    let (said, lent) = run(&example(), Entry::MergeEarlier);
    let length = example().timetable.len();
    assert_eq!(said, Said::Merged(Answer::Accepted, None, length));
    assert_eq!(lent.text[..length], example().timetable[..]);
    assert_eq!(lent.text[length..], vec![9; 300 - length]);
}

#[test]
fn a_row_touches_no_room() {
    let (said, lent) = run(&example(), Entry::Row);
    assert_eq!(said, Said::Row(0, 0));
    assert_eq!(lent, untouched());
}
