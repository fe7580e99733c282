//! Calls of each entry over the stand-in, held against lines that the independent program gives.

mod common;

use common::{accepted, answer, case, duties, example, expected, line, lines, written, DUTIES, EDITION, ENOUGH, H, STAND_IN};
use independent::{Call, Case, Entry, Rooms};

/// The line that is given, which is the expected one.
fn agreed(call: &Call) -> String {
    let given = line(&STAND_IN, call);
    assert_eq!(given, expected(call));
    given
}

fn agreed_answer(entry: Entry, case: Case) -> String {
    answer(&agreed(&Call::of(entry, case))).to_string()
}

#[test]
fn checks() {
    let of = |constraints, solution| agreed_answer(Entry::Check, case(constraints, solution, "empty.csv"));
    assert_eq!(of("constraints.json", "solution-nominal.csv"), "accepted # 3 2 0 0 1 0 0");
    assert_eq!(of("no-dwell.json", "solution-nominal.csv"), "accepted # 2 2 0 0 0 0 0");
    assert_eq!(of("dwell-21.json", "solution-15-40.csv"), "accepted # 3 2 0 0 1 0 0");
    assert_eq!(of("dwell-22.json", "solution-15-40.csv"), "violated 3 0 1 1 4 # 3 2 0 0 1 0 0");
    assert_eq!(of("constraints.json", "solution-12.csv"), "violated 0 1 0 0 4 # 2 2 0 0 0 0 0");
    assert_eq!(of("constraints.json", "half-edited.csv"), "refused 4 4 145");
    assert_eq!(of("track-2-in-no-subnet.json", "solution-nominal.csv"), "refused 15 1 145");
    assert_eq!(agreed_answer(Entry::Check, Case { h: 0, ..accepted() }), "refused 1 0 0");
}

/// The edition is handed over as the block states it, whatever it is, by every entry that takes one.
#[test]
fn editions() {
    let of = |entry, edition, constraints: &str| {
        agreed_answer(entry, Case { edition, ..case(constraints, "solution-nominal.csv", "solution-nominal.csv") })
    };
    for entry in [Entry::Check, Entry::Energy, Entry::MergeEarlier, Entry::MergeLater] {
        for (edition, other) in [(1, 2), (2, 1)] {
            let constraints = format!("turnaround-edition-{edition}.json");
            assert!(of(entry, edition, &constraints).starts_with("accepted"));
            assert_eq!(of(entry, other, &constraints), "refused 10 3 193");
        }
        for edition in [0, 3, 256, 257, u32::MAX] {
            assert_eq!(of(entry, edition, "turnaround-edition-2.json"), "refused 21 0 0");
        }
    }
}

#[test]
fn energies() {
    let of = |h, constraints| {
        let mut case = Case { h, ..case(constraints, "timetable-13.csv", "empty.csv") };
        case.texts[0] = example("timetable-13.csv");
        case.rooms.curves = 2 * h as usize + 1;
        agreed_answer(Entry::Energy, case)
    };
    assert!(of(H, "no-dwell.json").starts_with("accepted 2050 1750 300 "));
    assert!(of(H, "two-subnets.json").starts_with("accepted 2050 2050 600 "));
    assert!(of(86_400, "two-subnets.json").starts_with("accepted 2050 2050 600 "));
    assert!(of(H, "dwell-21.json").starts_with("violated 3 0 1 "));
    assert_eq!(of(H, "track-2-in-no-subnet.json"), "refused 15 1 145");
}

#[test]
fn merges() {
    for entry in [Entry::MergeEarlier, Entry::MergeLater] {
        let of = |constraints, first, second| agreed_answer(entry, case(constraints, first, second));
        assert_eq!(of("constraints.json", "solution-15-40.csv", "solution-10-45.csv"), "accepted 176");
        assert_eq!(of("dwell-22.json", "solution-10-45.csv", "solution-15-40.csv"), "violated 3 0 1 1 5 # 3 2 0 0 1 0 0");
        assert_eq!(of("constraints.json", "solution-15-40.csv", "half-edited.csv"), "refused 4 5 145");
    }
    let lines = [Entry::MergeEarlier, Entry::MergeLater].map(|entry| agreed(&Call::of(entry, accepted())));
    assert_ne!(lines[0], lines[1]);
}

#[test]
fn rows() {
    let row = |file, place| answer(&agreed(&Call { entry: Entry::Row, case: accepted(), file, place })).to_string();
    assert!(row(1, 145).starts_with("row 30 "));
    assert!(row(4, 114).starts_with("row 30 "));
    assert_ne!(row(1, 114), row(4, 114));
    for (file, place) in [(1, 0), (1, 146), (2, 145), (0, 145), (1, u32::MAX), (255, 145), (257, 145), (260, 145)] {
        assert_eq!(row(file, place), "row 0 0");
    }
}

/// Accepted, broken and refused, with rooms at the need and below it.
#[test]
fn duties_in_their_rooms() {
    let of = |text: &str, nodes, balances| agreed(&duties(text, nodes, balances));
    let told = |text: &str, nodes, balances| answer(&of(text, nodes, balances)).to_string();
    assert_eq!(told(DUTIES, 6, 3), "accepted 3");
    assert_eq!(told(DUTIES, 100, 100), "accepted 3");
    assert_eq!(told(DUTIES, 5, 3), "refused 16 6 204");
    assert_eq!(told(DUTIES, 6, 2), "refused 16 6 204");
    assert_eq!(told(DUTIES, 3, 1), "refused 16 6 129");
    assert_eq!(of(DUTIES, 0, 0), "refused 16 6 129 | 0 0");
    assert_eq!(told(&DUTIES.replace("9,2,", "9,3,"), 6, 3), "broken 1 4 204");
    assert_eq!(told(&DUTIES.replace("TRAIN,9", "RESERVE,"), 6, 3), "refused 4 6 204");
    assert_eq!(told(&DUTIES.replace("DUTY_ID", "DUTY"), 6, 3), "refused 3 6 0");
    // Two nodes of two numbers, and their balances.
    let one: String = DUTIES.lines().take(2).map(|line| format!("{line}\n")).collect();
    let digest = |numbers: &[u32]| numbers.iter().fold(0u32, |digest, number| digest.wrapping_mul(31).wrapping_add(*number));
    let places = [one.find("OLDOXRS").unwrap() as u32, 7, one.find("PADTLL").unwrap() as u32, 6];
    assert_eq!(of(&one, 5, 3), format!("accepted 2 | {} {}", digest(&[&places[..], &[7]].concat()), digest(&[u32::MAX, 1, 7])));
}

/// With just enough room, and with a number less in one room at a time.
#[test]
fn rooms_at_their_need() {
    let need = Rooms {
        legs: 16,
        configurations: 12,
        profiles: 6,
        samples: 7,
        constraints: 6,
        tracks: 4,
        choices: 6,
        second_choices: 6,
        curves: H as usize,
        text: 176,
    };
    for entry in [Entry::Check, Entry::Energy, Entry::MergeEarlier, Entry::MergeLater] {
        assert!(agreed_answer(entry, Case { rooms: need, ..accepted() }).starts_with("accepted"));
        let short = |room: usize| {
            let mut rooms = need;
            *rooms.number_mut(room) -= 1;
            agreed_answer(entry, Case { rooms, ..accepted() })
        };
        let refused = (0..10).filter(|room| short(*room).starts_with("refused 16 ")).count();
        assert_eq!(refused, if entry == Entry::Check { 7 } else { 7 + if entry == Entry::Energy { 1 } else { 2 } });
    }
}

#[test]
fn no_texts_and_no_rooms() {
    for entry in Entry::ALL {
        let nothing = Case { h: H, edition: EDITION, texts: Default::default(), rooms: Rooms::all(0) };
        agreed(&Call::of(entry, nothing.clone()));
        agreed(&Call::of(entry, Case { rooms: Rooms::all(ENOUGH), ..nothing }));
        let line = agreed(&Call::of(entry, Case { rooms: Rooms::all(0), ..accepted() }));
        let digests = if entry == Entry::Duties { 2 } else { 10 };
        assert!(line.ends_with(&format!(" |{}", " 0".repeat(digests))), "{line}");
    }
}

/// The rooms of document 01's sizes, a text that comes in many pieces, and after them a small call.
#[test]
fn large_rooms_and_texts() {
    let mut large = Call::of(Entry::MergeLater, accepted());
    large.case.texts[2].resize(1_000_001, b' ');
    large.case.rooms = Rooms { configurations: 1_048_576 * 3, samples: 1_048_576, text: 67_108_864, ..Rooms::all(300_000) };
    let small = Call::of(Entry::Energy, accepted());
    let input = [written(&large), written(&small), written(&large)].concat();
    assert_eq!(lines(&STAND_IN, &input), [&large, &small, &large].map(expected));
}

/// Every call finds its rooms full of 7, whatever the calls before it left there.
#[test]
fn one_call_after_the_other() {
    let mut calls = Vec::new();
    for constraints in ["constraints.json", "dwell-22.json", "track-2-in-no-subnet.json"] {
        for entry in Entry::ALL {
            calls.push(Call::of(entry, case(constraints, "solution-15-40.csv", "solution-10-45.csv")));
            calls.push(Call::of(entry, Case { rooms: Rooms::all(150), ..accepted() }));
        }
    }
    let input: Vec<u8> = calls.iter().flat_map(written).collect();
    assert_eq!(lines(&STAND_IN, &input), calls.iter().map(expected).collect::<Vec<_>>());
}
