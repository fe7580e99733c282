//! The readings 1 to 37 of places where document 01 is open; a test's name starts with the
//! reading's number. Readings 8, 18, 35 and 37 are partly about lent buffers that this library
//! does not have; what can be seen of them is tested.

mod common;

use common::*;
use independent::{row_at, Answer, Direction, Figures, Rooms};

const TEXT_LIMIT: usize = 67_108_864;

// Order and answers.

#[test]
fn r01_length_is_tested_just_before_the_contents() {
    let long = vec![b'x'; TEXT_LIMIT + 1];
    let texts = example();
    assert_eq!(texts.with_draft(&long).answer(), refused(2, 1, 0));
    assert_eq!(texts.with_profiles(&long).answer(), refused(2, 2, 0));
    assert_eq!(texts.with_constraints(&long).answer(), refused(2, 3, 0));
    assert_eq!(texts.with_solution(&long).answer(), refused(2, 4, 0));
    assert_eq!(texts.with_second(&long).merged(Direction::Earlier).answer, refused(2, 5, 0));
    let bad_draft = Texts { timetable: b"x".to_vec(), ..texts.with_profiles(&long) };
    assert_eq!(bad_draft.answer(), refused(3, 1, 0));
    let just_long_enough = &long[..TEXT_LIMIT];
    assert_eq!(texts.with_draft(just_long_enough).answer(), refused(3, 1, 0));
}

#[test]
fn r02_horizon_comes_first() {
    for h in [0, 176_401, u32::MAX] {
        let texts = Texts { h, timetable: Vec::new(), ..example() };
        assert_eq!(texts.answer(), refused(1, 0, 0));
        assert_eq!(texts.report().answer, refused(1, 0, 0));
        assert_eq!(texts.merged(Direction::Later).answer, refused(1, 0, 0));
    }
    assert_eq!(Texts { h: 176_400, ..example() }.answer(), Answer::Accepted);
}

#[test]
fn r03_profiles_of_the_rows_in_one_pass() {
    let texts = example();
    // Row 0 has a wrong count, row 1 an unknown profile: the first row counts.
    let draft = timetable(&["1,1,1,1,2,10_4_7,10_4_7 15_3_7\n", "2,1,2,2,3,40_3_9,40_3_9\n"]);
    assert_eq!(texts.with_draft(&draft).answer(), refused(13, 1, 114));
    // Within a row 12 comes before 13, whichever entry comes first.
    let draft = timetable(&["1,1,1,1,2,10_3_7,10_3_7 15_3_9\n", ROW_2]);
    assert_eq!(texts.with_draft(&draft).answer(), refused(12, 1, 114));
    // A solution's lists are not tested: kind 0.
    let solution = timetable(&["1,1,1,1,2,10_4_9,10_4_9\n", ROW_2]);
    assert_eq!(texts.with_solution(&solution).answer(), violated(0, 0, 0, 0));
    let solution = timetable(&["1,1,1,1,2,10_3_7,10_3_7\n", ROW_2]);
    assert_eq!(texts.with_solution(&solution).answer(), violated(0, 0, 0, 0));
    // An unknown profile that is listed but not chosen in the solution changes nothing.
    let solution = timetable(&["1,1,1,1,2,10_4_7,10_4_9 10_4_7\n", ROW_2]);
    assert_eq!(texts.with_solution(&solution).answer(), Answer::Accepted);
}

#[test]
fn r04_rows_of_the_solution() {
    let texts = example();
    let solution = |rows: &[&str]| texts.with_solution(&timetable(rows)).answer();
    let row_3 = "3,1,2,2,3,40_3_8,40_3_8\n";
    assert_eq!(solution(&[ROW_1, ROW_2, row_3]), refused(14, 4, 176));
    assert_eq!(solution(&[ROW_1]), refused(14, 4, 145));
    assert_eq!(solution(&[]), refused(14, 4, 114));
    assert_eq!(solution(&[ROW_2, ROW_1]), refused(14, 4, 114));
    // The whole solution is read before 14.
    assert_eq!(solution(&[ROW_2, "x\n"]), refused(4, 4, 145));
    // Each of the first five columns counts, the lists do not.
    for row in [
        "3,1,2,2,3,40_3_8,40_3_8\n",
        "2,2,2,2,3,40_3_8,40_3_8\n",
        "2,1,1,2,3,40_3_8,40_3_8\n",
        "2,1,2,1,3,40_3_8,40_3_8\n",
        "2,1,2,2,4,40_3_8,40_3_8\n",
    ] {
        assert_eq!(solution(&[ROW_1, row]), refused(14, 4, 145));
    }
    assert_eq!(solution(&[ROW_1, "2,1,2,2,3,40_3_8,99_1_5 40_3_8\n"]), Answer::Accepted);
    // Its own rules: 5, 7, 8, and 16 for the choices alone.
    assert_eq!(solution(&[ROW_1, "2,1,2,2,3,40_3_8,40_3_8 99_2_5\n"]), refused(5, 4, 145));
    assert_eq!(solution(&[ROW_1, ROW_1]), refused(7, 4, 145));
    assert_eq!(solution(&[ROW_1, "2,1,2,2,3,40_3_8,45_3_8\n"]), refused(8, 4, 145));
    let mut texts = texts.clone();
    texts.rooms = Rooms { configurations: 12, choices: 6, ..texts.rooms };
    let long_list = "2,1,2,2,3,40_3_8,40_3_8 41_3_8 42_3_8 43_3_8 44_3_8\n";
    assert_eq!(texts.with_solution(&timetable(&[ROW_1, long_list])).answer(), Answer::Accepted);
    texts.rooms.choices = 5;
    assert_eq!(texts.answer(), refused(16, 4, 145));
    texts.rooms.choices = 2;
    assert_eq!(texts.answer(), refused(16, 4, 114));
    // The entries of a solution's list are counted.
    let many = vec!["40_3_8"; 65].join(" ");
    let row = format!("2,1,2,2,3,40_3_8,{many}\n");
    assert_eq!(example().with_solution(&timetable(&[ROW_1, &row])).answer(), refused(6, 4, 145));
}

#[test]
fn r05_order_of_a_merge() {
    let unoffered = timetable(&["1,1,1,1,2,11_4_7,11_4_7\n", ROW_2]);
    let texts = example().with_solution(&unoffered).with_second(b"x");
    assert_eq!(texts.merged(Direction::Earlier).answer, refused(3, 5, 0));
    let texts = texts.with_second(&unoffered);
    let violated_in = |file| Answer::Violated { kind: 0, position: 0, inequality: 0, shortfall: 0, file };
    assert_eq!(texts.merged(Direction::Earlier).answer, violated_in(4));
    let texts = example().with_second(&unoffered);
    let merged = texts.merged(Direction::Earlier);
    assert_eq!(merged.answer, violated_in(5));
    assert!(merged.tables.is_some() && merged.text.is_none());
    // 17 before 16, and both after the verdicts.
    let draft = timetable(&[ROW_1, "2,1,2,2,3,40_3_8,40_3_8 40_4_7\n"]);
    let other = timetable(&[ROW_1, "2,1,2,2,3,40_4_7,40_3_8 40_4_7\n"]);
    let mut texts = example().with_draft(&draft).with_second(&other);
    texts.rooms.text = 0;
    let merged = texts.merged(Direction::Earlier);
    assert_eq!(merged.answer, refused(17, 5, 145));
    assert!(merged.tables.is_none());
    texts.second = draft.clone();
    assert_eq!(texts.merged(Direction::Earlier).answer, refused(16, 0, 0));
    texts.rooms.text = draft.len() - 1;
    assert_eq!(texts.merged(Direction::Later).answer, refused(16, 0, 0));
    texts.rooms.text = draft.len();
    assert_eq!(texts.merged(Direction::Later).answer, Answer::Accepted);
    texts.rooms.second_choices = 5;
    assert_eq!(texts.merged(Direction::Later).answer, refused(16, 5, 145));
}

#[test]
fn r06_equal_departures() {
    let row = |choice: &str| format!("1,1,1,1,2,{choice},10_4_7 10_4_9\n");
    let texts = Texts {
        timetable: timetable(&[&row("10_4_7")]),
        solution: timetable(&[&row("10_4_9")]),
        second: timetable(&[&row("10_4_7")]),
        profiles: profiles(&["7,0.5 1.0 0.25 -0.4\n", "9,0.1 0.1 0.1 0.1\n"]),
        constraints: lists(&[subnet_of_both()]),
        ..example()
    };
    assert_eq!(texts.merged(Direction::Earlier).text, Some(texts.solution.clone()));
    assert_eq!(texts.merged(Direction::Later).text, Some(texts.second.clone()));
    // Absorption.
    let later = texts.with_second(&texts.merged(Direction::Later).text.unwrap());
    assert_eq!(later.merged(Direction::Earlier).text, Some(texts.solution.clone()));
    let earlier = texts.with_second(&texts.merged(Direction::Earlier).text.unwrap());
    assert_eq!(earlier.merged(Direction::Later).text, Some(texts.solution.clone()));
}

#[test]
fn r07_room_for_the_curves() {
    let two = "{\"subnet_id\":1,\"track_ids\":[1,2]},{\"subnet_id\":2,\"track_ids\":[]}";
    let mut texts = example().with_constraints(&lists(&[list("recuperation_subnets", two)]));
    texts.rooms.curves = 200;
    assert_eq!(texts.report().answer, Answer::Accepted);
    assert_eq!(texts.report().curves.unwrap().len(), 200);
    texts.rooms.curves = 199;
    let report = texts.report();
    assert_eq!(report.answer, refused(16, 0, 0));
    assert_eq!(report.figures, Figures::default());
    assert!(report.tables.is_none() && report.curves.is_none());
    assert_eq!(texts.answer(), Answer::Accepted);
    // Only after acceptance.
    let violating = texts.with_solution(&timetable(&["1,1,1,1,2,11_4_7,11_4_7\n", ROW_2]));
    assert_eq!(violating.report().answer, violated(0, 0, 0, 0));
    // No subnet, no room.
    let mut none = example().with_draft(&timetable(&[])).with_constraints(&lists(&[]));
    none.rooms.curves = 0;
    assert_eq!(none.report().answer, Answer::Accepted);
    assert_eq!(none.report().figures.fluctuation, 0);
}

#[test]
fn r08_a_violation_keeps_the_tables_and_has_no_figures() {
    let late = example().with_constraints(&lists(&[dwell(27), subnet_of_both()]));
    let report = late.report();
    assert_eq!(report.answer, violated(3, 0, 1, 1));
    assert_eq!(report.figures, Figures::default());
    assert!(report.curves.is_none());
    assert_eq!(report.tables, late.checked().tables);
    assert!(report.tables.is_some());
}

#[test]
fn r09_one_merged_text_a_call() {
    let texts = example().with_second(&departures(15, 45));
    assert_eq!(texts.merged(Direction::Earlier).text, Some(departures(10, 40)));
    assert_eq!(texts.merged(Direction::Later).text, Some(departures(15, 45)));
}

// CSV.

#[test]
fn r10_headers() {
    let texts = example();
    let header = TIMETABLE_HEADER.as_bytes();
    for bad in [
        header[..113].to_vec(),
        [b"\xef\xbb\xbf", header].concat(),
        [b" ", header].concat(),
        header[1..].to_vec(),
        PROFILES_HEADER.as_bytes().to_vec(),
    ] {
        assert_eq!(texts.with_draft(&bad).answer(), refused(3, 1, 0));
        assert_eq!(texts.with_solution(&bad).answer(), refused(3, 4, 0));
    }
    assert_eq!(texts.with_profiles(&PROFILES_HEADER.as_bytes()[..29]).answer(), refused(3, 2, 0));
    assert_eq!(texts.with_profiles(header).answer(), refused(3, 2, 0));
}

#[test]
fn r11_line_ends() {
    let texts = example();
    let draft = |rows: &[&str]| texts.with_draft(&timetable(rows)).answer();
    assert_eq!(draft(&[ROW_1, ROW_2.trim_end()]), refused(4, 1, 145));
    assert_eq!(draft(&[ROW_1, "\n", ROW_2]), refused(4, 1, 145));
    assert_eq!(draft(&[ROW_1, ROW_2, "\n"]), refused(4, 1, 176));
    assert_eq!(draft(&["\n"]), refused(4, 1, 114));
    assert_eq!(texts.with_profiles(&profiles(&["7,0.5"])).answer(), refused(4, 2, 30));
}

#[test]
fn r12_digits_without_end() {
    let texts = example();
    let long = "9".repeat(100_000);
    let row = format!("{long},1,1,1,2,10_4_7,10_4_7\n");
    assert_eq!(texts.with_draft(&timetable(&[&row])).answer(), refused(5, 1, 114));
    // Numbers that would wrap to small ones.
    for wraps in ["4294967297", "18446744073709551617", "340282366920938463463374607431768211457"] {
        let row = format!("{wraps},1,1,1,2,10_4_7,10_4_7\n");
        assert_eq!(texts.with_draft(&timetable(&[&row])).answer(), refused(5, 1, 114));
        let row = format!("1,1,1,1,2,{wraps}_4_7,{wraps}_4_7\n");
        assert_eq!(texts.with_draft(&timetable(&[&row])).answer(), refused(5, 1, 114));
        let row = format!("7,{wraps}.0\n");
        assert_eq!(texts.with_profiles(&profiles(&[&row])).answer(), refused(5, 2, 30));
    }
}

#[test]
fn r13_the_lowest_number_in_a_row() {
    let mut texts = example();
    let draft = |texts: &Texts, row: &str| texts.with_draft(&timetable(&[ROW_1, row])).answer();
    // 4 before 5.
    assert_eq!(draft(&texts, "1000000000,1,2,2,3,40_3_8,40_3_8 x\n"), refused(4, 1, 145));
    // 5 before 6, 7 and 8; the nominal field too.
    let many = vec!["40_3_8"; 65].join(" ");
    assert_eq!(draft(&texts, &format!("1,1,2,2,3,99_3_8,{many}\n")), refused(5, 1, 145));
    assert_eq!(draft(&texts, "2,1,2,2,3,98_3_8,40_3_8\n"), refused(5, 1, 145));
    assert_eq!(draft(&texts, "2,1,2,2,3,40_0_8,40_3_8\n"), refused(5, 1, 145));
    assert_eq!(draft(&texts, "2,1,2,2,3,40_3_1000000000,40_3_8\n"), refused(5, 1, 145));
    // 6 before 7, 7 before 8, 8 before 16.
    assert_eq!(draft(&texts, &format!("1,1,2,2,3,41_3_8,{many}\n")), refused(6, 1, 145));
    assert_eq!(draft(&texts, "1,1,2,2,3,41_3_8,40_3_8\n"), refused(7, 1, 145));
    texts.rooms.legs = 8;
    assert_eq!(draft(&texts, "2,1,2,2,3,41_3_8,40_3_8\n"), refused(8, 1, 145));
    assert_eq!(draft(&texts, "2,1,2,2,3,40_3_8,40_3_8\n"), refused(16, 1, 145));
}

#[test]
fn r13_d_plus_t_may_reach_h() {
    let texts = example().with_constraints(&lists(&[subnet_of_both()]));
    let draft = |row: &str| texts.with_draft(&timetable(&[row])).answer();
    assert_eq!(draft("1,1,1,1,2,96_4_7,96_4_7\n"), Answer::Accepted);
    assert_eq!(draft("1,1,1,1,2,97_4_7,97_4_7\n"), refused(5, 1, 114));
    assert_eq!(draft("1,1,1,1,2,10_4_7,10_4_7 97_4_7\n"), refused(5, 1, 114));
}

#[test]
fn r13_limits_of_counts() {
    let texts = example().with_constraints(&lists(&[subnet_of_both()]));
    // Legs.
    let rows: String = (0..32_769).map(|id| format!("{id},1,1,1,2,0_4_7,0_4_7\n")).collect();
    let last = rows.trim_end().rfind('\n').unwrap() + 1;
    let draft = format!("{TIMETABLE_HEADER}{rows}");
    assert_eq!(texts.with_draft(draft.as_bytes()).answer(), refused(6, 1, 114 + last));
    let draft = format!("{TIMETABLE_HEADER}{}", &rows[..last]);
    assert_eq!(texts.with_draft(draft.as_bytes()).answer(), Answer::Accepted);
    // Configurations in all.
    let list = vec!["0_4_7"; 64].join(" ");
    let rows: String = (0..16_384).map(|id| format!("{id},1,1,1,2,0_4_7,{list}\n")).collect();
    let draft = format!("{TIMETABLE_HEADER}{rows}");
    assert_eq!(texts.with_draft(draft.as_bytes()).answer(), Answer::Accepted);
    let place = draft.len();
    let draft = format!("{draft}16384,1,1,1,2,0_4_7,0_4_7\n");
    assert_eq!(texts.with_draft(draft.as_bytes()).answer(), refused(6, 1, place));
    // Profiles.
    let texts = texts.with_draft(&timetable(&[]));
    let rows: String = (0..16_384).map(|id| format!("{id},0.0\n")).collect();
    let text = format!("{PROFILES_HEADER}{rows}");
    assert_eq!(texts.with_profiles(text.as_bytes()).answer(), Answer::Accepted);
    let place = text.len();
    let text = format!("{text}16384,0.0\n");
    assert_eq!(texts.with_profiles(text.as_bytes()).answer(), refused(6, 2, place));
    // Samples in all: 291 times 3,600, then 976.
    let list = vec!["0.0"; 3_600].join(" ");
    let rows: String = (0..291).map(|id| format!("{id},{list}\n")).collect();
    let with_last = |count: usize| {
        let last = vec!["0.0"; count].join(" ");
        texts.with_profiles(format!("{PROFILES_HEADER}{rows}999,{last}\n").as_bytes()).answer()
    };
    assert_eq!(with_last(976), Answer::Accepted);
    assert_eq!(with_last(977), refused(6, 2, 30 + rows.len()));
}

#[test]
fn r14_counts_in_a_row() {
    let texts = example().with_constraints(&lists(&[subnet_of_both()]));
    let draft = |count: usize| {
        let list = vec!["10_4_7"; count].join(" ");
        texts.with_draft(&timetable(&[&format!("1,1,1,1,2,10_4_7,{list}\n")])).answer()
    };
    assert_eq!(draft(64), Answer::Accepted);
    assert_eq!(draft(65), refused(6, 1, 114));
    let texts = texts.with_draft(&timetable(&[]));
    let row = |count: usize| {
        let list = vec!["0.0"; count].join(" ");
        texts.with_profiles(&profiles(&[&format!("7,{list}\n")])).answer()
    };
    assert_eq!(row(3_600), Answer::Accepted);
    assert_eq!(row(3_601), refused(6, 2, 30));
}

#[test]
fn r15_r16_repeated_entries() {
    let draft = timetable(&["1,1,1,1,2,15_4_7,10_4_7 15_4_7 15_4_7\n", ROW_2]);
    let mut texts = example().with_draft(&draft).with_constraints(&lists(&[subnet_of_both()]));
    texts.rooms.configurations = 15;
    let tables = texts.checked().tables.unwrap();
    assert_eq!(tables.legs[..8], [1, 1, 1, 1, 2, 0, 3, 1]);
    assert_eq!(tables.legs[8..], [2, 1, 2, 2, 3, 3, 2, 0]);
    assert_eq!(tables.configurations.len(), 15);
    assert_eq!(tables.profiles, vec![7, 0, 4, 8, 4, 3]);
    texts.rooms.configurations = 14;
    let second_row = place_of(&draft, "2,1,2,2,3,");
    assert_eq!(texts.answer(), refused(16, 1, second_row));
}

#[test]
fn r17_samples() {
    let texts = example();
    for bad in ["0.5000", "5", ".5", "5.", "+1.0", "00.5", "1e3", "", "-", "- 1.0", "0,5", "\"1.0\""] {
        let text = profiles(&["7,0.5 1.0 0.25 -0.4\n", &format!("8,0.3 {bad} -0.2\n")]);
        assert_eq!(texts.with_profiles(&text).answer(), refused(4, 2, 50), "{bad}");
    }
    let text = profiles(&["7,0.5 1.0 0.25 -0.4\n", "8,-0.0 0.05 -0.005\n"]);
    let tables = texts.with_profiles(&text).checked().tables.unwrap();
    assert_eq!(tables.samples[4..], [0, 50, -5]);
}

#[test]
fn r17_forms_of_timetable_rows() {
    let texts = example();
    for bad in [
        "1\n",
        "1,1,1,1,2,10_4_7\n",
        "1,1,1,1,2,10_4_7,\n",
        "1,1,1,1,2,,10_4_7\n",
        "1,1,1,1,2,10_4_7,10_4_7,\n",
        "01,1,1,1,2,10_4_7,10_4_7\n",
        "-1,1,1,1,2,10_4_7,10_4_7\n",
        " 1,1,1,1,2,10_4_7,10_4_7\n",
        "1,1,1,1,2,10_4_7, 10_4_7\n",
        "1,1,1,1,2,10_4_7,10_4_7 \n",
        "1,1,1,1,2,10_4_7,10_4_7  15_4_7\n",
        "1,1,1,1,2,10_4,10_4_7\n",
        "1,1,1,1,2,10_4_7_1,10_4_7\n",
        "1,1,1,1,2,10_04_7,10_4_7\n",
        "1,1,1,1,2,10_4_7,10_4_7\t15_4_7\n",
        "1,1,1,1,2,10_4_7 10_4_7,10_4_7\n",
    ] {
        let answer = texts.with_draft(&timetable(&[bad, ROW_2])).answer();
        assert_eq!(answer, refused(4, 1, 114), "{bad}");
    }
}

#[test]
fn r18_room_in_whole_records() {
    let mut texts = example();
    let exact = Rooms {
        legs: 16,
        configurations: 12,
        profiles: 6,
        samples: 7,
        constraints: 6,
        tracks: 4,
        choices: 6,
        second_choices: 6,
        curves: 100,
        text: 176,
    };
    let with = |rooms: Rooms| Texts { rooms, ..example() }.answer();
    assert_eq!(with(exact), Answer::Accepted);
    assert_eq!(with(Rooms { legs: 15, ..exact }), refused(16, 1, 145));
    assert_eq!(with(Rooms { legs: 7, ..exact }), refused(16, 1, 114));
    assert_eq!(with(Rooms { configurations: 11, ..exact }), refused(16, 1, 145));
    assert_eq!(with(Rooms { configurations: 5, ..exact }), refused(16, 1, 114));
    assert_eq!(with(Rooms { profiles: 5, ..exact }), refused(16, 2, 50));
    assert_eq!(with(Rooms { samples: 6, ..exact }), refused(16, 2, 50));
    assert_eq!(with(Rooms { samples: 3, ..exact }), refused(16, 2, 30));
    let brace = place_of(&texts.constraints, "{\"first");
    assert_eq!(with(Rooms { constraints: 5, ..exact }), refused(16, 3, brace));
    let track = place_of(&texts.constraints, "2]");
    assert_eq!(with(Rooms { tracks: 3, ..exact }), refused(16, 3, track));
    assert_eq!(with(Rooms { choices: 5, ..exact }), refused(16, 4, 145));
    // A check needs no room for curves, text or second choices.
    assert_eq!(with(Rooms { curves: 0, text: 0, second_choices: 0, ..exact }), Answer::Accepted);
    texts.rooms = exact;
    assert_eq!(texts.merged(Direction::Earlier).answer, Answer::Accepted);
    assert_eq!(texts.report().answer, Answer::Accepted);
}

#[test]
fn r19_display() {
    let draft = timetable(&[ROW_1, ROW_2]);
    let solution = timetable(&[ROW_2, "\n", "x"]);
    assert_eq!(row_at(&draft, &solution, 1, 114), (114, 30));
    assert_eq!(row_at(&draft, &solution, 1, 145), (145, 30));
    assert_eq!(&draft[145..175], ROW_2.trim_end().as_bytes());
    assert_eq!(row_at(&draft, &solution, 1, 176), (0, 0));
    assert_eq!(row_at(&draft, &solution, 4, 114), (114, 30));
    assert_eq!(row_at(&draft, &solution, 4, 145), (145, 0));
    assert_eq!(row_at(&draft, &solution, 4, 146), (146, 1));
    for file in [0, 2, 3, 5, 6] {
        assert_eq!(row_at(&draft, &solution, file, 114), (0, 0));
    }
    for place in [0, 1, 113, 115, 144, 147, 100_000, usize::MAX] {
        assert_eq!(row_at(&draft, &solution, 4, place), (0, 0), "{place}");
    }
    // The header is the first line, whatever it says.
    assert_eq!(row_at(b"\nab\ncd", b"", 1, 1), (1, 2));
    assert_eq!(row_at(b"\nab\ncd", b"", 1, 4), (4, 2));
    assert_eq!(row_at(b"\nab\ncd", b"", 1, 0), (0, 0));
    assert_eq!(row_at(b"", b"", 4, 0), (0, 0));
}

// constraints.json.

/// The answer for a text of constraints with the worked example's other texts.
fn constraints(text: &[u8]) -> Answer {
    example().with_constraints(text).answer()
}

/// The example's constraints as text, with one part changed.
fn changed(part: &str, by: &str) -> Vec<u8> {
    let text = String::from_utf8(example().constraints).unwrap();
    assert_eq!(text.matches(part).count(), 1);
    text.replace(part, by).into_bytes()
}

#[test]
fn r20_white_space() {
    let text = String::from_utf8(example().constraints).unwrap();
    let mut wide = String::from(" \t\r\n");
    for letter in text.chars() {
        if "{}[]:,".contains(letter) {
            wide.push_str("\n\t ");
        }
        wide.push(letter);
        if "{}[]:,".contains(letter) {
            wide.push_str(" \r");
        }
    }
    assert_eq!(constraints(wide.as_bytes()), Answer::Accepted);
    for other in ["\x0b", "\x0c", "\u{a0}", "\u{feff}", "\0"] {
        assert_eq!(constraints(format!("{other}{text}").as_bytes()), refused(9, 3, 0));
        let after = format!("{text}{other}");
        assert_eq!(constraints(after.as_bytes()), refused(9, 3, text.len()));
    }
    // A form feed after a number belongs to its run.
    let text = changed("20}", "20\x0c}");
    assert_eq!(constraints(&text), refused(9, 3, place_of(&text, "20\x0c")));
}

#[test]
fn r21_a_token_out_of_place_is_9() {
    for (part, by, fault) in [
        // A number that no value may have, where a comma must stand.
        ("\"first_leg_id\":1,", "\"first_leg_id\":1 1000000000,", "1000000000"),
        // An unknown name where a colon must stand.
        ("\"min_dwell_time\":20", "\"min_dwell_time\" \"zzz\"", "\"zzz\""),
        // A repeated name where a value must stand.
        ("\"first_leg_id\":1,", "\"first_leg_id\":\"dwell_time\",", "\"dwell_time\""),
        // An unknown leg where a track list must stand.
        ("\"track_ids\":[1,2]", "\"track_ids\":77", "77"),
        // A record where a number must stand.
        ("[1,2]", "[1,{\"a\":2}]", "{\"a\""),
        // A closing bracket after a comma.
        ("[1,2]", "[1,2,]", "]}]}"),
        ("[1,2]", "[1,,2]", ",2]"),
        ("[1,2]", "[,1,2]", ",1,2"),
        ("[1,2]", "[1 2]", "2]"),
        // Two lists without a comma.
        ("\"dwell_time_constraints\":", "\"dwell_time_constraints\"::", ":["),
    ] {
        let text = changed(part, by);
        let string = String::from_utf8(text.clone()).unwrap();
        let around = string.find(by).unwrap();
        let place = around + string[around..].find(fault).unwrap();
        assert_eq!(constraints(&text), refused(9, 3, place), "{by}");
    }
}

#[test]
fn r22_past_a_limit_what_is_no_record_is_9() {
    let nine = |ninth: &str| {
        let eight: String = (0..8).map(|id| format!("{{\"subnet_id\":{id},\"track_ids\":[]}},")).collect();
        lists(&[list("recuperation_subnets", &format!("{eight}{ninth}"))])
    };
    let texts = example().with_draft(&timetable(&[]));
    let text = nine("77");
    assert_eq!(texts.with_constraints(&text).answer(), refused(9, 3, place_of(&text, "77")));
    let text = nine("{\"zzz\"");
    assert_eq!(texts.with_constraints(&text).answer(), refused(6, 3, place_of(&text, "{\"zzz\"")));
    // The same for room.
    let mut texts = example().with_constraints(&changed("{\"first", "[{\"first"));
    texts.rooms.constraints = 0;
    let place = place_of(&texts.constraints, "[[{") + 1;
    assert_eq!(texts.answer(), refused(9, 3, place));
    let mut texts = example().with_constraints(&changed("[1,2]", "[1,2,x]"));
    texts.rooms.tracks = 4;
    assert_eq!(texts.answer(), refused(9, 3, place_of(&texts.constraints, "x]")));
    texts.rooms.tracks = 2;
    assert_eq!(texts.answer(), refused(16, 3, place_of(&texts.constraints, "2,x]")));
}

#[test]
fn r23_strings_at_fault() {
    // A forbidden byte: at the quote, closed or not.
    for text in [&b"{\"a\\b\":[]}"[..], b"{\"a\tb\":[]}", b"{\"a\x7f", b"{\"\xc3\xa4\":[]}", b"{\"\\\""] {
        assert_eq!(constraints(text), refused(9, 3, 1));
    }
    // Unclosed and clean, where a name may stand: at the length.
    assert_eq!(constraints(b"{\""), refused(9, 3, 2));
    assert_eq!(constraints(b"{\"dwell_time_constraints"), refused(9, 3, 24));
    assert_eq!(constraints(b"{\"dwell_time_constraints\":[],\"abc"), refused(9, 3, 33));
    // Unclosed and clean, where a connection type stands.
    let text = b"{\"connection_constraints\":[{\"connection_type\":\"arrival_to";
    assert_eq!(constraints(text), refused(9, 3, text.len()));
    // Unclosed elsewhere: at the quote.
    assert_eq!(constraints(b" \"abc"), refused(9, 3, 1));
    assert_eq!(constraints(b"{\"dwell_time_constraints\":\"abc"), refused(9, 3, 26));
    assert_eq!(constraints(b"{\"dwell_time_constraints\":[\"abc"), refused(9, 3, 27));
    assert_eq!(constraints(b"{\"dwell_time_constraints\"\"abc"), refused(9, 3, 25));
    assert_eq!(constraints(b"{\"dwell_time_constraints\":[{\"first_leg_id\":\"1"), refused(9, 3, 43));
    assert_eq!(constraints(b"{\"dwell_time_constraints\":[]\"abc"), refused(9, 3, 28));
}

#[test]
fn r24_runs() {
    for bad in ["-1", "1.0", "1e3", "007", "12abc", "true", "null", "+1", "1/2"] {
        let text = changed("20}", &format!("{bad}}}"));
        let place = place_of(&text, "\"min_dwell_time\":") + 17;
        assert_eq!(constraints(&text), refused(9, 3, place), "{bad}");
    }
    let start = "{\"dwell_time_constraints\":[{\"min_dwell_time\":";
    assert_eq!(constraints(format!("{start}86401").as_bytes()), refused(5, 3, start.len()));
    assert_eq!(constraints(format!("{start}86400").as_bytes()), refused(9, 3, start.len() + 5));
    assert_eq!(constraints(format!("{start}0864").as_bytes()), refused(9, 3, start.len()));
    let digits = "1".repeat(5_000);
    assert_eq!(constraints(format!("{start}{digits}").as_bytes()), refused(5, 3, start.len()));
}

#[test]
fn r25_an_unfinished_name_is_not_yet_unknown() {
    assert_eq!(constraints(b"{\"zzz"), refused(9, 3, 5));
    assert_eq!(constraints(b"{\"zzz\""), refused(10, 3, 1));
}

#[test]
fn r26_names() {
    // A key of another kind is 10.
    let text = changed("\"min_dwell_time\"", "\"min_headway_time\"");
    assert_eq!(constraints(&text), refused(10, 3, place_of(&text, "\"min_headway_time\"")));
    let turn = "{\"first_leg_id\":1,\"second_leg_id\":2,\"min_dwell_time\":0}";
    let text = lists(&[list("terminal_turnaround_constraints", turn), subnet_of_both()]);
    assert_eq!(constraints(&text), refused(10, 3, place_of(&text, "\"min_dwell_time\"")));
    // An unknown name twice is 10 at its first.
    let text = changed("\"min_dwell_time\":20", "\"zzz\":1,\"zzz\":1");
    assert_eq!(constraints(&text), refused(10, 3, place_of(&text, "\"zzz\":1,")));
    // A closing brace after a comma is 9, though keys are missing.
    let text = changed("\"min_dwell_time\":20}", "}");
    assert_eq!(constraints(&text), refused(9, 3, place_of(&text, "}],\"terminal")));
    // The same for the whole text.
    assert_eq!(constraints(b"{\"dwell_time_constraints\":[],}"), refused(9, 3, 29));
}

#[test]
fn r27_missing_names() {
    let text = changed(",\"min_dwell_time\":20", "");
    assert_eq!(constraints(&text), refused(11, 3, place_of(&text, "}],\"terminal")));
    let text = changed("\"subnet_id\":1,", "");
    assert_eq!(constraints(&text), refused(11, 3, place_of(&text, "}]}")));
    let text = changed("{\"subnet_id\":1,\"track_ids\":[1,2]}", "{}");
    assert_eq!(constraints(&text), refused(11, 3, place_of(&text, "{}") + 1));
    let text = changed("\"connection_constraints\":[],", "");
    assert_eq!(constraints(&text), refused(11, 3, text.len() - 1));
    // An earlier fault wins.
    let text = [text, b" x".to_vec()].concat();
    assert_eq!(constraints(&text), refused(11, 3, text.len() - 3));
}

#[test]
fn r28_leg_ids() {
    let leg = |value: &str| {
        let text = changed("\"first_leg_id\":1", &format!("\"first_leg_id\":{value}"));
        let place = place_of(&text, "\"first_leg_id\":") + 15;
        (constraints(&text), place)
    };
    for (value, number) in [("1.5", 9), ("01", 9), ("\"1\"", 9), ("1000000000", 5), ("999999999", 12), ("0", 12)] {
        let (answer, place) = leg(value);
        assert_eq!(answer, refused(number, 3, place), "{value}");
    }
    assert_eq!(leg("2").0, violated(3, 0, 1, 23));
}

#[test]
fn r29_counts_in_file_order() {
    // Room for one constraint: the second of the file is refused, though its kind is lower.
    let text = "{\"dwell_time_constraints\":[{\"first_leg_id\":1,\"second_leg_id\":2,\"min_dwell_time\":0}],\
        \"headway_time_constraints\":[{zzz";
    let mut texts = example().with_constraints(text.as_bytes());
    texts.rooms.constraints = 11;
    assert_eq!(texts.answer(), refused(16, 3, place_of(&texts.constraints, "{zzz")));
    texts.rooms.constraints = 12;
    assert_eq!(texts.answer(), refused(9, 3, place_of(&texts.constraints, "zzz")));
    // Subnets are counted apart and need no room.
    let eight: Vec<String> =
        (0..8).map(|id| format!("{{\"subnet_id\":{id},\"track_ids\":[{id}]}}")).collect();
    let mut texts = example().with_constraints(&lists(&[list("recuperation_subnets", &eight.join(","))]));
    texts.rooms.constraints = 0;
    assert_eq!(texts.answer(), Answer::Accepted);
    let nine = format!("{},{{\"subnet_id\":8,\"track_ids\":[]}}", eight.join(","));
    let text = lists(&[list("recuperation_subnets", &nine)]);
    assert_eq!(constraints(&text), refused(6, 3, place_of(&text, "{\"subnet_id\":8")));
}

#[test]
fn r29_limits_of_constraints_and_tracks() {
    let record = "{\"first_leg_id\":1,\"second_leg_id\":2}";
    let many = vec![record; 65_536].join(",");
    let text = lists(&[list("single_track_headway_constraints", &many), subnet_of_both()]);
    assert_eq!(constraints(&text), Answer::Accepted);
    let text = lists(&[list("single_track_headway_constraints", &many), dwell(20), subnet_of_both()]);
    let place = place_of(&text, "\"dwell_time_constraints\":[") + 26;
    assert_eq!(constraints(&text), refused(6, 3, place));
    let tracks = |count: usize, more: &str| {
        let ids: Vec<String> = (0..count).map(|id| id.to_string()).collect();
        let records = format!("{{\"subnet_id\":1,\"track_ids\":[{}{more}]}}", ids.join(","));
        lists(&[list("recuperation_subnets", &records)])
    };
    assert_eq!(constraints(&tracks(4_096, "")), Answer::Accepted);
    // 5 before 6, 6 before 7 and 16, 7 before 16.
    let text = tracks(4_096, ",1000000000");
    assert_eq!(constraints(&text), refused(5, 3, place_of(&text, "1000000000")));
    let text = tracks(4_096, ", 0]");
    let place = place_of(&text, ", 0]") + 2;
    assert_eq!(constraints(&text), refused(6, 3, place));
    let mut texts = example().with_constraints(&changed("[1,2]", "[1, 1]"));
    texts.rooms.tracks = 2;
    assert_eq!(texts.answer(), refused(7, 3, place_of(&texts.constraints, " 1]") + 1));
    texts.constraints = changed("[1,2]", "[1, 2]");
    assert_eq!(texts.answer(), refused(16, 3, place_of(&texts.constraints, " 2]") + 1));
}

#[test]
fn r29_a_track_in_two_subnets() {
    let two = "{\"subnet_id\":1,\"track_ids\":[1,2]},{\"subnet_id\":2,\"track_ids\":[3, 2]}";
    let text = lists(&[list("recuperation_subnets", two)]);
    assert_eq!(constraints(&text), refused(7, 3, place_of(&text, " 2]") + 1));
}

#[test]
fn r30_a_subnet_id_repeated() {
    let two = "{\"subnet_id\":1,\"track_ids\":[1,2]},{\"track_ids\":[],\"subnet_id\": 1}";
    let text = lists(&[list("recuperation_subnets", two)]);
    assert_eq!(constraints(&text), refused(7, 3, place_of(&text, " 1}") + 1));
    let text = changed("\"subnet_id\":1", "\"subnet_id\":1000000000");
    assert_eq!(constraints(&text), refused(5, 3, place_of(&text, "1000000000")));
}

#[test]
fn r31_tracks_and_subnets() {
    let more = "{\"subnet_id\":1,\"track_ids\":[9,1,2]},{\"subnet_id\":2,\"track_ids\":[]}";
    assert_eq!(constraints(&lists(&[list("recuperation_subnets", more)])), Answer::Accepted);
    assert_eq!(constraints(&lists(&[])), refused(15, 1, 114));
    assert_eq!(
        example().with_draft(&timetable(&[])).with_constraints(&lists(&[])).answer(),
        Answer::Accepted
    );
}

#[test]
fn r32_after_the_last_brace() {
    let text = example().constraints;
    let with = |more: &[u8]| constraints(&[&text[..], more].concat());
    assert_eq!(with(b" \n\t\r"), Answer::Accepted);
    for more in [&b"}"[..], b",", b"x", b"{}", b"\"a\"", b"\"a", b"\"\\"] {
        assert_eq!(with(more), refused(9, 3, text.len()));
        assert_eq!(with(&[b"  ", more].concat()), refused(9, 3, text.len() + 2));
    }
}

#[test]
fn r33_empty_texts() {
    assert_eq!(constraints(b""), refused(9, 3, 0));
    assert_eq!(constraints(b" \n "), refused(9, 3, 3));
    assert_eq!(constraints(b"{}"), refused(11, 3, 1));
    assert_eq!(constraints(b"{"), refused(9, 3, 1));
    assert_eq!(constraints(b"{ "), refused(9, 3, 2));
    assert_eq!(constraints(b"[]"), refused(9, 3, 0));
    // Every shorter text is refused, early ends at their length or before it.
    let text = example().constraints;
    for length in 0..text.len() {
        match constraints(&text[..length]) {
            Answer::Refused { number: 9, file: 3, place } => assert_eq!(place, length),
            other => panic!("{length}: {other:?}"),
        }
    }
}

#[test]
fn r34_repeated_names() {
    let text = changed("\"second_leg_id\":2", "\"second_leg_id\":2, \"first_leg_id\":x");
    assert_eq!(constraints(&text), refused(11, 3, place_of(&text, " \"first_leg_id\":x") + 1));
    let text = changed("\"connection_constraints\":[]", " \"dwell_time_constraints\":x");
    assert_eq!(constraints(&text), refused(11, 3, place_of(&text, " \"dwell") + 1));
    let spoiled = "{\"connection_type\":\"arrival_to\\arrival\"}";
    let text = lists(&[list("connection_constraints", spoiled)]);
    assert_eq!(constraints(&text), refused(9, 3, place_of(&text, "\"arrival_to\\")));
}

// Numbers.

#[test]
fn r35_counting_from_0() {
    let two = "{\"first_leg_id\":1,\"second_leg_id\":2,\"min_dwell_time\":0},\
        {\"first_leg_id\":2,\"second_leg_id\":1,\"min_dwell_time\":0}";
    let subnets = "{\"subnet_id\":5,\"track_ids\":[2]},{\"subnet_id\":3,\"track_ids\":[1]}";
    let text = lists(&[list("dwell_time_constraints", two), list("recuperation_subnets", subnets)]);
    let checked = example().with_constraints(&text).checked();
    assert_eq!(checked.answer, violated(3, 1, 1, 33));
    let tables = checked.tables.unwrap();
    assert_eq!(tables.constraints, vec![3, 0, 1, 0, 0, 0, 3, 1, 0, 0, 0, 0]);
    assert_eq!(tables.tracks, vec![2, 0, 1, 1]);
}

#[test]
fn r36_an_empty_sample_list() {
    assert_eq!(example().with_profiles(&profiles(&["7,\n"])).answer(), refused(4, 2, 30));
}

#[test]
fn r37_two_quarter_sums() {
    // Leg 2 runs while leg 1 gives power back, so that less is drawn than before recuperation.
    let draft = timetable(&[ROW_1, "2,1,2,2,3,13_3_8,13_3_8\n"]);
    let mut texts = example().with_draft(&draft).with_constraints(&lists(&[subnet_of_both()]));
    texts.h = 900;
    let figures = texts.report().figures;
    assert_eq!((figures.peak_before, figures.peak_drawn), (2_050, 1_750));
    texts.h = 899;
    let figures = texts.report().figures;
    assert_eq!((figures.peak_before, figures.peak_drawn), (2_050, 1_750));
    assert_eq!((figures.before, figures.drawn), (2_050, 1_750));
}
