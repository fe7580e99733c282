//! Every example of document 01.

mod common;

use common::*;
use independent::{Answer, Direction, Figures};

#[test]
fn nominal_is_accepted() {
    let report = example().report();
    assert_eq!(example().answer(), Answer::Accepted);
    assert_eq!(report.answer, Answer::Accepted);
    assert_eq!(
        report.figures,
        Figures {
            before: 2_050,
            drawn: 2_050,
            lost: 600,
            fluctuation: 1_400,
            peak_before: 2_050,
            peak_drawn: 2_050
        }
    );
    assert_eq!(report.quarters, [0, 0]);
    let curves = report.curves.unwrap();
    assert_eq!(curves.len(), 100);
    assert_eq!(curves[9..15], [0, 500, 1_000, 250, -400, 0]);
    assert_eq!(curves[39..44], [0, 300, 0, -200, 0]);
}

#[test]
fn departures_15_and_40() {
    let later = example().with_solution(&departures(15, 40));
    assert_eq!(later.answer(), Answer::Accepted);
    let with_21 = later.with_constraints(&lists(&[dwell(21), subnet_of_both()]));
    assert_eq!(with_21.answer(), Answer::Accepted);
    let with_22 = later.with_constraints(&lists(&[dwell(22), subnet_of_both()]));
    assert_eq!(with_22.answer(), violated(3, 0, 1, 1));
}

#[test]
fn a_choice_listed_in_the_solution_alone() {
    let solution = timetable(&[ROW_1, "2,1,2,2,3,12_3_8,40_3_8 12_3_8\n"]);
    assert_eq!(example().with_solution(&solution).answer(), violated(0, 1, 0, 0));
}

#[test]
fn merges() {
    let both = example().with_solution(&departures(15, 40)).with_second(&departures(10, 45));
    let earlier = both.merged(Direction::Earlier);
    assert_eq!(earlier.answer, Answer::Accepted);
    assert_eq!(earlier.text.as_deref(), Some(&timetable(&[ROW_1, ROW_2])[..]));
    assert_eq!(earlier.text.as_deref(), Some(&departures(10, 40)[..]));
    let later = both.merged(Direction::Later);
    assert_eq!(later.answer, Answer::Accepted);
    assert_eq!(later.text.as_deref(), Some(&departures(15, 45)[..]));
    assert_eq!(later.tables.unwrap().second_choices, vec![10, 4, 7, 45, 3, 8]);
}

#[test]
fn merged_curves_add_up_to_the_old_ones() {
    let both = example().with_solution(&departures(15, 40)).with_second(&departures(10, 45));
    let curves = |solution: &[u8]| example().with_solution(solution).report().curves.unwrap();
    let earlier = curves(&both.merged(Direction::Earlier).text.unwrap());
    let later = curves(&both.merged(Direction::Later).text.unwrap());
    let first = curves(&both.solution);
    let second = curves(&both.second);
    for t in 0..100 {
        assert_eq!(earlier[t] + later[t], first[t] + second[t]);
    }
}

#[test]
fn absorption() {
    let a = departures(15, 40);
    let b = departures(10, 45);
    let merged = |direction, first: &[u8], second: &[u8]| {
        example().with_solution(first).with_second(second).merged(direction).text.unwrap()
    };
    let later = merged(Direction::Later, &a, &b);
    assert_eq!(merged(Direction::Earlier, &a, &later), a);
    let earlier = merged(Direction::Earlier, &a, &b);
    assert_eq!(merged(Direction::Later, &a, &earlier), a);
}

/// Leg 2 offered at 13, no dwell.
fn offered_at_13() -> Texts {
    let row = "2,1,2,2,3,13_3_8,40_3_8 45_3_8 13_3_8\n";
    example().with_draft(&timetable(&[ROW_1, row])).with_constraints(&lists(&[subnet_of_both()]))
}

#[test]
fn leg_2_offered_at_13() {
    let figures = offered_at_13().report().figures;
    assert_eq!((figures.drawn, figures.lost), (1_750, 300));
}

#[test]
fn tracks_in_two_subnets() {
    let two = "{\"subnet_id\":1,\"track_ids\":[1]},{\"subnet_id\":2,\"track_ids\":[2]}";
    let texts = offered_at_13().with_constraints(&lists(&[list("recuperation_subnets", two)]));
    let figures = texts.report().figures;
    assert_eq!((figures.before, figures.drawn, figures.lost), (2_050, 2_050, 600));
    assert_eq!(texts.checked().tables.unwrap().tracks, vec![1, 0, 2, 1]);
}

#[test]
fn samples_at_the_limit() {
    let read = |sample: &str| {
        let text = profiles(&["7,0.5 1.0 0.25 -0.4\n", &format!("8,0.3 {sample} -0.2\n")]);
        example().with_profiles(&text).answer()
    };
    assert_eq!(read("20.000"), Answer::Accepted);
    assert_eq!(read("-20.000"), Answer::Accepted);
    assert_eq!(read("20.001"), refused(5, 2, 50));
}

#[test]
fn travel_at_the_limit() {
    let samples = vec!["0.0"; 3_600].join(" ");
    let read = |travel: &str| {
        let row = format!("1,1,1,1,2,0_{travel}_7,0_{travel}_7\n");
        let mut texts = example()
            .with_draft(&timetable(&[&row]))
            .with_profiles(&profiles(&[&format!("7,{samples}\n")]))
            .with_constraints(&lists(&[subnet_of_both()]));
        texts.h = 4_000;
        texts.answer()
    };
    assert_eq!(read("3600"), Answer::Accepted);
    assert_eq!(read("3601"), refused(5, 1, 114));
}

#[test]
fn unknown_connection_type() {
    let record = "{\"first_leg_id\":1,\"second_leg_id\":2,\"min_connection_time\":0,\"max_connection_time\":99,\"connection_type\":\"arrival_to_arrival\"}";
    let text = lists(&[list("connection_constraints", record), subnet_of_both()]);
    let place = place_of(&text, "\"arrival_to_arrival\"");
    assert_eq!(example().with_constraints(&text).answer(), refused(10, 3, place));
}

#[test]
fn empty_timetable() {
    assert_eq!(example().with_draft(b"").answer(), refused(3, 1, 0));
}

#[test]
fn track_2_in_no_subnet() {
    let one = list("recuperation_subnets", "{\"subnet_id\":1,\"track_ids\":[1]}");
    let text = lists(&[dwell(20), one]);
    assert_eq!(example().with_constraints(&text).answer(), refused(15, 1, 145));
}

#[test]
fn the_tables_of_the_example() {
    let tables = example().checked().tables.unwrap();
    assert_eq!(tables.legs, vec![1, 1, 1, 1, 2, 0, 2, 0, 2, 1, 2, 2, 3, 2, 2, 0]);
    assert_eq!(tables.configurations, vec![10, 4, 7, 15, 4, 7, 40, 3, 8, 45, 3, 8]);
    assert_eq!(tables.profiles, vec![7, 0, 4, 8, 4, 3]);
    assert_eq!(tables.samples, vec![500, 1_000, 250, -400, 300, 0, -200]);
    assert_eq!(tables.constraints, vec![3, 0, 1, 20, 0, 0]);
    assert_eq!(tables.tracks, vec![1, 0, 2, 0]);
    assert_eq!(tables.choices, vec![10, 4, 7, 40, 3, 8]);
    assert!(tables.second_choices.is_empty());
}

#[test]
fn every_kind_and_every_inequality() {
    let legs = "\"first_leg_id\":1,\"second_leg_id\":2";
    // d1 is 10, t1 is 4, d2 is 40, t2 is 3.
    let kind = |name: &'static str, more: &str| {
        let records = format!("{{{legs}{more}}}");
        example().with_constraints(&lists(&[list(name, &records), subnet_of_both()])).answer()
    };
    let headway = "headway_time_constraints";
    assert_eq!(kind(headway, ",\"min_headway_time\":29"), Answer::Accepted);
    assert_eq!(kind(headway, ",\"min_headway_time\":30"), violated(1, 0, 2, 1));
    assert_eq!(kind(headway, ",\"min_headway_time\":31"), violated(1, 0, 1, 1));
    assert_eq!(kind("single_track_headway_constraints", ""), Answer::Accepted);
    assert_eq!(kind("dwell_time_constraints", ",\"min_dwell_time\":26"), Answer::Accepted);
    assert_eq!(kind("dwell_time_constraints", ",\"min_dwell_time\":86400"), violated(3, 0, 1, 86_374));
    let turn = "terminal_turnaround_constraints";
    assert_eq!(kind(turn, ",\"min_turnaround_time\":26"), Answer::Accepted);
    assert_eq!(kind(turn, ",\"min_turnaround_time\":28"), violated(4, 0, 1, 2));
    let connection = |a: u32, b: u32, anchor: &str| {
        let more = format!(
            ",\"min_connection_time\":{a},\"max_connection_time\":{b},\"connection_type\":\"{anchor}\""
        );
        kind("connection_constraints", &more)
    };
    assert_eq!(connection(26, 26, "arrival_to_departure"), Answer::Accepted);
    assert_eq!(connection(27, 30, "arrival_to_departure"), violated(5, 0, 1, 1));
    assert_eq!(connection(0, 24, "arrival_to_departure"), violated(5, 0, 2, 2));
    assert_eq!(connection(30, 30, "departure_to_departure"), Answer::Accepted);
    assert_eq!(connection(31, 29, "departure_to_departure"), violated(5, 0, 1, 1));
    assert_eq!(connection(30, 29, "departure_to_departure"), violated(5, 0, 2, 1));
}

#[test]
fn a_record_may_name_one_leg_twice() {
    let same = "{\"first_leg_id\":2,\"second_leg_id\":2}";
    let text = lists(&[list("single_track_headway_constraints", same), subnet_of_both()]);
    assert_eq!(example().with_constraints(&text).answer(), violated(2, 0, 1, 3));
}

#[test]
fn the_table_is_ordered_by_kind_and_not_by_file() {
    let text = "{\"recuperation_subnets\":[{\"track_ids\":[2,1],\"subnet_id\":5}],\
        \"dwell_time_constraints\":[{\"min_dwell_time\":99,\"second_leg_id\":2,\"first_leg_id\":1}],\
        \"connection_constraints\":[],\"terminal_turnaround_constraints\":[],\
        \"headway_time_constraints\":[{\"first_leg_id\":1,\"second_leg_id\":2,\"min_headway_time\":1},\
        {\"first_leg_id\":2,\"min_headway_time\":1,\"second_leg_id\":1}],\
        \"single_track_headway_constraints\":[]}";
    let checked = example().with_constraints(text.as_bytes()).checked();
    assert_eq!(checked.answer, violated(1, 1, 1, 31));
    let tables = checked.tables.unwrap();
    assert_eq!(tables.constraints, vec![1, 0, 1, 1, 0, 0, 1, 1, 0, 1, 0, 0, 3, 0, 1, 99, 0, 0]);
    assert_eq!(tables.tracks, vec![2, 0, 1, 0]);
}

#[test]
fn quarters_and_doubles() {
    let row_1 = "1,1,1,1,2,898_4_7,898_4_7\n";
    let mut texts = example()
        .with_draft(&timetable(&[row_1]))
        .with_constraints(&lists(&[subnet_of_both()]));
    texts.h = 1_000;
    // One whole quarter: 0.5 and 1.0 fall in it, 0.25 and -0.4 in the shorter one.
    let report = texts.report();
    assert_eq!((report.figures.peak_before, report.figures.peak_drawn), (1_500, 1_500));
    assert_eq!(report.figures.drawn, 1_750);
    assert_eq!(report.desk.peak, 1_500.0 / 900_000.0);
    assert_eq!(report.desk.before, 1_750.0 / 3_600_000.0);
    assert_eq!(report.desk.lost, 400.0 / 3_600_000.0);
    texts.h = 1_800;
    assert_eq!(texts.report().figures.peak_drawn, 1_500);
    texts.timetable = timetable(&["1,1,1,1,2,899_4_7,899_4_7\n"]);
    texts.solution = texts.timetable.clone();
    assert_eq!(texts.report().figures.peak_drawn, 1_250);
    assert_eq!(texts.report().quarters, [1, 1]);
    // The same in a shorter one: its own sum, and the divisor is that of a whole quarter.
    texts.h = 903;
    let report = texts.report();
    assert_eq!((report.figures.peak_before, report.figures.peak_drawn), (1_250, 1_250));
    assert_eq!(report.quarters, [1, 1]);
    assert_eq!(report.desk.peak, 1_250.0 / 900_000.0);
}

#[test]
fn the_first_of_equal_quarters() {
    let row = |id: u32, departure: u32| {
        format!("{id},1,1,1,2,{departure}_4_7,{departure}_4_7\n")
    };
    let quarters = |h: u32, rows: &[String]| {
        let rows: Vec<&str> = rows.iter().map(String::as_str).collect();
        let mut texts = example()
            .with_draft(&timetable(&rows))
            .with_constraints(&lists(&[subnet_of_both()]));
        texts.h = h;
        let report = texts.report();
        (report.figures.peak_drawn, report.quarters)
    };
    assert_eq!(quarters(2_700, &[row(1, 1_810), row(2, 910)]), (1_750, [1, 1]));
    assert_eq!(quarters(2_700, &[row(1, 10), row(2, 910)]), (1_750, [0, 0]));
    assert_eq!(quarters(1_800, &[row(1, 10), row(2, 910), row(3, 920)]), (3_500, [1, 1]));
    // Quarter 1 is cut, and counts: above quarter 0, and after it where both have the same.
    assert_eq!(quarters(1_799, &[row(1, 910)]), (1_750, [1, 1]));
    assert_eq!(quarters(914, &[row(1, 10), row(2, 910)]), (1_750, [0, 0]));
    assert_eq!(quarters(2_699, &[row(1, 910), row(2, 1_810)]), (1_750, [1, 1]));
    assert_eq!(quarters(2_699, &[row(1, 10), row(2, 2_690), row(3, 2_695)]), (3_500, [2, 2]));
    // With H of 1..899 there is one quarter, and with 900 too.
    assert_eq!(quarters(14, &[row(1, 10)]), (1_750, [0, 0]));
    assert_eq!(quarters(899, &[row(1, 895)]), (1_750, [0, 0]));
    assert_eq!(quarters(900, &[row(1, 896)]), (1_750, [0, 0]));
    // The last of the greatest H, whole and one second short.
    assert_eq!(quarters(176_400, &[row(1, 176_396)]), (1_750, [195, 195]));
    assert_eq!(quarters(176_399, &[row(1, 176_395)]), (1_750, [195, 195]));
}

#[test]
fn refusals_in_their_order() {
    let mut all_bad = example();
    all_bad.h = 0;
    all_bad.timetable = b"x".to_vec();
    all_bad.profiles = b"x".to_vec();
    all_bad.constraints = b"x".to_vec();
    all_bad.solution = b"x".to_vec();
    assert_eq!(all_bad.answer(), refused(1, 0, 0));
    all_bad.h = 100;
    assert_eq!(all_bad.answer(), refused(3, 1, 0));
    all_bad.timetable = timetable(&["1,1,1,1,2,10_4_9,10_4_9\n"]);
    assert_eq!(all_bad.answer(), refused(3, 2, 0));
    all_bad.profiles = example().profiles;
    assert_eq!(all_bad.answer(), refused(12, 1, 114));
    all_bad.timetable = timetable(&["1,1,6,1,2,10_4_7,10_4_7\n"]);
    assert_eq!(all_bad.answer(), refused(9, 3, 0));
    all_bad.constraints = lists(&[subnet_of_both()]);
    assert_eq!(all_bad.answer(), refused(15, 1, 114));
    all_bad.timetable = timetable(&[ROW_1]);
    assert_eq!(all_bad.answer(), refused(3, 4, 0));
    all_bad.solution = timetable(&[ROW_2]);
    assert_eq!(all_bad.answer(), refused(14, 4, 114));
    assert!(all_bad.checked().tables.is_none());
}

#[test]
fn a_header_with_no_rows_is_legal() {
    let empty = Texts {
        timetable: timetable(&[]),
        solution: timetable(&[]),
        second: timetable(&[]),
        profiles: profiles(&[]),
        constraints: lists(&[]),
        ..example()
    };
    let report = empty.report();
    assert_eq!(report.answer, Answer::Accepted);
    assert_eq!(report.figures, Figures::default());
    assert_eq!(empty.merged(Direction::Later).text, Some(timetable(&[])));
}
