//! Document 01's worked example.

#![allow(dead_code)]

pub mod json;
pub mod schema;

pub const H: u32 = 100;

pub const HEADER: &str =
    "leg_id,train_id,track_id,start_station_id,end_station_id,nominal_departure_configuration,departure_configurations\n";

pub const PROFILES: &str = "profile_id,power_consumptions\n7,0.5 1.0 0.25 -0.4\n8,0.3 0.0 -0.2\n";

/// The draft's rows with these choices.
pub fn solution(first: &str, second: &str) -> String {
    format!("{HEADER}1,1,1,1,2,{first},10_4_7 15_4_7\n2,1,2,2,3,{second},40_3_8 45_3_8\n")
}

pub fn draft() -> String {
    solution("10_4_7", "40_3_8")
}

/// A text as a spreadsheet exports it: every field in quotes, CR LF at every line.
pub fn exported(text: &str) -> String {
    text.lines().map(|line| format!("\"{}\"\r\n", line.replace(',', "\",\""))).collect()
}

pub fn dwell(seconds: u32) -> String {
    lasting("dwell_time_constraints", "min_dwell_time", seconds)
}

/// The key is that of one of the editions.
pub fn turnaround(key: &str, seconds: u32) -> String {
    lasting("terminal_turnaround_constraints", key, seconds)
}

/// From the first leg's arrival to the second's departure at least so many seconds.
fn lasting(list: &str, key: &str, seconds: u32) -> String {
    constraints(list, &format!(r#"{{"first_leg_id": 1, "second_leg_id": 2, "{key}": {seconds}}}"#))
}

/// One record in one list; both tracks in one subnet.
pub fn constraints(list: &str, record: &str) -> String {
    let lists = [
        "headway_time_constraints",
        "single_track_headway_constraints",
        "dwell_time_constraints",
        "terminal_turnaround_constraints",
        "connection_constraints",
    ];
    let lists: Vec<String> = lists.iter().map(|name| format!("\"{name}\": [{}]", if *name == list { record } else { "" })).collect();
    format!("{{{},\n\"recuperation_subnets\": [{{\"subnet_id\": 1, \"track_ids\": [1, 2]}}]}}\n", lists.join(",\n"))
}

pub const DUTIES_HEADER: &str =
    "DUTY_ID,SEQ,START_TIME_SECONDS,START_TIME_HHMMSS,END_TIME_SECONDS,END_TIME_HHMMSS,START_NODE,END_NODE,EVENT_TYPE,TRAIN_COURSE_ID\n";

/// One duty, from A to B and back to A, as the last rows of document 004's Table 8 go past midnight; another from A to B.
pub const DUTY_ROWS: [&str; 4] = [
    "D,1,86340,23:59:00,87720,1d 00:22:00,A,B,TRAIN,C1\n",
    "D,2,87720,1d 00:22:00,87840,1d 00:24:00,B,B,CHANGE_END,\n",
    "D,3,87840,1d 00:24:00,87960,1d 00:26:00,B,A,TRAIN,C2\n",
    "E,1,0,00:00:00,60,00:01:00,A,B,TRAIN,C3\n",
];

pub fn duties() -> String {
    [DUTIES_HEADER].into_iter().chain(DUTY_ROWS).collect()
}

/// For each rule a file that breaks it: the rule, the row, and the text.
pub fn broken_duties() -> [(u8, usize, String); 6] {
    let [first, second, third, other] = DUTY_ROWS;
    let file = |rows: &[&str]| [DUTIES_HEADER].iter().chain(rows).copied().collect::<String>();
    [
        (1, 3, duties().replace(",60,00:01:00", ",0,00:00:00")),
        (2, 1, duties().replace("B,B,CHANGE", "B,A,CHANGE")),
        (3, 2, file(&[first, other, second, third])),
        (4, 1, file(&[first, third, other])),
        (5, 1, duties().replace("B,B,CHANGE", "A,A,CHANGE")),
        (6, 0, duties().replace(",1d 00:22:00,A", ",24:22:00,A")),
    ]
}
