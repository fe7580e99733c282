//! Limits at and past the edge, as far as small texts reach, and each lent room at and below the need.

use crate::draw::SMALL_TEXT;
use crate::examples::travelling;
use crate::plan::{constraint_record, record, Plan, PlanLeg, PlanProfile};
use crate::Named;
use independent::{Call, Entry};

/// Numbers near a limit or past what 32 and 64 bits hold.
const LONG: [&str; 4] = ["4294967296", "4294967306", "18446744073709551616", "18446744073709551626"];

/// All edges as calls.
pub fn edges() -> Vec<Named> {
    let mut list = Vec::new();
    list.extend(horizons());
    list.extend(ids());
    list.extend(configurations());
    list.extend(seconds());
    list.extend(samples());
    list.extend(counts());
    list.extend(lengths());
    list.extend(quarters());
    list.extend(peaks());
    list.extend(last_quarters());
    list.extend(rooms());
    list
}

fn named(name: String, entry: Entry, plan: &Plan) -> Named {
    Named { name, call: Call::of(entry, plan.case()) }
}

fn files(plan: &mut Plan) -> [&mut Vec<PlanLeg>; 3] {
    [&mut plan.draft, &mut plan.solution, &mut plan.second]
}

/// H 1..176,400, and around the last arrival of the example, 48.
fn horizons() -> Vec<Named> {
    let mut empty = Plan::example();
    files(&mut empty).into_iter().for_each(|rows| rows.clear());
    empty.lists.iter_mut().for_each(|list| list.records.clear());
    let mut list = Vec::new();
    for h in [0, 1, 47, 48, 176_400, 176_401, 4_294_967_295] {
        for (rows, plan) in [("no rows", &empty), ("the example", &Plan::example())] {
            for entry in [Entry::Check, Entry::Energy, Entry::MergeLater] {
                let mut edge = named(format!("H {h}, {rows}"), entry, plan);
                edge.call.case.h = h;
                list.push(edge);
            }
        }
    }
    list
}

/// Ids 0..999,999,999: five columns, profiles, legs of constraints, subnets, tracks.
fn ids() -> Vec<Named> {
    let mut list = Vec::new();
    for id in ["0", "999999999", "1000000000"].iter().chain(&LONG) {
        for column in 0..5 {
            let mut plan = Plan::example();
            files(&mut plan).into_iter().for_each(|rows| rows[0].ids[column] = id.to_string());
            list.push(named(format!("{id} in column {column}"), Entry::MergeEarlier, &plan));
        }
        let mut plan = Plan::example();
        plan.profiles[0].id = id.to_string();
        for rows in files(&mut plan) {
            rows[0].nominal = format!("10_4_{id}");
            rows[0].list = vec![rows[0].nominal.clone()];
        }
        list.push(named(format!("profile {id}"), Entry::Energy, &plan));
        for (kind, value) in [(2, 0), (2, 1), (5, 0)] {
            let mut plan = Plan::example();
            plan.lists[kind].records[0][value].1 = id.to_string();
            list.push(named(format!("{id} as value {value} of list {kind}"), Entry::Check, &plan));
        }
        let mut plan = Plan::example();
        plan.lists[5].records[0][1].1 = format!("[1,2,{id}]");
        list.push(named(format!("track {id}"), Entry::Check, &plan));
    }
    list
}

/// Travel 1..3,600; the numbers of a configuration.
fn configurations() -> Vec<Named> {
    let mut list = Vec::new();
    for seconds in [0, 1, 3_599, 3_600, 3_601] {
        for entry in [Entry::Check, Entry::Energy] {
            list.push(named(format!("travel {seconds}"), entry, &travelling(seconds)));
        }
    }
    for number in ["0", "00", "01", "1000000000"].iter().chain(&LONG) {
        for place in 0..3 {
            let mut numbers = ["10", "4", "7"];
            numbers[place] = number;
            let entry = numbers.join("_");
            for file in 0..3 {
                let mut plan = Plan::example();
                files(&mut plan)[file][0].list.push(entry.clone());
                list.push(named(format!("{entry} in the list of file {file}"), Entry::MergeLater, &plan));
                files(&mut plan)[file][0].nominal = entry.clone();
                list.push(named(format!("{entry} chosen in file {file}"), Entry::MergeLater, &plan));
            }
        }
    }
    list
}

/// "Constraint seconds 0..86,400."
fn seconds() -> Vec<Named> {
    let mut list = Vec::new();
    for number in ["0", "86400", "86401"].iter().chain(&LONG) {
        for (kind, value) in [(1, 2), (3, 2), (4, 2), (5, 2), (5, 3)] {
            let mut plan = Plan::example();
            let mut changed = constraint_record(kind, false, ("1", "2"), 0, 40);
            changed[value].1 = number.to_string();
            plan.lists[kind - 1].records = vec![changed];
            list.push(named(format!("{number} as value {value} of kind {kind}"), Entry::Check, &plan));
        }
    }
    list
}

/// "A sample lies in -20.000..20.000 MW", and its forms.
fn samples() -> Vec<Named> {
    let forms = [
        "20.0",
        "20.00",
        "20.000",
        "20.001",
        "20.01",
        "20.1",
        "21.0",
        "-20.000",
        "-20.001",
        "-0.0",
        "-0.000",
        "0.5000",
        "5",
        ".5",
        "5.",
        "+1.0",
        "00.5",
        "-00.5",
        "-",
        "",
        "--1.0",
        "1.0.0",
        "1e1.0",
        "4294967296.0",
        "18446744073709551616.5",
    ];
    let mut list = Vec::new();
    for form in forms {
        let mut plan = Plan::example();
        plan.profiles[1].samples[2] = form.to_string();
        list.push(named(format!("sample {form}"), Entry::Energy, &plan));
    }
    list
}

/// 64 entries in a list, 3,600 samples in a row, 8 subnets.
fn counts() -> Vec<Named> {
    let mut list = Vec::new();
    for count in [63, 64, 65] {
        for file in 0..3 {
            let mut plan = Plan::example();
            files(&mut plan)[file][1].list.resize(count, String::from("45_3_8"));
            list.push(named(format!("{count} entries in file {file}"), Entry::MergeEarlier, &plan));
        }
    }
    for count in [3_599, 3_600, 3_601] {
        let mut plan = Plan::example();
        plan.profiles[1].samples.resize(count, String::from("0.0"));
        list.push(named(format!("{count} samples in a row no leg has"), Entry::Check, &plan));
    }
    for count in [7, 8, 9] {
        let mut plan = Plan::example();
        for id in 1..count {
            plan.lists[5].records.push(record(&[("subnet_id", &(id + 1).to_string()), ("track_ids", "[]")]));
        }
        list.push(named(format!("{count} subnets"), Entry::Energy, &plan));
    }
    list
}

/// Texts of the greatest small length: good ones, and numbers as long as the text.
fn lengths() -> Vec<Named> {
    let mut list = Vec::new();
    let mut white = named(String::from("16 KiB of constraints"), Entry::Check, &Plan::example());
    white.call.case.texts[2].resize(SMALL_TEXT, b' ');
    list.push(white);
    for text in 0..4 {
        let mut digits = named(format!("16 KiB of digits in text {}", text + 1), Entry::Check, &Plan::example());
        digits.call.case.texts[text].resize(SMALL_TEXT, b'1');
        list.push(digits);
    }
    for text in 0..5 {
        let mut empty = named(format!("text {} empty", text + 1), Entry::MergeEarlier, &Plan::example());
        empty.call.case.texts[text].clear();
        list.push(empty);
    }
    list
}

/// A leg across the end of a quarter, and H around the ends of quarters.
fn quarters() -> Vec<Named> {
    let mut list = Vec::new();
    for h in [903, 899, 900, 901, 1_799, 1_800, 1_801] {
        let mut plan = Plan::example();
        plan.h = h;
        plan.lists[2].records.clear();
        let departure = if h < 903 { h - 4 } else { 898 };
        for rows in files(&mut plan) {
            rows[0].nominal = format!("{departure}_4_7");
            rows[0].list = vec![rows[0].nominal.clone()];
        }
        list.push(named(format!("H {h}, a leg at {departure}"), Entry::Energy, &plan));
    }
    list
}

/// Peaks in a quarter that is not the first, in the first of two that are equal, and in one quarter before recuperation and another drawn.
fn peaks() -> Vec<Named> {
    let equal = ["910_4_7", "1810_4_7"];
    let mut list = vec![
        running("the greatest in quarter 1", 1_800, &["10_3_8", "910_4_7"]),
        running("the greatest in quarter 1, of four", 3_600, &["910_4_7", "2710_3_8"]),
        running("quarters 0 and 1 equal", 1_800, &["10_4_7", "910_4_7"]),
        running("quarters 1 and 2 equal", 2_700, &equal),
        running("quarters 1 and 2 equal, in the other order", 2_700, &["1810_4_7", "910_4_7"]),
    ];
    // Quarter 0 has more before recuperation, quarter 1 draws more.
    list.push(running("two peaks in two quarters", 1_800, &["10_4_7", "13_3_8", "910_1_9"]));
    list
}

/// A last quarter that H cuts (document 02, E3), from one second to all but one, and whole ones beside it.
pub fn last_quarters() -> Vec<Named> {
    vec![
        running("H 1: one quarter of one second", 1, &["0_1_9"]),
        running("H 899: one quarter, a second short", 899, &["10_3_8", "898_1_9"]),
        running("H 900: one whole quarter", 900, &["10_3_8", "899_1_9"]),
        running("H 901: the second quarter has one second, and the most", 901, &["10_3_8", "900_1_9"]),
        running("H 901: the second quarter has one second, and as much as the first", 901, &["10_1_9", "900_1_9"]),
        running("H 2,699: the last quarter is cut, and has as much as the one before", 2_699, &["910_4_7", "1810_4_7"]),
        running("H 2,699: the last quarter is cut, and has the most", 2_699, &["10_3_8", "2695_4_7"]),
        running("H 176,399: the last quarter of all, a second short", 176_399, &["10_3_8", "176395_4_7"]),
        running("H 176,400: the last quarter of all", 176_400, &["10_3_8", "176396_4_7"]),
    ]
}

/// Energies of the example without its dwell, its legs chosen so; a third leg is the second once more, and profile 9 has one sample.
fn running(name: &str, h: u32, choices: &[&str]) -> Named {
    let mut plan = Plan::example();
    plan.h = h;
    plan.lists[2].records.clear();
    plan.profiles.push(PlanProfile { id: String::from("9"), samples: vec![String::from("1.9")] });
    for rows in files(&mut plan) {
        let mut third = rows[1].clone();
        third.ids[0] = String::from("3");
        rows.push(third);
        rows.truncate(choices.len());
        for (row, choice) in rows.iter_mut().zip(choices) {
            row.nominal = choice.to_string();
            row.list = vec![row.nominal.clone()];
        }
    }
    let mut edge = named(name.to_string(), Entry::Energy, &plan);
    edge.call.case.rooms.curves = h as usize;
    edge
}

/// Each room at the need, one number less, one more, and none.
fn rooms() -> Vec<Named> {
    let plan = Plan::of_every_kind();
    let needs = plan.needs();
    let mut list = Vec::new();
    for entry in [Entry::Check, Entry::Energy, Entry::MergeEarlier, Entry::MergeLater] {
        for room in 0..needs.numbers().len() {
            let need = needs.numbers()[room];
            for lent in [0, need - 1, need, need + 1] {
                let mut edge = named(format!("room {room} of {lent} where {need} are needed"), entry, &plan);
                edge.call.case.rooms = needs;
                *edge.call.case.rooms.number_mut(room) = lent;
                list.push(edge);
            }
        }
    }
    list
}
