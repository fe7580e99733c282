//! Document 01's "Examples to hold the definitions to", marked and unmarked, and the examples in its text.

use crate::plan::{constraint_record, record, Plan, PlanLeg, PlanProfile};
use crate::Named;
use independent::{Call, Entry};

/// Every example of document 01 as calls.
pub fn worked() -> Vec<Named> {
    let mut list = Vec::new();
    list.extend(verdicts());
    list.extend(energies());
    list.extend(merges());
    list.extend(limits());
    list.extend(refusals());
    list.extend(no_rows());
    list
}

fn named(name: &str, entry: Entry, plan: &Plan) -> Named {
    Named { name: name.to_string(), call: Call::of(entry, plan.case()) }
}

/// The example with these departures in the solution.
fn departing(first: u32, second: u32) -> Plan {
    let mut plan = Plan::example();
    choose(&mut plan.solution, first, second);
    plan
}

fn choose(solution: &mut [PlanLeg], first: u32, second: u32) {
    solution[0].nominal = format!("{first}_4_7");
    solution[1].nominal = format!("{second}_3_8");
}

fn with_dwell(mut plan: Plan, seconds: i64) -> Plan {
    plan.lists[2].records = vec![constraint_record(3, false, ("1", "2"), seconds, 0)];
    plan
}

fn verdicts() -> Vec<Named> {
    let mut at_12 = Plan::example();
    at_12.solution[1].nominal = String::from("12_3_8");
    at_12.solution[1].list.push(String::from("12_3_8"));
    vec![
        named("nominal", Entry::Check, &Plan::example()),
        named("departures 15, 40", Entry::Check, &departing(15, 40)),
        named("departures 15, 40 with dwell 21", Entry::Check, &with_dwell(departing(15, 40), 21)),
        named("departures 15, 40 with dwell 22", Entry::Check, &with_dwell(departing(15, 40), 22)),
        named("12 for leg 2, listed in the solution alone", Entry::Check, &at_12),
    ]
}

fn energies() -> Vec<Named> {
    let at_13 = offered_at_13();
    let mut two_subnets = at_13.clone();
    two_subnets.lists[5].records =
        vec![record(&[("subnet_id", "1"), ("track_ids", "[1]")]), record(&[("subnet_id", "2"), ("track_ids", "[2]")])];
    vec![
        named("nominal, its energies", Entry::Energy, &Plan::example()),
        named("no dwell, leg 2 offered at 13", Entry::Energy, &at_13),
        named("the same, tracks in two subnets", Entry::Energy, &two_subnets),
        named("a violation has no figures", Entry::Energy, &with_dwell(departing(15, 40), 22)),
    ]
}

fn offered_at_13() -> Plan {
    let mut plan = Plan::example();
    plan.lists[2].records.clear();
    plan.draft[1].list.push(String::from("13_3_8"));
    plan.solution[1].list.push(String::from("13_3_8"));
    plan.solution[1].nominal = String::from("13_3_8");
    plan
}

fn merges() -> Vec<Named> {
    let mut plan = departing(15, 40);
    choose(&mut plan.second, 10, 45);
    vec![
        named("A 15, 40 and B 10, 45, earlier", Entry::MergeEarlier, &plan),
        named("A 15, 40 and B 10, 45, later", Entry::MergeLater, &plan),
    ]
}

fn limits() -> Vec<Named> {
    let sample = |text: &str| {
        let mut plan = Plan::example();
        plan.profiles[1].samples[1] = text.to_string();
        named(&format!("sample {text}"), Entry::Check, &plan)
    };
    let travel = |seconds: u32| named(&format!("travel {seconds}"), Entry::Check, &travelling(seconds));
    vec![sample("20.000"), sample("20.001"), sample("-0.4"), sample("-0.0"), travel(3_600), travel(3_601)]
}

/// One leg that travels so long over a profile of 3,600 samples.
pub fn travelling(seconds: u32) -> Plan {
    let mut plan = Plan::example();
    plan.h = 4_000;
    plan.lists[2].records.clear();
    plan.profiles = vec![PlanProfile { id: String::from("7"), samples: vec![String::from("0.0"); 3_600] }];
    for rows in [&mut plan.draft, &mut plan.solution, &mut plan.second] {
        rows.truncate(1);
        rows[0].nominal = format!("0_{seconds}_7");
        rows[0].list = vec![rows[0].nominal.clone()];
    }
    plan
}

fn refusals() -> Vec<Named> {
    let mut arrivals = Plan::example();
    let mut connection = constraint_record(5, true, ("1", "2"), 0, 99);
    connection[4].1 = String::from("\"arrival_to_arrival\"");
    arrivals.lists[4].records.push(connection);
    let mut no_timetable = named("an empty timetable", Entry::Check, &Plan::example());
    no_timetable.call.case.texts[0].clear();
    let mut unlisted = Plan::example();
    unlisted.lists[5].records = vec![record(&[("subnet_id", "1"), ("track_ids", "[1]")])];
    let mut shown = named("the row of that refusal", Entry::Row, &unlisted);
    shown.call.file = 1;
    shown.call.place = 145;
    vec![
        named("type arrival_to_arrival", Entry::Check, &arrivals),
        no_timetable,
        named("track 2 in no subnet", Entry::Check, &unlisted),
        shown,
    ]
}

/// "A header with no rows is legal."
fn no_rows() -> Vec<Named> {
    let mut plan = Plan::example();
    plan.draft.clear();
    plan.solution.clear();
    plan.second.clear();
    plan.profiles.clear();
    plan.lists.iter_mut().for_each(|list| list.records.clear());
    let entries = [Entry::Check, Entry::Energy, Entry::MergeEarlier, Entry::MergeLater];
    entries.map(|entry| named("headers with no rows", entry, &plan)).into()
}
