//! Changes of a plan before it is written.

use crate::plan::{constraint_record, record, slack, Numbers, Plan, PlanLeg, Record, LIST_NAMES};
use crate::random::Random;
use crate::twin::KEYS;

/// How many pairs of legs are tried for a constraint.
const PAIRS_TRIED: usize = 8;
/// "Constraint seconds 0..86,400."
const MOST_SECONDS: i64 = 86_400;

/// One of the timetable files of the plan.
fn some_file<'a>(plan: &'a mut Plan, random: &mut Random) -> &'a mut Vec<PlanLeg> {
    match random.below(3) {
        0 => &mut plan.draft,
        1 => &mut plan.solution,
        _ => &mut plan.second,
    }
}

/// One of the legs of the rows, if there are any.
fn some_leg<'a>(legs: &'a mut [PlanLeg], random: &mut Random) -> Option<&'a mut PlanLeg> {
    let place = random.below(legs.len());
    legs.get_mut(place)
}

/// One of the records of `constraints.json`, if there are any.
fn some_record<'a>(plan: &'a mut Plan, random: &mut Random) -> Option<&'a mut Record> {
    let mut records: Vec<&mut Record> = plan.lists.iter_mut().flat_map(|list| list.records.iter_mut()).collect();
    if records.is_empty() {
        return None;
    }
    let place = random.below(records.len());
    Some(records.swap_remove(place))
}

/// One of the records that has the key.
fn some_record_with<'a>(plan: &'a mut Plan, key: &str, random: &mut Random) -> Option<&'a mut Record> {
    let mut records: Vec<&mut Record> = plan
        .lists
        .iter_mut()
        .flat_map(|list| list.records.iter_mut())
        .filter(|record| record.iter().any(|(name, _)| name == key))
        .collect();
    if records.is_empty() {
        return None;
    }
    let place = random.below(records.len());
    Some(records.swap_remove(place))
}

/// The value of a record's key.
fn value_of<'a>(record: &'a mut Record, key: &str) -> Option<&'a mut String> {
    record.iter_mut().find(|(name, _)| name == key).map(|(_, value)| value)
}

/// The three parts of a configuration as written.
fn parts(configuration: &str) -> Vec<String> {
    configuration.split('_').map(String::from).collect()
}

/// Puts another configuration in place of one entry, and of the nominal if it is the same.
fn replace_entry(leg: &mut PlanLeg, random: &mut Random, change: &dyn Fn(&mut Vec<String>, &mut Random)) {
    let place = random.below(leg.list.len());
    if let Some(entry) = leg.list.get(place).cloned() {
        let mut numbers = parts(&entry);
        if numbers.len() != 3 {
            return;
        }
        change(&mut numbers, random);
        let changed = numbers.join("_");
        if leg.nominal == entry {
            leg.nominal = changed.clone();
        }
        leg.list[place] = changed;
    }
}

pub fn unknown_profile(plan: &mut Plan, random: &mut Random) {
    if let Some(leg) = some_leg(&mut plan.draft, random) {
        replace_entry(leg, random, &|numbers, random| {
            numbers[2] = random.pick(&["1", "99", "999999999"]).to_string();
        });
    }
}

pub fn sample_count_changed(plan: &mut Plan, random: &mut Random) {
    let place = random.below(plan.profiles.len());
    if let Some(profile) = plan.profiles.get_mut(place) {
        if random.one_in(2) {
            profile.samples.push(String::from("0.1"));
        } else {
            profile.samples.pop();
        }
    }
}

pub fn leg_id_repeated(plan: &mut Plan, random: &mut Random) {
    let legs = some_file(plan, random);
    if legs.len() > 1 {
        let from = random.below(legs.len());
        let to = random.below(legs.len());
        legs[to].ids[0] = legs[from].ids[0].clone();
    } else if let Some(leg) = legs.first().cloned() {
        legs.push(leg);
    }
}

pub fn profile_id_repeated(plan: &mut Plan, random: &mut Random) {
    let from = random.below(plan.profiles.len());
    let to = random.below(plan.profiles.len() + 1);
    if let Some(profile) = plan.profiles.get(from).cloned() {
        match plan.profiles.get_mut(to) {
            Some(other) => other.id = profile.id,
            None => plan.profiles.push(profile),
        }
    }
}

pub fn track_repeated(plan: &mut Plan, random: &mut Random) {
    let known: Vec<String> = plan.draft.iter().map(|leg| leg.ids[2].clone()).collect();
    if known.is_empty() {
        return;
    }
    let track = random.pick(&known).clone();
    if let Some(value) = some_record_with(plan, "track_ids", random).and_then(|r| value_of(r, "track_ids")) {
        *value = match value.as_str() {
            "[]" => format!("[{track},{track}]"),
            more => more.replace(']', &format!(",{track}]")),
        };
    }
}

pub fn subnet_id_repeated(plan: &mut Plan, random: &mut Random) {
    let id = match some_record_with(plan, "subnet_id", random).and_then(|r| value_of(r, "subnet_id")) {
        Some(id) => id.clone(),
        None => return,
    };
    if random.one_in(2) {
        if let Some(list) = plan.lists.iter_mut().find(|list| list.name == LIST_NAMES[5]) {
            list.records.push(record(&[("subnet_id", &id), ("track_ids", "[]")]));
        }
    } else if let Some(value) = some_record_with(plan, "subnet_id", random).and_then(|r| value_of(r, "subnet_id")) {
        *value = id;
    }
}

pub fn nominal_not_listed(plan: &mut Plan, random: &mut Random) {
    let legs = some_file(plan, random);
    if let Some(leg) = some_leg(legs, random) {
        if random.one_in(2) && leg.list.len() > 1 {
            let nominal = leg.nominal.clone();
            leg.list.retain(|entry| *entry != nominal);
        } else {
            let mut numbers = parts(&leg.nominal);
            let place = random.below(numbers.len());
            numbers[place] = random.pick(&["0", "1", "2", "5"]).to_string();
            leg.nominal = numbers.join("_");
        }
    }
}

pub fn choice_not_offered(plan: &mut Plan, random: &mut Random) {
    let legs = if random.one_in(3) { &mut plan.second } else { &mut plan.solution };
    if let Some(leg) = some_leg(legs, random) {
        let mut numbers = parts(&leg.nominal);
        let place = random.below(numbers.len());
        numbers[place] = random.pick(&["1", "2", "3", "12", "13", "33"]).to_string();
        leg.nominal = numbers.join("_");
        leg.list.push(leg.nominal.clone());
    }
}

pub fn choice_redrawn(plan: &mut Plan, random: &mut Random) {
    let place = random.below(plan.draft.len());
    let draft = match plan.draft.get(place) {
        Some(draft) => draft.clone(),
        None => return,
    };
    if draft.list.is_empty() {
        return;
    }
    let legs = if random.one_in(2) { &mut plan.solution } else { &mut plan.second };
    if let Some(leg) = legs.get_mut(place) {
        leg.nominal = random.pick(&draft.list).clone();
        leg.list = draft.list;
    }
}

pub fn column_changed(plan: &mut Plan, random: &mut Random) {
    let legs = if random.one_in(3) { &mut plan.second } else { &mut plan.solution };
    if let Some(leg) = some_leg(legs, random) {
        let column = random.below(5);
        leg.ids[column] = random.pick(&["0", "1", "2", "3", "6", "77"]).to_string();
    }
}

pub fn rows_changed(plan: &mut Plan, random: &mut Random) {
    let legs = if random.one_in(3) { &mut plan.second } else { &mut plan.solution };
    let place = random.below(legs.len());
    match random.below(3) {
        0 if !legs.is_empty() => {
            legs.remove(place);
        }
        1 if legs.len() > 1 => {
            let other = random.below(legs.len());
            legs.swap(place, other);
        }
        _ => {
            if let Some(mut leg) = legs.get(place).cloned() {
                leg.ids[0] = String::from("6");
                let at = random.below(legs.len() + 1);
                legs.insert(at, leg);
            }
        }
    }
}

pub fn track_unlisted(plan: &mut Plan, random: &mut Random) {
    if random.one_in(2) {
        let place = random.below(plan.draft.len());
        for legs in [&mut plan.draft, &mut plan.solution, &mut plan.second] {
            if let Some(leg) = legs.get_mut(place) {
                leg.ids[2] = String::from("6");
            }
        }
    } else if let Some(value) = some_record_with(plan, "track_ids", random).and_then(|r| value_of(r, "track_ids")) {
        *value = random.pick(&["[]", "[4]", "[1]", "[0,4]"]).to_string();
    }
}

pub fn list_dropped(plan: &mut Plan, random: &mut Random) {
    let place = random.below(plan.lists.len());
    if place < plan.lists.len() {
        plan.lists.remove(place);
    }
}

pub fn list_repeated(plan: &mut Plan, random: &mut Random) {
    let place = random.below(plan.lists.len());
    if let Some(mut list) = plan.lists.get(place).cloned() {
        if random.one_in(2) {
            list.records.clear();
        }
        let at = random.below(plan.lists.len() + 1);
        plan.lists.insert(at, list);
    }
}

pub fn list_renamed(plan: &mut Plan, random: &mut Random) {
    let place = random.below(plan.lists.len());
    if let Some(list) = plan.lists.get_mut(place) {
        list.name = match random.below(4) {
            0 => random.pick(&LIST_NAMES).to_string(),
            1 => list.name.to_uppercase(),
            2 => list.name[..list.name.len().saturating_sub(1)].to_string(),
            _ => random.pick(&["", "first_leg_id", "headway_constraints", "dwell_time_constraints "]).to_string(),
        };
    }
}

pub fn lists_in_another_order(plan: &mut Plan, random: &mut Random) {
    random.shuffle(&mut plan.lists);
    for list in &mut plan.lists {
        for record in &mut list.records {
            random.shuffle(record);
        }
    }
}

pub fn key_dropped(plan: &mut Plan, random: &mut Random) {
    if let Some(record) = some_record(plan, random) {
        let place = random.below(record.len());
        if place < record.len() {
            record.remove(place);
        }
    }
}

pub fn key_repeated(plan: &mut Plan, random: &mut Random) {
    if let Some(record) = some_record(plan, random) {
        let place = random.below(record.len());
        if let Some(member) = record.get(place).cloned() {
            let at = random.below(record.len() + 1);
            record.insert(at, member);
        }
    }
}

pub fn key_renamed(plan: &mut Plan, random: &mut Random) {
    const NAMES: [&str; 12] = [
        "first_leg_id",
        "second_leg_id",
        "min_headway_time",
        "min_dwell_time",
        "min_turnaround_time",
        "min_connection_time",
        "max_connection_time",
        "connection_type",
        "subnet_id",
        "track_ids",
        "max_dwell_time",
        "First_leg_id",
    ];
    if let Some(record) = some_record(plan, random) {
        let place = random.below(record.len());
        if let Some((name, _)) = record.get_mut(place) {
            *name = random.pick(&NAMES).to_string();
        }
    }
}

/// A dwell or a turnaround by the key of the other, or by both in some order.
pub fn key_of_the_other_edition(plan: &mut Plan, random: &mut Random) {
    let mut keys = KEYS.map(|(_, key)| key);
    random.shuffle(&mut keys);
    let [own, other] = keys;
    if let Some(record) = some_record_with(plan, own, random) {
        if random.one_in(2) {
            let at = random.below(record.len() + 1);
            record.insert(at, (other.to_string(), String::from("20")));
        } else {
            record.iter_mut().filter(|(name, _)| name == own).for_each(|(name, _)| *name = other.to_string());
        }
    }
}

pub fn value_changed(plan: &mut Plan, random: &mut Random) {
    const VALUES: [&str; 24] = [
        "0",
        "1",
        "7",
        "-1",
        "1.0",
        "1e3",
        "007",
        "12abc",
        "true",
        "null",
        "\"1\"",
        "[]",
        "[1,]",
        "[,1]",
        "[1 2]",
        "{}",
        "86400",
        "86401",
        "999999999",
        "1000000000",
        "99999999999999999999999",
        "",
        "\"arrival_to_departure\"",
        "[1,2,3,1]",
    ];
    if let Some(record) = some_record(plan, random) {
        let place = random.below(record.len());
        if let Some((_, value)) = record.get_mut(place) {
            *value = random.pick(&VALUES).to_string();
        }
    }
}

pub fn connection_type_changed(plan: &mut Plan, random: &mut Random) {
    let types = [
        "\"arrival_to_arrival\"",
        "\"\"",
        "\"arrival_to_departure \"",
        "\"ARRIVAL_TO_DEPARTURE\"",
        "\"departure_to_arrival\"",
        "\"departure_to_departure\"",
        "arrival_to_departure",
        "1",
    ];
    if let Some(value) = some_record_with(plan, "connection_type", random).and_then(|r| value_of(r, "connection_type")) {
        *value = random.pick(&types).to_string();
    }
}

pub fn subnets_added(plan: &mut Plan, random: &mut Random) {
    if let Some(list) = plan.lists.iter_mut().find(|list| list.name == LIST_NAMES[5]) {
        let wanted = random.between(8, 10);
        let mut id = 40;
        while list.records.len() < wanted {
            let at = random.below(list.records.len() + 1);
            list.records.insert(at, record(&[("subnet_id", &id.to_string()), ("track_ids", "[]")]));
            id += 1;
        }
    }
}

pub fn leg_id_unknown(plan: &mut Plan, random: &mut Random) {
    let key = if random.one_in(2) { "first_leg_id" } else { "second_leg_id" };
    if let Some(value) = some_record_with(plan, key, random).and_then(|r| value_of(r, key)) {
        *value = random.pick(&["0", "6", "77", "999999999", "1000000000"]).to_string();
    }
}

pub fn seconds_changed(plan: &mut Plan, random: &mut Random) {
    let keys = ["min_headway_time", "min_dwell_time", "min_turnaround_time", "min_connection_time", "max_connection_time"];
    let key = *random.pick(&keys);
    if let Some(value) = some_record_with(plan, key, random).and_then(|r| value_of(r, key)) {
        let old: i64 = value.parse().unwrap_or(0);
        let change = random.between(0, 6) as i64 - 3;
        *value = match random.below(8) {
            0 => String::from("86400"),
            1 => String::from("86401"),
            2 => String::from("100000000000000000000000000"),
            _ => (old + change).max(0).to_string(),
        };
    }
}

pub fn csv_number_changed(plan: &mut Plan, random: &mut Random) {
    const NUMBERS: [&str; 9] = ["0", "1", "00", "01", "3600", "3601", "999999999", "1000000000", "184467440737095516160"];
    const SAMPLES: [&str; 14] =
        ["20.000", "20.001", "-20.001", "-20.0", "0.5000", "5", ".5", "5.", "+1.0", "00.5", "1e3", "100000000000000.0", "-0.0", "--1.0"];
    if random.one_in(4) {
        let place = random.below(plan.profiles.len());
        if let Some(profile) = plan.profiles.get_mut(place) {
            let sample = random.below(profile.samples.len());
            if random.one_in(4) {
                profile.id = random.pick(&NUMBERS).to_string();
            } else if let Some(sample) = profile.samples.get_mut(sample) {
                *sample = random.pick(&SAMPLES).to_string();
            }
        }
        return;
    }
    let h = plan.h.to_string();
    let legs = some_file(plan, random);
    if let Some(leg) = some_leg(legs, random) {
        if random.one_in(3) {
            let column = random.below(5);
            leg.ids[column] = random.pick(&NUMBERS).to_string();
        } else {
            replace_entry(leg, random, &|numbers, random| {
                let place = random.below(3);
                numbers[place] = if random.one_in(3) { h.clone() } else { random.pick(&NUMBERS).to_string() };
            });
        }
    }
}

pub fn second_of_other_travel(plan: &mut Plan, random: &mut Random) {
    let place = random.below(plan.draft.len());
    let draft = match plan.draft.get(place) {
        Some(draft) => draft.clone(),
        None => return,
    };
    let travel = |entry: &str| parts(entry).get(1).cloned();
    let first = plan.solution.get(place).and_then(|leg| travel(&leg.nominal));
    let others: Vec<&String> = draft.list.iter().filter(|entry| travel(entry) != first).collect();
    if others.is_empty() {
        return;
    }
    if let Some(leg) = plan.second.get_mut(place) {
        leg.nominal = random.pick(&others).to_string();
        leg.list = draft.list.clone();
    }
}

/// A list of 63 to 66 entries: 64 are the most.
pub fn list_lengthened(plan: &mut Plan, random: &mut Random) {
    let wanted = random.between(63, 66);
    let legs = some_file(plan, random);
    if let Some(leg) = some_leg(legs, random) {
        let entries = leg.list.clone();
        while !entries.is_empty() && leg.list.len() < wanted {
            leg.list.push(random.pick(&entries).clone());
        }
    }
}

/// A row of 3,599 to 3,602 samples: 3,600 are the most.
pub fn samples_lengthened(plan: &mut Plan, random: &mut Random) {
    let wanted = random.between(3_599, 3_602);
    let place = random.below(plan.profiles.len());
    if let Some(profile) = plan.profiles.get_mut(place) {
        profile.samples.resize(wanted, String::from("0.0"));
    }
}

/// A constraint of the kind that one of the solutions keeps with nothing to spare, and the other misses by the inequality where it leaves less.
pub fn constraint_between(plan: &mut Plan, random: &mut Random, kind: usize, inequality: u32) {
    let arrival = random.one_in(2);
    for _ in 0..PAIRS_TRIED {
        let [a, b] = [0; 2].map(|_| random.below(plan.draft.len()));
        let left = |rows: &[PlanLeg]| Some(slack(kind, inequality, arrival, Numbers::of(rows.get(a)?)?, Numbers::of(rows.get(b)?)?));
        let (first, second) = match (left(&plan.solution), left(&plan.second)) {
            (Some(first), Some(second)) => (first, second),
            _ => return,
        };
        let (low, high) = match (kind, inequality) {
            (5, 2) => (0, first.min(second) - i64::from(first == second)),
            _ => (first.max(second) + i64::from(first == second), MOST_SECONDS),
        };
        if low >= 0 && high >= 0 {
            add_constraint(plan, kind, constraint_record(kind, arrival, (&plan.draft[a].ids[0], &plan.draft[b].ids[0]), low, high));
            return;
        }
    }
}

fn add_constraint(plan: &mut Plan, kind: usize, added: Record) {
    if let Some(list) = plan.lists.iter_mut().find(|list| list.name == LIST_NAMES[kind - 1]) {
        list.records.push(added);
    }
}

pub fn one_leg_twice(plan: &mut Plan, random: &mut Random) {
    if let Some(record) = some_record_with(plan, "second_leg_id", random) {
        let first = value_of(record, "first_leg_id").cloned();
        if let (Some(first), Some(second)) = (first, value_of(record, "second_leg_id")) {
            *second = first;
        }
    }
}

/// "a may exceed b".
pub fn bounds_exchanged(plan: &mut Plan, random: &mut Random) {
    if let Some(record) = some_record_with(plan, "max_connection_time", random) {
        let least = value_of(record, "min_connection_time").cloned();
        let most = value_of(record, "max_connection_time").cloned();
        if let (Some(least), Some(most)) = (least, most) {
            value_of(record, "min_connection_time").into_iter().for_each(|value| *value = most.clone());
            value_of(record, "max_connection_time").into_iter().for_each(|value| *value = least.clone());
        }
    }
}

/// H at the last arrival, or a second before or after it.
pub fn horizon_at_an_arrival(plan: &mut Plan, random: &mut Random) {
    let arrival = |entry: &String| {
        let numbers: Vec<u32> = entry.split('_').filter_map(|number| number.parse().ok()).collect();
        numbers.iter().take(2).fold(0u32, |sum, number| sum.saturating_add(*number))
    };
    let last = plan.draft.iter().flat_map(|leg| leg.list.iter().map(arrival)).max();
    if let Some(last) = last {
        plan.h = last.saturating_add(random.below(3) as u32).saturating_sub(1);
    }
}
