//! A plan: what the texts of a case say, before they are written. Every field is kept as it will
//! be written, so that a damage may put anything there.

use crate::random::Random;
use crate::spelling::spell;
use crate::twin::exchanged;
use independent::{profiles, timetable, Case, Edition, Rooms};

/// A row of a timetable file.
#[derive(Clone, Debug)]
pub struct PlanLeg {
    pub ids: [String; 5],
    pub nominal: String,
    pub list: Vec<String>,
}

/// A row of the profiles.
#[derive(Clone, Debug)]
pub struct PlanProfile {
    pub id: String,
    pub samples: Vec<String>,
}

/// A record of `constraints.json`: names and values as written, the names without their quotes.
pub type Record = Vec<(String, String)>;

/// A list of `constraints.json`.
#[derive(Clone, Debug)]
pub struct PlanList {
    pub name: String,
    pub records: Vec<Record>,
}

/// How large a drawn plan may be.
#[derive(Clone, Copy, Debug, PartialEq, Eq)]
pub enum Scale {
    /// Statements that a prover has to compute: a few rows.
    Tiny,
    /// What a program runs.
    Small,
}

impl Scale {
    fn most_legs(self, random: &mut Random) -> usize {
        match self {
            Scale::Small if random.one_in(4) => 24,
            _ => 4,
        }
    }

    fn horizon(self, random: &mut Random) -> u32 {
        match self {
            Scale::Small if random.one_in(4) => *random.pick(&[10, 1_799, 2_700, 5_399, 9_000, 86_400, 176_400]),
            _ => *random.pick(&[100, 100, 100, 100, 60, 899, 900, 1_000, 1_800]),
        }
    }
}

/// The whole plan.
#[derive(Clone, Debug)]
pub struct Plan {
    pub h: u32,
    pub draft: Vec<PlanLeg>,
    pub profiles: Vec<PlanProfile>,
    pub lists: Vec<PlanList>,
    pub solution: Vec<PlanLeg>,
    pub second: Vec<PlanLeg>,
}

/// The names of the six lists, in the order of the table of kinds.
pub const LIST_NAMES: [&str; 6] = [
    "headway_time_constraints",
    "single_track_headway_constraints",
    "dwell_time_constraints",
    "terminal_turnaround_constraints",
    "connection_constraints",
    "recuperation_subnets",
];

/// Room for curves is lent up to this H; past it 16 answers an energy.
const LONGEST_CURVE: u32 = 9_000;

/// The seconds of a quarter.
const QUARTER: usize = 900;

/// A configuration by its numbers.
#[derive(Clone, Copy, Debug)]
pub struct Numbers {
    d: i64,
    t: i64,
    p: usize,
}

impl Numbers {
    /// The leg's choice, if it is three numbers.
    pub fn of(leg: &PlanLeg) -> Option<Numbers> {
        let numbers: Vec<i64> = leg.nominal.split('_').filter_map(|number| number.parse().ok()).collect();
        match numbers[..] {
            [d, t, p] => Some(Numbers { d, t, p: p as usize }),
            _ => None,
        }
    }

    fn text(self) -> String {
        format!("{}_{}_{}", self.d, self.t, self.p)
    }
}

impl Plan {
    /// Document 01's worked example, with its nominal choices as solution and as second solution.
    pub fn example() -> Plan {
        let row = |ids: [&str; 5], nominal: &str, other: &str| PlanLeg {
            ids: ids.map(String::from),
            nominal: nominal.to_string(),
            list: vec![nominal.to_string(), other.to_string()],
        };
        let draft = vec![row(["1", "1", "1", "1", "2"], "10_4_7", "15_4_7"), row(["2", "1", "2", "2", "3"], "40_3_8", "45_3_8")];
        let profile = |id: &str, samples: &str| PlanProfile { id: id.to_string(), samples: samples.split(' ').map(String::from).collect() };
        let mut lists = empty_lists();
        lists[2].records.push(record(&[("first_leg_id", "1"), ("second_leg_id", "2"), ("min_dwell_time", "20")]));
        lists[5].records.push(record(&[("subnet_id", "1"), ("track_ids", "[1,2]")]));
        Plan {
            h: 100,
            solution: draft.clone(),
            second: draft.clone(),
            draft,
            profiles: vec![profile("7", "0.5 1.0 0.25 -0.4"), profile("8", "0.3 0.0 -0.2")],
            lists,
        }
    }

    /// The example with a constraint of every kind and a subnet for each track.
    pub fn of_every_kind() -> Plan {
        let mut plan = Plan::example();
        let ids = ("1", "2");
        for kind in [1, 2, 4] {
            plan.lists[kind - 1].records.push(constraint_record(kind, true, ids, 20, 0));
        }
        for arrival in [true, false] {
            plan.lists[4].records.push(constraint_record(5, arrival, ids, 20, 40));
        }
        plan.lists[5].records =
            vec![record(&[("subnet_id", "1"), ("track_ids", "[1]")]), record(&[("subnet_id", "2"), ("track_ids", "[2,30]")])];
        plan
    }

    /// The example with other choices, or a plan drawn anew.
    pub fn random(random: &mut Random, scale: Scale) -> Plan {
        if random.one_in(5) {
            let mut plan = Plan::example();
            for row in 0..2 {
                plan.solution[row].nominal = random.pick(&plan.draft[row].list).clone();
                plan.second[row].nominal = random.pick(&plan.draft[row].list).clone();
            }
            let dwell = random.between(18, 24).to_string();
            plan.lists[2].records[0][2].1 = dwell;
            return plan;
        }
        drawn_plan(random, scale)
    }

    /// The case with everything written compactly and plainly, and ample room.
    pub fn case(&self) -> Case {
        let mut plain = Random::seeded(0);
        self.written(&mut plain, 0, 1_000)
    }

    /// The case in some style of white space, its CSV texts in some spelling, in either edition, and with room that is hardly more than enough.
    pub fn case_with(&self, random: &mut Random) -> Case {
        let style = random.below(6);
        let more = if random.one_in(2) { 0 } else { random.below(20) };
        let mut case = self.written(random, style, more);
        spell(&mut case, random);
        if random.one_in(2) {
            exchanged(case)
        } else {
            case
        }
    }

    fn written(&self, random: &mut Random, style: usize, more: usize) -> Case {
        let timetable = timetable_text(&self.draft);
        let rooms = self.rooms(timetable.len(), more, random);
        Case {
            h: self.h,
            edition: Edition::Example as u32,
            texts: [
                timetable.into_bytes(),
                self.profiles_text().into_bytes(),
                self.constraints_text(random, style).into_bytes(),
                timetable_text(&self.solution).into_bytes(),
                timetable_text(&self.second).into_bytes(),
            ],
            rooms,
        }
    }

    /// Exactly the room that the plan needs.
    pub fn needs(&self) -> Rooms {
        self.rooms(timetable_text(&self.draft).len(), 0, &mut Random::seeded(0))
    }

    /// Room for the tables of the plan, and up to so many numbers more.
    fn rooms(&self, text: usize, more: usize, random: &mut Random) -> Rooms {
        let entries: usize = self.draft.iter().map(|leg| leg.list.len()).sum();
        let samples: usize = self.profiles.iter().map(|profile| profile.samples.len()).sum();
        let constraints: usize = self.lists.iter().filter(|list| list.name != LIST_NAMES[5]).map(|list| list.records.len()).sum();
        let mut more = || random.below(more + 1);
        Rooms {
            legs: 8 * self.draft.len() + more(),
            configurations: 3 * entries + more(),
            profiles: 3 * self.profiles.len() + more(),
            samples: samples + more(),
            constraints: 6 * constraints + more(),
            tracks: 2 * self.tracks() + more(),
            choices: 3 * self.draft.len() + more(),
            second_choices: 3 * self.draft.len() + more(),
            curves: self.subnets() * self.h.min(LONGEST_CURVE) as usize + more(),
            text: text + more(),
        }
    }

    fn subnets(&self) -> usize {
        self.lists.iter().filter(|list| list.name == LIST_NAMES[5]).map(|list| list.records.len()).sum()
    }

    /// How many tracks the subnets list.
    fn tracks(&self) -> usize {
        let values = self.lists.iter().flat_map(|list| list.records.iter().flatten());
        values.filter(|(name, value)| name == "track_ids" && value != "[]").map(|(_, value)| value.split(',').count()).sum()
    }

    fn profiles_text(&self) -> String {
        let mut text = format!("{}\n", profiles::HEADER);
        for profile in &self.profiles {
            text.push_str(&format!("{},{}\n", profile.id, profile.samples.join(" ")));
        }
        text
    }

    fn constraints_text(&self, random: &mut Random, style: usize) -> String {
        let mut compact = String::from("{");
        for (place, list) in self.lists.iter().enumerate() {
            if place > 0 {
                compact.push(',');
            }
            let records: Vec<String> = list.records.iter().map(record_text).collect();
            compact.push_str(&format!("\"{}\":[{}]", list.name, records.join(",")));
        }
        compact.push('}');
        spaced(&compact, random, style)
    }
}

/// The six lists, empty.
fn empty_lists() -> Vec<PlanList> {
    LIST_NAMES.iter().map(|name| PlanList { name: name.to_string(), records: Vec::new() }).collect()
}

/// A record from its names and values.
pub fn record(members: &[(&str, &str)]) -> Record {
    members.iter().map(|(name, value)| (name.to_string(), value.to_string())).collect()
}

fn record_text(record: &Record) -> String {
    let members: Vec<String> = record.iter().map(|(name, value)| format!("\"{name}\":{value}")).collect();
    format!("{{{}}}", members.join(","))
}

/// White space between the tokens: none, a space after colons and commas, or here and there.
fn spaced(compact: &str, random: &mut Random, style: usize) -> String {
    let mut text = String::new();
    for sign in compact.chars() {
        text.push(sign);
        let after = "{}[]:,".contains(sign);
        match style {
            4 if sign == ':' || sign == ',' => text.push(' '),
            5 if after && random.one_in(8) => text.push(*random.pick(&[' ', '\t', '\n', '\r'])),
            _ => {}
        }
    }
    if style == 5 {
        text.insert(0, *random.pick(&[' ', '\n', '\t']));
    }
    text
}

fn timetable_text(legs: &[PlanLeg]) -> String {
    let mut text = format!("{}\n", timetable::HEADER);
    for leg in legs {
        text.push_str(&format!("{},{},{}\n", leg.ids.join(","), leg.nominal, leg.list.join(" ")));
    }
    text
}

/// A plan drawn anew: sound in form, and accepted more often than not.
fn drawn_plan(random: &mut Random, scale: Scale) -> Plan {
    let h = scale.horizon(random);
    let profiles = drawn_profiles(random);
    let mut draft = Vec::new();
    let mut offers: Vec<Vec<Numbers>> = Vec::new();
    let most = scale.most_legs(random);
    let legs = if random.one_in(16) { 0 } else { random.between(1, most) };
    let mut base = drawn_start(random, h);
    // Legs in several quarters, so that the greatest is not always the first, and that some are equal.
    let most_leaps = if h >= 2 * QUARTER as u32 && random.one_in(2) { 1 } else { 0 };
    for id in drawn_ids(random, most).iter().take(legs) {
        base += random.below(12) + random.below(most_leaps + 1) * QUARTER;
        let offer = drawn_offer(random, base, h, &profiles);
        draft.push(PlanLeg {
            ids: [*id, random.between(1, 3), random.between(1, 3), random.below(4), random.below(4)].map(|number| number.to_string()),
            nominal: random.pick(&offer).text(),
            list: offer.iter().map(|entry| entry.text()).collect(),
        });
        offers.push(offer);
    }
    let first: Vec<Numbers> = offers.iter().map(|offer| *random.pick(offer)).collect();
    let second: Vec<Numbers> = offers.iter().map(|offer| *random.pick(offer)).collect();
    let mut lists = empty_lists();
    add_constraints(random, &mut lists, &draft, &first, &second);
    lists[5].records = drawn_subnets(random, &draft);
    if random.one_in(3) {
        random.shuffle(&mut lists);
    }
    if random.one_in(3) {
        for record in lists.iter_mut().flat_map(|list| list.records.iter_mut()) {
            random.shuffle(record);
        }
    }
    Plan { h, solution: solution_of(random, &draft, &first), second: solution_of(random, &draft, &second), draft, profiles, lists }
}

/// Distinct leg ids in any order, now and then the greatest among them.
fn drawn_ids(random: &mut Random, count: usize) -> Vec<usize> {
    let mut ids: Vec<usize> = (1..=count + 3).collect();
    if random.one_in(4) {
        ids[count] = 999_999_999;
        ids[count + 1] = 0;
    }
    if !random.one_in(3) {
        random.shuffle(&mut ids);
    }
    ids
}

/// The earliest departure: the start of the day, the end of a quarter or the end of the day.
fn drawn_start(random: &mut Random, h: u32) -> usize {
    let h = h as usize;
    match random.below(4) {
        0 if h >= QUARTER => random.between(1, h / QUARTER) * QUARTER - 15,
        1 if h >= QUARTER => h - 30,
        _ => 0,
    }
}

/// The draft's rows with the choices; the list is the draft's, or another that has the choice.
fn solution_of(random: &mut Random, draft: &[PlanLeg], choices: &[Numbers]) -> Vec<PlanLeg> {
    let mut solution = draft.to_vec();
    for (leg, choice) in solution.iter_mut().zip(choices) {
        leg.nominal = choice.text();
        match random.below(6) {
            0 => leg.list = vec![choice.text()],
            1 => random.shuffle(&mut leg.list),
            _ => {}
        }
    }
    solution
}

/// One to four profiles of one to four samples.
fn drawn_profiles(random: &mut Random) -> Vec<PlanProfile> {
    let mut ids = vec![0, 3, 7, 8, 12];
    random.shuffle(&mut ids);
    let values = [
        "0.5", "1.0", "0.25", "-0.4", "0.3", "0.0", "-0.2", "-0.0", "2.5", "-1.25", "20.0", "-20.000", "0.001", "19.999", "-0.05", "3.141",
    ];
    let count = random.between(1, 4);
    ids.iter()
        .take(count)
        .map(|id| PlanProfile {
            id: id.to_string(),
            samples: (0..random.between(1, 4)).map(|_| random.pick(&values).to_string()).collect(),
        })
        .collect()
}

/// One to four entries for a leg, mostly with one profile, so that travel times are often equal.
fn drawn_offer(random: &mut Random, base: usize, h: u32, profiles: &[PlanProfile]) -> Vec<Numbers> {
    let usual = random.below(profiles.len());
    (0..random.between(1, 4))
        .map(|_| {
            let place = if random.one_in(5) { random.below(profiles.len()) } else { usual };
            let t = profiles[place].samples.len() as i64;
            let d = (base + random.below(7)) as i64;
            let d = d.min(i64::from(h) - t).max(0);
            Numbers { d, t, p: profiles[place].id.parse().unwrap_or(0) }
        })
        .collect()
}

/// Up to four constraints of any kind, near the seconds that the choices leave.
fn add_constraints(random: &mut Random, lists: &mut [PlanList], draft: &[PlanLeg], first: &[Numbers], second: &[Numbers]) {
    if draft.is_empty() {
        return;
    }
    for _ in 0..random.below(5 + draft.len() / 2) {
        let kind = random.between(1, 5);
        let mut a = random.below(draft.len());
        let mut b = random.below(draft.len());
        if first[a].d > first[b].d && !random.one_in(6) {
            std::mem::swap(&mut a, &mut b);
        }
        let arrival = random.one_in(2);
        let slack = |choices: &[Numbers]| least_slack(kind, arrival, choices[a], choices[b]);
        let left = slack(first).min(slack(second));
        let most = slack(first).max(slack(second));
        if left < 0 && !random.one_in(4) {
            continue;
        }
        let beyond = if random.one_in(5) { random.between(1, 3) as i64 } else { 0 };
        let low = (left - random.below(3) as i64 + beyond).max(0);
        let high = (most + random.below(3) as i64 - beyond).max(0);
        let ids = (draft[a].ids[0].as_str(), draft[b].ids[0].as_str());
        lists[kind - 1].records.push(constraint_record(kind, arrival, ids, low, high));
    }
}

/// How many seconds an inequality of the kind has left, were its own number 0.
pub fn slack(kind: usize, inequality: u32, arrival: bool, a: Numbers, b: Numbers) -> i64 {
    match (kind, inequality) {
        (1, 1) => b.d - a.d,
        (1, _) => b.d + b.t - a.d - a.t,
        (5, _) if !arrival => b.d - a.d,
        _ => b.d - a.d - a.t,
    }
}

/// The same over all inequalities of the kind.
fn least_slack(kind: usize, arrival: bool, a: Numbers, b: Numbers) -> i64 {
    slack(kind, 1, arrival, a, b).min(slack(kind, 2, arrival, a, b))
}

pub fn constraint_record(kind: usize, arrival: bool, ids: (&str, &str), low: i64, high: i64) -> Record {
    let mut members = record(&[("first_leg_id", ids.0), ("second_leg_id", ids.1)]);
    let mut add = |name: &str, value: String| members.push((name.to_string(), value));
    match kind {
        1 => add("min_headway_time", low.to_string()),
        2 => {}
        3 => add("min_dwell_time", low.to_string()),
        4 => add("min_turnaround_time", low.to_string()),
        _ => {
            add("min_connection_time", low.to_string());
            add("max_connection_time", high.to_string());
            let name = if arrival { "arrival_to_departure" } else { "departure_to_departure" };
            add("connection_type", format!("\"{name}\""));
        }
    }
    members
}

/// One to three subnets that hold every track of the draft, and now and then one more track.
fn drawn_subnets(random: &mut Random, draft: &[PlanLeg]) -> Vec<Record> {
    let mut tracks: Vec<String> = draft.iter().map(|leg| leg.ids[2].clone()).collect();
    if random.one_in(3) {
        tracks.push(String::from("8"));
    }
    tracks.sort();
    tracks.dedup();
    random.shuffle(&mut tracks);
    let count = if tracks.is_empty() { random.below(2) } else { random.between(1, 3) };
    let mut subnets: Vec<Vec<String>> = vec![Vec::new(); count];
    for track in tracks {
        let place = random.below(count);
        subnets[place].push(track);
    }
    let mut ids = vec!["1", "2", "0", "30"];
    random.shuffle(&mut ids);
    subnets.iter().zip(ids).map(|(tracks, id)| record(&[("subnet_id", id), ("track_ids", &format!("[{}]", tracks.join(",")))])).collect()
}
