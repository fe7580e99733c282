//! How much was tested (document 02, E6): verdicts with tests of every kind, accepted, and stopped at each inequality behind others of its kind.

use crate::plan::{constraint_record, Plan, PlanLeg};
use crate::target::is_merge;
use crate::Named;
use independent::{Call, Entry};

const ENTRIES: [Entry; 4] = [Entry::Check, Entry::Energy, Entry::MergeEarlier, Entry::MergeLater];

// What the third leg may choose, and a choice of the fourth that the draft does not offer; the fourth's own is 40_3_8.
const EARLY: &str = "10_4_7";
const LATE: &str = "38_4_7";
const NOT_OFFERED: &str = "12_3_8";

/// A record that one choice of the third leg keeps, and the other breaks at an inequality.
struct Broken {
    kind: usize,
    inequality: u32,
    kept_by: &'static str,
    broken_by: &'static str,
    low: i64,
    high: i64,
}

/// One for each inequality. Early, the third leg departs 30 seconds before the fourth and arrives 26 before that departs; late, 2 before, and 2 after.
const BROKEN: [Broken; 7] = [
    Broken { kind: 1, inequality: 1, kept_by: EARLY, broken_by: LATE, low: 3, high: 0 },
    Broken { kind: 1, inequality: 2, kept_by: EARLY, broken_by: LATE, low: 2, high: 0 },
    Broken { kind: 2, inequality: 1, kept_by: EARLY, broken_by: LATE, low: 0, high: 0 },
    Broken { kind: 3, inequality: 1, kept_by: EARLY, broken_by: LATE, low: 0, high: 0 },
    Broken { kind: 4, inequality: 1, kept_by: EARLY, broken_by: LATE, low: 0, high: 0 },
    Broken { kind: 5, inequality: 1, kept_by: EARLY, broken_by: LATE, low: 3, high: 40 },
    Broken { kind: 5, inequality: 2, kept_by: LATE, broken_by: EARLY, low: 0, high: 10 },
];

pub fn calls() -> Vec<Named> {
    ENTRIES.into_iter().flat_map(calls_of).collect()
}

/// Those of one entry.
pub fn calls_of(entry: Entry) -> Vec<Named> {
    let mut calls = vec![named("tests of every kind", entry, &plan(EARLY))];
    for (name, kept, broken) in broken_plans() {
        calls.push(named(&name, entry, &with_solutions(&broken, &broken, &kept)));
        if is_merge(entry) {
            calls.push(named(&format!("{name}, in the second solution"), entry, &with_solutions(&broken, &kept, &broken)));
        }
    }
    calls
}

fn named(name: &str, entry: Entry, plan: &Plan) -> Named {
    Named { name: name.to_string(), call: Call::of(entry, plan.case()) }
}

/// For each inequality, and for a choice that is not offered, a plan with a solution that keeps everything, and one with a solution that does not.
fn broken_plans() -> Vec<(String, Plan, Plan)> {
    let mut chosen = plan(EARLY);
    chosen.solution[3].nominal = NOT_OFFERED.to_string();
    chosen.solution[3].list.push(NOT_OFFERED.to_string());
    let mut plans = vec![(String::from("a choice that is not offered, behind others"), plan(EARLY), chosen)];
    for Broken { kind, inequality, kept_by, broken_by, low, high } in BROKEN {
        let with_record = |choice| {
            let mut plan = plan(choice);
            plan.lists[kind - 1].records.push(constraint_record(kind, false, ("3", "4"), low, high));
            plan
        };
        plans.push((format!("kind {kind} broken at {inequality}, behind others"), with_record(kept_by), with_record(broken_by)));
    }
    plans
}

fn with_solutions(plan: &Plan, first: &Plan, second: &Plan) -> Plan {
    Plan { solution: first.solution.clone(), second: second.solution.clone(), ..plan.clone() }
}

/// The example with a constraint of every kind, and two more legs, of which the first chooses this.
fn plan(choice: &str) -> Plan {
    let mut plan = Plan::of_every_kind();
    let leg = |ids: [&str; 5], nominal: &str, list: &[&str]| PlanLeg {
        ids: ids.map(String::from),
        nominal: nominal.to_string(),
        list: list.iter().map(|entry| entry.to_string()).collect(),
    };
    for (rows, third) in [(&mut plan.draft, EARLY), (&mut plan.solution, choice), (&mut plan.second, choice)] {
        rows.push(leg(["3", "2", "1", "1", "2"], third, &[EARLY, LATE]));
        rows.push(leg(["4", "2", "2", "2", "3"], "40_3_8", &["40_3_8"]));
    }
    plan
}

#[cfg(test)]
mod tests {
    use super::*;
    use independent::{Answer, Case};

    /// Each stops where it should, behind one record of its kind at least, or behind rows.
    #[test]
    fn each_inequality_is_broken_once() {
        let cases: Vec<Case> = calls_of(Entry::Check).into_iter().map(|named| named.call.case).collect();
        let stopped: Vec<(u32, u32)> = cases
            .iter()
            .filter_map(|case| match case.check().answer {
                Answer::Violated { kind, inequality, position, .. } if position > 0 => Some((kind, inequality)),
                _ => None,
            })
            .collect();
        assert_eq!(stopped, [(0, 0), (1, 1), (1, 2), (2, 1), (3, 1), (4, 1), (5, 1), (5, 2)]);
        assert_eq!(cases.len(), stopped.len() + 1);
    }

    /// Four legs; a headway has two inequalities, and so has each of two connections.
    #[test]
    fn every_kind_is_counted() {
        let counts = |kinds: [usize; 6]| Some((kinds.iter().sum(), kinds));
        let given: Vec<_> = calls_of(Entry::Check).iter().map(|named| named.call.case.check().tally.map(|t| (t.total, t.kinds))).collect();
        assert_eq!(given[0], counts([4, 2, 1, 1, 1, 4]));
        assert_eq!(given[1], counts([4, 0, 0, 0, 0, 0]));
        assert_eq!(given[2], counts([4, 3, 0, 0, 0, 0]));
        assert_eq!(given[3], counts([4, 4, 0, 0, 0, 0]));
        assert_eq!(given[4], counts([4, 2, 2, 0, 0, 0]));
        assert_eq!(given[5], counts([4, 2, 1, 2, 0, 0]));
        assert_eq!(given[6], counts([4, 2, 1, 1, 2, 0]));
        assert_eq!(given[7], counts([4, 2, 1, 1, 1, 5]));
        assert_eq!(given[8], counts([4, 2, 1, 1, 1, 6]));
    }

    /// "at most legs plus twice the constraints", and the six counts add up; none on a refusal, and none where a text is written.
    #[test]
    fn counts_are_within_their_bound() {
        let drawn = crate::calls(21, 0..1_500, &ENTRIES);
        for named in drawn.iter().chain(&calls()) {
            let mut lent = independent::Lent::full_of(0, &named.call.case.rooms);
            let said = named.call.run(&mut lent);
            let tally = match (said.answer(), said.tally()) {
                (Some(Answer::Refused { .. }), tally) => {
                    assert_eq!(tally, None, "{}", named.name);
                    continue;
                }
                (Some(Answer::Accepted), tally) if is_merge(named.call.entry) => {
                    assert_eq!(tally, None, "{}", named.name);
                    continue;
                }
                (_, tally) => tally.expect("a verdict"),
            };
            let mut ample = named.call.case.clone();
            ample.texts[3] = ample.texts[0].clone();
            let tables = ample.check().tables.expect("files that are read");
            let (legs, constraints) = (tables.legs.len() / 8, tables.constraints.len() / 6);
            assert_eq!(tally.kinds.iter().sum::<usize>(), tally.total, "{}", named.name);
            assert!(tally.total <= legs + 2 * constraints && tally.kinds[0] <= legs, "{}", named.name);
        }
    }
}
