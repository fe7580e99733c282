//! Each refusal and each rule in the last row of a file: alone, two in one row, and a refusal behind a row that breaks a rule.

use super::{nodes_of, Plan, Row, COURSE, DUTY, END, END_TEXT, FROM, KIND, NODE, SEQ, START, START_TEXT, TO};
use crate::target::RULES;
use crate::Named;

/// A fault of a row: what is refused by a number, or breaks a rule.
#[derive(Clone, Copy, Debug, PartialEq, Eq)]
pub enum Fault {
    Refused(u32),
    Broken(u32),
}

/// The numbers by which a row is refused, rising.
pub const NUMBERS: [u32; 5] = [4, 5, 6, 10, 16];

/// As many nodes as there may be.
const MOST_NODES: usize = 1_024;

/// A name that stands nowhere else, and a time at which nothing happens.
const NEW: &str = "new";
const EARLIER: u32 = 9;
const MUCH_EARLIER: u32 = 5;

pub fn calls() -> Vec<Named> {
    let mut calls = Vec::new();
    for faults in alone().into_iter().chain(pairs()) {
        calls.push(with(&faults).named(format!("{faults:?} in one row")));
    }
    for number in NUMBERS {
        calls.push(behind(number).named(format!("{number} behind a row that breaks a rule")));
    }
    for (first, second) in RULES.flat_map(|first| RULES.map(move |second| (first, second))) {
        calls.push(one_after_the_other(first, second).named(format!("rule {first} broken, then rule {second}")));
    }
    calls
}

fn alone() -> Vec<Vec<Fault>> {
    NUMBERS.map(|number| vec![Fault::Refused(number)]).into_iter().chain(RULES.map(|rule| vec![Fault::Broken(rule)])).collect()
}

/// Any two, but for rules 3 and 5, which no row breaks at once: a duty that comes back begins anew.
fn pairs() -> Vec<Vec<Fault>> {
    let all = alone().concat();
    let mut pairs = Vec::new();
    for (place, first) in all.iter().enumerate() {
        pairs.extend(all[place + 1..].iter().map(|second| vec![*first, *second]));
    }
    pairs.retain(|pair| pair[..] != [Fault::Broken(3), Fault::Broken(5)]);
    pairs
}

/// A file whose last row goes on with the duty before it, after another duty.
fn sound(nodes: usize) -> Vec<Row> {
    let mut rows = filled(nodes);
    rows.push(Row::train("A", 1, (0, 10), ("x", "y")));
    rows.push(Row::train("B", 1, (0, 10), ("x", "y")));
    rows.push(Row::staying("B", 2, (10, 20), "y", "CHANGE_END"));
    rows
}

/// Duties of a row each, with so many nodes, two to a row.
pub fn filled(nodes: usize) -> Vec<Row> {
    let name = |number: usize| format!("{number:x}.");
    (0..nodes / 2).map(|duty| Row::train(&format!("d{duty}"), 1, (0, 1), (&name(2 * duty), &name(2 * duty + 1)))).collect()
}

/// The file with these faults in its last row. Refusals come last, since some take what a rule is about.
pub fn with(faults: &[Fault]) -> Plan {
    let is_full = faults.contains(&Fault::Refused(6));
    let mut plan = Plan::of(sound(if is_full { MOST_NODES - 2 } else { 0 }));
    let broken = faults.iter().filter(|fault| matches!(fault, Fault::Broken(_)));
    for fault in broken.chain(faults.iter().filter(|fault| matches!(fault, Fault::Refused(_)))) {
        put(&mut plan, *fault);
    }
    plan
}

fn put(plan: &mut Plan, fault: Fault) {
    let last = plan.rows.len() - 1;
    let before = nodes_of(&plan.rows[..last]);
    let row = &mut plan.rows[last];
    match fault {
        Fault::Broken(rule) => *row = breaking(row.clone(), rule),
        Fault::Refused(4) => row.0[COURSE] = String::from("c"),
        Fault::Refused(5) => row.0[SEQ] = String::from("864000"),
        Fault::Refused(10) => row.0[KIND] = String::from("RESERVE"),
        Fault::Refused(number) => {
            row.0[FROM] = String::from(NEW);
            row.0[TO] = String::from(NEW);
            let room = if number == 16 { before } else { plan.balances.max(before) + 1 };
            (plan.nodes, plan.balances) = (room * NODE, room);
        }
    }
}

/// The last row of the file with one rule more broken. Rules are put in rising order: that of the texts is the last.
fn breaking(row: Row, rule: u32) -> Row {
    let time =
        |row: Row, number: usize, text: usize, seconds: u32| row.with(number, &seconds.to_string()).with(text, &super::time_text(seconds));
    match rule {
        1 => time(row, END, END_TEXT, MUCH_EARLIER),
        2 => row.with(TO, "x"),
        3 => row.with(DUTY, "A").with(SEQ, "1"),
        4 => row.with(SEQ, "7"),
        5 => time(row, START, START_TEXT, EARLIER),
        _ => row.with(START_TEXT, "24:00:00"),
    }
}

/// The refusal is the answer, whatever came before it.
fn behind(number: u32) -> Plan {
    let mut plan = with(&[Fault::Refused(number)]);
    plan.rows[0].0[END_TEXT] = String::from("00:00:99");
    plan
}

/// Of two rows that break a rule the first is the answer, whichever rule is the lower.
fn one_after_the_other(first: u32, second: u32) -> Plan {
    let mut plan = with(&[Fault::Broken(first)]);
    let mut later = with(&[Fault::Broken(second)]).rows;
    let begun = Row::train("C", 1, (0, 10), ("x", "y"));
    plan.rows.push(begun);
    plan.rows.push(later.remove(2).with(DUTY, if second == 3 { "A" } else { "C" }));
    plan
}

#[cfg(test)]
mod tests {
    use super::*;
    use independent::Answer;

    /// The faults of the row, as they were put there.
    fn found(faults: &[Fault]) -> (bool, Vec<u32>) {
        let duties = with(faults).case().duties();
        (matches!(duties.answer, Answer::Refused { .. }), duties.faults)
    }

    /// A refusal comes before a rule, and of the same sort all are found, the lowest first.
    #[test]
    fn each_pair_has_both_faults() {
        for faults in alone().into_iter().chain(pairs()) {
            let numbers: Vec<u32> =
                faults.iter().filter_map(|fault| if let Fault::Refused(number) = fault { Some(*number) } else { None }).collect();
            let rules: Vec<u32> =
                faults.iter().filter_map(|fault| if let Fault::Broken(rule) = fault { Some(*rule) } else { None }).collect();
            let expected = if numbers.is_empty() { (false, rules) } else { (true, numbers) };
            assert_eq!(found(&faults), expected, "{faults:?}");
        }
        assert_eq!((alone().len(), pairs().len()), (11, 54));
    }

    #[test]
    fn a_refusal_is_behind_a_broken_row() {
        for number in NUMBERS {
            let duties = behind(number).case().duties();
            assert_eq!((duties.faults, duties.is_behind_broken), (vec![number], true));
        }
    }

    #[test]
    fn the_first_broken_row_counts() {
        for (first, second) in RULES.flat_map(|first| RULES.map(move |second| (first, second))) {
            let plan = one_after_the_other(first, second);
            assert!(matches!(plan.case().duties().answer, Answer::Broken { row: 2, rule, .. } if rule == first), "{first} {second}");
            let mut mended = plan;
            mended.rows[2] = sound(0).remove(2);
            assert!(matches!(mended.case().duties().answer, Answer::Broken { row: 4, rule, .. } if rule == second), "{first} {second}");
        }
    }
}
