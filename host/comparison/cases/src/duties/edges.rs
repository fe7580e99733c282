//! Limits and rules of duties at and past the edge, as far as small texts reach, and both lent rooms at and below the need.

use super::faults::filled;
use super::{example, time_text, Plan, Row, COLUMNS, COURSE, DUTY, END, END_TEXT, FROM, KIND, NODE, SEQ, START, START_TEXT, TO};
use crate::Named;

/// The columns of names, and of whole numbers.
pub const NAMES: [usize; 4] = [DUTY, FROM, TO, COURSE];
const NUMBERS: [usize; 3] = [SEQ, START, END];

/// The last second, which is also the last SEQ.
pub const GREATEST: u32 = 863_999;
const DAY: u32 = 86_400;
const DAYS: u32 = 10;

/// Seconds and texts for them, most of which they are not.
const TIMES: &[(u32, &str)] = &[
    (0, "00:00:00"),
    (0, "0d 00:00:00"),
    (0, "24:00:00"),
    (0, ""),
    (0, "0:00:00"),
    (0, "00:00"),
    (0, "00:00:00 "),
    (0, " 00:00:00"),
    (0, "00:00:00.0"),
    (0, "00-00-00"),
    (59, "00:00:59"),
    (60, "00:00:60"),
    (60, "00:01:00"),
    (3_599, "00:59:59"),
    (3_600, "00:60:00"),
    (3_600, "01:00:00"),
    (3_600, "1:00:00"),
    (70_920, "19:42:00"),
    (70_920, "19:42:01"),
    (70_920, "20:42:00"),
    (70_920, "19:4a:00"),
    (86_399, "23:59:59"),
    (86_400, "24:00:00"),
    (86_400, "00:00:00"),
    (86_400, "0d 24:00:00"),
    (86_400, "1d 00:00:00"),
    (87_720, "1d 00:22:00"),
    (87_720, "24:22:00"),
    (87_720, "1d"),
    (87_720, "1d "),
    (172_800, "1d 24:00:00"),
    (172_800, "2d 00:00:00"),
    (863_998, "9d 23:59:58"),
];

pub fn calls() -> Vec<Named> {
    let mut calls = Vec::new();
    calls.extend(names());
    calls.extend(numbers());
    calls.extend(kinds());
    calls.extend(days());
    calls.extend(times());
    calls.extend(fields());
    calls.extend(second_rows());
    calls.extend(first_rows());
    calls.extend(balances());
    calls.extend(nodes());
    calls.extend(rooms());
    calls
}

/// The example's first row, changed.
fn changed(name: String, change: impl Fn(Row) -> Row) -> Named {
    let mut plan = example();
    plan.rows[0] = change(plan.rows[0].clone());
    let needed = Plan::of(plan.rows.clone());
    Plan { rows: plan.rows, ..needed }.named(name)
}

/// Names of 0 to 33 bytes, and each byte that stands at the edge of those that may.
fn names() -> Vec<Named> {
    let mut calls = Vec::new();
    for column in NAMES {
        for length in [0, 1, 2, 31, 32, 33, 34, 300] {
            calls.push(changed(format!("a name of {length} bytes in column {column}"), |row| row.with(column, &"n".repeat(length))));
        }
        for byte in ['\0', '\t', ' ', '!', '"', '#', '\'', '+', ',', '-', '}', '~', '\u{7f}', '\u{80}', '\u{ff}'] {
            calls.push(changed(format!("a name with {byte:?} in column {column}"), |row| row.with(column, &format!("a{byte}b"))));
        }
    }
    calls
}

fn numbers() -> Vec<Named> {
    let forms =
        ["", "0", "1", "2", "863998", "863999", "864000", "4294967296", "18446744073709551617", "00", "01", "+1", "-1", " 1", "1 ", "1.0"];
    NUMBERS
        .iter()
        .flat_map(|column| forms.map(|form| changed(format!("{form:?} in column {column}"), |row| row.with(*column, form))))
        .collect()
}

/// Each event type with and without a course, at one node and between two.
fn kinds() -> Vec<Named> {
    let mut calls = Vec::new();
    for kind in
        ["TRAIN", "CHANGE_END", "SPARE", "RESERVE", "train", "TRAIN ", " TRAIN", "TRAI", "TRAINS", "", "CHANGE END", "SPARE\u{1}", "\u{ff}"]
    {
        for course in ["", "c", " ", "c d"] {
            for to in ["x", "y"] {
                let name = format!("type {kind:?}, course {course:?}, from x to {to}");
                calls.push(changed(name, |row| row.with(KIND, kind).with(COURSE, course).with(TO, to)));
            }
        }
    }
    calls
}

/// The first and the last second of each day, as they are written and otherwise.
fn days() -> Vec<Named> {
    let mut calls = Vec::new();
    for day in 0..DAYS {
        let (first, last) = (day * DAY, day * DAY + DAY - 1);
        let row = Row::train("A", 1, (first, last), ("x", "y"));
        let clock = time_text(DAY - 1);
        let mut spelled = vec![time_text(last), clock.clone()];
        spelled.extend((0..=DAYS).map(|other| format!("{other}d {clock}")));
        spelled.extend([format!("{day}d{clock}"), format!("{day}D {clock}"), format!("{day}d  {clock}"), format!("0{day}d {clock}")]);
        for text in spelled {
            calls.push(Plan::of(vec![row.clone().with(END_TEXT, &text)]).named(format!("{last} as {text:?}")));
        }
    }
    calls
}

/// The times of the table, and the last second of all.
fn times() -> Vec<Named> {
    let of_pair = |(seconds, text): &(u32, &str)| {
        let row = Row::train("A", 1, (*seconds, seconds + 1), ("x", "y"));
        Plan::of(vec![row.with(START_TEXT, text)]).named(format!("{seconds} as {text:?}"))
    };
    let last = Row::train("A", 1, (0, GREATEST), ("x", "y"));
    let past = last.clone().with(END, "864000").with(END_TEXT, "10d 00:00:00");
    let ends = [("the last second", last), ("one second past it", past)].map(|(name, row)| Plan::of(vec![row]).named(name));
    TIMES.iter().map(of_pair).chain(ends).collect()
}

/// Rows of no field up to twelve.
fn fields() -> Vec<Named> {
    let row = example().rows.remove(0);
    let line = |count: usize| row.0.iter().cycle().take(count).cloned().collect::<Vec<String>>().join(",");
    let of_count = |count: usize| {
        let mut named = example().named(format!("{count} fields"));
        let text = &mut named.call.case.texts[0];
        text.extend(format!("{}\n", line(count)).bytes());
        named
    };
    (0..=COLUMNS + 2).filter(|count| *count != COLUMNS).map(of_count).collect()
}

/// Each rule on both sides of its edge, in the second row of a file.
fn second_rows() -> Vec<Named> {
    let begun = Row::train("A", 1, (100, 200), ("x", "y"));
    let next = |seq, times, from, to| Row::train("A", seq, times, (from, to));
    let two = |name: &str, second: Row| Plan::of(vec![begun.clone(), second]).named(name);
    vec![
        two("goes on", next(2, (200, 300), "y", "x")),
        two("ends a second after it starts", next(2, (200, 201), "y", "x")),
        two("ends as it starts", next(2, (200, 200), "y", "x")),
        two("ends before it starts", next(2, (200, 199), "y", "x")),
        two("a TRAIN that ends where it starts", next(2, (200, 300), "y", "y")),
        two("a SPARE that moves", Row::staying("A", 2, (200, 300), "y", "SPARE").with(TO, "x")),
        two("a SPARE that stays", Row::staying("A", 2, (200, 300), "y", "SPARE")),
        two("a CHANGE_END that moves by case alone", Row::staying("A", 2, (200, 300), "y", "CHANGE_END").with(TO, "Y")),
        two("SEQ 0 in a duty", next(0, (200, 300), "y", "x")),
        two("SEQ 1 in a duty", next(1, (200, 300), "y", "x")),
        two("SEQ 3 in a duty", next(3, (200, 300), "y", "x")),
        two("starts a second too soon", next(2, (199, 300), "y", "x")),
        two("starts a second too late", next(2, (201, 300), "y", "x")),
        two("starts at another node", next(2, (200, 300), "x", "y")),
        two("starts at a node of another case", next(2, (200, 300), "Y", "x")),
        two("starts at a longer node", next(2, (200, 300), "yy", "x")),
        two("another duty, anywhere and at any time", Row::train("B", 1, (0, 1), ("z", "x"))),
        two("another duty by case alone", Row::train("a", 1, (0, 1), ("z", "x"))),
        two("another duty with SEQ 2", Row::train("B", 2, (200, 300), ("y", "x"))),
        two("a longer duty with SEQ 2", Row::train("AA", 2, (200, 300), ("y", "x"))),
    ]
}

/// A duty's first SEQ, and duties in some order.
fn first_rows() -> Vec<Named> {
    let mut calls = Vec::new();
    for seq in [0, 1, 2, GREATEST] {
        calls.push(Plan::of(vec![Row::train("A", seq, (0, 1), ("x", "y"))]).named(format!("SEQ {seq} at first")));
    }
    for order in ["AAB", "ABA", "ABB", "ABBA", "ABCA", "ABCB", "AABBA", "ABCDEFA", "ABCDEFD"] {
        calls.push(in_order(order).named(format!("duties {order}")));
    }
    calls
}

/// A row for each letter, which goes on where the letter before is the same.
fn in_order(duties: &str) -> Plan {
    let mut rows: Vec<Row> = Vec::new();
    let mut seq = 0;
    for duty in duties.chars().map(String::from) {
        seq = match rows.last() {
            Some(last) if last.0[DUTY] == duty => seq + 1,
            _ => 1,
        };
        rows.push(Row::train(&duty, seq, (seq * 10, seq * 10 + 10), ("x", "x")));
    }
    Plan::of(rows)
}

/// Duties that end where others start, where they themselves start, and where nothing else does.
fn balances() -> Vec<Named> {
    let one = |duty: &str, from, to| Row::train(duty, 1, (0, 1), (from, to));
    let rows: [(&str, Vec<Row>); 6] = [
        ("a loop", vec![one("A", "x", "x")]),
        ("there and back", vec![one("A", "x", "y"), one("B", "y", "x")]),
        ("two to one node", vec![one("A", "x", "z"), one("B", "y", "z")]),
        ("two from one node", vec![one("A", "z", "x"), one("B", "z", "y")]),
        ("a ring of three", vec![one("A", "x", "y"), one("B", "y", "z"), one("C", "z", "x")]),
        ("a node passed through", vec![one("A", "x", "y"), Row::train("A", 2, (1, 2), ("y", "z")), one("B", "y", "z")]),
    ];
    let many: Vec<Row> = (0..40).map(|duty| one(&format!("D{duty}"), ["x", "y", "z"][duty % 3], ["z", "u", "x", "v"][duty % 4])).collect();
    rows.into_iter().chain([("forty duties", many)]).map(|(name, rows)| Plan::of(rows).named(format!("balances, {name}"))).collect()
}

/// The most nodes, and one and two more, in a row's start, in its end, in both.
fn nodes() -> Vec<Named> {
    let mut calls = vec![Plan::of(filled(1_024)).named("1,024 nodes"), Plan::of(filled(1_026)).named("1,026 nodes")];
    for (from, to) in [("0.", "1."), ("new", "new"), ("new", "0."), ("0.", "new"), ("new", "newer")] {
        for before in [1_022, 1_024] {
            let mut rows = filled(before);
            rows.push(Row::train("last", 1, (0, 1), (from, to)));
            calls.push(Plan::of(rows).named(format!("{before} nodes, then from {from} to {to}")));
        }
    }
    calls
}

/// Both rooms from nothing to more than the need, by both files.
fn rooms() -> Vec<Named> {
    let mut calls = Vec::new();
    for plan in [example(), super::table_8(), Plan::of(Vec::new())] {
        let need = plan.balances;
        for nodes in
            [0, 1, need, (need * NODE).saturating_sub(2), (need * NODE).saturating_sub(1), need * NODE, need * NODE + 1, need * NODE + 9]
        {
            for balances in [0, 1, need.saturating_sub(1), need, need + 1, need + 9] {
                let name = format!("room for {nodes} numbers of nodes and {balances} balances where {need} nodes are needed");
                calls.push(Plan { nodes, balances, ..plan.clone() }.named(name));
            }
        }
    }
    calls
}

#[cfg(test)]
mod tests {
    use super::*;
    use crate::target::{Target, RULES};
    use independent::Answer;

    #[test]
    fn edges_lie_on_both_sides() {
        let answers: Vec<Target> = calls().iter().map(|named| Target::of(named.call.case.duties().answer)).collect();
        let count = |target: Target| answers.iter().filter(|answer| **answer == target).count();
        assert!(count(Target::Accepted) > 150, "{}", count(Target::Accepted));
        for rule in RULES {
            assert!(count(Target::Broken { rule }) > 2, "{rule}");
        }
        for number in [4, 5, 6, 10, 16] {
            assert!(count(Target::Refused { number, file: 6 }) > 4, "{number}");
        }
    }

    /// "over all nodes these add up to zero".
    #[test]
    fn balances_add_up_to_zero() {
        let accepted =
            super::super::calls().into_iter().map(|named| named.call.case.duties()).filter(|duties| duties.answer == Answer::Accepted);
        let sums: Vec<i32> = accepted.map(|duties| duties.balance.unwrap().iter().sum()).collect();
        assert!(sums.len() > 150 && sums.iter().all(|sum| *sum == 0));
    }
}
