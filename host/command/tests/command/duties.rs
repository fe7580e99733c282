//! Rolling stock duties as a user gives them.

use super::*;
use common::{broken_duties, duties, DUTIES_HEADER, DUTY_ROWS};

const KEPT: &str = "accepted: every row keeps the six rules\n";

const BALANCES: &str = "read: rows 4, nodes 2\nduties ending less duties starting:\n  A -1\n  B 1\nover all nodes: 0\n";

/// What each rule asks for, in order.
const RULES: [&str; 6] = [
    "every event ends after it starts",
    "only a TRAIN event may end at a node other than its start",
    "the rows of one duty stand together",
    "SEQ runs from 1 in each duty, one more in each row",
    "each event starts at the time and node at which the one before it in its duty ended",
    "the HHMMSS columns match the seconds",
];

#[test]
fn duties_are_accepted_with_their_balances() {
    let folder = Folder::new("duties");
    for text in [duties(), exported(&duties())] {
        folder.put("d", &text);
        assert_eq!(folder.told("duties d", 0), format!("{LABEL}{KEPT}{BALANCES}answer: accepted\n"));
    }
    folder.put("d", DUTIES_HEADER);
    let nothing = "read: rows none, nodes none\nthere are no rows: no rule was looked at\n";
    assert_eq!(folder.told("duties d", 0), format!("{LABEL}{KEPT}{nothing}answer: accepted\n"));
}

#[test]
fn a_broken_rule_is_told_with_its_row_and_the_row_before() {
    let folder = Folder::new("broken");
    for (rule, row, text) in broken_duties() {
        folder.put("d", &text);
        let lines: Vec<&str> = text.lines().collect();
        let place = lines[..row + 1].iter().map(|line| line.len() + 1).sum::<usize>();
        let before = if row == 0 { String::from("none, it is the first") } else { lines[row].to_string() };
        let meaning = RULES[usize::from(rule) - 1];
        let head = format!("violated: rule {rule}: {meaning}\nfile: duties (d), row {row}, place: {place}, line: {}\n", row + 2);
        let rows = format!("row before: {before}\nrow: {}\n", lines[row + 1]);
        assert_eq!(folder.told("duties d", 1), format!("{LABEL}{head}{rows}answer: violated\n"));
    }
}

#[test]
fn refused_duties_show_their_row() {
    let folder = Folder::new("refused-duties");
    let place = DUTIES_HEADER.len() + DUTY_ROWS[0].len();
    let right = duties();
    for (wrong, number, meaning) in [
        (right.replace("CHANGE_END", "RESERVE"), 10, "unknown event type"),
        (right.replace("D,2,", "D,864000,"), 5, "number out of range"),
        (right.replace("D,2,", "D,02,"), 4, "CSV row breaks its form"),
    ] {
        folder.put("d", &wrong);
        let row = wrong.lines().nth(2).unwrap();
        let told = format!("refused {number}: {meaning}\nfile: duties (d), place: {place}, line: 3\nrow: {row}\n");
        assert_eq!(folder.told("duties d", 2), format!("{LABEL}{told}answer: refused\n"));
    }
    let said = folder.told("duties t", 2);
    assert!(said.contains("refused 3: header differs\nfile: duties (t), place: 0, line: 1\ntext: leg_id,"), "{said}");
    folder.put("d", "");
    let said = folder.told("duties d", 2);
    assert!(said.contains("\nfile: duties (d), place: 0, the end of the text\n"), "{said}");
}

/// A text of an HHMMSS column may hold any bytes and be of any length: it is rule 6, and is shown on its line.
#[test]
fn any_bytes_of_a_broken_row_are_shown_as_words() {
    let folder = Folder::new("broken-bytes");
    folder.put("d", &duties().replace("D,2,87720,1d 00:22:00", "D,2,87720,\x1b[2J\ranswer: accepted"));
    let said = folder.told("duties d", 1);
    assert!(said.contains("\nrow: D,2,87720,\\x1b[2J\\x0danswer: accepted,87840,"), "{said}");
    let long = "x".repeat(1_000);
    folder.put("d", &duties().replace("D,2,87720,1d 00:22:00", &format!("D,2,87720,{long}")));
    let said = folder.told("duties d", 1);
    assert!(said.contains("\nrow, the first 160 of its 1044 bytes: D,2,87720,xxx"), "{said}");
    let object = folder.told("duties d --json", 1);
    assert!(object.contains(r#"xxx", "length": 1044, "row_before": {"line": 2, "row": "D,1,"#), "{object}");
}

#[test]
fn less_room_for_nodes_is_refused() {
    let folder = Folder::new("duty-room");
    folder.put("d", &duties());
    let told = format!("refused 16: lent room too short\nfile: duties (d), place: {}, line: 2\n", DUTIES_HEADER.len());
    for room in ["nodes=3", "balance=1", "nodes=0"] {
        let said = folder.told(&format!("duties d --room {room}"), 2);
        assert!(said.contains(&told), "{said}");
    }
    folder.told("duties d --room nodes=4 --room balance=2", 0);
    let output = folder.run("duties d --room nodes=2049");
    assert_eq!(String::from_utf8(output.stderr).unwrap(), "wagontulip: --room nodes: at most 2048 can be lent\n");
}
