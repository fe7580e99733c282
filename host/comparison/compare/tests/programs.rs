//! The comparison tried on itself: through a program that is right, and through ones that are not.

use cases::Named;
use compare::command::Command;
use compare::comparison::{compare, Plan};
use compare::coverage::ROOMS;
use compare::executor::{Executor, Nobody, Replay};
use compare::expected::{answer, line};
use compare::lines::{self, BEFORE, LABEL};
use compare::{folder, input};
use independent::{Answer, Call, Case, Direction, Duties, Entry, Lent};
use std::path::PathBuf;

/// The independent program in replay's place.
fn right() -> Replay {
    Replay::new(vec![String::from(env!("CARGO_BIN_EXE_compare")), String::from("answers")])
}

fn temporary(name: &str) -> PathBuf {
    let folder = std::env::temp_dir().join(format!("compare-{}-{name}", std::process::id()));
    std::fs::create_dir_all(&folder).unwrap();
    folder
}

fn plan(count: usize, name: &str) -> Plan {
    Plan { seed: 3, count, entries: Entry::ALL.to_vec(), whole: true, folder: temporary(name) }
}

/// A program that is wrong in one line.
struct Wrong(fn(&Call, String) -> String);

impl Executor for Wrong {
    fn run(&self, calls: &[&Call]) -> Result<Vec<String>, String> {
        let lines = Nobody.run(calls)?;
        Ok(calls.iter().zip(lines).map(|(call, line)| (self.0)(call, line)).collect())
    }
}

/// A library that writes one number past the last entry of one room, where it accepts and the room goes on.
struct Past(usize);

impl Executor for Past {
    fn run(&self, calls: &[&Call]) -> Result<Vec<String>, String> {
        Ok(calls.iter().map(|call| self.line(call)).collect())
    }
}

impl Past {
    fn line(&self, call: &Call) -> String {
        let mut lent = Lent::full_of(BEFORE, &call.case.rooms);
        let said = call.run(&mut lent);
        if said.answer() == Some(Answer::Accepted) && call.entry.is_judging() {
            self.write(&mut lent, ends(call)[self.0]);
        }
        lines::line(&said, if call.entry == Entry::Row { call.row_bytes() } else { &[] }, &lent)
    }

    fn write(&self, lent: &mut Lent, end: Option<usize>) {
        let unsigned = [&mut lent.legs, &mut lent.configurations, &mut lent.profiles, &mut lent.constraints, &mut lent.tracks];
        let [legs, configurations, profiles, constraints, tracks] = unsigned;
        match self.0 {
            0 => zero(legs, end),
            1 => zero(configurations, end),
            2 => zero(profiles, end),
            3 => zero(&mut lent.samples, end),
            4 => zero(constraints, end),
            5 => zero(tracks, end),
            6 => zero(&mut lent.choices, end),
            7 => zero(&mut lent.second_choices, end),
            8 => zero(&mut lent.curves, end),
            _ => zero(&mut lent.text, end),
        }
    }
}

fn zero<T: Default>(room: &mut [T], end: Option<usize>) {
    if let Some(number) = end.and_then(|end| room.get_mut(end)) {
        *number = T::default();
    }
}

/// How many numbers an accepted call writes into each room that its entry is lent.
fn ends(call: &Call) -> [Option<usize>; 10] {
    let (tables, curves, text) = match call.entry {
        Entry::MergeEarlier => (call.case.merge(Direction::Earlier).tables, None, call.case.merge(Direction::Earlier).text),
        Entry::MergeLater => (call.case.merge(Direction::Later).tables, None, call.case.merge(Direction::Later).text),
        Entry::Energy => (call.case.check().tables, call.case.energy().curves, None),
        Entry::Check | Entry::Row | Entry::Duties => (call.case.check().tables, None, None),
    };
    let tables = tables.unwrap_or_default();
    let [legs, configurations, profiles] = [tables.legs.len(), tables.configurations.len(), tables.profiles.len()].map(Some);
    let [samples, constraints, tracks] = [tables.samples.len(), tables.constraints.len(), tables.tracks.len()].map(Some);
    let second = text.as_ref().map(|_| tables.second_choices.len());
    let choices = Some(tables.choices.len());
    let (curves, text) = (curves.map(|curves| curves.len()), text.map(|text| text.len()));
    [legs, configurations, profiles, samples, constraints, tracks, choices, second, curves, text]
}

/// How many lines differ.
fn differing(executor: &dyn Executor, name: &str) -> usize {
    let plan = plan(400, name);
    let differences = compare(executor, &plan).unwrap().differences.len();
    std::fs::remove_dir_all(&plan.folder).unwrap();
    differences
}

#[test]
fn the_independent_program_agrees_with_itself() {
    assert_eq!(differing(&right(), "right"), 0);
    input::compare(&right()).unwrap();
}

#[test]
fn a_program_that_accepts_everything_differs() {
    let accepting = |_: &Call, line: String| format!("accepted | {}", line.split(" | ").nth(1).unwrap());
    assert!(differing(&Wrong(accepting), "accepting") > 300);
}

/// The line with other counts of tests, where it has any: the total first, then those of the kinds.
fn recounted(line: String, change: fn(&mut Vec<usize>)) -> String {
    let (answer, rest) = match line.split_once(" # ") {
        Some(parts) => parts,
        None => return line,
    };
    let (counts, digests) = rest.split_once(" | ").unwrap();
    let mut counts: Vec<usize> = counts.split(' ').map(|count| count.parse().unwrap()).collect();
    change(&mut counts);
    let counts: Vec<String> = counts.iter().map(usize::to_string).collect();
    format!("{answer} # {} | {digests}", counts.join(" "))
}

/// The failing test is not counted; two kinds have each other's count; the choices of the rows are not counted.
#[test]
fn a_program_that_counts_otherwise_differs() {
    let without_the_failing_one = |_: &Call, line: String| match line.starts_with("violated") {
        true => recounted(line, |counts| {
            counts[0] -= 1;
            *counts[1..].iter_mut().rev().find(|count| **count > 0).unwrap() -= 1;
        }),
        false => line,
    };
    let exchanged = |_: &Call, line: String| recounted(line, |counts| counts.swap(3, 6));
    let without_choices = |_: &Call, line: String| {
        recounted(line, |counts| {
            counts[0] -= counts[1];
            counts[1] = 0;
        })
    };
    assert!(differing(&Wrong(without_the_failing_one), "failing") > 100);
    assert!(differing(&Wrong(exchanged), "exchanged") > 100);
    assert!(differing(&Wrong(without_choices), "choices") > 100);
}

#[test]
fn a_program_that_leaves_the_last_room_alone_differs() {
    let leaving = |call: &Call, line: String| {
        if call.entry == Entry::Duties {
            return line;
        }
        let mut untouched = call.clone();
        untouched.entry = Entry::Row;
        let rooms = Nobody.run(&[&untouched]).unwrap().remove(0);
        let last = rooms.rsplit(' ').next().unwrap().to_string();
        let kept: Vec<&str> = line.rsplitn(2, ' ').collect();
        format!("{} {last}", kept[1])
    };
    assert!(differing(&Wrong(leaving), "leaving") > 50);
}

/// A library that reads every file by one edition, and one that tests the edition before H.
#[test]
fn an_edition_that_is_not_looked_at_rightly_is_found() {
    let by_one = |call: &Call, _: String| line(&Call { case: Case { edition: 2, ..call.case.clone() }, ..call.clone() }).1;
    assert!(differing(&Wrong(by_one), "by-one") > 50);
    let before = |call: &Call, line: String| match call.case.edition {
        1 | 2 => line,
        _ => line.replace("refused 1 0 0", "refused 21 0 0"),
    };
    assert!(differing(&Wrong(before), "before") > 5);
}

/// A library that judges duties by another rule first, by rows as they come, that leaves their balances on a broken row, or takes them for those of rows.
#[test]
fn duties_that_are_not_judged_rightly_are_found() {
    let last_rule = |call: &Call, line: String| match call.case.duties() {
        Duties { answer: Answer::Broken { row, place, .. }, faults, .. } if call.entry == Entry::Duties => {
            let last = faults[faults.len() - 1];
            format!("broken {row} {last} {place} | {}", line.split(" | ").nth(1).unwrap())
        }
        _ => line,
    };
    assert!(differing(&Wrong(last_rule), "last-rule") > 14);
    let as_they_come = |call: &Call, line: String| {
        let is_behind = call.entry == Entry::Duties && call.case.duties().is_behind_broken;
        if is_behind {
            line.replacen("refused", "broken", 1)
        } else {
            line
        }
    };
    assert!(differing(&Wrong(as_they_come), "as-they-come") > 4);
    let unfilled = |call: &Call, line: String| {
        let untouched = lines::line(&call.run(&mut Lent::full_of(BEFORE, &call.case.rooms)), &[], &Lent::full_of(BEFORE, &call.case.rooms));
        if line.starts_with("broken") {
            untouched
        } else {
            line
        }
    };
    assert!(differing(&Wrong(unfilled), "unfilled") > 100);
    let other_sign = |call: &Call, line: String| {
        let mut lent = Lent::full_of(BEFORE, &call.case.rooms);
        let said = call.run(&mut lent);
        let nodes = call.case.duties().balance.map_or(0, |balance| balance.len());
        lent.curves.iter_mut().take(nodes).for_each(|balance| *balance = -*balance);
        if call.entry == Entry::Duties {
            lines::line(&said, &[], &lent)
        } else {
            line
        }
    };
    assert!(differing(&Wrong(other_sign), "other-sign") > 100);
}

#[test]
fn a_number_past_the_last_entry_is_found_in_every_room() {
    for (room, name) in ROOMS.iter().enumerate() {
        assert!(differing(&Past(room), &format!("past-{room}")) > 0, "{name}");
    }
}

/// A program that answers one call and ends: the next call starts it again, and at the end nothing is left to end.
#[test]
fn a_program_that_ends_too_soon_differs() {
    let script = format!("echo '{LABEL}'; head -c 256 >/dev/null; echo accepted");
    let short = Replay::new(["sh", "-c", &script].map(String::from).to_vec());
    let call = cases::examples::worked().remove(0).call;
    assert_eq!(short.run(&[&call, &call, &call]).unwrap(), ["accepted", "(no line)", "accepted"]);
}

/// A program that says more than it is asked, or fails when there is nothing more to answer.
#[test]
fn a_program_that_ends_badly_is_told() {
    for (ending, is_good) in [("cat >/dev/null", true), ("cat >/dev/null; echo accepted", false), ("cat >/dev/null; exit 1", false)] {
        let script = format!("echo '{LABEL}'; head -c 256 >/dev/null; echo accepted; {ending}");
        let ending = Replay::new(["sh", "-c", &script].map(String::from).to_vec());
        assert_eq!(ending.run(&[&cases::examples::worked().remove(0).call]).unwrap(), ["accepted"]);
        assert_eq!(ending.end().is_ok(), is_good, "{script}");
    }
}

#[test]
fn a_program_without_the_label_is_none() {
    let silent = Replay::new(vec![String::from("true")]);
    assert!(silent.run(&[&cases::examples::worked().remove(0).call]).unwrap_err().contains("no label"));
}

/// `true` ends with status 0, whatever it is asked, and says nothing.
#[test]
fn a_command_that_says_nothing_differs() {
    let plan = Plan { whole: false, ..plan(40, "silent") };
    let outcome = compare(&Command { words: vec![String::from("true")] }, &plan).unwrap();
    assert!(outcome.calls > 40, "{}", outcome.calls);
    assert_eq!(outcome.differences.len(), outcome.calls);
    std::fs::remove_dir_all(&plan.folder).unwrap();
}

#[test]
fn differences_are_saved_as_files() {
    let plan = plan(1, "saved");
    let shifted = |_: &Call, line: String| line.replace("refused 15 1 145", "refused 15 1 146");
    let outcome = compare(&Wrong(shifted), &plan).unwrap();
    assert_eq!(outcome.differences.len(), 1, "{:?}", outcome.differences);
    let saved = plan.folder.join("difference-1");
    let worked = cases::examples::worked();
    let call = &worked.iter().find(|named: &&Named| named.name == "track 2 in no subnet").unwrap().call;
    assert_eq!(std::fs::read(saved.join("timetable.csv")).unwrap(), call.case.texts[0]);
    let mut again = Vec::new();
    answer(&std::fs::read(saved.join("stdin")).unwrap()[..], &mut again).unwrap();
    assert!(String::from_utf8(again).unwrap().contains("refused 15 1 145"));
    std::fs::remove_dir_all(&plan.folder).unwrap();
}

#[test]
fn a_folder_of_instances() {
    let folder = temporary("folder");
    let call = cases::examples::worked().remove(0).call;
    let [timetable, profiles, constraints, ..] = &call.case.texts;
    let later = String::from_utf8(timetable.clone()).unwrap().replacen("10_4_7", "15_4_7", 1);
    let instance = folder.join("line").join("day");
    std::fs::create_dir_all(&instance).unwrap();
    let files: [(&str, &[u8]); 5] = [
        ("timetable.csv", timetable),
        ("profiles.csv", profiles),
        ("constraints.json", constraints),
        ("later.csv", later.as_bytes()),
        ("two-columns.csv", b"leg_id,departure_configuration\n1,10_4_7\n"),
    ];
    for (name, text) in files {
        std::fs::write(instance.join(name), text).unwrap();
    }
    let told = folder::compare(&folder, call.case.stated(), &right()).unwrap();
    assert_eq!(told.matches("the same").count(), 12, "{told}");
    assert!(told.contains("later.csv, energy: accepted 2050 2050 600"), "{told}");
    assert!(told.contains("two-columns.csv, check: refused 3 4 0"), "{told}");
    std::fs::remove_dir_all(&folder).unwrap();
}
