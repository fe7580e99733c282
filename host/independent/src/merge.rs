//! "Merged texts": "Only from two accepted solutions."

use crate::answers::{Answer, Refusal, Rooms, Tally, Verdict};
use crate::files::{read_files, read_solution, Files};
use crate::rows::LONGEST_TEXT;
use crate::stated::Stated;
use crate::tables::{choices, Tables};
use crate::timetable::{Configuration, Leg, HEADER};
use crate::verdict::verdict;

/// Which choice is taken at each leg.
#[derive(Clone, Copy, Debug, PartialEq, Eq)]
pub enum Direction {
    Earlier,
    Later,
}

/// The answer, the tally of the verdict that fails, the tables as read where nothing is refused, and
/// the text where both are accepted: a text is no verdict and has no tally.
#[derive(Clone, Debug, PartialEq, Eq)]
pub struct Merged {
    pub answer: Answer,
    pub tally: Option<Tally>,
    pub tables: Option<Tables>,
    pub text: Option<Vec<u8>>,
}

/// Reads the five texts, judges both solutions and, if both are accepted, writes the merged one.
#[allow(clippy::too_many_arguments)]
pub fn merge(
    direction: Direction,
    stated: Stated,
    timetable: &[u8],
    profiles: &[u8],
    constraints: &[u8],
    first: &[u8],
    second: &[u8],
    rooms: &Rooms,
) -> Merged {
    let read = read_both(stated, timetable, profiles, constraints, first, second, rooms);
    let (files, first, second) = match read {
        Err(refusal) => return refused(refusal),
        Ok(read) => read,
    };
    // "Order after both are read: verdict of the first, verdict of the second, 17 (file 5, its
    // row), 16 (file 0, place 0)".
    for (solution, file) in [(&first, 4), (&second, 5)] {
        let Verdict { answer, tally } = verdict(&files, solution, file);
        if answer != Answer::Accepted {
            let mut tables = Tables::of(&files, &first);
            tables.second_choices = choices(&second);
            return Merged { answer, tally: Some(tally), tables: Some(tables), text: None };
        }
    }
    match write(direction, &files, &first, &second, rooms) {
        Err(refusal) => refused(refusal),
        Ok(text) => {
            let mut tables = Tables::of(&files, &first);
            tables.second_choices = choices(&second);
            let answer = Answer::Accepted;
            Merged { answer, tally: None, tables: Some(tables), text: Some(text) }
        }
    }
}

fn refused(refusal: Refusal) -> Merged {
    Merged { answer: refusal.into(), tally: None, tables: None, text: None }
}

/// The files and both solutions, read without refusal, or the first refusal.
fn read_both(
    stated: Stated,
    timetable: &[u8],
    profiles: &[u8],
    constraints: &[u8],
    first: &[u8],
    second: &[u8],
    rooms: &Rooms,
) -> Result<(Files, Vec<Leg>, Vec<Leg>), Refusal> {
    let files = read_files(stated, timetable, profiles, constraints, rooms)?;
    let first = read_solution(stated.horizon, first, 4, rooms.choices, &files.legs)?;
    let second = read_solution(stated.horizon, second, 5, rooms.second_choices, &files.legs)?;
    Ok((files, first, second))
}

/// The merged text of two accepted solutions, or 17, or 16.
fn write(
    direction: Direction,
    files: &Files,
    first: &[Leg],
    second: &[Leg],
    rooms: &Rooms,
) -> Result<Vec<u8>, Refusal> {
    for (a, b) in first.iter().zip(second) {
        if a.nominal.travel != b.nominal.travel {
            return Err(Refusal { number: 17, file: 5, place: b.place });
        }
    }
    // "Output: header, then draft rows with the chosen configuration as nominal and the draft's
    // list."
    let mut text = format!("{HEADER}\n");
    for (row, draft) in files.legs.iter().enumerate() {
        let choice = choose(direction, first[row].nominal, second[row].nominal);
        text.push_str(&row_text(draft, choice));
    }
    if text.len() > rooms.text || text.len() > LONGEST_TEXT {
        return Err(Refusal { number: 16, file: 0, place: 0 });
    }
    Ok(text.into_bytes())
}

/// "one from the earlier choice at each leg (the first file's at equal departures) and one from
/// the later (the second file's at equal departures)" (demand 3).
fn choose(direction: Direction, first: Configuration, second: Configuration) -> Configuration {
    match direction {
        Direction::Earlier if second.departure < first.departure => second,
        Direction::Earlier => first,
        Direction::Later if first.departure > second.departure => first,
        Direction::Later => second,
    }
}

/// One row of the merged text with its LF.
fn row_text(draft: &Leg, choice: Configuration) -> String {
    let ids: Vec<String> = draft.ids.iter().map(|id| id.to_string()).collect();
    let list: Vec<String> = draft.list.iter().map(|entry| configuration_text(*entry)).collect();
    format!("{},{},{}\n", ids.join(","), configuration_text(choice), list.join(" "))
}

/// `d_t_p`.
fn configuration_text(configuration: Configuration) -> String {
    format!("{}_{}_{}", configuration.departure, configuration.travel, configuration.profile)
}
