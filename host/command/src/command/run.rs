//! What a call does.

use super::arguments::{help, Call, Number, Rows, Stated, Work};
use super::identity::identity;
use super::input::Input;
use super::output::{self, Output};
use super::place::Waiting;
use super::told::{row_object, Judged, Told, ACCEPTED, MERGE};
use super::{duties, energies, escaped, CouldNotRun};
use std::path::{Path, PathBuf};
use wagontulip::{row_at, Answer, Checker, File, Files, NoRoom, Rooms, Table, Unknown, LABEL};

impl From<Unknown> for CouldNotRun {
    fn from(unknown: Unknown) -> CouldNotRun {
        CouldNotRun(unknown.to_string())
    }
}

impl From<NoRoom> for CouldNotRun {
    fn from(none: NoRoom) -> CouldNotRun {
        CouldNotRun(none.to_string())
    }
}

/// A result, and the outputs that get their names when it was printed.
pub struct Ran {
    pub told: Told,
    pub outputs: Waiting,
}

pub fn run(call: &Call) -> Result<Ran, CouldNotRun> {
    let told = match &call.work {
        Work::Energy { stated, files, curves } => return energy(call, stated, files, curves.as_deref()),
        Work::Merge { stated, files, earlier, later } => return merge(call, stated, files, [earlier, later]),
        Work::Check { stated, files } => check(call, stated, files)?,
        Work::Duties { files } => judge_duties(call, files)?,
        Work::Row { place, rows } => row(call, place, rows)?,
        Work::Help(verb) => plain(&help(*verb)),
        Work::Version => plain(&identity().lines()),
    };
    Ok(Ran { told, outputs: Waiting::nothing() })
}

fn plain(text: &str) -> Told {
    Told { status: ACCEPTED, text: text.as_bytes().to_vec() }
}

const ROLES: [&str; 4] = ["timetable", "profiles", "constraints", "solution"];
const MERGE_ROLES: [&str; 5] = ["timetable", "profiles", "constraints", "first solution", "second solution"];

fn inputs(roles: &[&'static str], files: &[PathBuf]) -> Result<Vec<Input>, CouldNotRun> {
    let most = Rooms::at_the_limits()[Table::Text];
    roles.iter().zip(files).map(|(role, path)| Input::read(role, path, most)).collect()
}

fn checker(call: &Call) -> Result<Checker, CouldNotRun> {
    lending(call, Rooms::at_the_limits())
}

/// No more is lent than the limits can need.
fn lending(call: &Call, mut rooms: Rooms) -> Result<Checker, CouldNotRun> {
    let limits = Rooms::at_the_limits();
    for (table, room) in &call.rooms {
        let most = limits[*table];
        if *room > most {
            return Err(CouldNotRun(format!("--room {}: at most {most} can be lent", table.name())));
        }
        rooms[*table] = *room;
    }
    Ok(Checker::with_rooms(&rooms)?)
}

fn texts(inputs: &[Input]) -> Files<'_> {
    Files { timetable: &inputs[0].text, profiles: &inputs[1].text, constraints: &inputs[2].text }
}

fn check(call: &Call, stated: &Stated, files: &[PathBuf]) -> Result<Told, CouldNotRun> {
    let inputs = inputs(&ROLES, files)?;
    let mut checker = checker(call)?;
    let ruling = checker.check(stated.values(), &texts(&inputs), &inputs[3].text)?;
    let result = Judged { command: "check", stated, ruling, inputs: &inputs, outputs: &[], room: &checker.room };
    result.told(call.json, |()| String::new(), |object, ()| object)
}

fn energy(call: &Call, stated: &Stated, files: &[PathBuf], curves: Option<&Path>) -> Result<Ran, CouldNotRun> {
    let h = stated.horizon.value;
    let inputs = inputs(&ROLES, files)?;
    output::judge(&curves.into_iter().collect::<Vec<&Path>>(), &inputs)?;
    let mut checker = checker(call)?;
    let mut outputs = Vec::new();
    let ruling = checker.energy(stated.values(), &texts(&inputs), &inputs[3].text)?.map(|energies| {
        outputs.extend(curves.map(|path| Output { role: "curves", path, text: energies::curve_lines(&energies.curves, h) }));
        energies.figures
    });
    let result = Judged { command: "energy", stated, ruling, inputs: &inputs, outputs: &outputs, room: &checker.room };
    let told = result.told(call.json, |figures| energies::lines(&figures, h), |object, figures| energies::values(object, &figures, h))?;
    Ok(Ran { told, outputs: Waiting::written(&outputs)? })
}

/// Both texts are made before either is written.
fn merge(call: &Call, stated: &Stated, files: &[PathBuf], [earlier, later]: [&Path; 2]) -> Result<Ran, CouldNotRun> {
    let inputs = inputs(&MERGE_ROLES, files)?;
    output::judge(&[earlier, later], &inputs)?;
    let (files, first, second) = (texts(&inputs), &inputs[3].text, &inputs[4].text);
    let mut checker = checker(call)?;
    let mut outputs = Vec::new();
    let mut keep = |role, path, text: &[u8]| outputs.push(Output { role, path, text: text.to_vec() });
    let mut ruling = checker.merge_earlier(stated.values(), &files, first, second)?.map(|text| keep("merged, earlier", earlier, text));
    if ruling.answer == Answer::Accepted(()) {
        ruling = checker.merge_later(stated.values(), &files, first, second)?.map(|text| keep("merged, later", later, text));
    }
    if ruling.answer != Answer::Accepted(()) {
        outputs.clear();
    }
    let result = Judged { command: MERGE, stated, ruling, inputs: &inputs, outputs: &outputs, room: &checker.room };
    let told = result.told(call.json, |()| String::new(), |object, ()| object)?;
    Ok(Ran { told, outputs: Waiting::written(&outputs)? })
}

/// Nothing is stated, and the two tables of the duties are all that is lent.
fn judge_duties(call: &Call, files: &[PathBuf]) -> Result<Told, CouldNotRun> {
    let inputs = inputs(&[duties::COMMAND], files)?;
    let (limits, mut rooms) = (Rooms::at_the_limits(), Rooms::none());
    for table in [Table::Nodes, Table::Balance] {
        rooms[table] = limits[table];
    }
    let mut checker = lending(call, rooms)?;
    let said = checker.duties(&inputs[0].text)?;
    duties::told(call.json, &said, &inputs)
}

/// A row is shown, not judged: the status is 0, also where none starts there.
fn row(call: &Call, place: &Number<u32>, rows: &Rows) -> Result<Told, CouldNotRun> {
    let (file, inputs) = match rows {
        Rows::Numbered { file, files } => (Some(file), inputs(&["timetable", "solution"], files)?),
        Rows::Of(files) => (None, inputs(&["CSV file"], files)?),
    };
    // Any CSV text may stand for the draft.
    let number = file.map_or(File::Timetable.number(), |file| file.value);
    let solution = inputs.get(1).unwrap_or(&inputs[0]);
    let row = row_at(&inputs[0].text, &solution.text, number, place.value)?;
    let input = if number == File::Solution.number() { solution } else { &inputs[0] };
    if !input.is_whole() && row.map_or(false, |row| place.value as usize + row.len() == input.text.len()) {
        return Err(CouldNotRun(format!("{}: the row goes on past the length of a text", input.told())));
    }
    if call.json {
        return Ok(plain(&row_object(file, place, row, &inputs)?));
    }
    let shown = row.map_or(String::from("no row starts there"), |row| format!("row: {}", escaped(row)));
    Ok(plain(&format!("{LABEL}\n{shown}\n")))
}
