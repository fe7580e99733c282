//! Instances in the published layouts: folders with `timetable.csv`, `profiles.csv`, `constraints.json` and solutions. Each solution, and the draft as one, is
//! checked and its energies reckoned; each is merged with the one before it.

use crate::executor::{compared, Executor};
use independent::rows::fields;
use independent::{Call, Case, Direction, Entry, Rooms, Stated};
use std::collections::HashMap;
use std::path::{Path, PathBuf};

const TIMETABLE: &str = "timetable.csv";
/// Document 001 has both names.
const PROFILES: [&str; 2] = ["profiles.csv", "profile.csv"];
const CONSTRAINTS: &str = "constraints.json";
/// The header of a solution with two columns (document 001), and the column of a timetable that its choices go to.
const CHOICES: &str = "leg_id,departure_configuration";
const NOMINAL: usize = 5;
/// Room that is never short.
const AMPLE: usize = 1 << 27;

/// Compares every instance in the folder or in the folders below it.
pub fn compare(folder: &Path, stated: Stated, executor: &dyn Executor) -> Result<String, String> {
    let instances = instances(folder)?;
    if instances.is_empty() {
        return Err(format!("{}: no folder with {TIMETABLE}, {} and {CONSTRAINTS}", folder.display(), PROFILES[0]));
    }
    let mut told = String::new();
    let mut differ = 0;
    for instance in &instances {
        told.push_str(&format!("{}\n", instance.folder.display()));
        let solutions = instance.solutions()?;
        for (place, solution) in solutions.iter().enumerate() {
            let before = &solutions[place.saturating_sub(1)];
            for (name, call) in instance.calls(stated, before, solution)? {
                let (answer, difference) = compared(&call, executor)?;
                differ += usize::from(difference.is_some());
                let result = difference.map_or(String::from("the same"), |lines| format!("DIFFERS\n{lines}"));
                told.push_str(&format!("  {name}: {answer}: {result}\n"));
            }
        }
    }
    if differ > 0 {
        return Err(format!("{told}{differ} lines differ"));
    }
    executor.end().map(|()| told)
}

/// A folder that holds the three files.
struct Instance {
    folder: PathBuf,
    profiles: &'static str,
}

/// A name and a text.
type Solution = (String, Vec<u8>);

impl Instance {
    fn at(folder: &Path) -> Option<Instance> {
        let has = |name: &str| folder.join(name).is_file();
        let profiles = PROFILES.into_iter().find(|name| has(name))?;
        (has(TIMETABLE) && has(CONSTRAINTS)).then(|| Instance { folder: folder.to_path_buf(), profiles })
    }

    fn read(&self, name: &str) -> Result<Vec<u8>, String> {
        let path = self.folder.join(name);
        std::fs::read(&path).map_err(|e| format!("{}: {e}", path.display()))
    }

    /// The draft, and every other CSV file: a timetable file, or choices that are put into the draft.
    fn solutions(&self) -> Result<Vec<Solution>, String> {
        let draft = self.read(TIMETABLE)?;
        let mut solutions = Vec::new();
        for path in listed(&self.folder)? {
            let name = path.file_name().unwrap_or_default().to_string_lossy().to_string();
            if name.ends_with(".csv") && name != TIMETABLE && name != self.profiles {
                let text = self.read(&name)?;
                solutions.push(put_into(&draft, &text).map_or((name.clone(), text), |put| (format!("{name} put into the draft"), put)));
            }
        }
        solutions.insert(0, (String::from("the draft"), draft));
        Ok(solutions)
    }

    fn calls(&self, stated: Stated, before: &Solution, solution: &Solution) -> Result<Vec<(String, Call)>, String> {
        let [timetable, profiles, constraints] = [TIMETABLE, self.profiles, CONSTRAINTS].map(|name| self.read(name));
        let texts = [timetable?, profiles?, constraints?, before.1.clone(), solution.1.clone()];
        let merged = Case { h: stated.horizon, edition: stated.edition, texts, rooms: Rooms::all(AMPLE) };
        let mut alone = merged.clone();
        alone.texts[3] = std::mem::take(&mut alone.texts[4]);
        let alone = [Entry::Check, Entry::Energy]
            .map(|entry| (format!("{}, {}", solution.0, entry.name()), fitted(Call::of(entry, alone.clone()))));
        let merged = [Entry::MergeEarlier, Entry::MergeLater]
            .map(|entry| (format!("{} and {}, {}", before.0, solution.0, entry.name()), fitted(Call::of(entry, merged.clone()))));
        Ok(alone.into_iter().chain(merged).collect())
    }
}

/// The folder itself and the folders below it, as far as they hold the three files.
fn instances(folder: &Path) -> Result<Vec<Instance>, String> {
    let mut found: Vec<Instance> = Instance::at(folder).into_iter().collect();
    for path in listed(folder)? {
        if path.is_dir() {
            found.extend(instances(&path)?);
        }
    }
    Ok(found)
}

/// What stands in a folder, by name.
fn listed(folder: &Path) -> Result<Vec<PathBuf>, String> {
    let failed = |e: std::io::Error| format!("{}: {e}", folder.display());
    let mut paths = Vec::new();
    for entry in std::fs::read_dir(folder).map_err(failed)? {
        paths.push(entry.map_err(failed)?.path());
    }
    paths.sort();
    Ok(paths)
}

/// The draft's rows, without quotes, with a solution's choices in them; none where the text is no solution with two columns, or not of every leg.
fn put_into(draft: &[u8], solution: &[u8]) -> Option<Vec<u8>> {
    let mut rows = contents(solution)?.into_iter();
    if rows.next()?.join(",") != CHOICES {
        return None;
    }
    let chosen: HashMap<&str, &str> =
        rows.map(|row| <[&str; 2]>::try_from(row).ok().map(|[leg, choice]| (leg, choice))).collect::<Option<_>>()?;
    let mut rows = contents(draft)?.into_iter();
    let mut text = format!("{}\n", rows.next()?.join(","));
    for mut columns in rows {
        *columns.get_mut(NOMINAL)? = chosen.get(columns[0])?;
        text.push_str(&columns.join(","));
        text.push('\n');
    }
    Some(text.into_bytes())
}

/// The contents of each line's fields, the header's too.
fn contents(text: &[u8]) -> Option<Vec<Vec<&str>>> {
    std::str::from_utf8(text).ok()?.lines().map(line_contents).collect()
}

fn line_contents(line: &str) -> Option<Vec<&str>> {
    fields(line.as_bytes())?.into_iter().map(|field| std::str::from_utf8(field).ok()).collect()
}

/// The call with just the room that it needs; where it is refused, a number of room for each byte, which is more than any text can fill.
fn fitted(mut call: Call) -> Call {
    let bytes: usize = call.case.texts.iter().map(Vec::len).sum();
    let mut rooms = Rooms::all(bytes);
    if let Some(tables) = call.case.check().tables {
        rooms.legs = tables.legs.len();
        rooms.configurations = tables.configurations.len();
        rooms.profiles = tables.profiles.len();
        rooms.samples = tables.samples.len();
        rooms.constraints = tables.constraints.len();
        rooms.tracks = tables.tracks.len();
        rooms.choices = tables.choices.len();
        rooms.second_choices = tables.choices.len();
    }
    match call.entry {
        Entry::Energy => rooms.curves = call.case.energy().curves.map_or(0, |curves| curves.len()),
        Entry::MergeEarlier => rooms.text = text_length(&call.case, Direction::Earlier),
        Entry::MergeLater => rooms.text = text_length(&call.case, Direction::Later),
        Entry::Check | Entry::Row | Entry::Duties => {}
    }
    call.case.rooms = rooms;
    call
}

fn text_length(case: &Case, direction: Direction) -> usize {
    case.merge(direction).text.map_or(0, |text| text.len())
}

#[cfg(test)]
mod tests {
    use super::*;
    use cases::spelling::exported;

    #[test]
    fn choices_are_put_into_the_draft() {
        let draft = b"head\n1,1,1,1,2,10_4_7,10_4_7 15_4_7\n2,1,2,2,3,40_3_8,40_3_8 45_3_8\n";
        let put = put_into(draft, b"leg_id,departure_configuration\n2,45_3_8\n1,15_4_7\n").unwrap();
        assert_eq!(put, b"head\n1,1,1,1,2,15_4_7,10_4_7 15_4_7\n2,1,2,2,3,45_3_8,40_3_8 45_3_8\n");
        let exported = put_into(&exported(draft), b"\"leg_id\",\"departure_configuration\"\r\n\"2\",45_3_8\r\n1,\"15_4_7\"\r\n").unwrap();
        assert_eq!(exported, put);
        assert_eq!(put_into(draft, b"leg_id,departure_configuration\n2,45_3_8\n"), None);
        assert_eq!(put_into(draft, draft), None);
    }
}
