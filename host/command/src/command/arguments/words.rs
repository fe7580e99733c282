//! The words after the command, sorted into options and files. A wrong one is told in one line, with the word itself.

use super::number::Number;
use crate::command::{printable, CouldNotRun};
use std::ffi::{OsStr, OsString};
use std::os::unix::ffi::OsStrExt;
use std::path::PathBuf;
use std::str::FromStr;
use wagontulip::Table;

/// Standard input, as an input: no file's name.
pub const STANDARD: &str = "-";

const JSON: &str = "--json";
const ROOM: &str = "--room";
const VALUED: [&str; 8] = ["--horizon", "--edition", "--curves", "--earlier", "--later", "--file", "--place", ROOM];

/// The options as they were given, and the words that are none.
#[derive(Default)]
pub struct Words {
    options: Vec<(&'static str, OsString)>,
    pub rooms: Vec<(Table, usize)>,
    pub json: bool,
    files: Vec<OsString>,
}

/// A usage error, which is one line, whatever the word is.
pub fn wrong(why: &str, word: impl AsRef<OsStr>) -> CouldNotRun {
    CouldNotRun(format!("{why}: {} (help: wagontulip --help)", printable(word)))
}

/// Whether the words ask for an object, also where they ask for nothing that can be done.
pub fn asks_for_json(words: &[OsString]) -> bool {
    let mut words = words.iter().take_while(|word| *word != "--");
    while let Some(word) = words.next() {
        if word == JSON {
            return true;
        }
        if VALUED.iter().any(|name| word == name) {
            words.next();
        }
    }
    false
}

/// The word up to its `=`, and the value after it.
fn parted(word: &OsStr) -> (&OsStr, Option<&OsStr>) {
    let bytes = word.as_bytes();
    match bytes.iter().position(|byte| *byte == b'=') {
        Some(sign) => (OsStr::from_bytes(&bytes[..sign]), Some(OsStr::from_bytes(&bytes[sign + 1..]))),
        None => (word, None),
    }
}

/// TABLE=N.
fn room(value: &OsStr) -> Option<(Table, usize)> {
    let (table, room) = value.to_str()?.split_once('=')?;
    Some((Table::named(table)?, Number::read(room, usize::MAX)?.value))
}

impl Words {
    /// After `--` every word is a file.
    pub fn sorted(mut words: impl Iterator<Item = OsString>) -> Result<Words, CouldNotRun> {
        let mut sorted = Words::default();
        while let Some(word) = words.next() {
            if word == "--" {
                sorted.files.extend(words.by_ref());
            } else if word != STANDARD && word.as_bytes().starts_with(b"-") {
                sorted.add_option(&word, &mut words)?;
            } else {
                sorted.files.push(word);
            }
        }
        Ok(sorted)
    }

    /// The value stands in the word, or is the next one.
    fn add_option(&mut self, word: &OsStr, words: &mut impl Iterator<Item = OsString>) -> Result<(), CouldNotRun> {
        let (name, value) = parted(word);
        if let Some(name) = VALUED.into_iter().find(|valued| name == *valued) {
            let value = value.map(OsString::from).or_else(|| words.next());
            return self.add_valued(name, value.ok_or_else(|| wrong("no value is given", name))?);
        }
        match value {
            None if name == JSON => self.json = true,
            Some(_) if name == JSON => return Err(wrong("this option takes no value", word)),
            _ => return Err(wrong("no such option", word)),
        }
        Ok(())
    }

    fn add_valued(&mut self, name: &'static str, value: OsString) -> Result<(), CouldNotRun> {
        if name == ROOM {
            return self.add_room(&value);
        }
        if self.options.iter().any(|(given, _)| *given == name) {
            return Err(wrong("given twice", name));
        }
        self.options.push((name, value));
        Ok(())
    }

    fn add_room(&mut self, value: &OsStr) -> Result<(), CouldNotRun> {
        let (table, room) = room(value).ok_or_else(|| wrong("--room wants TABLE=N", value))?;
        if self.rooms.iter().any(|(given, _)| *given == table) {
            return Err(wrong("a table's room is given twice", value));
        }
        self.rooms.push((table, room));
        Ok(())
    }

    /// Takes an option, so that what is left is not wanted.
    fn option(&mut self, name: &str) -> Option<OsString> {
        let place = self.options.iter().position(|(given, _)| *given == name)?;
        Some(self.options.remove(place).1)
    }

    fn wanted(&mut self, name: &str) -> Result<OsString, CouldNotRun> {
        self.option(name).ok_or_else(|| wrong("an option is missing", name))
    }

    pub fn number<N: FromStr>(&mut self, name: &str, greatest: N) -> Result<Number<N>, CouldNotRun> {
        number(name, &self.wanted(name)?, greatest)
    }

    pub fn number_if_given<N: FromStr>(&mut self, name: &str, greatest: N) -> Result<Option<Number<N>>, CouldNotRun> {
        self.option(name).map(|value| number(name, &value, greatest)).transpose()
    }

    pub fn output(&mut self, name: &str) -> Result<PathBuf, CouldNotRun> {
        output(name, self.wanted(name)?)
    }

    pub fn output_if_given(&mut self, name: &str) -> Result<Option<PathBuf>, CouldNotRun> {
        self.option(name).map(|value| output(name, value)).transpose()
    }

    /// So many files, by their names in the usage. Standard input has one end, so it is one of them at most.
    pub fn files<const N: usize>(&mut self, names: [&str; N]) -> Result<[PathBuf; N], CouldNotRun> {
        let files = std::mem::take(&mut self.files);
        let given = format!("wanted {}, given {}", counted(N), files.len());
        if let Some(more) = files.get(N) {
            return Err(wrong(&format!("{given}, too many"), more));
        }
        if let Some((again, name)) = files.iter().zip(names).filter(|(file, _)| *file == STANDARD).nth(1) {
            return Err(wrong(&format!("standard input is read once, and not for {name} too"), again));
        }
        let files: Vec<PathBuf> = files.into_iter().map(PathBuf::from).collect();
        files.try_into().map_err(|files: Vec<PathBuf>| wrong(&format!("{given}, missing"), names[files.len()]))
    }

    /// Whatever was not taken is no option of this command.
    pub fn nothing_left(&self, command: &str) -> Result<(), CouldNotRun> {
        if let Some((name, _)) = self.options.first() {
            return Err(wrong(&format!("no option of {command}"), name));
        }
        self.files.first().map_or(Ok(()), |file| Err(wrong("a word too many", file)))
    }
}

fn counted(files: usize) -> String {
    if files == 1 {
        String::from("1 file")
    } else {
        format!("{files} files")
    }
}

fn number<N: FromStr>(name: &str, value: &OsStr, greatest: N) -> Result<Number<N>, CouldNotRun> {
    let number = value.to_str().and_then(|word| Number::read(word, greatest));
    number.ok_or_else(|| wrong(&format!("{name} wants a whole number, and this is none"), value))
}

/// A file named `-` is `./-`: a user who writes `-` means standard output, which has the result.
fn output(name: &str, value: OsString) -> Result<PathBuf, CouldNotRun> {
    if value == STANDARD {
        return Err(wrong(&format!("{name} wants a file, and standard output has the result"), &value));
    }
    Ok(PathBuf::from(value))
}

#[cfg(test)]
mod tests {
    use super::*;

    #[test]
    fn an_object_is_asked_for_by_a_word_of_its_own() {
        let asks = |words: &str| asks_for_json(&words.split_whitespace().map(OsString::from).collect::<Vec<OsString>>());
        assert!(asks("--json") && asks("check --json t") && asks("judge t --room --json --json") && asks("check --horizon=1 --json"));
        assert!(!asks("") && !asks("check t") && !asks("check -- --json") && !asks("energy --curves --json"));
    }
}
