//! The words of a call.

mod help;
mod number;
mod stated;
mod words;

use super::CouldNotRun;
use std::ffi::{OsStr, OsString};
use std::path::PathBuf;
use wagontulip::{Edition, Table};
use words::{wrong, Words};

pub use help::help;
pub use number::Number;
pub use stated::Stated;
pub use words::{asks_for_json, STANDARD};

/// What is asked for.
#[derive(Debug, PartialEq, Eq)]
pub struct Call {
    pub work: Work,
    pub json: bool,
    pub rooms: Vec<(Table, usize)>,
}

/// The files of an entry stand in its order.
#[derive(Debug, PartialEq, Eq)]
pub enum Work {
    Check { stated: Stated, files: [PathBuf; 4] },
    Energy { stated: Stated, files: [PathBuf; 4], curves: Option<PathBuf> },
    Merge { stated: Stated, files: [PathBuf; 5], earlier: PathBuf, later: PathBuf },
    Duties { files: [PathBuf; 1] },
    Row { place: Number<u32>, rows: Rows },
    Help(Option<Verb>),
    Version,
}

/// Where a row is looked for.
#[derive(Debug, PartialEq, Eq)]
pub enum Rows {
    /// In the timetable or the solution, whichever has a refusal's file number.
    Numbered { file: Number<u8>, files: [PathBuf; 2] },
    /// In any CSV file.
    Of([PathBuf; 1]),
}

#[derive(Clone, Copy, Debug, PartialEq, Eq)]
pub enum Verb {
    Check,
    Energy,
    Merge,
    Duties,
    Row,
}

const VERBS: [(&str, Verb); 5] =
    [("check", Verb::Check), ("energy", Verb::Energy), ("merge", Verb::Merge), ("duties", Verb::Duties), ("row", Verb::Row)];

/// The files of an entry in the usage.
const FILES: [&str; 4] = ["TIMETABLE", "PROFILES", "CONSTRAINTS", "SOLUTION"];
const MERGE_FILES: [&str; 5] = ["TIMETABLE", "PROFILES", "CONSTRAINTS", "FIRST", "SECOND"];

pub fn read(words: Vec<OsString>) -> Result<Call, CouldNotRun> {
    let first = words.first().cloned();
    let named = VERBS.into_iter().find(|(name, _)| first.as_deref() == Some(OsStr::new(name)));
    if asks_for_help(&words) {
        return Ok(Call { work: Work::Help(named.map(|(_, verb)| verb)), json: false, rooms: Vec::new() });
    }
    let mut rest = words.into_iter();
    let first = rest.next().ok_or_else(|| wrong("no command is given", "check, energy, merge, duties or row"))?;
    let version = first == "-V" || first == "--version";
    if named.is_none() && !version {
        return Err(wrong("no such command", first));
    }
    let mut words = Words::sorted(rest)?;
    let (name, work) = match named {
        Some((name, verb)) => (name, work(verb, &mut words)?),
        None => ("--version", Work::Version),
    };
    words.nothing_left(name)?;
    Ok(Call { work, json: words.json, rooms: words.rooms })
}

/// Wherever the word stands, but for after `--`, where it is a file.
fn asks_for_help(words: &[OsString]) -> bool {
    words.iter().take_while(|word| *word != "--").any(|word| word == "-h" || word == "--help")
}

fn work(verb: Verb, words: &mut Words) -> Result<Work, CouldNotRun> {
    let work = match verb {
        Verb::Check => Work::Check { stated: stated(words)?, files: words.files(FILES)? },
        Verb::Energy => {
            let curves = words.output_if_given("--curves")?;
            Work::Energy { stated: stated(words)?, files: words.files(FILES)?, curves }
        }
        Verb::Merge => {
            let (earlier, later) = (words.output("--earlier")?, words.output("--later")?);
            Work::Merge { stated: stated(words)?, files: words.files(MERGE_FILES)?, earlier, later }
        }
        Verb::Duties => Work::Duties { files: words.files(["FILE"])? },
        Verb::Row => Work::Row { place: words.number("--place", u32::MAX)?, rows: rows(words)? },
    };
    Ok(work)
}

/// Document 01's key for turnarounds, where no edition is given.
const EDITION: u32 = Edition::EXAMPLE;

fn stated(words: &mut Words) -> Result<Stated, CouldNotRun> {
    let horizon = words.number("--horizon", u32::MAX)?;
    let edition = words.number_if_given("--edition", u32::MAX)?.unwrap_or_else(|| Number::of(EDITION));
    Ok(Stated { horizon, edition })
}

/// A file number wants the two files that the library tells apart by it.
fn rows(words: &mut Words) -> Result<Rows, CouldNotRun> {
    match words.number_if_given("--file", u8::MAX)? {
        Some(file) => Ok(Rows::Numbered { file, files: words.files(["TIMETABLE", "SOLUTION"])? }),
        None => Ok(Rows::Of(words.files(["FILE"])?)),
    }
}

#[cfg(test)]
mod tests {
    use super::*;

    fn call(words: &str) -> Result<Call, CouldNotRun> {
        read(words.split_whitespace().map(OsString::from).collect())
    }

    fn paths<const N: usize>(names: [&str; N]) -> [PathBuf; N] {
        names.map(PathBuf::from)
    }

    fn number<N: std::str::FromStr>(word: &str, greatest: N) -> Number<N> {
        Number::read(word, greatest).unwrap()
    }

    fn stated(horizon: &str, edition: &str) -> Stated {
        Stated { horizon: number(horizon, u32::MAX), edition: number(edition, u32::MAX) }
    }

    fn check(horizon: &str, files: [&str; 4]) -> Work {
        Work::Check { stated: stated(horizon, "2"), files: paths(files) }
    }

    #[test]
    fn options_may_stand_anywhere() {
        let wanted = Call { work: check("100", ["t", "p", "c", "s"]), json: true, rooms: vec![(Table::SecondChoices, 6)] };
        assert_eq!(call("check t --json p c --room second_choices=6 s --horizon 100").unwrap(), wanted);
        assert_eq!(call("check t --json p c --room=second_choices=6 s --horizon=100").unwrap(), wanted);
    }

    #[test]
    fn a_value_may_stand_in_the_word() {
        let merge = |words: &str| call(&format!("merge t p c a - {words}")).unwrap().work;
        assert_eq!(merge("--horizon=1 --earlier=x=y --later=./-"), merge("--horizon 1 --earlier x=y --later ./-"));
        let energy = call("energy --horizon 1 t p c s --curves=-h").unwrap().work;
        assert!(matches!(energy, Work::Energy { curves: Some(curves), .. } if curves.as_os_str() == "-h"));
        assert_eq!(call("row --file=4 --place=145 t s").unwrap(), call("row --file 4 --place 145 t s").unwrap());
    }

    #[test]
    fn after_two_dashes_every_word_is_a_file() {
        assert_eq!(call("check --horizon 1 -- --json p -h s").unwrap().work, check("1", ["--json", "p", "-h", "s"]));
    }

    #[test]
    fn a_number_past_its_type_is_the_greatest() {
        let horizon = |word: &str| match call(&format!("check --room text={word} --horizon {word} t p c s")) {
            Ok(Call { work: Work::Check { stated, .. }, rooms, .. }) => (stated.horizon.value, rooms[0].1),
            other => panic!("{other:?}"),
        };
        assert_eq!(horizon("0"), (0, 0));
        assert_eq!(horizon("4294967296"), (u32::MAX, 1 << 32));
        assert_eq!(horizon("99999999999999999999999"), (u32::MAX, usize::MAX));
        let rows = Rows::Numbered { file: number("260", u8::MAX), files: paths(["t", "s"]) };
        let row = Work::Row { place: number("4294967441", u32::MAX), rows };
        assert_eq!(call("row --file 260 --place 4294967441 t s").unwrap().work, row);
    }

    /// Any number is handed on, and one past its type as the greatest; no number at all is 2.
    #[test]
    fn an_edition_may_be_given() {
        let work = |words: &str| call(&format!("check {words} t p c s --horizon 100")).unwrap().work;
        for (given, value) in [("1", 1), ("2", 2), ("0", 0), ("3", 3), ("4294967295", u32::MAX), ("4294967297", u32::MAX)] {
            let wanted = Work::Check { stated: stated("100", given), files: paths(["t", "p", "c", "s"]) };
            assert_eq!(work(&format!("--edition {given}")), wanted);
            assert_eq!(work(&format!("--edition={given}")), wanted);
            assert!(matches!(wanted, Work::Check { stated, .. } if stated.edition.value == value));
        }
        assert_eq!(work(""), work("--edition 2"));
    }

    #[test]
    fn duties_are_one_file_of_which_nothing_is_stated() {
        let wanted = Call { work: Work::Duties { files: paths(["d"]) }, json: true, rooms: vec![(Table::Nodes, 6), (Table::Balance, 3)] };
        assert_eq!(call("duties --room nodes=6 d --json --room balance=3").unwrap(), wanted);
    }

    #[test]
    fn a_row_is_of_any_file() {
        let row = Work::Row { place: number("30", u32::MAX), rows: Rows::Of(paths(["p"])) };
        assert_eq!(call("row --place 30 p").unwrap().work, row);
    }

    #[test]
    fn help_is_given_wherever_it_is_asked_for() {
        for (words, verb) in [
            ("-h", None),
            ("--help me", None),
            ("judge --help", None),
            ("check --help", Some(Verb::Check)),
            ("energy --horizon -h", Some(Verb::Energy)),
            ("merge --horizon 0100 --verbose -h t", Some(Verb::Merge)),
            ("duties --help", Some(Verb::Duties)),
            ("row -h --json", Some(Verb::Row)),
        ] {
            assert_eq!(call(words).unwrap().work, Work::Help(verb), "{words}");
            let name = VERBS.into_iter().find(|(_, named)| verb == Some(*named)).map_or("check", |(name, _)| name);
            assert!(help(verb).starts_with(&format!("wagontulip {name}")), "{words}");
        }
        assert_eq!((call("-V").unwrap().work, call("--version").unwrap().work), (Work::Version, Work::Version));
    }

    /// One line, with the word at fault before where help is.
    #[test]
    fn what_is_not_asked_for_rightly_is_not_run() {
        for (words, why) in [
            ("", "no command is given: check, energy, merge, duties or row"),
            ("judge --horizon 1 t p c s", "no such command: judge"),
            ("check t p c s", "an option is missing: --horizon"),
            ("check t p c s --horizon", "no value is given: --horizon"),
            ("check --horizon t p c s", "--horizon wants a whole number, and this is none: t"),
            ("check --horizon= t p c s", "--horizon wants a whole number, and this is none: "),
            ("check --horizon 1 t p c", "wanted 4 files, given 3, missing: SOLUTION"),
            ("check --horizon 1 t p c s s2", "wanted 4 files, given 5, too many: s2"),
            ("check --horizon 1 --horizon=2 t p c s", "given twice: --horizon"),
            ("check --horizon -1 t p c s", "--horizon wants a whole number, and this is none: -1"),
            ("check --horizon +1 t p c s", "--horizon wants a whole number, and this is none: +1"),
            ("check --horizon=0100 t p c s", "--horizon wants a whole number, and this is none: 0100"),
            ("check --horizon 1e2 t p c s", "--horizon wants a whole number, and this is none: 1e2"),
            ("check --horizon 99999999999x t p c s", "--horizon wants a whole number, and this is none: 99999999999x"),
            ("check --horizon 1 --edition 01 t p c s", "--edition wants a whole number, and this is none: 01"),
            ("check --horizon 1 --edition one t p c s", "--edition wants a whole number, and this is none: one"),
            ("check --horizon 1 --edition 1 --edition 2 t p c s", "given twice: --edition"),
            ("check --edition 1 t p c s", "an option is missing: --horizon"),
            ("row --edition 1 --place 1 t", "no option of row: --edition"),
            ("check --horizon 1 --room legs= t p c s", "--room wants TABLE=N: legs="),
            ("check --horizon 1 --room=legs=01 t p c s", "--room wants TABLE=N: legs=01"),
            ("check --horizon 1 --room legs t p c s", "--room wants TABLE=N: legs"),
            ("check --horizon 1 --room leg=1 t p c s", "--room wants TABLE=N: leg=1"),
            ("check --horizon 1 --room legs=1 --room legs=2 t p c s", "a table's room is given twice: legs=2"),
            ("check --horizon 1 --curves o t p c s", "no option of check: --curves"),
            ("check --horizon 1 --verbose t p c s", "no such option: --verbose"),
            ("check --horizon 1 --verbose=1 t p c s", "no such option: --verbose=1"),
            ("check --horizon 1 --json=1 t p c s", "this option takes no value: --json=1"),
            ("check --horizon 1 -j t p c s", "no such option: -j"),
            ("check --horizon 1 - - c s", "standard input is read once, and not for PROFILES too: -"),
            ("check --horizon 1 t - c -- -", "standard input is read once, and not for SOLUTION too: -"),
            ("energy --horizon 1 t p c s --curves -", "--curves wants a file, and standard output has the result: -"),
            ("merge --horizon 1 t p c a b --earlier o", "an option is missing: --later"),
            ("merge --horizon 1 t p c a --earlier o --later q", "wanted 5 files, given 4, missing: SECOND"),
            ("duties", "wanted 1 file, given 0, missing: FILE"),
            ("duties d e", "wanted 1 file, given 2, too many: e"),
            ("duties --horizon 1 d", "no option of duties: --horizon"),
            ("row --file 1 t s", "an option is missing: --place"),
            ("row --file 01 --place 0 t s", "--file wants a whole number, and this is none: 01"),
            ("row --file 1 --place -1 t s", "--place wants a whole number, and this is none: -1"),
            ("row --place 1 t s", "wanted 1 file, given 2, too many: s"),
            ("row --file 2 --place 1 t", "wanted 2 files, given 1, missing: SOLUTION"),
            ("--version me", "a word too many: me"),
        ] {
            let said = call(words).expect_err(words);
            assert_eq!(said, CouldNotRun(format!("{why} (help: wagontulip --help)")), "{words}");
        }
    }
}
