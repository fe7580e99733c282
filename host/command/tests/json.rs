//! What the command prints with `--json`: every object keeps docs/schema/answer-3.json, and carries what the words carry.

mod common;

use common::json::Json;
use common::schema::Schema;
use common::{broken_duties, constraints, draft, duties, dwell, exported, solution, DUTIES_HEADER, HEADER, PROFILES};
use std::ffi::OsStr;
use std::fs;
use std::os::unix::ffi::OsStrExt;
use std::path::{Path, PathBuf};
use std::process::{Command, Output};

/// The command that these tests are of: over-stand-in runs them too.
const COMMAND: Option<&str> = match option_env!("CARGO_BIN_EXE_wagontulip") {
    Some(proved) => Some(proved),
    None => option_env!("CARGO_BIN_EXE_over-stand-in"),
};

/// The repository, which holds this package at one depth or another.
fn root() -> &'static Path {
    let package = Path::new(env!("CARGO_MANIFEST_DIR"));
    package.ancestors().find(|folder| folder.join("docs/schema").is_dir()).expect("the repository around this package")
}

fn schema() -> Schema {
    Schema::read(&fs::read_to_string(root().join("docs/schema/answer-3.json")).unwrap())
}

/// By their statuses.
const ANSWERS: [&str; 4] = ["accepted", "violated", "refused", "none"];
const REFUSED: i32 = 2;
const NONE: i32 = 3;

/// A folder of its own for each test.
struct Folder {
    path: PathBuf,
    schema: Schema,
}

impl Folder {
    fn empty(test: &str) -> Folder {
        let path = std::env::temp_dir().join(format!("wagontulip-json-{}-{test}", std::process::id()));
        let _ = fs::remove_dir_all(&path);
        fs::create_dir_all(&path).unwrap();
        Folder { path, schema: schema() }
    }

    /// With the example's files.
    fn new(test: &str) -> Folder {
        let folder = Folder::empty(test);
        folder.put(b"t", draft());
        folder.put(b"p", PROFILES);
        folder.put(b"c", dwell(20));
        folder.put(b"a", solution("15_4_7", "40_3_8"));
        folder.put(b"b", solution("10_4_7", "45_3_8"));
        folder
    }

    fn put(&self, name: &[u8], text: impl AsRef<[u8]>) {
        fs::write(self.path.join(OsStr::from_bytes(name)), text).unwrap();
    }

    /// WAGONTULIP_RUNNER runs a program of another machine.
    fn run(&self, words: &[u8]) -> Output {
        let command = COMMAND.expect("a command to call");
        let runner = std::env::var("WAGONTULIP_RUNNER").ok().filter(|_| cfg!(target_arch = "x86_64"));
        let start = runner.iter().flat_map(|runner| runner.split_whitespace()).chain([command]);
        let mut call = start.map(OsStr::new).chain(words.split(|byte| *byte == b' ').map(OsStr::from_bytes));
        Command::new(call.next().unwrap()).args(call).current_dir(&self.path).output().unwrap()
    }

    /// Status and object of a call: one line that keeps the schema, whose answer is the status's.
    fn judged(&self, words: &[u8]) -> (i32, Json) {
        let output = self.run(words);
        let shown = words.escape_ascii();
        let status = output.status.code().unwrap();
        assert_eq!(output.stderr.is_empty(), status != NONE, "{shown}: {output:?}");
        let printed = String::from_utf8(output.stdout).unwrap();
        assert!(printed.ends_with('\n') && printed.lines().count() == 1, "{shown}: {printed}");
        let object = Json::read(&printed);
        self.schema.judge(&object).unwrap_or_else(|why| panic!("{shown}: {why}\n{printed}"));
        let answer = object.at("answer").text();
        assert!(answer == ANSWERS[status as usize] || answer == "row" && status == 0, "{shown}: {printed}");
        (status, object)
    }

    fn object(&self, words: impl AsRef<[u8]>, status: i32) -> Json {
        let (given, object) = self.judged(words.as_ref());
        assert_eq!(given, status, "{}: {object:?}", words.as_ref().escape_ascii());
        object
    }
}

impl Drop for Folder {
    fn drop(&mut self) {
        let _ = fs::remove_dir_all(&self.path);
    }
}

/// The members of an object as the command spells them.
fn is(object: &Json, path: &str, wanted: &str) {
    assert_eq!(object.at(path), &Json::read(wanted), "{path} of {object:?}");
}

/// Command and answer of each row of the table in examples/README.md.
fn examples() -> Vec<(String, String)> {
    let page = fs::read_to_string(root().join("examples/README.md")).unwrap();
    let row = |line: &str| {
        let mut cells = line.split('|').skip(1);
        let words = cells.next()?.trim().strip_prefix("`../wagontulip ")?.strip_suffix('`')?.to_string();
        Some((words, cells.next()?.trim().to_string()))
    };
    page.lines().filter_map(row).collect()
}

#[test]
fn every_example_keeps_the_schema() {
    let folder = Folder::empty("examples");
    for entry in fs::read_dir(root().join("examples")).unwrap() {
        let path = entry.unwrap().path();
        fs::copy(&path, folder.path.join(path.file_name().unwrap())).unwrap();
    }
    let examples = examples();
    assert!(!examples.is_empty());
    for (words, answer) in examples {
        let status = ANSWERS.iter().position(|known| *known == answer).unwrap();
        folder.object(format!("{words} --json"), status as i32);
    }
}

/// Files that are cut short, and files with a byte that is none of theirs.
#[test]
fn damaged_files_keep_the_schema() {
    let folder = Folder::new("damaged");
    let mut met = Vec::new();
    for name in ["t", "p", "c", "a"] {
        let right = fs::read(folder.path.join(name)).unwrap();
        for part in 1..4 {
            let place = right.len() * part / 4;
            for wrong in [right[..place].to_vec(), [&right[..place], b"\xff", &right[place + 1..]].concat()] {
                folder.put(name.as_bytes(), wrong);
                met.push(folder.judged(b"check --json --horizon 100 t p c a").0);
            }
        }
        folder.put(name.as_bytes(), right);
    }
    assert_eq!(met, [REFUSED; 24]);
}

/// An object can fail: whatever is taken from it, put into it or changed in it breaks the schema.
#[test]
fn a_wrong_object_breaks_the_schema() {
    let folder = Folder::new("wrong");
    folder.put(b"22", dwell(22));
    folder.put(b"12", solution("10_4_7", "12_3_8").replace("45_3_8", "45_3_8 12_3_8"));
    folder.put(b"d", duties());
    for (rule, _, text) in broken_duties() {
        folder.put(format!("d{rule}").as_bytes(), text);
    }
    for (words, status) in [
        ("check --json --horizon 100 t p c a", 0),
        ("energy --json --horizon 900 t p c a", 0),
        ("check --json --horizon 100 t p 22 a", 1),
        ("check --json --horizon 100 t p c 12", 1),
        ("merge --json --horizon 100 t p c a b --earlier x --later y", 0),
        ("check --json --horizon 100 t p 22 22", 2),
        ("check --json --horizon 100 t p", 3),
        ("duties --json d", 0),
        ("duties --json d5", 1),
        ("duties --json d6", 1),
        ("duties --json t", 2),
        ("duties --json d --room nodes=1", 2),
        ("duties --json", 3),
        ("row --json --file 1 --place 114 t a", 0),
        ("row --json --place 1 p", 0),
    ] {
        let right = folder.object(words, status);
        let wrong = damaged(&right);
        assert!(wrong.len() > 20, "{words}");
        for (how, object) in wrong {
            assert!(folder.schema.judge(&object).is_err(), "{words}, {how}: {object:?}");
        }
    }
}

/// The object, and each object in it, without one member, with one more, and with one of another type.
fn damaged(right: &Json) -> Vec<(String, Json)> {
    let members = match right {
        Json::Object(members) => members,
        _ => return Vec::new(),
    };
    let mut wrong = vec![(String::from("one more"), Json::Object([&members[..], &[(String::from("more"), Json::Null)]].concat()))];
    for (place, (key, value)) in members.iter().enumerate() {
        let with = |value: Option<Json>| {
            let (before, after) = (&members[..place], &members[place + 1..]);
            let changed: Vec<(String, Json)> = value.map(|value| (key.clone(), value)).into_iter().collect();
            Json::Object([before, &changed[..], after].concat())
        };
        wrong.push((format!("no {key}"), with(None)));
        wrong.push((format!("{key} is a list in a list"), with(Some(Json::List(vec![Json::List(vec![])])))));
        wrong.extend(damaged(value).into_iter().map(|(how, value)| (format!("{key}: {how}"), with(Some(value)))));
    }
    wrong
}

#[test]
fn an_acceptance_says_how_much_was_tested() {
    let folder = Folder::new("counts");
    let object = folder.object("check --json --horizon 100 t p c a", 0);
    is(&object, "command", r#""check""#);
    is(&object, "horizon", "100");
    is(&object, "edition", "2");
    is(&object, "read", r#"{"legs": 2, "configurations": 4, "profiles": 2, "samples": 7, "constraints": 1, "tracks": 2}"#);
    is(&object, "tested", "3");
    is(&object, "tally", "[2, 0, 0, 1, 0, 0]");
    is(&object, "nothing_tested", "false");
    folder.put(b"c", constraints("", ""));
    let object = folder.object("energy --json --horizon 100 t p c a", 0);
    is(&object, "tally", "[2, 0, 0, 0, 0, 0]");
    is(&object, "nothing_tested", "false");
    folder.put(b"t", HEADER);
    let object = folder.object("check --json --horizon 100 t p c t", 0);
    is(&object, "read", r#"{"legs": 0, "configurations": 0, "profiles": 2, "samples": 7, "constraints": 0, "tracks": 2}"#);
    is(&object, "tested", "0");
    is(&object, "tally", "[0, 0, 0, 0, 0, 0]");
    is(&object, "nothing_tested", "true");
}

/// Up to and with the first that fails, of the solution that fails; a refusal has 0, and a merge that is written, which is no verdict, has no count.
#[test]
fn every_verdict_has_its_tests() {
    let folder = Folder::new("tests");
    folder.put(b"22", dwell(22));
    folder.put(b"12", solution("12_4_7", "40_3_8").replace("15_4_7", "12_4_7"));
    for (words, status, tested, tally) in [
        ("check --json --horizon 100 t p 22 a", 1, "3", "[2, 0, 0, 1, 0, 0]"),
        ("energy --json --horizon 100 t p c 12", 1, "1", "[1, 0, 0, 0, 0, 0]"),
        ("merge --json --horizon 100 t p 22 t a --earlier x --later y", 1, "3", "[2, 0, 0, 1, 0, 0]"),
        ("merge --json --horizon 100 t p c t a --earlier x --later y", 0, "null", "null"),
        ("merge --json --horizon 100 t p c t p --earlier x --later y", 2, "0", "[0, 0, 0, 0, 0, 0]"),
        ("energy --json --horizon 100 t p c t --room curves=99", 2, "0", "[0, 0, 0, 0, 0, 0]"),
    ] {
        let object = folder.object(words, status);
        is(&object, "tested", tested);
        is(&object, "tally", tally);
        is(&object, "nothing_tested", if status == 1 { "false" } else { "null" });
    }
}

/// `--version` says the same of the program.
#[test]
fn an_object_names_the_program() {
    let folder = Folder::new("build");
    let version = String::from_utf8(folder.run(b"--version").stdout).unwrap();
    for object in [folder.object("check --json --horizon 100 t p c a", 0), folder.object("check --json t", 3)] {
        assert!(version.contains(object.at("version").text()), "{version}");
        let build = object.at("build");
        assert!(version.starts_with(&format!("wagontulip {} ({})\n", build.at("version").text(), build.at("library").text())), "{version}");
        for (key, line) in
            [("tree", "tree"), ("toolchain", "toolchain"), ("archive_sha256", "archive SHA-256"), ("program_sha256", "program SHA-256")]
        {
            assert!(version.contains(&format!("\n{line}: {}\n", build.at(key).text())), "{version}");
        }
    }
}

#[test]
fn a_violation_has_both_legs() {
    let folder = Folder::new("violation");
    folder.put(b"c", dwell(22));
    let object = folder.object("check --json --horizon 100 t p c a", 1);
    let violation = r#"{"kind": 3, "position": 0, "inequality": 1, "shortfall": 1, "file": {"number": 4, "role": "solution", "name": "a"},
        "legs": [
            {"leg": 1, "train": 1, "track": 1, "start_station": 1, "end_station": 2,
                "departure": {"seconds": 15, "clock": "00:00:15"}, "arrival": {"seconds": 19, "clock": "00:00:19"}},
            {"leg": 2, "train": 1, "track": 2, "start_station": 2, "end_station": 3,
                "departure": {"seconds": 40, "clock": "00:00:40"}, "arrival": {"seconds": 43, "clock": "00:00:43"}}],
        "kind_name": "dwell time", "list": "dwell_time_constraints", "formula": "d1+t1+w <= d2",
        "asked": {"seconds": 22, "words": "22 s or more from arrival to departure"},
        "needed": {"leg": 2, "does": "departs", "at": {"seconds": 41, "clock": "00:00:41"}, "or": "later"}}"#;
    is(&object, "violation", violation);
    is(&object, "nothing_tested", "false");
}

/// List, record, and what the object says: formula, the seconds that are asked for, and what is needed when.
#[test]
fn every_inequality_is_an_object() {
    let folder = Folder::new("inequalities");
    let legs = r#""first_leg_id": 1, "second_leg_id": 2"#;
    let backwards = r#""first_leg_id": 2, "second_leg_id": 1"#;
    let connection = |low: u32, high: u32, by: &str| {
        format!(r#"{{{legs}, "min_connection_time": {low}, "max_connection_time": {high}, "connection_type": "{by}_to_departure"}}"#)
    };
    let cases = [
        ("headway_time_constraints", format!(r#"{{{legs}, "min_headway_time": 26}}"#), "d1+h <= d2", "26", "departs 41 later"),
        ("headway_time_constraints", format!(r#"{{{legs}, "min_headway_time": 25}}"#), "d1+t1+h <= d2+t2", "25", "arrives 44 later"),
        ("single_track_headway_constraints", format!("{{{backwards}}}"), "d1+t1 <= d2", "null", "departs 43 later"),
        ("terminal_turnaround_constraints", format!(r#"{{{legs}, "min_turnaround_time": 22}}"#), "d1+t1+w <= d2", "22", "departs 41 later"),
        ("connection_constraints", connection(22, 30, "arrival"), "x+a <= d2", "22", "departs 41 later"),
        ("connection_constraints", connection(0, 20, "arrival"), "d2 <= x+b", "20", "departs 39 earlier"),
        ("connection_constraints", connection(0, 24, "departure"), "d2 <= x+b", "24", "departs 39 earlier"),
    ];
    for (list, record, formula, seconds, needed) in cases {
        folder.put(b"c", constraints(list, &record));
        let object = folder.object("check --json --horizon 100 t p c a", 1);
        let violation = object.at("violation");
        assert_eq!((violation.at("list").text(), violation.at("formula").text()), (list, formula));
        is(violation, "asked.seconds", seconds);
        let words: Vec<&str> = needed.split(' ').collect();
        assert_eq!((violation.at("needed.does").text(), violation.at("needed.or").text()), (words[0], words[2]), "{record}");
        is(violation, "needed.at.seconds", words[1]);
    }
}

#[test]
fn a_choice_that_is_not_offered_has_what_is() {
    let folder = Folder::new("offered");
    folder.put(b"b", solution("10_4_7", "12_3_8").replace("45_3_8", "45_3_8 12_3_8"));
    let object = folder.object("merge --json --horizon 100 t p c a b --earlier x --later y", 1);
    let violation = r#"{"kind": 0, "position": 1, "inequality": 0, "shortfall": 0, "file": {"number": 5, "role": "second solution", "name": "b"},
        "legs": [{"leg": 2, "train": 1, "track": 2, "start_station": 2, "end_station": 3,
            "departure": {"seconds": 12, "clock": "00:00:12"}, "arrival": {"seconds": 15, "clock": "00:00:15"}}],
        "kind_name": "choice not offered", "chosen": "12_3_8", "offered": ["40_3_8", "45_3_8"]}"#;
    is(&object, "violation", violation);
    is(&object, "outputs", "[]");
}

#[test]
fn a_refusal_has_its_place_and_what_is_there() {
    let folder = Folder::new("refusal");
    let check = "check --json --horizon 100 t p c a";
    folder.put(b"a", draft().replace("40_3_8 45_3_8", "40_3_8  45_3_8"));
    let object = folder.object(check, 2);
    let file = r#"{"number": 4, "role": "solution", "name": "a"}"#;
    let refusal = format!(
        r#"{{"number": 4, "file": {file}, "place": 145, "line": 3, "meaning": "CSV row breaks its form", "row": "2,1,2,2,3,40_3_8,40_3_8  45_3_8", "length": 31}}"#
    );
    is(&object, "refusal", &refusal);
    is(&object, "read", "null");
    is(&object, "nothing_tested", "null");
    folder.put(b"a", format!("{HEADER}{}\n", "x".repeat(1_000)));
    let object = folder.object(check, 2);
    is(&object, "refusal.length", "1000");
    assert_eq!(object.at("refusal.row").text(), "x".repeat(160));
    folder.put(b"a", "leg_id\n");
    let object = folder.object(check, 2);
    let refusal = format!(
        r#"{{"number": 3, "file": {file}, "place": 0, "line": 1, "column": 1, "meaning": "header differs", "text": "leg_id", "text_from": 1, "length": 6}}"#
    );
    is(&object, "refusal", &refusal);
}

/// Places count every byte, quotes and CRs too; the row's text has its quotes, and a CR only where it is no part of the line's end.
#[test]
fn quotes_and_returns_are_in_the_text() {
    let folder = Folder::new("quotes");
    folder.put(b"t", exported(&draft()));
    folder.put(b"a", exported(&draft()).replace("\"40_3_8\"", "\"40_3_8"));
    let check = "check --json --horizon 100 t p c a";
    let object = folder.object(check, 2);
    is(&object, "refusal.number", "4");
    is(&object, "refusal.place", "175");
    is(&object, "refusal.line", "3");
    is(&object, "refusal.row", r#""\"2\",\"1\",\"2\",\"2\",\"3\",\"40_3_8,\"40_3_8 45_3_8\"""#);
    is(&object, "refusal.length", "43");
    folder.put(b"a", format!("{HEADER}\"1\"\r\r\n"));
    let object = folder.object(check, 2);
    is(&object, "refusal.row", r#""\"1\"\u000d""#);
    is(&object, "refusal.length", "4");
    let object = folder.object("row --json --place 175 t", 0);
    is(&object, "row", r#""\"2\",\"1\",\"2\",\"2\",\"3\",\"40_3_8\",\"40_3_8 45_3_8\"""#);
    is(&object, "length", "44");
    folder.put(b"a", exported(&draft()).replace("\"leg_id\"", "\"leg_id"));
    let object = folder.object(check, 2);
    is(&object, "refusal.number", "3");
    assert!(object.at("refusal.text").text().ends_with("\"departure_configurations\""));
}

#[test]
fn a_refusal_of_the_constraints_has_a_column() {
    let folder = Folder::new("column");
    let check = "check --json --horizon 100 t p c a";
    let record = dwell(20).replace("min_dwell_time", "max_dwell_time");
    folder.put(b"c", &record);
    let object = folder.object(check, 2);
    is(&object, "refusal.file", r#"{"number": 3, "role": "constraints", "name": "c"}"#);
    is(&object, "refusal.line", "3");
    let text = object.at("refusal.text").text().to_string();
    is(&object, "refusal.column", &(text.find("\"max_dwell_time\"").unwrap() + 1).to_string());
    folder.put(b"c", "{");
    let object = folder.object(check, 2);
    is(&object, "refusal.place", "1");
    is(&object, "refusal.end_of_text", "true");
    let object = folder.object("check --json --horizon 0 t p c a", 2);
    is(&object, "refusal", r#"{"number": 1, "file": {"number": 0}, "place": 0, "meaning": "H out of range"}"#);
    let object = folder.object("check --json --horizon 100 --edition 3 t p c a", 2);
    is(&object, "refusal", r#"{"number": 21, "file": {"number": 0}, "place": 0, "meaning": "an edition that is not known"}"#);
    folder.put(b"c", dwell(20));
    let object = folder.object("energy --json --horizon 100 t p c a --room curves=99", 2);
    is(&object, "refusal", r#"{"number": 16, "file": {"number": 0}, "place": 0, "meaning": "lent room too short"}"#);
}

/// Bytes that are no UTF-8, and the text that looks like them, are kept apart: in names, rows and lines.
#[test]
fn bytes_that_are_no_text_are_kept_apart() {
    let folder = Folder::new("bytes");
    for (name, key, other) in [(&b"x\xff"[..], "name_bytes", "name"), ("x\u{ff}".as_bytes(), "name", "name_bytes")] {
        folder.put(name, [HEADER.as_bytes(), name, b"\n"].concat());
        let object = folder.object([b"check --json --horizon 100 t p c ", name].concat(), 2);
        for named in ["inputs.3", "refusal.file"] {
            is(object.at(named), key, r#""x\u00ff""#);
            assert_eq!(object.at(named).member(other), None);
        }
        let (row, length) = (key.replace("name", "row"), name.len().to_string());
        is(object.at("refusal"), &row, r#""x\u00ff""#);
        is(&object, "refusal.length", &length);
        let place = HEADER.len();
        let object = folder.object([format!("row --json --file 4 --place {place} t ").as_bytes(), name].concat(), 0);
        is(&object, &row, r#""x\u00ff""#);
        is(&object, "length", &length);
        let object = folder.object([b"check --json --horizon 100 t p ", name, b" a"].concat(), 2);
        is(&object, "refusal.column", "1");
        folder.put(b"c", [b"{", name].concat());
        let object = folder.object("check --json --horizon 100 t p c a", 2);
        is(object.at("refusal"), &key.replace("name", "text"), r#""{x\u00ff""#);
        folder.put(b"c", dwell(20));
        let object = folder.object([b"energy --json --horizon 100 t p c a --curves o", name].concat(), 0);
        is(object.at("outputs.0"), key, r#""ox\u00ff""#);
    }
}

#[test]
fn what_is_stated_is_told_as_it_was_given() {
    let folder = Folder::new("horizon");
    for (given, shown) in [
        ("176401", "176401"),
        ("4294967295", "4294967295"),
        ("4294967296", r#""4294967296""#),
        ("99999999999999999999999999", r#""99999999999999999999999999""#),
    ] {
        let object = folder.object(format!("check --json --horizon {given} t p c a"), 2);
        is(&object, "horizon", shown);
        is(&object, "refusal.number", "1");
        let object = folder.object(format!("check --json --horizon 100 --edition {given} t p c a"), 2);
        is(&object, "edition", shown);
        is(&object, "refusal.number", "21");
    }
}

/// Whatever is answered, the edition stands in the object, also where none was given.
#[test]
fn an_edition_is_always_told() {
    let folder = Folder::new("edition");
    for (edition, words) in [("1", " --edition 1"), ("2", " --edition=2"), ("2", "")] {
        let calls = [
            ("check --json --horizon 100 t p c a", 0),
            ("energy --json --horizon 100 t p c a", 0),
            ("merge --json --horizon 100 t p c a b --earlier x --later y", 0),
            ("check --json --horizon 100 t p t a", 2),
        ];
        for (call, status) in calls {
            is(&folder.object(format!("{call}{words}"), status), "edition", edition);
        }
    }
    assert_eq!(folder.object("row --json --place 50 p", 0).member("edition"), None);
}

#[test]
fn energies_have_their_units_and_times() {
    let folder = Folder::new("energies");
    let object = folder.object("energy --json --horizon 900 t p c t --curves out", 0);
    let quarter = r#"{"number": 0, "from": "00:00:00", "to": "00:15:00"}"#;
    for (key, value) in [
        ("before_kj", "2050"),
        ("drawn_kj", "2050"),
        ("lost_kj", "600"),
        ("fluctuation_kw", "1400"),
        ("peak_before_kj", "2050"),
        ("peak_drawn_kj", "2050"),
        ("peak_before_quarter", quarter),
        ("peak_drawn_quarter", quarter),
    ] {
        is(object.at("energies"), key, value);
    }
    let shown =
        r#"{"before_mwh": "0.000", "drawn_mwh": "0.000", "lost_mwh": "0.000", "peak_before_mw": "0.002", "peak_drawn_mw": "0.002"}"#;
    is(&object, "energies.shown", shown);
    is(&object, "outputs.0.role", r#""curves""#);
    let object = folder.object("energy --json --horizon 100 t p c t", 0);
    is(&object, "energies.peak_drawn_quarter", r#"{"number": 0, "from": "00:00:00", "to": "00:01:40"}"#);
    is(&object, "energies.shown.peak_drawn_mw", r#""0.002""#);
}

#[test]
fn a_merge_names_what_it_wrote() {
    let folder = Folder::new("merge");
    let object = folder.object("merge --json --horizon 100 t p c a b --earlier x --later y", 0);
    is(&object, "command", r#""merge""#);
    let roles: Vec<&str> = (0..5).map(|place| object.at(&format!("inputs.{place}.role")).text()).collect();
    assert_eq!(roles, ["timetable", "profiles", "constraints", "first solution", "second solution"]);
    is(&object, "outputs.0.role", r#""merged, earlier""#);
    is(&object, "outputs.1.name", r#""y""#);
    assert_eq!(object.at("outputs.0.sha256"), object.at("inputs.0.sha256"));
}

#[test]
fn a_row_is_an_object() {
    let folder = Folder::new("row");
    let object = folder.object("row --json --file 4 --place 145 t b", 0);
    is(&object, "file", r#"{"number": 4, "role": "solution", "name": "b"}"#);
    is(&object, "row", r#""2,1,2,2,3,45_3_8,40_3_8 45_3_8""#);
    is(&object, "length", "30");
    let object = folder.object("row --json --file 1 --place 144 t b", 0);
    is(&object, "row", "null");
    assert_eq!(object.member("length"), None);
    is(&folder.object("row --json --file 9 --place 144 t b", 0), "file", r#"{"number": 9}"#);
    let object = folder.object("row --json --file 260 --place 4294967441 t b", 0);
    is(&object, "file", r#"{"number": 260}"#);
    is(&object, "place", r#""4294967441""#);
    let object = folder.object("row --json --place 50 p", 0);
    is(&object, "file", r#"{"number": null, "role": "CSV file", "name": "p"}"#);
    is(&object, "row", r#""8,0.3 0.0 -0.2""#);
}

/// Status 3 is an object where one is asked for, also by words that ask for nothing that can be done.
#[test]
fn no_answer_is_an_object() {
    let folder = Folder::new("none");
    let merge = "merge --json --horizon 100 t p c a b --earlier t --later x";
    for (words, command, reason) in [
        ("check --json --horizon 100 t p c missing", r#""check""#, "solution missing: "),
        ("energy --json t p c a", r#""energy""#, "an option is missing: --horizon"),
        (merge, r#""merge""#, "output t: is an input"),
        ("row --json --file 01 --place 0 t a", r#""row""#, "--file wants a whole number, and this is none: 01"),
        ("judge --json", "null", "no such command"),
        ("--json", "null", "no such command"),
    ] {
        let object = folder.object(words, 3);
        is(&object, "command", command);
        let said = object.at("reason").text();
        assert!(said.starts_with(reason) && !said.contains('\n'), "{words}: {said}");
    }
    assert!(folder.run(b"check --horizon 100 t p c -- --json").stdout.is_empty());
}

#[test]
fn duties_carry_what_the_words_carry() {
    let folder = Folder::new("duties");
    folder.put(b"d", duties());
    let object = folder.object("duties --json d", 0);
    is(&object, "read", r#"{"rows": 4, "nodes": 2}"#);
    is(&object, "nothing_tested", "false");
    is(&object, "balance", r#"[{"node": "A", "ending_less_starting": -1}, {"node": "B", "ending_less_starting": 1}]"#);
    is(&object, "balance_over_all", "0");
    folder.put(b"d", DUTIES_HEADER);
    let object = folder.object("duties --json d", 0);
    is(&object, "read", r#"{"rows": 0, "nodes": 0}"#);
    is(&object, "nothing_tested", "true");
    for (rule, row, text) in broken_duties() {
        folder.put(b"d", &text);
        let object = folder.object("duties --json d", 1);
        let lines: Vec<&str> = text.lines().collect();
        is(&object, "broken.rule", &rule.to_string());
        is(&object, "broken.position", &row.to_string());
        is(&object, "broken.line", &(row + 2).to_string());
        is(&object, "broken.file", r#"{"number": 6, "role": "duties", "name": "d"}"#);
        assert_eq!(object.at("broken.row").text(), lines[row + 1]);
        if row == 0 {
            is(&object, "broken.row_before", "null");
        } else {
            is(&object, "broken.row_before.line", &(row + 1).to_string());
            assert_eq!(object.at("broken.row_before.row").text(), lines[row]);
        }
    }
}

/// Files that are cut short, and files with a byte that is none of theirs, are answered by an object that keeps the schema.
#[test]
fn damaged_duties_keep_the_schema() {
    let folder = Folder::new("damaged-duties");
    let right = duties().into_bytes();
    let mut met = [0; 4];
    let starts = (1..right.len()).filter(|place| right[place - 1] == b'\n');
    for place in (0..right.len()).step_by(11).chain(starts) {
        for wrong in [right[..place].to_vec(), [&right[..place], b"\xff", &right[place + 1..]].concat()] {
            folder.put(b"d", wrong);
            met[folder.judged(b"duties --json d").0 as usize] += 1;
        }
    }
    assert!(met[0] > 0 && met[1] > 0 && met[2] > 0 && met[3] == 0, "{met:?}");
}
