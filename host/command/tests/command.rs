//! The command as a user calls it: words, statuses, files.

mod common;

#[path = "command/calls.rs"]
mod calls;
#[path = "command/duties.rs"]
mod duty_files;
#[path = "command/outputs.rs"]
mod outputs;

use common::{constraints, draft, dwell, exported, solution, turnaround, HEADER, PROFILES};
use std::fs;
use std::io::Write;
use std::path::PathBuf;
use std::process::{Command, Output, Stdio};
use wagontulip::{Rooms, Table};

const LABEL: &str = "no violation shown is not no violation\n";

/// The command that these tests are of, and what its version says it has: over-stand-in runs them too.
const COMMAND: Option<&str> = match option_env!("CARGO_BIN_EXE_wagontulip") {
    Some(proved) => Some(proved),
    None => option_env!("CARGO_BIN_EXE_over-stand-in"),
};
const LINKED: &str = if option_env!("CARGO_BIN_EXE_wagontulip").is_some() { "proved library" } else { "stand-in, not proved" };

/// Of the example's files.
const ACCEPTED: &str = "accepted: every choice is offered in the draft, and every inequality holds
read: legs 2, configurations 4, profiles 2, samples 7, constraints 1, tracks in subnets 2
";
const TESTED: &str = "tested: 3 (2 choices, 1 dwell time)\n";

/// A folder of its own for each test, with the example's files.
struct Folder(PathBuf);

impl Folder {
    fn new(test: &str) -> Folder {
        let path = std::env::temp_dir().join(format!("wagontulip-{}-{test}", std::process::id()));
        let _ = fs::remove_dir_all(&path);
        fs::create_dir_all(&path).unwrap();
        let folder = Folder(path);
        folder.put("t", &draft());
        folder.put("p", PROFILES);
        folder.put("c", &dwell(20));
        folder.put("a", &solution("15_4_7", "40_3_8"));
        folder.put("b", &solution("10_4_7", "45_3_8"));
        folder
    }

    fn put(&self, name: &str, text: &str) {
        fs::write(self.0.join(name), text).unwrap();
    }

    fn get(&self, name: &str) -> Option<String> {
        fs::read_to_string(self.0.join(name)).ok()
    }

    fn run(&self, words: &str) -> Output {
        self.call(words).output().unwrap()
    }

    /// The command in the folder; WAGONTULIP_RUNNER runs a program of another machine.
    fn call(&self, words: &str) -> Command {
        let command = COMMAND.expect("a command to call");
        let mut call = match std::env::var("WAGONTULIP_RUNNER") {
            Ok(runner) if cfg!(target_arch = "x86_64") => {
                let mut words = runner.split_whitespace();
                let mut call = Command::new(words.next().unwrap());
                call.args(words).arg(command);
                call
            }
            _ => Command::new(command),
        };
        call.args(words.split_whitespace()).current_dir(&self.0);
        call
    }

    /// What is printed, when the status is this one.
    fn told(&self, words: &str, status: i32) -> String {
        let output = self.run(words);
        assert_eq!(output.status.code(), Some(status), "{words}: {output:?}");
        String::from_utf8(output.stdout).unwrap()
    }

    /// Could not run: no verdict, no label, and the reason on the other stream.
    fn not_run(&self, words: &str, why: &str) {
        let output = self.run(words);
        assert_eq!(output.status.code(), Some(3), "{words}: {output:?}");
        assert!(output.stdout.is_empty(), "{words}: {output:?}");
        let said = String::from_utf8(output.stderr).unwrap();
        assert!(said.contains(why), "{words}: {said}");
    }

    fn names(&self) -> Vec<String> {
        let mut names: Vec<String> =
            fs::read_dir(&self.0).unwrap().map(|entry| entry.unwrap().file_name().into_string().unwrap()).collect();
        names.sort();
        names
    }
}

impl Drop for Folder {
    fn drop(&mut self) {
        let _ = fs::remove_dir_all(&self.0);
    }
}

/// A user's command has the proved library and nothing else.
#[test]
fn the_version_says_what_is_linked() {
    let folder = Folder::new("version");
    let version = format!("{} ({LINKED})", env!("CARGO_PKG_VERSION"));
    assert!(folder.told("--version", 0).starts_with(&format!("wagontulip {version}\ncommit: ")));
    let object = folder.told("check --json --horizon 100 t p c a", 0);
    assert!(object.contains(&format!(r#""version": "{version}""#)), "{object}");
}

#[test]
fn accepted() {
    let folder = Folder::new("accepted");
    assert_eq!(folder.told("check --horizon 100 t p c a", 0), format!("{LABEL}{ACCEPTED}{TESTED}answer: accepted\n"));
}

/// An acceptance of nothing does not look like one of something.
#[test]
fn nothing_is_said_to_be_nothing() {
    let folder = Folder::new("nothing");
    folder.put("t", HEADER);
    folder.put("c", &constraints("", ""));
    let words = "accepted: every choice is offered in the draft, and every inequality holds
read: legs none, configurations none, profiles 2, samples 7, constraints none, tracks in subnets 2
there are no legs: no choice was looked at
there are no constraints: no inequality was looked at
tested: nothing
answer: accepted
";
    assert_eq!(folder.told("check --horizon 100 t p c t", 0), format!("{LABEL}{words}"));
}

#[test]
fn a_violation_in_words() {
    let folder = Folder::new("violation");
    folder.put("c", &dwell(22));
    let words = "violated: dwell time (kind 3), position 0 of dwell_time_constraints, inequality 1: d1+t1+w <= d2
file: solution (a)
leg 1 (train 1, station 1 to station 2, track 1) departs at 15 s (00:00:15) and arrives at 19 s (00:00:19)
leg 2 (train 1, station 2 to station 3, track 2) departs at 40 s (00:00:40) and arrives at 43 s (00:00:43)
asked: 22 s or more from arrival to departure
needed: leg 2 departs at 41 s (00:00:41) or later; it falls short by 1 s
tested: 3 (2 choices, 1 dwell time)
answer: violated
";
    assert_eq!(folder.told("check --horizon 100 t p c a", 1), format!("{LABEL}{words}"));
    let object = folder.told("check --json --horizon 100 t p c a", 1);
    let start = r#"{"label": "no violation shown is not no violation", "schema": 3, "command": "check", "answer": "violated", "horizon": 100, "edition": 2, "#;
    assert!(object.starts_with(start), "{object}");
}

/// Each kind and inequality, with what was needed.
#[test]
fn every_inequality_in_words() {
    let folder = Folder::new("inequalities");
    let legs = r#""first_leg_id": 1, "second_leg_id": 2"#;
    let backwards = r#""first_leg_id": 2, "second_leg_id": 1"#;
    let connection = |low: u32, high: u32, by: &str| {
        format!(r#"{{{legs}, "min_connection_time": {low}, "max_connection_time": {high}, "connection_type": "{by}_to_departure"}}"#)
    };
    let cases = [
        (
            "headway_time_constraints",
            format!(r#"{{{legs}, "min_headway_time": 26}}"#),
            "inequality 1: d1+h <= d2",
            "26 s or more from departure to departure",
            "leg 2 departs at 41 s (00:00:41) or later; it falls short by 1 s",
            "1 headway time",
        ),
        (
            "headway_time_constraints",
            format!(r#"{{{legs}, "min_headway_time": 25}}"#),
            "inequality 2: d1+t1+h <= d2+t2",
            "25 s or more from arrival to arrival",
            "leg 2 arrives at 44 s (00:00:44) or later; it falls short by 1 s",
            "2 headway times",
        ),
        (
            "single_track_headway_constraints",
            format!("{{{backwards}}}"),
            "inequality 1: d1+t1 <= d2",
            "the first leg arrives before the second departs, or with it",
            "leg 1 departs at 43 s (00:00:43) or later; it falls short by 28 s",
            "1 single-track headway",
        ),
        (
            "terminal_turnaround_constraints",
            format!(r#"{{{legs}, "min_turnaround_time": 22}}"#),
            "inequality 1: d1+t1+w <= d2",
            "22 s or more from arrival to departure",
            "leg 2 departs at 41 s (00:00:41) or later; it falls short by 1 s",
            "1 terminal turnaround",
        ),
        (
            "connection_constraints",
            connection(22, 30, "arrival"),
            "inequality 1: x+a <= d2",
            "22 s or more from arrival to departure",
            "leg 2 departs at 41 s (00:00:41) or later; it falls short by 1 s",
            "1 connection",
        ),
        (
            "connection_constraints",
            connection(0, 20, "arrival"),
            "inequality 2: d2 <= x+b",
            "20 s or less from arrival to departure",
            "leg 2 departs at 39 s (00:00:39) or earlier; it falls short by 1 s",
            "2 connections",
        ),
        (
            "connection_constraints",
            connection(28, 30, "departure"),
            "inequality 1: x+a <= d2",
            "28 s or more from departure to departure",
            "leg 2 departs at 43 s (00:00:43) or later; it falls short by 3 s",
            "1 connection",
        ),
        (
            "connection_constraints",
            connection(0, 24, "departure"),
            "inequality 2: d2 <= x+b",
            "24 s or less from departure to departure",
            "leg 2 departs at 39 s (00:00:39) or earlier; it falls short by 1 s",
            "2 connections",
        ),
    ];
    for (list, record, inequality, asked, needed, tested) in cases {
        folder.put("c", &constraints(list, &record));
        let said = folder.told("check --horizon 100 t p c a", 1);
        assert!(said.contains(&format!(", position 0 of {list}, {inequality}\n")), "{list} {record}: {said}");
        let tested = format!("tested: {} (2 choices, {tested})\n", if tested.starts_with('2') { 4 } else { 3 });
        assert!(said.ends_with(&format!("\nasked: {asked}\nneeded: {needed}\n{tested}answer: violated\n")), "{list} {record}: {said}");
    }
}

#[test]
fn a_choice_that_is_not_offered() {
    let folder = Folder::new("offered");
    folder.put("a", &solution("10_4_7", "12_3_8").replace("45_3_8", "45_3_8 12_3_8"));
    let words = "violated: choice not offered (kind 0), position 1, inequality 0
file: solution (a)
leg 2 (train 1, station 2 to station 3, track 2) departs at 12 s (00:00:12) and arrives at 15 s (00:00:15)
chosen: 12_3_8
needed: a configuration that the draft lists for this leg: 40_3_8 45_3_8
tested: 2 (2 choices)
answer: violated
";
    assert_eq!(folder.told("check --horizon 100 t p c a", 1), format!("{LABEL}{words}"));
}

#[test]
fn a_refusal_shows_its_line() {
    let folder = Folder::new("refusal");
    folder.put("t", &draft().replace("40_3_8 45_3_8", "40_3_8  45_3_8"));
    let words = "refused 4: CSV row breaks its form
file: timetable (t), place: 145, line: 3
row: 2,1,2,2,3,40_3_8,40_3_8  45_3_8
answer: refused
";
    assert_eq!(folder.told("check --horizon 100 t p c a", 2), format!("{LABEL}{words}"));
    folder.put("t", &draft());
    folder.put("c", &dwell(20).replace("min_dwell_time", "max_dwell_time"));
    let said = folder.told("check --horizon 100 t p c a", 2);
    assert!(said.contains("\nrefused 10: unknown list, key or connection type\nfile: constraints (c), place: "), "{said}");
    let lines: Vec<&str> = said.lines().collect();
    assert!(lines[3][lines[4].find('^').unwrap()..].starts_with("\"max_dwell_time\""), "{said}");
    folder.put("c", "{");
    let said = folder.told("check --horizon 100 t p c a", 2);
    assert!(said.contains("\nfile: constraints (c), place: 1, the end of the text\n"), "{said}");
    let said = folder.told("check --horizon 0 t p c a", 2);
    assert_eq!(said, format!("{LABEL}refused 1: H out of range\nfile: no file, place: 0\nanswer: refused\n"));
    let object = folder.told("check --horizon 0 t p c a --json", 2);
    assert!(object.contains(r#""refusal": {"number": 1, "file": {"number": 0}, "place": 0, "#), "{object}");
}

#[test]
fn the_evidence_names_every_input() {
    let folder = Folder::new("evidence");
    folder.put("a", "abc");
    let object = folder.told("check --horizon 100 t p c a --json", 2);
    let input =
        r#"{"role": "solution", "name": "a", "bytes": 3, "sha256": "ba7816bf8f01cfea414140de5dae2223b00361a396177a9cb410ff61f20015ad"}"#;
    assert!(object.contains(input), "{object}");
    assert_eq!(object.matches("\"sha256\"").count(), 4);
    assert!(object.contains(r#""version": "0."#), "{object}");
    assert_eq!(object.lines().count(), 1);
}

#[test]
fn energies_and_curves() {
    let folder = Folder::new("energies");
    let said = folder.told("energy --horizon 100 t p c t --curves out", 0);
    let figures = "before recuperation: 2050 kJ, 0.000 MWh
drawn: 2050 kJ, 0.000 MWh
lost: 600 kJ, 0.000 MWh
fluctuation: 1400 kW
peak quarter before recuperation: 2050 kJ, 0.002 MW, 00:00:00 to 00:01:40
peak quarter drawn: 2050 kJ, 0.002 MW, 00:00:00 to 00:01:40
curves: out, bytes 215
tested: 3 (2 choices, 1 dwell time)
answer: accepted
";
    assert_eq!(said, format!("{LABEL}{ACCEPTED}{figures}"));
    let said = folder.told("energy --horizon 900 t p c t", 0);
    assert!(said.contains("\npeak quarter before recuperation: 2050 kJ, 0.002 MW, 00:00:00 to 00:15:00\n"), "{said}");
    let curves = folder.get("out").unwrap();
    let lines: Vec<&str> = curves.lines().collect();
    assert_eq!((lines.len(), &lines[9..15]), (100, &["0", "500", "1000", "250", "-400", "0"][..]));
    folder.put("c", &dwell(20).replace("[1, 2]}]", "[1]}, {\"subnet_id\": 2, \"track_ids\": [2]}]"));
    let object = folder.told("energy --horizon 100 t p c t --curves out --json", 0);
    assert!(
        object.contains(
            r#""before_kj": 2050, "drawn_kj": 2050, "lost_kj": 600, "fluctuation_kw": 1400, "peak_before_kj": 2050, "peak_drawn_kj": 2050, "#
        ),
        "{object}"
    );
    assert_eq!(folder.get("out").unwrap().lines().nth(42), Some("0 -200"));
    let said = folder.told("energy --horizon 100 t p c t --room curves=199", 2);
    assert!(said.contains("\nrefused 16: lent room too short\n"), "{said}");
}

#[test]
fn merges_are_written_whole_or_not_at_all() {
    let folder = Folder::new("merges");
    folder.put("later", "old");
    let said = folder.told("merge --horizon 100 t p c a b --earlier earlier --later later", 0);
    let written = format!("merged, earlier: earlier, bytes {0}\nmerged, later: later, bytes {0}\n", draft().len());
    assert_eq!(said, format!("{LABEL}{ACCEPTED}{written}answer: accepted\n"));
    assert_eq!(folder.get("earlier"), Some(draft()));
    assert_eq!(folder.get("later"), Some(solution("15_4_7", "45_3_8")));
    folder.put("b", &solution("10_4_7", "50_3_8"));
    let said = folder.told("merge --horizon 100 t p c a b --earlier one --later later", 2);
    assert!(said.contains("\nrefused 8: nominal not in its list\nfile: second solution (b), place: 145, line: 3\n"), "{said}");
    folder.put("b", &solution("10_4_7", "50_3_8").replace("45_3_8", "50_3_8"));
    let said = folder.told("merge --horizon 100 t p c a b --earlier one --later later", 1);
    assert!(said.contains("position 1, inequality 0\nfile: second solution (b)\n") && said.contains("\nchosen: 50_3_8\n"), "{said}");
    assert_eq!(folder.get("later"), Some(solution("15_4_7", "45_3_8")));
    assert_eq!(folder.names(), ["a", "b", "c", "earlier", "later", "p", "t"]);
}

#[test]
fn an_output_is_no_input_and_no_other_output() {
    let folder = Folder::new("outputs");
    fs::create_dir(folder.0.join("f")).unwrap();
    fs::hard_link(folder.0.join("a"), folder.0.join("linked")).unwrap();
    std::os::unix::fs::symlink("b", folder.0.join("pointing")).unwrap();
    let merge = |earlier: &str, later: &str| format!("merge --horizon 100 t p c a b --earlier {earlier} --later {later}");
    for (earlier, later, why) in [
        ("o", "o", "is named twice"),
        ("o", "./o", "is named twice"),
        ("o", "f/../o", "is named twice"),
        ("a", "o", "is an input"),
        ("o", "./t", "is an input"),
        ("linked", "o", "is an input"),
        ("pointing", "o", "is a symbolic link"),
        ("f", "o", "is no regular file"),
        ("nowhere/o", "o", "its folder is not there"),
    ] {
        folder.not_run(&merge(earlier, later), why);
    }
    folder.not_run("energy --horizon 100 t p c a --curves c", "is an input");
    assert_eq!(folder.get("a"), Some(solution("15_4_7", "40_3_8")));
    assert_eq!(folder.names(), ["a", "b", "c", "f", "linked", "p", "pointing", "t"]);
}

#[test]
fn what_cannot_be_read_is_not_judged() {
    let folder = Folder::new("missing");
    folder.not_run("check --horizon 100 t p c missing", "solution missing: ");
    folder.not_run("check --horizon 100 . p c a", "timetable .: ");
    folder.not_run("check --horizon 100 t p c", "wanted 4 files, given 3, missing: SOLUTION");
    folder.not_run("judge", "no such command");
}

/// What follows the length of a text is not kept: a file of any length is refused, and one without end is not judged.
#[test]
fn a_file_may_be_longer_than_a_text() {
    let folder = Folder::new("long");
    let most = Rooms::at_the_limits()[Table::Text] as u64;
    let long = fs::File::create(folder.0.join("long")).unwrap();
    long.set_len(1 << 40).unwrap();
    let said = folder.told("check --horizon 100 t p c long", 2);
    assert!(said.starts_with(&format!("{LABEL}refused 2: text too long\nfile: solution (long), place: 0, line: 1\n")), "{said}");
    long.set_len(most + 100).unwrap();
    let object = folder.told("check --json --horizon 100 t p c long", 2);
    assert!(
        object.contains(r#""refusal": {"number": 2, "file": {"number": 4, "role": "solution", "name": "long"}, "place": 0, "line": 1, "#),
        "{object}"
    );
    let hash = "7ede697aa203b3643d20e4c521c320bfa0e1ae7bfb854aa9e55409c3d0a486c4";
    assert!(
        object.contains(&format!(r#"{{"role": "solution", "name": "long", "bytes": {}, "sha256": "{hash}"}}"#, most + 100)),
        "{object}"
    );
    let why = format!("timetable /dev/zero: has more than {most} bytes and is no regular file");
    folder.not_run("check --horizon 100 /dev/zero p c a", &why);
    folder.not_run("row --file 4 --place 145 /dev/zero a", &why);
}

/// A row is shown whole or not at all.
#[test]
fn a_row_may_end_past_the_length_of_a_text() {
    let folder = Folder::new("long-row");
    folder.put("long", &format!("{HEADER}1\n2"));
    fs::OpenOptions::new().write(true).open(folder.0.join("long")).unwrap().set_len(1 << 40).unwrap();
    let place = HEADER.len();
    assert_eq!(folder.told(&format!("row --file 4 --place {place} t long"), 0), format!("{LABEL}row: 1\n"));
    folder.not_run(&format!("row --file 4 --place {} t long", place + 2), "solution (long): the row goes on past the length of a text");
    assert_eq!(folder.told("row --file 1 --place 145 t long", 0), format!("{LABEL}row: 2,1,2,2,3,40_3_8,40_3_8 45_3_8\n"));
}

#[test]
fn a_pipe_is_read_to_its_end() {
    let folder = Folder::new("pipe");
    let mut call = folder.call("check --horizon 100 /dev/stdin p c a").stdin(Stdio::piped()).stdout(Stdio::piped()).spawn().unwrap();
    call.stdin.take().unwrap().write_all(draft().as_bytes()).unwrap();
    let output = call.wait_with_output().unwrap();
    assert_eq!(String::from_utf8(output.stdout).unwrap(), format!("{LABEL}{ACCEPTED}{TESTED}answer: accepted\n"));
}

/// No verdict by the status alone.
#[test]
fn a_result_that_cannot_be_printed_is_none() {
    let folder = Folder::new("printed");
    let full = fs::OpenOptions::new().write(true).open("/dev/full").unwrap();
    let status = folder.call("check --horizon 100 t p c a").stdout(full).status().unwrap();
    assert_eq!(status.code(), Some(3));
}

#[test]
fn a_reason_that_cannot_be_printed_is_still_a_status() {
    let folder = Folder::new("reason");
    let full = fs::OpenOptions::new().write(true).open("/dev/full").unwrap();
    let status = folder.call("check --horizon 100 t p c missing").stderr(full).status().unwrap();
    assert_eq!(status.code(), Some(3));
}

#[test]
fn a_row_is_shown() {
    let folder = Folder::new("row");
    assert_eq!(folder.told("row --file 4 --place 145 t b", 0), format!("{LABEL}row: 2,1,2,2,3,45_3_8,40_3_8 45_3_8\n"));
    assert_eq!(folder.told("row --file 1 --place 144 t b", 0), format!("{LABEL}no row starts there\n"));
    for (file, place) in [("260", "145"), ("4", "4294967441"), ("18446744073709551617", "145"), ("0", "145")] {
        assert_eq!(folder.told(&format!("row --file {file} --place {place} t b"), 0), format!("{LABEL}no row starts there\n"));
    }
    folder.not_run("row --file 04 --place 145 t b", "--file wants a whole number, and this is none: 04");
    folder.not_run("row --file 4 --place 0145 t b", "--place wants a whole number, and this is none: 0145");
    let object = folder.told("row --file 1 --place 145 t b --json", 0);
    assert!(object.contains(r#""place": 145, "row": "2,1,2,2,3,40_3_8,40_3_8 45_3_8", "length": 30, "#), "{object}");
}

#[test]
fn less_room_is_refused() {
    let folder = Folder::new("room");
    let said = folder.told("check --horizon 100 t p c a --room legs=15", 2);
    assert!(said.contains("\nrefused 16: lent room too short\nfile: timetable (t), place: 145, line: 3\n"), "{said}");
}

/// Room of any size is lent or said not to be: the command never ends without a status of its own.
#[test]
fn more_room_than_the_limits_can_need_is_not_lent() {
    let folder = Folder::new("more-room");
    let limits = Rooms::at_the_limits();
    let one_more = Table::ALL.map(|table| (table, (limits[table] + 1).to_string()));
    let far_more = ["9999999999999", "18446744073709551615", "18446744073709551616"].map(|room| (Table::Text, String::from(room)));
    for (table, room) in one_more.into_iter().chain(far_more) {
        let output = folder.run(&format!("check --horizon 100 t p c a --room {}={room}", table.name()));
        let said = format!("wagontulip: --room {}: at most {} can be lent\n", table.name(), limits[table]);
        assert_eq!((output.status.code(), &output.stdout[..], &output.stderr[..]), (Some(3), &b""[..], said.as_bytes()), "{output:?}");
    }
    folder.told(&format!("check --horizon 100 t p c a --room text={}", limits[Table::Text]), 0);
}

/// H past 32 bits is out of range, as any past the limit is; what is no whole number is no horizon.
#[test]
fn a_horizon_is_a_whole_number() {
    let folder = Folder::new("horizon");
    for horizon in ["176401", "4294967295", "4294967296", "99999999999999999999999999"] {
        let said = folder.told(&format!("check --horizon {horizon} t p c a"), 2);
        assert_eq!(said, format!("{LABEL}refused 1: H out of range\nfile: no file, place: 0\nanswer: refused\n"));
    }
    for horizon in ["0100", "+100", "-1", "100s", "1e2"] {
        folder.not_run(&format!("check --horizon {horizon} t p c a"), "--horizon wants a whole number, and this is none: ");
    }
    for horizon in ["", " 100", "100\n"] {
        let output = folder.call("check t p c a --horizon").arg(horizon).output().unwrap();
        assert_eq!((output.status.code(), &output.stdout[..]), (Some(3), &b""[..]), "{output:?}");
    }
}

/// Each edition reads its own key, 2 is taken where none is given, and the library judges any other number.
#[test]
fn an_edition_may_be_stated() {
    let folder = Folder::new("edition");
    folder.put("1", &turnaround("min_dwell_time", 21));
    folder.put("2", &turnaround("min_turnaround_time", 21));
    for words in ["check --horizon 100 --edition 1 t p 1 a", "check --horizon 100 --edition=2 t p 2 a", "check --horizon 100 t p 2 a"] {
        let tested = "tested: 3 (2 choices, 1 terminal turnaround)\n";
        assert_eq!(folder.told(words, 0), format!("{LABEL}{ACCEPTED}{tested}answer: accepted\n"), "{words}");
    }
    folder.told("energy --horizon 100 --edition 1 t p 1 a", 0);
    folder.told("merge --horizon 100 --edition 1 t p 1 a b --earlier earlier --later later", 0);
    for (words, key) in
        [("--edition 2 t p 1 a", "min_dwell_time"), ("t p 1 a", "min_dwell_time"), ("--edition 1 t p 2 a", "min_turnaround_time")]
    {
        let said = folder.told(&format!("check --horizon 100 {words}"), 2);
        let lines: Vec<&str> = said.lines().collect();
        assert_eq!(lines[1], "refused 10: unknown list, key or connection type");
        assert!(lines[3][lines[4].find('^').unwrap()..].starts_with(&format!("\"{key}\"")), "{said}");
    }
    for edition in ["0", "3", "4294967295", "4294967297", "99999999999999999999999999"] {
        let said = folder.told(&format!("check --horizon 100 --edition {edition} t p 2 a"), 2);
        assert_eq!(said, format!("{LABEL}refused 21: an edition that is not known\nfile: no file, place: 0\nanswer: refused\n"));
        let said = folder.told(&format!("check --horizon 0 --edition {edition} t p 2 a"), 2);
        assert!(said.contains("\nrefused 1: "), "{said}");
    }
    folder.not_run("check --horizon 100 --edition 01 t p 2 a", "--edition wants a whole number, and this is none: 01");
    folder.not_run("row --edition 1 --place 50 p", "no option of row: --edition");
}

#[test]
fn any_bytes_are_shown_as_words() {
    let folder = Folder::new("bytes");
    let row = b"\xff\x1b[2J\ranswer: accepted\x7f";
    fs::write(folder.0.join("t"), [HEADER.as_bytes(), row, b"\n"].concat()).unwrap();
    let shown = r"\xff\x1b[2J\x0danswer: accepted\x7f";
    let said = folder.told("check --horizon 100 t p c a", 2);
    assert!(said.contains(&format!("\nrow: {shown}\n")), "{said}");
    let place = HEADER.len();
    assert_eq!(folder.told(&format!("row --file 1 --place {place} t a"), 0), format!("{LABEL}row: {shown}\n"));
    let object = folder.told(&format!("row --json --file 1 --place {place} t a"), 0);
    let row = format!(r#""row_bytes": "\u00ff\u001b[2J\u000danswer: accepted\u007f", "length": {}, "#, row.len());
    assert!(object.contains(&row), "{object}");
}

/// A spreadsheet's export is read as the plain files are, and a merge of it is written plain.
#[test]
fn exported_files_are_read() {
    let folder = Folder::new("exported");
    let accepted = format!("{LABEL}{ACCEPTED}{TESTED}answer: accepted\n");
    folder.put("t", &exported(&draft()));
    assert_eq!(folder.told("check --horizon 100 t p c a", 0), accepted);
    for (name, text) in [("p", PROFILES), ("a", &solution("15_4_7", "40_3_8")), ("b", &solution("10_4_7", "45_3_8"))] {
        folder.put(name, &exported(text));
    }
    assert_eq!(folder.told("check --horizon 100 t p c a", 0), accepted);
    folder.told("merge --horizon 100 t p c a b --earlier earlier --later later", 0);
    assert_eq!((folder.get("earlier"), folder.get("later")), (Some(draft()), Some(solution("15_4_7", "45_3_8"))));
}

/// Quotes are shown as they stand, a CR that goes with its LF is not shown, and any other is seen.
#[test]
fn a_row_with_quotes_and_returns_is_shown() {
    let folder = Folder::new("quoted-row");
    for (row, shown) in [
        ("\"1\",1\r\n", r#""1",1"#),
        ("\"1\n", r#""1"#),
        ("1\",1\r\r\n", r#"1",1\x0d"#),
        ("1\r,1\n", r"1\x0d,1"),
        ("1,1\r", r"1,1\x0d"),
        ("\r\n", ""),
        ("\r\r\n", r"\x0d"),
    ] {
        folder.put("t", &format!("{HEADER}{row}"));
        let said = folder.told("check --horizon 100 t p c a", 2);
        let refused = "refused 4: CSV row breaks its form\nfile: timetable (t), place: 114, line: 2\n";
        assert_eq!(said, format!("{LABEL}{refused}row: {shown}\nanswer: refused\n"), "{row:?}");
        for words in ["row --place 114 t", "row --file 1 --place 114 t a"] {
            assert_eq!(folder.told(words, 0), format!("{LABEL}row: {shown}\n"), "{row:?}");
        }
    }
    folder.put("t", &exported(&draft()).replacen("leg_id", "leg", 1));
    let said = folder.told("check --horizon 100 t p c a", 2);
    assert!(said.contains("\nfile: timetable (t), place: 0, line: 1\ntext: \"leg\",\"train_id\",") && !said.contains("\\x"), "{said}");
}

/// A row is no line of its own.
#[test]
fn a_row_cannot_look_like_an_answer() {
    let folder = Folder::new("row-answer");
    folder.put("t", &format!("{HEADER}answer: accepted\n"));
    let said = folder.told(&format!("row --file 1 --place {} t a", HEADER.len()), 0);
    assert_eq!(said, format!("{LABEL}row: answer: accepted\n"));
}

/// Names and words of a call reach the error stream, too.
#[test]
fn any_name_is_shown_on_its_line() {
    let folder = Folder::new("names");
    let name = "\x1b[2J\r\u{9b}\nanswer: accepted";
    let shown = r"\x1b[2J\x0d\xc2\x9b\x0aanswer: accepted";
    let said = |words: &str, last: &str| {
        let output = folder.call(words).arg(last).output().unwrap();
        assert_eq!((output.status.code(), &output.stdout[..]), (Some(3), &b""[..]), "{output:?}");
        String::from_utf8(output.stderr).unwrap()
    };
    let option = format!("-{name}");
    for (words, last) in [
        ("check --horizon 100 t p c", name),
        ("check t p c a --horizon", name),
        ("check --horizon 100 t p c a", &option),
        ("merge --horizon 100 t p c a b --earlier x --later", &format!("nowhere/{name}")),
    ] {
        let said = said(words, last);
        assert!(said.contains(shown), "{words}: {said}");
    }
    fs::write(folder.0.join(name), "").unwrap();
    let output = folder.call("check --json --horizon 100 t p c").arg(name).output().unwrap();
    let object = String::from_utf8(output.stdout).unwrap();
    assert!(object.contains(r#"{"role": "solution", "name": "\u001b[2J\u000d\u009b\u000aanswer: accepted", "bytes": 0, "#), "{object}");
}
