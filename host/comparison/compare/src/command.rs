//! The command in the place of `replay`, one process a call: its status, what it prints, and the files that it writes. The lent rooms stay inside it.

use crate::coverage::{QUARTER, ROOMS};
use crate::executor::Executor;
use crate::expected::line as expected_line;
use crate::lines::{digest, LABEL};
use independent::{row_at, Answer, Call, Case, Desk, Direction, Edition, Entry, Figures, Report, Said, Tables, Tally};
use std::path::{Path, PathBuf};
use std::process::Command as Process;
use std::sync::atomic::{AtomicUsize, Ordering};

/// Files of a call, in the order of a case's texts, and of its outputs.
const TEXTS: [&str; 5] = ["timetable", "profiles", "constraints", "first", "second"];
const CURVES: &str = "curves";
/// The rooms of duties, and the most that the command lends; more of them changes no answer.
const DUTY_ROOMS: [&str; 2] = ["nodes", "balance"];
const MOST_NODES: usize = 1_024;
const MERGED: [&str; 2] = ["earlier", "later"];

/// What follows one of these in the command's object says in words what was compared before, or is evidence about the files, and is not compared.
const NOT_COMPARED: [&[u8]; 3] = [br#", "kind_name": "#, br#", "meaning": "#, br#", "version": "#];

// Document 01's numbers of files, and of an entry's numbers in a table.
const TIMETABLE: u32 = 1;
const CONSTRAINTS: u32 = 3;
const SECOND: u32 = 5;
const DUTIES: u32 = 6;
const NODE: usize = 2;
const LEG: usize = 8;
const CONSTRAINT: usize = 6;
const THREE: usize = 3;
const TRACK: usize = 2;

/// The command, by the words that start it.
pub struct Command {
    pub words: Vec<String>,
}

impl Executor for Command {
    fn run(&self, calls: &[&Call]) -> Result<Vec<String>, String> {
        calls.iter().map(|call| self.called(call)).collect()
    }

    fn expected(&self, call: &Call) -> (Said, String) {
        (expected_line(call).0, expected(call))
    }

    fn batch(&self) -> usize {
        10
    }
}

impl Command {
    fn called(&self, call: &Call) -> Result<String, String> {
        let folder = Folder::of(&call.case)?;
        let (program, first) = self.words.split_first().ok_or("no program to run")?;
        let output =
            Process::new(program).args(first).args(words(call)).current_dir(&folder.0).output().map_err(|e| format!("{program}: {e}"))?;
        let mut line = line(output.status.code().unwrap_or(-1), compared(&output.stdout));
        for name in [CURVES, MERGED[0], MERGED[1]] {
            if let Ok(text) = std::fs::read(folder.0.join(name)) {
                line.push_str(&written(name, &text));
            }
        }
        Ok(line)
    }
}

fn compared(printed: &[u8]) -> &[u8] {
    let starts = NOT_COMPARED.iter().filter_map(|mark| printed.windows(mark.len()).position(|part| part == *mark));
    &printed[..starts.min().unwrap_or(printed.len())]
}

/// A folder with the texts of one call, removed with it.
struct Folder(PathBuf);

impl Folder {
    fn of(case: &Case) -> Result<Folder, String> {
        static NEXT: AtomicUsize = AtomicUsize::new(0);
        let name = format!("compare-{}-call-{}", std::process::id(), NEXT.fetch_add(1, Ordering::Relaxed));
        let folder = Folder(std::env::temp_dir().join(name));
        let failed = |path: &Path, e: std::io::Error| format!("{}: {e}", path.display());
        std::fs::create_dir_all(&folder.0).map_err(|e| failed(&folder.0, e))?;
        for (name, text) in TEXTS.iter().zip(&case.texts) {
            let path = folder.0.join(name);
            std::fs::write(&path, text).map_err(|e| failed(&path, e))?;
        }
        Ok(folder)
    }
}

impl Drop for Folder {
    fn drop(&mut self) {
        let _ = std::fs::remove_dir_all(&self.0);
    }
}

/// The words of a call. A row is shown; an answer is given as an object.
fn words(call: &Call) -> Vec<String> {
    let [timetable, profiles, constraints, first, second] = TEXTS;
    let files = format!("--json{} {timetable} {profiles} {constraints} {first}", stated(&call.case));
    let words = match call.entry {
        Entry::Check => format!("check {files}"),
        Entry::Energy => format!("energy {files} --curves {CURVES}"),
        Entry::MergeEarlier | Entry::MergeLater => format!("merge {files} {second} --earlier {} --later {}", MERGED[0], MERGED[1]),
        Entry::Row => format!("row --file {} --place {} {timetable} {first}", call.file, call.place),
        Entry::Duties => format!("duties --json {timetable}"),
    };
    let room = |(name, room): (&&str, usize)| [String::from("--room"), format!("{}={room}", name.replace(' ', "_"))];
    let lent = call.case.rooms;
    let rooms: Vec<(&&str, usize)> = match call.entry {
        Entry::Duties => DUTY_ROOMS.iter().zip([lent.legs.min(MOST_NODES * NODE), lent.curves.min(MOST_NODES)]).collect(),
        _ => ROOMS.iter().zip(lent.numbers()).collect(),
    };
    words.split(' ').map(String::from).chain(rooms.into_iter().flat_map(room)).collect()
}

/// An edition of 2 is what is taken where none is given.
fn stated(case: &Case) -> String {
    let horizon = format!(" --horizon {}", case.h);
    if case.edition == Edition::Example as u32 {
        return horizon;
    }
    format!("{horizon} --edition {}", case.edition)
}

/// Whatever is printed can be told apart from everything else.
fn line(status: i32, printed: &[u8]) -> String {
    format!("status {status}: {}", printed.escape_ascii())
}

fn written(name: &str, text: &[u8]) -> String {
    format!(" | {name}: {} bytes, digest {}", text.len(), digest(text.iter().map(|byte| u32::from(*byte))))
}

/// The line that a call is expected to give, from the independent program alone.
fn expected(call: &Call) -> String {
    match call.entry {
        Entry::Check => {
            let checked = call.case.check();
            object(call, checked.answer, checked.tally, checked.tables.as_ref(), "")
        }
        Entry::Energy => reported(call),
        Entry::MergeEarlier | Entry::MergeLater => merged(call),
        Entry::Row => shown(call),
        Entry::Duties => duties(call),
    }
}

/// Duties state nothing, and have balances, or a broken row, or a refusal.
fn duties(call: &Call) -> String {
    let duties = call.case.duties();
    let text = &call.case.texts[0];
    let rows = text.iter().filter(|byte| **byte == b'\n').count().saturating_sub(1);
    let read = |nodes: String| format!(r#", "read": {{"rows": {rows}, "nodes": {nodes}}}, "nothing_tested": {}"#, rows == 0);
    let balances = duties.balance.unwrap_or_default();
    let (status, word, told) = match duties.answer {
        Answer::Accepted => {
            let nodes = duties.nodes.unwrap_or_default();
            let shown: Vec<String> = nodes.chunks(NODE).zip(&balances).map(|(node, balance)| balanced(text, node, *balance)).collect();
            let told = format!(r#", "balance": [{}], "balance_over_all": {}"#, shown.join(", "), balances.iter().sum::<i32>());
            (0, "accepted", read(balances.len().to_string()) + &told)
        }
        Answer::Broken { row, rule, place } => {
            let numbers = format!(r#""rule": {rule}, "position": {row}, "file": {}, "place": {place}"#, file_object(call, DUTIES));
            (1, "violated", read(String::from("null")) + &format!(r#", "broken": {{{numbers}{}"#, placed(text, DUTIES, place)))
        }
        Answer::Refused { number, file, place } => {
            (2, "refused", format!(r#", "read": null, "nothing_tested": null{}"#, refused(call, number, file, place)))
        }
        Answer::Violated { .. } => return String::new(),
    };
    line(status, format!(r#"{{"label": "{LABEL}", "schema": 3, "command": "duties", "answer": "{word}"{told}"#).as_bytes())
}

/// A node by its name. A backslash is the only byte of a name that is escaped.
fn balanced(text: &[u8], node: &[u32], balance: i32) -> String {
    let name = &text[node[0] as usize..][..node[1] as usize];
    let name = String::from_utf8_lossy(name).replace('\\', r"\\");
    format!(r#"{{"node": "{name}", "ending_less_starting": {balance}}}"#)
}

fn object(call: &Call, answer: Answer, tally: Option<Tally>, tables: Option<&Tables>, figures: &str) -> String {
    let (status, word, told) = match answer {
        Answer::Accepted => (0, "accepted", figures.to_string()),
        Answer::Violated { .. } => (1, "violated", violated(call, answer, tables)),
        Answer::Refused { number, file, place } => (2, "refused", refused(call, number, file, place)),
        Answer::Broken { .. } => return String::new(),
    };
    let command = match call.entry {
        Entry::MergeEarlier | Entry::MergeLater => "merge",
        other => other.name(),
    };
    let head = format!(r#"{{"label": "{LABEL}", "schema": 3, "command": "{command}", "answer": "{word}""#);
    let stated = format!(r#", "horizon": {}, "edition": {}"#, call.case.h, call.case.edition);
    line(status, format!("{head}{stated}{}{told}", counted(tables, tally)).as_bytes())
}

/// How much was read and tested. A refusal has 0, and what is neither refused nor a verdict has none.
fn counted(tables: Option<&Tables>, tally: Option<Tally>) -> String {
    match (tables, tally) {
        (None, _) => format!(r#", "read": null{}, "nothing_tested": null"#, tested(&Tally::default())),
        (Some(tables), None) => format!(r#"{}, "tested": null, "tally": null, "nothing_tested": null"#, read(tables)),
        (Some(tables), Some(tally)) => format!(r#"{}{}, "nothing_tested": {}"#, read(tables), tested(&tally), tally.total == 0),
    }
}

fn tested(tally: &Tally) -> String {
    format!(r#", "tested": {}, "tally": {:?}"#, tally.total, tally.kinds)
}

fn read(tables: &Tables) -> String {
    let counts = [
        ("legs", tables.legs.len() / LEG),
        ("configurations", tables.configurations.len() / THREE),
        ("profiles", tables.profiles.len() / THREE),
        ("samples", tables.samples.len()),
        ("constraints", tables.constraints.len() / CONSTRAINT),
        ("tracks", tables.tracks.len() / TRACK),
    ];
    let counts: Vec<String> = counts.iter().map(|(name, count)| format!(r#""{name}": {count}"#)).collect();
    format!(r#", "read": {{{}}}"#, counts.join(", "))
}

/// The file that an answer names.
fn file_object(call: &Call, file: u32) -> String {
    let merging = matches!(call.entry, Entry::MergeEarlier | Entry::MergeLater);
    let roles = ["timetable", "profiles", "constraints", if merging { "first solution" } else { "solution" }, "second solution"];
    if file == DUTIES {
        return format!(r#"{{"number": {file}, "role": "duties", "name": "{}"}}"#, TEXTS[0]);
    }
    match (file as usize).checked_sub(1) {
        Some(place) => format!(r#"{{"number": {file}, "role": "{}", "name": "{}"}}"#, roles[place], TEXTS[place]),
        None => format!(r#"{{"number": {file}}}"#),
    }
}

/// The numbers, and the legs of the record or of the row.
fn violated(call: &Call, answer: Answer, tables: Option<&Tables>) -> String {
    let (kind, position, inequality, shortfall, file) = match answer {
        Answer::Violated { kind, position, inequality, shortfall, file } => (kind, position, inequality, shortfall, file),
        _ => return String::new(),
    };
    let numbers = format!(r#""kind": {kind}, "position": {position}, "inequality": {inequality}, "shortfall": {shortfall}"#);
    let legs: Vec<String> = tables.map_or(Vec::new(), |tables| {
        let record = tables.constraints.chunks(CONSTRAINT).filter(|record| record[0] == kind).nth(position);
        let rows = record.map_or(vec![position], |record| vec![record[1] as usize, record[2] as usize]);
        rows.into_iter().map(|row| leg(tables, file, row)).collect()
    });
    format!(r#", "violation": {{{numbers}, "file": {}, "legs": [{}]"#, file_object(call, file), legs.join(", "))
}

/// A leg as the violated solution chose.
fn leg(tables: &Tables, file: u32, row: usize) -> String {
    let choices = if file == SECOND { &tables.second_choices } else { &tables.choices };
    let (departure, travel) = (choices[row * THREE], choices[row * THREE + 1]);
    let names = ["leg", "train", "track", "start_station", "end_station"];
    let ids: Vec<String> = names.iter().zip(&tables.legs[row * LEG..]).map(|(name, id)| format!(r#""{name}": {id}"#)).collect();
    let time = |seconds: u32| format!(r#"{{"seconds": {seconds}, "clock": "{}"}}"#, clock(seconds as usize));
    format!(r#"{{{}, "departure": {}, "arrival": {}}}"#, ids.join(", "), time(departure), time(departure + travel))
}

fn clock(seconds: usize) -> String {
    format!("{:02}:{:02}:{:02}", seconds / 3_600, seconds % 3_600 / 60, seconds % 60)
}

/// The numbers, and where in its file the place is.
fn refused(call: &Call, number: u32, file: u32, place: usize) -> String {
    let told = format!(r#", "refusal": {{"number": {number}, "file": {}, "place": {place}"#, file_object(call, file));
    match (file as usize).checked_sub(1) {
        Some(_) if file == DUTIES => told + &placed(&call.case.texts[0], file, place),
        Some(text) => told + &placed(&call.case.texts[text], file, place),
        None => told,
    }
}

/// The line, and the column where the place is no row's start.
fn placed(text: &[u8], file: u32, place: usize) -> String {
    if place >= text.len() {
        return String::from(r#", "end_of_text": true"#);
    }
    let lines: Vec<&[u8]> = text[..place].split(|byte| *byte == b'\n').collect();
    let starts_a_row = file != CONSTRAINTS && row_at(text, &[], TIMETABLE, place).0 > 0;
    let column = if starts_a_row { String::new() } else { format!(r#", "column": {}"#, lines[lines.len() - 1].len() + 1) };
    format!(r#", "line": {}{column}"#, lines.len())
}

fn reported(call: &Call) -> String {
    let report = call.case.energy();
    let told = object(call, report.answer, report.tally, report.tables.as_ref(), &energies(call, &report));
    report.curves.map_or(told.clone(), |curves| told + &written(CURVES, &curve_lines(&curves, call.case.h as usize)))
}

fn energies(call: &Call, report: &Report) -> String {
    let Figures { before, drawn, lost, fluctuation, peak_before, peak_drawn } = report.figures;
    let kilojoules =
        format!(r#", "energies": {{"before_kj": {before}, "drawn_kj": {drawn}, "lost_kj": {lost}, "fluctuation_kw": {fluctuation}"#);
    let peaks = format!(r#", "peak_before_kj": {peak_before}, "peak_drawn_kj": {peak_drawn}"#);
    let Desk { before: before_mwh, drawn: drawn_mwh, lost: lost_mwh, peak } = report.desk;
    let doubles = format!(r#", "before_mwh": {before_mwh}, "drawn_mwh": {drawn_mwh}, "lost_mwh": {lost_mwh}, "peak_drawn_mw": {peak}"#);
    let quarter = |quarter: usize| {
        let seconds = QUARTER.min(call.case.h as usize - quarter * QUARTER);
        let [from, to] = [0, seconds].map(|second| clock(quarter * QUARTER + second));
        format!(r#"{{"number": {quarter}, "from": "{from}", "to": "{to}"}}"#)
    };
    let [first, second] = report.quarters.map(quarter);
    let quarters = format!(r#", "peak_before_quarter": {first}, "peak_drawn_quarter": {second}"#);
    let [before, drawn, lost] = [before, drawn, lost].map(|kj| decimals(kj, KJ_A_MWH));
    let shown = format!(r#", "shown": {{"before_mwh": {before}, "drawn_mwh": {drawn}, "lost_mwh": {lost}"#);
    let [first, second] = [peak_before, peak_drawn].map(|kj| decimals(kj, KJ_A_MW));
    let shown_peaks = format!(r#", "peak_before_mw": {first}, "peak_drawn_mw": {second}}}}}"#);
    [kilojoules, peaks, doubles, quarters, shown, shown_peaks].concat()
}

const KJ_A_MWH: i64 = 3_600_000;
const KJ_A_MW: i64 = 900_000;

/// Three decimals, rounded down.
fn decimals(kj: i64, unit: i64) -> String {
    let thousandths = i128::from(kj) * 1_000 / i128::from(unit);
    format!(r#""{}.{:03}""#, thousandths / 1_000, thousandths % 1_000)
}

/// One line a second, the subnets' kW in order, one space between.
fn curve_lines(curves: &[i32], h: usize) -> Vec<u8> {
    let second = |second: usize| curves.iter().skip(second).step_by(h).map(i32::to_string).collect::<Vec<_>>().join(" ") + "\n";
    (0..h).map(second).collect::<String>().into_bytes()
}

/// Both merges are asked for at once: where one cannot be made, neither is written.
fn merged(call: &Call) -> String {
    let [earlier, later] = [Direction::Earlier, Direction::Later].map(|direction| call.case.merge(direction));
    let last = if earlier.answer == Answer::Accepted { &later } else { &earlier };
    let mut told = object(call, last.answer, last.tally, last.tables.as_ref(), "");
    if last.answer == Answer::Accepted {
        for (name, merged) in MERGED.iter().zip([earlier, later]) {
            told.push_str(&written(name, &merged.text.unwrap_or_default()));
        }
    }
    told
}

fn shown(call: &Call) -> String {
    let row = match expected_line(call).0 {
        Said::Row(start, _) if start > 0 => format!("row: {}", call.row_bytes().iter().map(|byte| printed(*byte)).collect::<String>()),
        _ => String::from("no row starts there"),
    };
    line(0, format!("{LABEL}\n{row}\n").as_bytes())
}

/// A byte of a row on a terminal.
fn printed(byte: u8) -> String {
    match byte {
        32..=126 => char::from(byte).to_string(),
        other => format!("\\x{other:02x}"),
    }
}
