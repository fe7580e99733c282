//! How often each answer was met, as tables; a cell that an input can reach must not be empty.

use crate::{duties, editions, marks, tallies};
use cases::target::{is_merge, targets, Target, DUTIES, FILES, INEQUALITIES, RULES};
use independent::{Answer, Call, Case, Entry, Said};
use std::collections::BTreeMap;
use std::fmt;

/// What a call for a row met.
#[derive(Clone, Copy, Debug, PartialEq, Eq, PartialOrd, Ord)]
enum Shown {
    RowOfDraft,
    RowOfSolution,
    EmptyLine,
    NoRowThere,
    NoSuchFile,
}

const SHOWN: [(Shown, &str); 5] = [
    (Shown::RowOfDraft, "a row of the draft"),
    (Shown::RowOfSolution, "a row of the solution"),
    (Shown::EmptyLine, "an empty line"),
    (Shown::NoRowThere, "no row starts there"),
    (Shown::NoSuchFile, "file neither 1 nor 4"),
];

/// Where the peaks of an accepted energy lie.
#[derive(Clone, Copy, Debug, PartialEq, Eq, PartialOrd, Ord)]
enum Peaked {
    OneCut,
    First,
    Later,
    LastCut,
    Equal,
    Apart,
}

const PEAKED: [(Peaked, &str); 6] = [
    (Peaked::OneCut, "one cut quarter"),
    (Peaked::First, "drawn in quarter 0"),
    (Peaked::Later, "drawn in a later quarter"),
    (Peaked::LastCut, "drawn in a last, cut one"),
    (Peaked::Equal, "drawn in several quarters"),
    (Peaked::Apart, "two quarters"),
];

/// The seconds of a quarter.
pub const QUARTER: usize = 900;

/// The rooms in their order.
pub const ROOMS: [&str; 10] =
    ["legs", "configurations", "profiles", "samples", "constraints", "tracks", "choices", "second choices", "curves", "text"];

/// The rooms that can give 16 in each file: of a pair either may be short.
const ROOMS_OF: [&[usize]; 6] = [&[8, 9], &[0, 1], &[2, 3], &[4, 5], &[6], &[7]];

/// The refusal numbers, in the order of the table.
const NUMBERS: [u32; 18] = [1, 2, 3, 4, 5, 6, 7, 8, 9, 10, 11, 12, 13, 14, 15, 16, 17, 21];

/// Room that is never short.
const AMPLE: usize = 1 << 24;

/// The counts.
#[derive(Clone, Debug, Default)]
pub struct Coverage {
    answers: BTreeMap<(Entry, Target), usize>,
    /// Violations of connections by inequality and anchor.
    connections: BTreeMap<(u32, u32), usize>,
    rooms: [usize; 10],
    shown: BTreeMap<Shown, usize>,
    peaks: BTreeMap<Peaked, usize>,
    marks: BTreeMap<marks::Cell, usize>,
    editions: BTreeMap<editions::Cell, usize>,
    tallies: BTreeMap<tallies::Cell, usize>,
    duties: BTreeMap<duties::Met, usize>,
}

impl Coverage {
    pub fn count(&mut self, call: &Call, said: &Said) {
        for cell in marks::met(call, said) {
            *self.marks.entry(cell).or_default() += 1;
        }
        if let Some(cell) = editions::met(call, said) {
            *self.editions.entry(cell).or_default() += 1;
        }
        if let Some(cell) = tallies::met(call, said) {
            *self.tallies.entry(cell).or_default() += 1;
        }
        for cell in duties::met(call) {
            *self.duties.entry(cell).or_default() += 1;
        }
        match (said, said.answer()) {
            (Said::Duties(..), Some(answer)) => *self.answers.entry((call.entry, Target::of(answer))).or_default() += 1,
            (_, Some(answer)) => {
                *self.answers.entry((call.entry, Target::of(answer))).or_default() += 1;
                self.count_room(call, answer);
                self.count_connection(&call.case, answer);
                if let Said::Reported(Answer::Accepted, _, figures, _, quarters) = said {
                    self.count_peaks(&call.case, figures.peak_drawn, *quarters);
                }
            }
            (Said::Row(start, length), None) => {
                let shown = match call.file {
                    1 | 4 if *start == 0 => Shown::NoRowThere,
                    1 | 4 if *length == 0 => Shown::EmptyLine,
                    1 => Shown::RowOfDraft,
                    4 => Shown::RowOfSolution,
                    _ => Shown::NoSuchFile,
                };
                *self.shown.entry(shown).or_default() += 1;
            }
            _ => {}
        }
    }

    /// A call whose line is its twin's.
    pub fn count_twin(&mut self, call: &Call) {
        *self.editions.entry(editions::alike(call)).or_default() += 1;
    }

    /// 16 counts for each room that gives it though the others are ample.
    fn count_room(&mut self, call: &Call, answer: Answer) {
        let file = match answer {
            Answer::Refused { number: 16, file, .. } => file as usize,
            _ => return,
        };
        if file == 0 {
            self.rooms[if is_merge(call.entry) { 9 } else { 8 }] += 1;
            return;
        }
        for room in ROOMS_OF[file] {
            let mut alone = call.case.clone();
            for other in ROOMS_OF[file].iter().filter(|other| *other != room) {
                *alone.rooms.number_mut(*other) = AMPLE;
            }
            let again = if file == 5 { answer } else { alone.check().answer };
            if again == answer {
                self.rooms[*room] += 1;
            }
        }
    }

    fn count_connection(&mut self, case: &Case, answer: Answer) {
        if let (Answer::Violated { kind: 5, position, inequality, .. }, Some(tables)) = (answer, case.check().tables) {
            let connection = tables.constraints.chunks(6).filter(|entry| entry[0] == 5).nth(position);
            if let Some(entry) = connection {
                *self.connections.entry((inequality, entry[5])).or_default() += 1;
            }
        }
    }

    fn count_peaks(&mut self, case: &Case, greatest: i64, [before, drawn]: [usize; 2]) {
        let mut met = vec![match drawn {
            _ if (case.h as usize) < QUARTER => Peaked::OneCut,
            0 => Peaked::First,
            last if (case.h as usize) < QUARTER * (last + 1) => Peaked::LastCut,
            _ => Peaked::Later,
        }];
        if greatest > 0 && drawn_quarters(case).iter().filter(|sum| **sum == greatest).count() > 1 {
            met.push(Peaked::Equal);
        }
        if before != drawn {
            met.push(Peaked::Apart);
        }
        for peaked in met {
            *self.peaks.entry(peaked).or_default() += 1;
        }
    }

    pub fn add(&mut self, other: &Coverage) {
        add_counts(&mut self.answers, &other.answers);
        add_counts(&mut self.connections, &other.connections);
        add_counts(&mut self.shown, &other.shown);
        add_counts(&mut self.peaks, &other.peaks);
        add_counts(&mut self.marks, &other.marks);
        add_counts(&mut self.editions, &other.editions);
        add_counts(&mut self.tallies, &other.tallies);
        add_counts(&mut self.duties, &other.duties);
        for (room, count) in other.rooms.iter().enumerate() {
            self.rooms[room] += count;
        }
    }

    /// The cells that the entries can reach and that are empty.
    pub fn empty_cells(&self, entries: &[Entry]) -> Vec<String> {
        let mut empty = Vec::new();
        for entry in entries {
            for target in targets(*entry) {
                if !self.answers.contains_key(&(*entry, target)) {
                    empty.push(format!("{}: {target:?}", entry.name()));
                }
            }
        }
        let judging = entries.iter().any(|entry| entry.is_judging());
        for (inequality, anchor) in [(1, 1), (1, 2), (2, 1), (2, 2)] {
            if judging && !self.connections.contains_key(&(inequality, anchor)) {
                empty.push(format!("connection of type {anchor}, inequality {inequality}"));
            }
        }
        for (room, name) in ROOMS.iter().enumerate() {
            if self.rooms[room] == 0 && entries.iter().any(|entry| lends(*entry, room)) {
                empty.push(format!("16 for want of room for {name}"));
            }
        }
        for (shown, name) in SHOWN {
            if entries.contains(&Entry::Row) && !self.shown.contains_key(&shown) {
                empty.push(format!("row: {name}"));
            }
        }
        for (peaked, name) in PEAKED {
            if entries.contains(&Entry::Energy) && !self.peaks.contains_key(&peaked) {
                empty.push(format!("peaks: {name}"));
            }
        }
        empty.extend(marks::cells(entries).into_iter().filter(|(cell, _)| !self.marks.contains_key(cell)).map(|(_, name)| name));
        let editions = if judging { editions::cells() } else { Vec::new() };
        empty.extend(editions.into_iter().filter(|(cell, _)| !self.editions.contains_key(cell)).map(|(_, name)| name));
        empty.extend(tallies::cells(entries).into_iter().filter(|(cell, _)| !self.tallies.contains_key(cell)).map(|(_, name)| name));
        empty.extend(duties::cells(entries).into_iter().filter(|(cell, _)| !self.duties.contains_key(cell)).map(|(_, name)| name));
        empty
    }

    fn total(&self, is_counted: impl Fn(Entry, Target) -> bool) -> usize {
        self.answers.iter().filter(|((entry, target), _)| is_counted(*entry, *target)).map(|(_, count)| count).sum()
    }

    fn entries(&self, out: &mut fmt::Formatter) -> fmt::Result {
        writeln!(out, "{:24}{:>10}{:>10}{:>10}", "entry", "accepted", "violated", "refused")?;
        for entry in Entry::JUDGING {
            let accepted = self.total(|e, target| e == entry && target == Target::Accepted);
            let violated = self.total(|e, target| e == entry && matches!(target, Target::Violated { .. }));
            let refused = self.total(|e, target| e == entry && matches!(target, Target::Refused { .. }));
            writeln!(out, "{:24}{accepted:>10}{violated:>10}{refused:>10}", entry.name())?;
        }
        let accepted = self.total(|entry, target| entry == Entry::Duties && target == Target::Accepted);
        let broken = self.total(|_, target| matches!(target, Target::Broken { .. }));
        let refused = self.total(|_, target| matches!(target, Target::Refused { file: DUTIES, .. }));
        writeln!(out, "{:24}{accepted:>10}{broken:>10}{refused:>10}", "duties")?;
        for (shown, name) in SHOWN {
            writeln!(out, "row, {name:24}{:>8}", self.shown.get(&shown).unwrap_or(&0))?;
        }
        for (peaked, name) in PEAKED {
            writeln!(out, "peaks, {name:27}{:>8}", self.peaks.get(&peaked).unwrap_or(&0))?;
        }
        Ok(())
    }

    fn refusals(&self, out: &mut fmt::Formatter) -> fmt::Result {
        write!(out, "{:10}", "refusal")?;
        for file in 0..=DUTIES {
            write!(out, "{:>8}", format!("file {file}"))?;
        }
        writeln!(out)?;
        for number in NUMBERS {
            write!(out, "{number:>10}")?;
            for file in 0..=DUTIES {
                let count = self.total(|_, target| target == Target::Refused { number, file });
                let cell = match why_empty(number, file) {
                    Some(Why::NoInput(_)) => String::from("-"),
                    Some(Why::NoSmallText(_)) => String::from("*"),
                    None => count.to_string(),
                };
                write!(out, "{cell:>8}")?;
            }
            writeln!(out)?;
        }
        Ok(())
    }

    /// What quotes and CR LF did.
    fn marks(&self, out: &mut fmt::Formatter) -> fmt::Result {
        let count = |cell: marks::Cell| self.marks.get(&cell).copied().unwrap_or_default();
        write!(out, "{:30}", "quotes and CR LF")?;
        for file in marks::files() {
            write!(out, "{:>8}", format!("file {file}"))?;
        }
        writeln!(out)?;
        for (met, name) in marks::IN_FILE {
            write!(out, "{name:30}")?;
            for file in marks::files() {
                write!(out, "{:>8}", count(marks::Cell::OfFile(met, file)))?;
            }
            writeln!(out)?;
        }
        for (met, name) in marks::IN_CALL {
            writeln!(out, "{name:54}{:>8}", count(marks::Cell::OfCall(met)))?;
        }
        Ok(())
    }

    /// What the edition did.
    fn editions(&self, out: &mut fmt::Formatter) -> fmt::Result {
        let count = |cell: editions::Cell| self.editions.get(&cell).copied().unwrap_or_default();
        let [first, second] = editions::KNOWN;
        writeln!(out, "{:46}{:>8}{:>8}", "edition", first, second)?;
        for (met, name) in editions::MET {
            let [first, second] = editions::KNOWN.map(|edition| count(editions::Cell::Known(met, edition)));
            writeln!(out, "{name:46}{first:>8}{second:>8}")?;
        }
        for edition in editions::UNKNOWN {
            writeln!(out, "21 for edition {edition:39}{:>8}", count(editions::Cell::Unknown(edition)))?;
        }
        Ok(())
    }

    /// How much was tested.
    fn tallies(&self, out: &mut fmt::Formatter) -> fmt::Result {
        let heads: String = Entry::JUDGING.iter().map(|entry| format!("{:>15}", entry.name())).collect();
        writeln!(out, "{:40}{heads}", "tests")?;
        for (met, name) in tallies::all() {
            write!(out, "{name:40}")?;
            for entry in Entry::JUDGING {
                let count = self.tallies.get(&(entry, met)).copied().unwrap_or_default();
                let cell = if tallies::is_reached(entry, met) { count.to_string() } else { String::from("-") };
                write!(out, "{cell:>15}")?;
            }
            writeln!(out)?;
        }
        Ok(())
    }

    /// What duties met: each rule, then what stands in their table.
    fn duties(&self, out: &mut fmt::Formatter) -> fmt::Result {
        writeln!(out, "duties")?;
        for rule in RULES {
            let count = self.total(|_, target| target == Target::Broken { rule });
            writeln!(out, "{:54}{count:>8}", format!("rule {rule}"))?;
        }
        for (met, name) in duties::all() {
            writeln!(out, "{name:54}{:>8}", self.duties.get(&met).unwrap_or(&0))?;
        }
        Ok(())
    }

    fn violations(&self, out: &mut fmt::Formatter) -> fmt::Result {
        writeln!(out, "{:24}{:>10}{:>10}", "kind, inequality", "file 4", "file 5")?;
        for (kind, inequalities) in INEQUALITIES {
            for inequality in inequalities.iter().copied() {
                let count = |file| self.total(|_, target| target == Target::Violated { kind, inequality, file });
                writeln!(out, "{:24}{:>10}{:>10}", format!("{kind}, {inequality}"), count(4), count(5))?;
            }
        }
        for ((inequality, anchor), count) in &self.connections {
            let anchor = if *anchor == 1 { "arrival_to_departure" } else { "departure_to_departure" };
            writeln!(out, "5, {inequality}, {anchor:32}{count:>7}")?;
        }
        Ok(())
    }
}

fn add_counts<K: Copy + Ord>(counts: &mut BTreeMap<K, usize>, more: &BTreeMap<K, usize>) {
    for (cell, count) in more {
        *counts.entry(*cell).or_default() += count;
    }
}

/// The sums of the quarters drawn, off the curves.
fn drawn_quarters(case: &Case) -> Vec<i64> {
    let curves = case.energy().curves.unwrap_or_default();
    let h = case.h as usize;
    let drawn = |second: usize| -> i64 { curves.iter().skip(second).step_by(h).map(|power| i64::from(*power).max(0)).sum() };
    (0..h).step_by(QUARTER).map(|first| (first..h.min(first + QUARTER)).map(drawn).sum()).collect()
}

/// Whether an entry is lent the room.
fn lends(entry: Entry, room: usize) -> bool {
    match (entry, room) {
        (Entry::Row | Entry::Duties, _) => false,
        (_, 0..=6) => true,
        (Entry::Energy, 8) => true,
        (entry, 7 | 9) => is_merge(entry),
        _ => false,
    }
}

/// Why no call meets a cell.
enum Why {
    NoInput(&'static str),
    NoSmallText(&'static str),
}

/// The reason that a cell of refusals is empty, if no small input can reach it.
fn why_empty(number: u32, file: u32) -> Option<Why> {
    if FILES.iter().any(|(n, files)| *n == number && files.contains(&file)) {
        return None;
    }
    Some(match (number, file) {
        (1 | 21, _) => Why::NoInput("1 and 21 are about H and the edition, which stand in no file"),
        (_, 0) => Why::NoInput("file 0 is for H, the edition, the curves' room and the merged text's room"),
        (2, _) => Why::NoSmallText("2 wants a text past 64 MiB: host/compare large"),
        (_, DUTIES) => Why::NoInput("duties have 2, 3, 4, 5, 6, 10 and 16 alone"),
        (3 | 4 | 8, 3) => Why::NoInput("constraints.json has no header and no rows"),
        (8, _) => Why::NoInput("8 is about a nominal, which profiles do not have"),
        (9..=11, _) => Why::NoInput("9, 10 and 11 are about JSON"),
        (12, 2) => Why::NoInput("12 is about the timetable's lists and the constraints' legs"),
        (12 | 13 | 15, _) => Why::NoInput("12, 13 and 15 are tested over the timetable's rows, not over a solution's (reading 3)"),
        (14, _) => Why::NoInput("14 is about a solution beside the draft"),
        _ => Why::NoInput("17 lies in the second solution"),
    })
}

/// Limits that small texts do not reach, within cells that other inputs fill.
const LARGER: &str =
    "6 past 32,768 legs, 1,048,576 configurations or samples, 16,384 profiles, 65,536 constraints, 4,096 tracks, 8,192 rows of duties wants large \
texts: host/compare large";

impl fmt::Display for Coverage {
    fn fmt(&self, out: &mut fmt::Formatter) -> fmt::Result {
        self.entries(out)?;
        self.refusals(out)?;
        let mut reasons = Vec::new();
        for cell in NUMBERS.into_iter().flat_map(|number| (0..=DUTIES).map(move |file| (number, file))) {
            let reason = match why_empty(cell.0, cell.1) {
                Some(Why::NoInput(reason)) => format!("  - {reason}"),
                Some(Why::NoSmallText(reason)) => format!("  * {reason}"),
                None => continue,
            };
            if !reasons.contains(&reason) {
                reasons.push(reason);
            }
        }
        for reason in reasons {
            writeln!(out, "{reason}")?;
        }
        writeln!(out, "  * {LARGER}")?;
        self.violations(out)?;
        self.tallies(out)?;
        self.marks(out)?;
        self.editions(out)?;
        self.duties(out)?;
        for (room, name) in ROOMS.iter().enumerate() {
            writeln!(out, "16 for want of room for {name:16}{:>6}", self.rooms[room])?;
        }
        Ok(())
    }
}
