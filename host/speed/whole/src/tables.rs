//! The tables that are printed: a row for each stage or instance, a column for each side.

use crate::instance::Instance;
use crate::measure::{Ms, Times};
use crate::sides::NAMES;

/// An instance with the times of every column: the sides of Rust, then pandas, where it is there.
pub struct Measured {
    pub instance: Instance,
    pub times: Vec<Option<Times>>,
}

const YARDSTICK: usize = 0;
pub const PROVED: usize = 1;
const PANDAS: usize = NAMES.len();
const NONE: &str = "-";

/// A part of the work: its name, the bytes that it reads, 0 where it reads none, and its time.
pub type Part = (&'static str, fn(&Instance) -> usize, fn(&Times) -> Ms);

pub const CONSTRAINTS: Part = ("constraints, 15", |instance| instance.constraints.len(), Times::of_constraints);
pub const SOLUTION: Part = ("solution, 14, verdict", |instance| instance.solution.len(), Times::of_solution);
pub const CHECK: Part = ("check in all", Instance::bytes, |times| times.check);
pub const ENERGY: Part = ("energy in all", Instance::bytes, |times| times.energy);

pub const PARTS: [Part; 7] = [
    ("timetable", |instance| instance.timetable.len(), Times::of_timetable),
    ("profiles, 12 and 13", |instance| instance.profiles.len(), Times::of_profiles),
    CONSTRAINTS,
    SOLUTION,
    ("curves and sums", |_| 0, Times::of_curves),
    CHECK,
    ENERGY,
];

/// The parts one after the other; in brackets MB/s, where anything is read, and times the yardstick.
pub fn print_parts(title: &str, measured: &Measured, parts: &[Part]) {
    print_head(&format!("{title}, {} legs", measured.instance.legs), &["stage", "MB"]);
    for (name, bytes, of) in parts {
        let bytes = Some(bytes(&measured.instance) as f64).filter(|bytes| *bytes > 0.0);
        let megabytes = bytes.map_or(String::new(), |bytes| format!("{:.1}", bytes / 1e6));
        print_row(&format!("{name} | {megabytes}"), measured, *of, |ms| bytes.map(|bytes| format!("{:.0}", bytes / 1e3 / ms)));
    }
}

/// How one part grows with the legs; in brackets microseconds a leg and times the yardstick.
pub fn print_growth(grown: &[(&str, Measured)], (name, bytes, of): Part) {
    print_head(&format!("Growth of {name}"), &["legs", "ids", "MB"]);
    for (ids, measured) in grown {
        let legs = measured.instance.legs;
        let lead = format!("{legs} | {ids} | {:.1}", bytes(&measured.instance) as f64 / 1e6);
        print_row(&lead, measured, of, |ms| Some(format!("{:.2}", 1e3 * ms / legs as f64)));
    }
}

/// The columns of the sides come behind the leading ones.
fn print_head(title: &str, leading: &[&str]) {
    let sides = NAMES.iter().chain(&["pandas"]).map(|name| format!("{name}, ms"));
    let names: Vec<String> = leading.iter().map(|name| name.to_string()).chain(sides).chain([String::from("pandas over proved")]).collect();
    println!("\n{title}.\n\n| {} |\n|{}", names.join(" | "), "-|".repeat(names.len()));
}

/// A stage's time is a difference, and times jitter: one that is less than nothing is not told.
fn print_row(lead: &str, measured: &Measured, of: fn(&Times) -> Ms, rate: impl Fn(Ms) -> Option<String>) {
    let times: Vec<Option<Ms>> = measured.times.iter().map(|times| times.as_ref().map(of).filter(|ms| *ms > 0.0)).collect();
    let cells: Vec<String> = times
        .iter()
        .enumerate()
        .map(|(column, ms)| ms.map_or(NONE.into(), |ms| cell(ms, rate(ms), times[YARDSTICK].filter(|_| column != YARDSTICK))))
        .collect();
    let over = times[PANDAS].zip(times[PROVED]).map_or(NONE.into(), |(pandas, proved)| format!("{:.2}", pandas / proved));
    println!("| {lead} | {} | {over} |", cells.join(" | "));
}

fn cell(ms: Ms, rate: Option<String>, yardstick: Option<Ms>) -> String {
    let beside: Vec<String> = rate.into_iter().chain(yardstick.map(|yardstick| format!("{:.2}", ms / yardstick))).collect();
    if beside.is_empty() {
        format!("{ms:.2}")
    } else {
        format!("{ms:.2} ({})", beside.join("; "))
    }
}
