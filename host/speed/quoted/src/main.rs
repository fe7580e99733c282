//! Quoted CSV files beside plain ones, and the proved library beside an earlier one. Each side is this program, linked to an archive of its own; a third process
//! asks them by turns.
//!
//!     quoted RUNS NOW [BEFORE]    the programs of this library and of the earlier one
//!     quoted                      a side: it answers jobs

mod files;
mod jobs;
mod sides;

use files::{Files, Rows, Spelling, ROWS};
use jobs::{jobs, Job, Stage};
use sides::Side;
use std::process::ExitCode;

/// Milliseconds.
type Ms = f64;

fn main() -> ExitCode {
    let words: Vec<String> = std::env::args().skip(1).collect();
    let done = match &words[..] {
        [] => jobs::answer(),
        [runs, now, before @ ..] if before.len() < 2 => measured(runs, now, before.first()),
        _ => Err(String::from("quoted RUNS NOW [BEFORE]")),
    };
    match done {
        Ok(()) => ExitCode::SUCCESS,
        Err(why) => {
            eprintln!("quoted: {why}");
            ExitCode::FAILURE
        }
    }
}

fn measured(runs: &str, now: &str, before: Option<&String>) -> Result<(), String> {
    let runs: usize = runs.parse().map_err(|_| format!("no number of runs: {runs}"))?;
    let mut now = Side::start(now)?;
    let mut before = before.map(|program| Side::start(program)).transpose()?;
    for _ in 0..runs {
        for (number, job) in jobs().iter().enumerate() {
            if let (Some(before), Spelling::Plain) = (&mut before, job.spelling) {
                before.ask(number)?;
            }
            now.ask(number)?;
        }
    }
    println!("Best of {runs}, by turns, time of the thread. The last column is the time of a byte of the quoted text over that of the plain one.\n");
    println!("| text | MB | before, ms | now, ms | now over before | quoted, MB | now, ms | quoted over plain |\n|{}", "-|".repeat(8));
    for (name, bytes, time) in READ {
        for (rows, length) in ROWS {
            println!("| {name}, {length} | {} |", cells(rows, bytes, time, &now, before.as_ref()));
        }
    }
    Ok(())
}

/// What is read, how long it is, and how its time is told from the stages'.
type Read = (&'static str, fn(&Files) -> usize, fn(&dyn Fn(Stage) -> Ms) -> Ms);

const READ: [Read; 3] = [
    ("draft", |files| files.draft.len(), |of| of(Stage::Draft) - of(Stage::Nothing)),
    ("solution", |files| files.solution.len(), |of| of(Stage::Solution) - (of(Stage::NoSolution) - of(Stage::Nothing))),
    ("profiles", |files| files.profiles.len(), |of| of(Stage::Profiles) - of(Stage::Nothing)),
];

fn cells(rows: Rows, bytes: fn(&Files) -> usize, time: fn(&dyn Fn(Stage) -> Ms) -> Ms, now: &Side, before: Option<&Side>) -> String {
    let took = |side: &Side, spelling: Spelling| time(&|stage| side.best(Job { rows, spelling, stage }));
    let length = |spelling: Spelling| bytes(&Files::new(rows, spelling)) as f64;
    let (plain, quoted) = (took(now, Spelling::Plain), took(now, Spelling::Quoted));
    let (short, long) = (length(Spelling::Plain), length(Spelling::Quoted));
    let before = before.map(|side| took(side, Spelling::Plain));
    let earlier = before.map_or(String::from("-"), |before| format!("{before:.3}"));
    let over = before.map_or(String::from("-"), |before| format!("**{:.2}**", plain / before));
    let byte = quoted / long / (plain / short);
    format!("{:.2} | {earlier} | {plain:.3} | {over} | {:.2} | {quoted:.3} | **{byte:.2}**", short / 1e6, long / 1e6)
}
