//! The benchmark: check and energy on the largest underground instance and on the worst legal file, by every side, as ratios of one run.
//!
//!     whole [RUNS [SMALLER]]  every instance so many times smaller, to try it out
//!     whole stack             how much stack the proved entries take

mod bench;
mod command;
mod folder;
mod instance;
mod measure;
mod memory;
mod pandas;
mod sides;
mod stack;
mod tables;

use std::path::Path;
use std::process::ExitCode;

const USAGE: &str = "whole [RUNS [SMALLER]]";
const RUNS: usize = 15;

fn main() -> ExitCode {
    let words: Vec<String> = std::env::args().skip(1).collect();
    let words: Vec<&str> = words.iter().map(String::as_str).collect();
    let done = match words[..] {
        [] => bench::print(RUNS, 1),
        ["memory", side, folder, h] => {
            h.parse().map_err(|_| String::from("H")).and_then(|h| memory::run(side, Path::new(folder), h)).map(|said| print!("{said}"))
        }
        ["stack"] => stack::print(),
        ["stack", entry, legs, levels] => match (legs.parse(), levels.parse()) {
            (Ok(legs), Ok(levels)) => stack::run(entry, legs, levels),
            _ => Err(String::from("stack")),
        },
        [runs] => asked(runs, "1"),
        [runs, smaller] => asked(runs, smaller),
        _ => Err(String::from(USAGE)),
    };
    match done {
        Ok(()) => ExitCode::SUCCESS,
        Err(why) => {
            eprintln!("whole: {why}");
            ExitCode::FAILURE
        }
    }
}

fn asked(runs: &str, smaller: &str) -> Result<(), String> {
    match (runs.parse(), smaller.parse()) {
        (Ok(runs), Ok(smaller)) if runs > 0 && smaller > 0 => bench::print(runs, smaller),
        _ => Err(String::from(USAGE)),
    }
}
