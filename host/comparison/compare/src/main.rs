//! The comparison of the proved library and the command with the independent program.

use compare::command::Command;
use compare::comparison::{self, Plan};
use compare::executor::{Nobody, Replay};
use compare::{expected, folder, input, large};
use independent::{Entry, Stated};
use std::path::{Path, PathBuf};
use std::process::ExitCode;

const USAGE: &str =
    "compare calls SEED COUNT [ENTRIES] -- PROGRAM...    calls that no seed changes and seeded ones, through the program replay
compare large -- PROGRAM...                         limits that want large texts, through it
compare folder DIR HORIZON EDITION -- PROGRAM...    instances in the published layout, through it
compare command SEED COUNT [ENTRIES] -- PROGRAM...  seeded calls through the command, one process each
compare cover SEED COUNT [ENTRIES]                  the same calls through no program: their coverage alone
compare answers                                     standard input as replay reads it, answered by the independent program
ENTRIES are numbers of entries, as 1,5; all of them where they are not given.";

fn main() -> ExitCode {
    let words: Vec<String> = std::env::args().skip(1).collect();
    match run(&words) {
        Ok(said) => {
            print!("{said}");
            ExitCode::SUCCESS
        }
        Err(message) => {
            eprintln!("compare: {message}");
            ExitCode::FAILURE
        }
    }
}

fn run(words: &[String]) -> Result<String, String> {
    let end = words.iter().position(|word| word == "--").unwrap_or(words.len());
    let program = words.get(end + 1..).unwrap_or_default().to_vec();
    let command = Command { words: program.clone() };
    let replay = Replay::new(program);
    let words: Vec<&str> = words[..end].iter().map(String::as_str).collect();
    match words[..] {
        ["calls", seed, count, ref rest @ ..] => {
            let plan = plan(seed, count, rest)?;
            let told = comparison::told(&replay, &plan)?;
            input::compare(&replay)?;
            Ok(told)
        }
        ["command", seed, count, ref rest @ ..] => comparison::told(&command, &Plan { whole: false, ..plan(seed, count, rest)? }),
        ["cover", seed, count, ref rest @ ..] => comparison::told(&Nobody, &plan(seed, count, rest)?),
        ["answers"] => {
            expected::answer(std::io::stdin().lock(), std::io::stdout().lock()).map(|()| String::new()).map_err(|e| e.to_string())
        }
        ["large"] => large::compare(&replay),
        ["folder", dir, horizon, edition] => {
            let stated = Stated { horizon: number(horizon)? as u32, edition: number(edition)? as u32 };
            folder::compare(Path::new(dir), stated, &replay)
        }
        _ => Err(String::from(USAGE)),
    }
}

fn plan(seed: &str, count: &str, rest: &[&str]) -> Result<Plan, String> {
    Ok(Plan {
        seed: number(seed)?,
        count: number(count)? as usize,
        entries: entries(rest)?,
        whole: true,
        folder: PathBuf::from("target/differences"),
    })
}

fn entries(rest: &[&str]) -> Result<Vec<Entry>, String> {
    match rest {
        [] => Ok(Entry::ALL.to_vec()),
        [list] => list.split(',').map(entry).collect(),
        _ => Err(String::from(USAGE)),
    }
}

fn entry(word: &str) -> Result<Entry, String> {
    let number = number(word)?;
    let found = Entry::ALL.into_iter().find(|entry| compare::block::number_of(*entry) == number);
    found.ok_or_else(|| format!("no entry has the number {number}"))
}

fn number(word: &str) -> Result<u64, String> {
    word.parse().map_err(|_| format!("no number: {word}"))
}
