//! The command: runs the library on files. The status is 0 for every answer, and 1 where there is none.

use independent::numbers::Whole;
use independent::{check, check_duties, energy, merge, Answer, Direction, Rooms, Stated, Tally};
use std::io::Write;
use std::process::ExitCode;

const USAGE: &str = "independent check H EDITION T P C S
independent energy H EDITION T P C S
independent merge earlier|later H EDITION T P C A B
independent duties DUTIES";

fn main() -> ExitCode {
    let arguments: Vec<String> = std::env::args().skip(1).collect();
    let words: Vec<&str> = arguments.iter().map(String::as_str).collect();
    match run(&words) {
        Ok(output) => {
            let written = std::io::stdout().write_all(&output);
            if written.is_ok() {
                ExitCode::SUCCESS
            } else {
                ExitCode::FAILURE
            }
        }
        Err(message) => {
            eprintln!("{message}");
            ExitCode::FAILURE
        }
    }
}

/// What the command prints.
fn run(words: &[&str]) -> Result<Vec<u8>, String> {
    match words {
        ["check", h, edition, files @ ..] if files.len() == 4 => {
            let stated = stated(h, edition)?;
            let texts = texts(files)?;
            let checked = check(stated, &texts[0], &texts[1], &texts[2], &texts[3], &ample_rooms());
            Ok(line(&checked.answer, checked.tally))
        }
        ["energy", h, edition, files @ ..] if files.len() == 4 => {
            let stated = stated(h, edition)?;
            let texts = texts(files)?;
            let report = energy(stated, &texts[0], &texts[1], &texts[2], &texts[3], &ample_rooms());
            let figures = report.figures;
            let mut output = line(&report.answer, report.tally);
            output.extend(
                format!(
                    "before {} drawn {} lost {} fluctuation {} peak_before {} peak_drawn {}\n",
                    figures.before,
                    figures.drawn,
                    figures.lost,
                    figures.fluctuation,
                    figures.peak_before,
                    figures.peak_drawn
                )
                .into_bytes(),
            );
            Ok(output)
        }
        ["merge", direction, h, edition, files @ ..] if files.len() == 5 => {
            let direction = match *direction {
                "earlier" => Direction::Earlier,
                "later" => Direction::Later,
                _ => return Err(String::from(USAGE)),
            };
            let stated = stated(h, edition)?;
            let t = texts(files)?;
            let merged =
                merge(direction, stated, &t[0], &t[1], &t[2], &t[3], &t[4], &ample_rooms());
            let mut output = line(&merged.answer, merged.tally);
            output.extend(merged.text.unwrap_or_default());
            Ok(output)
        }
        ["duties", file] => {
            let text = &texts(&[file])?[0];
            let duties = check_duties(text, &ample_rooms());
            let mut output = line(&duties.answer, None);
            let nodes = duties.nodes.unwrap_or_default();
            for (node, balance) in nodes.chunks(2).zip(duties.balance.unwrap_or_default()) {
                let [place, length] = [node[0] as usize, node[1] as usize];
                output.extend_from_slice(&text[place..place + length]);
                output.extend(format!(" {balance}\n").into_bytes());
            }
            Ok(output)
        }
        _ => Err(String::from(USAGE)),
    }
}

/// Room for everything that document 01's sizes allow.
fn ample_rooms() -> Rooms {
    Rooms::all(67_108_864)
}

/// The answer as a line, with the tally of a verdict behind it.
fn line(answer: &Answer, tally: Option<Tally>) -> Vec<u8> {
    let counted = tally.map_or(String::new(), |tally| tally.words());
    format!("{}{counted}\n", answer.line()).into_bytes()
}

fn stated(h: &str, edition: &str) -> Result<Stated, String> {
    Ok(Stated { horizon: number("H", h)?, edition: number("EDITION", edition)? })
}

/// A whole number of the command's words. One past 32 bits is out of range or not known, as the
/// greatest of 32 bits is.
fn number(name: &str, word: &str) -> Result<u32, String> {
    let whole = Whole::parse(word.as_bytes()).ok_or_else(|| format!("{name} is no whole number: {word:?}"))?;
    Ok(whole.at_most(u32::MAX).unwrap_or(u32::MAX))
}

/// The contents of the files.
fn texts(files: &[&str]) -> Result<Vec<Vec<u8>>, String> {
    files.iter().map(|file| std::fs::read(file).map_err(|e| format!("{file:?}: {e}"))).collect()
}
