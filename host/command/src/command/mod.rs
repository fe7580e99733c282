//! The parts of the command, in the order in which a call goes through them.

mod arguments;
mod input;
mod output;
mod place;
mod run;
mod told;

mod duties;
mod energies;
pub mod identity;
mod json;
mod refusal;
mod sha256;
mod tested;
mod violation;

use std::ffi::{OsStr, OsString};
use std::io::Write;
use std::os::unix::ffi::OsStrExt;
use std::panic;
use std::process::ExitCode;

/// Why there is no answer: status 3.
#[derive(Debug, PartialEq, Eq)]
pub struct CouldNotRun(pub String);

/// The whole command. The program around it says in `LINKED` whose exports it has.
pub fn main() -> ExitCode {
    // A panic is a fault of the command, and no verdict.
    let ended = panic::catch_unwind(done).unwrap_or_else(|_| Err(CouldNotRun(String::from("the command failed"))));
    match ended {
        Ok(status) => ExitCode::from(status),
        Err(CouldNotRun(why)) => {
            say_none(&why);
            ExitCode::from(told::COULD_NOT_RUN)
        }
    }
}

/// Why there is no answer, on the error stream, and as an object where one is asked for. Where nothing can be said, the status alone says it; after a part
/// of a result nothing more is printed.
fn say_none(why: &str) {
    let _ = writeln!(std::io::stderr(), "wagontulip: {why}");
    let words: Vec<OsString> = std::env::args_os().skip(1).collect();
    if arguments::asks_for_json(&words) && !why.starts_with(NOT_PRINTED) {
        let _ = printed(told::none_object(words.first().map(OsString::as_os_str), why).as_bytes());
    }
}

const NOT_PRINTED: &str = "the result could not be printed";

/// Does what the words ask for, prints the result, gives the outputs their names, and gives the status. A result that cannot be printed whole is none, and
/// then nothing is written either.
fn done() -> Result<u8, CouldNotRun> {
    let ran = run::run(&arguments::read(std::env::args_os().skip(1).collect())?)?;
    printed(&ran.told.text).map_err(|error| CouldNotRun(format!("{NOT_PRINTED}: {error}")))?;
    ran.outputs.named()?;
    Ok(ran.told.status)
}

fn printed(text: &[u8]) -> std::io::Result<()> {
    let mut out = std::io::stdout();
    out.write_all(text)?;
    out.flush()
}

/// Seconds since the horizon's start as hours, minutes and seconds; a day may go past midnight.
fn clock(seconds: u32) -> String {
    format!("{:02}:{:02}:{:02}", seconds / 3_600, seconds / 60 % 60, seconds % 60)
}

/// The seconds, and the clock.
fn time(seconds: u32) -> String {
    format!("{seconds} s ({})", clock(seconds))
}

/// Printable on any terminal, and on one line: a byte that is not becomes `\xNN`.
fn escaped(bytes: &[u8]) -> String {
    bytes.iter().map(|byte| if matches!(byte, b' '..=b'~') { char::from(*byte).to_string() } else { format!("\\x{byte:02x}") }).collect()
}

/// A file's name, or a word of the call, whatever it is.
fn printable(name: impl AsRef<OsStr>) -> String {
    escaped(name.as_ref().as_bytes())
}

#[cfg(test)]
mod tests {
    use super::*;

    #[test]
    fn the_clock_goes_past_midnight() {
        assert_eq!(clock(0), "00:00:00");
        assert_eq!(time(90_850), "90850 s (25:14:10)");
    }

    #[test]
    fn a_name_stays_on_its_line() {
        assert_eq!(printable("a b\nanswer: accepted"), "a b\\x0aanswer: accepted");
        assert_eq!(printable(OsStr::from_bytes(b"\x1b[2J\x7f\x9b\xff")), "\\x1b[2J\\x7f\\x9b\\xff");
    }
}
