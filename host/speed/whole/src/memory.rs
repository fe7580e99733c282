//! Peak memory of one run of a side, in a process of its own: this program again, over files.

use crate::folder::FILES;
use crate::sides::{self, Outcome};
use std::fs;
use std::path::Path;
use std::process::Command;
use yardstick::whole::Texts;

/// This program again. WAGONTULIP_RUNNER runs a program of another machine, and its own memory then counts too.
pub fn again() -> Option<Command> {
    let program = std::env::current_exe().ok()?;
    Some(match std::env::var("WAGONTULIP_RUNNER") {
        Ok(runner) => {
            let mut words = runner.split_whitespace();
            let mut call = Command::new(words.next()?);
            call.args(words).arg(program);
            call
        }
        Err(_) => Command::new(program),
    })
}

/// Bytes at the peak.
pub fn peak(side: &str, folder: &Path, h: u32) -> Option<f64> {
    let output = again()?.arg("memory").arg(side).arg(folder).arg(h.to_string()).output().ok()?;
    String::from_utf8(output.stdout).ok()?.trim().parse().ok()
}

/// What the process of its own does and prints.
pub fn run(side: &str, folder: &Path, h: u32) -> Result<String, String> {
    let read = |name: &str| fs::read(folder.join(name)).map_err(|error| format!("{name}: {error}"));
    let [timetable, profiles, constraints, solution] = FILES;
    let (timetable, profiles, constraints, solution) = (read(timetable)?, read(profiles)?, read(constraints)?, read(solution)?);
    let texts = Texts { timetable: &timetable, profiles: &profiles, constraints: &constraints, solution: &solution };
    let mut side = sides::one(side).ok_or("no such side")?;
    let (outcome, _) = side.energy(h, &texts);
    if outcome != Outcome::Accepted {
        return Err(format!("{outcome:?}"));
    }
    let status = fs::read_to_string("/proc/self/status").map_err(|error| error.to_string())?;
    let kilobytes = status.lines().find_map(|line| line.strip_prefix("VmHWM:")?.trim().strip_suffix(" kB")?.parse::<u64>().ok());
    kilobytes.map(|kilobytes| format!("{}\n", kilobytes * 1_024)).ok_or_else(|| String::from("no peak"))
}
