//! The command's own time: the processor's for `./wagontulip check` and all that it starts, on the files of a folder.

use crate::folder::FILES;
use crate::measure::Ms;
use std::path::Path;
use std::process::{Command, Stdio};
use std::thread;
use std::time::Duration;
use yardstick::clock;

const PLAIN: &[&str] = &["check"];
const JSON: &[&str] = &["check", "--json"];

/// After so long the command believes the listing of what it was just made of.
const SETTLED: Duration = Duration::from_secs(3);

/// `library` is what the library's own check took.
pub fn print(folder: &Path, h: u32, runs: usize, library: Ms) -> Result<(), String> {
    // The first call makes the command where it has to.
    once(PLAIN, folder, h)?;
    thread::sleep(SETTLED);
    once(PLAIN, folder, h)?;
    let (mut plain, mut json) = (f64::INFINITY, f64::INFINITY);
    for _ in 0..runs {
        plain = plain.min(once(PLAIN, folder, h)?);
        json = json.min(once(JSON, folder, h)?);
    }
    println!("\nThe command on the same files: the processor's time for it and all that it starts.\n");
    println!("| call | ms | times the library's check | times `check` |\n|{}", "-|".repeat(4));
    for (call, took) in [(PLAIN, plain), (JSON, json)] {
        println!("| `{}` | {took:.1} | {:.2} | {:.2} |", call.join(" "), took / library, took / plain);
    }
    Ok(())
}

/// The answer must be an acceptance.
fn once(call: &[&str], folder: &Path, h: u32) -> Result<Ms, String> {
    let command = Path::new(env!("CARGO_MANIFEST_DIR")).join("../../../wagontulip");
    let before = clock::of_children();
    let mut called = Command::new(&command);
    called.args(call).arg("--horizon").arg(h.to_string()).args(FILES.map(|name| folder.join(name)));
    let status = called.stdout(Stdio::null()).status().map_err(|error| format!("{}: {error}", command.display()))?;
    let took = clock::of_children() - before;
    status.success().then_some(took.as_secs_f64() * 1e3).ok_or_else(|| format!("{}: {status}", command.display()))
}
