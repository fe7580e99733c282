//! The program `replay`: calls from standard input through the proved library's archive, a line for each on standard output.

use replay::exports::{
    wagontulip_check, wagontulip_duties, wagontulip_energy, wagontulip_merge_earlier, wagontulip_merge_later, wagontulip_row,
};
use replay::{run, Exports};
use std::io::{stdin, stdout};
use std::process::ExitCode;

/// The functions of the archive.
const PROVED: Exports = Exports {
    check: wagontulip_check,
    energy: wagontulip_energy,
    merge_earlier: wagontulip_merge_earlier,
    merge_later: wagontulip_merge_later,
    row: wagontulip_row,
    duties: wagontulip_duties,
};

fn main() -> ExitCode {
    match run(&PROVED, &mut stdin().lock(), &mut stdout().lock()) {
        Ok(()) => ExitCode::SUCCESS,
        Err(failure) => {
            eprintln!("replay: {failure}");
            ExitCode::FAILURE
        }
    }
}
