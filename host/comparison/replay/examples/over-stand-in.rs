//! `replay` over the stand-in: with it the way of a comparison is tried where there is no proved archive. Nothing proved is compared by it.

use replay::{run, Exports};
use std::io::{stdin, stdout};
use std::process::ExitCode;

const STAND_IN: Exports = Exports {
    check: stand_in::wagontulip_check,
    energy: stand_in::wagontulip_energy,
    merge_earlier: stand_in::wagontulip_merge_earlier,
    merge_later: stand_in::wagontulip_merge_later,
    row: stand_in::wagontulip_row,
    duties: stand_in::wagontulip_duties,
};

fn main() -> ExitCode {
    match run(&STAND_IN, &mut stdin().lock(), &mut stdout().lock()) {
        Ok(()) => ExitCode::SUCCESS,
        Err(failure) => {
            eprintln!("replay: {failure}");
            ExitCode::FAILURE
        }
    }
}
