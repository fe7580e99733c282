//! The command over the stand-in, for its tests alone: every word and status is tried where there is no proved archive.

#[path = "../../src/command/mod.rs"]
mod command;

// The stand-in's exports are found because its crate is linked whole.
extern crate stand_in as _;

use command::identity::Built;
use std::process::ExitCode;

/// What is linked.
const LINKED: &str = "stand-in, not proved";

/// Nothing proved is in it, so there is nothing to name.
const BUILT: Built = Built { commit: "", tree: "no commit", toolchain: "none", archive_sha256: "none" };

fn main() -> ExitCode {
    command::main()
}
