//! The command, for files of any legal size. Exit status: 0 accepted, 1 violation, 2 refused, 3 could not run.

mod command;

use command::identity::Built;
use std::process::ExitCode;

/// What is linked: build.rs takes no other library.
const LINKED: &str = "proved library";

/// What build.rs names.
const BUILT: Built = Built {
    commit: env!("WAGONTULIP_COMMIT"),
    tree: env!("WAGONTULIP_TREE"),
    toolchain: env!("WAGONTULIP_TOOLCHAIN"),
    archive_sha256: env!("WAGONTULIP_ARCHIVE_SHA256"),
};

fn main() -> ExitCode {
    command::main()
}
