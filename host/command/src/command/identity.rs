//! What this program is, for a signature: of which commit, by which toolchain, over which archive, and the program that runs.

use super::sha256::Hash;
use crate::{BUILT, LINKED};
use std::fs::File;
use std::io;

/// What build.rs names as the program is built, so that the program carries it. The program around the command has it in `BUILT`.
pub struct Built {
    /// Empty where the tree has none.
    pub commit: &'static str,
    pub tree: &'static str,
    pub toolchain: &'static str,
    pub archive_sha256: &'static str,
}

pub struct Identity {
    pub version: &'static str,
    /// Whose exports are linked.
    pub library: &'static str,
    pub commit: Option<&'static str>,
    /// Whether the files that the program is made of are those of the commit: "clean", "differs", or "no commit".
    pub tree: &'static str,
    /// What proved the library and wrote its archive.
    pub toolchain: &'static str,
    pub archive_sha256: &'static str,
    /// Of the program that runs; nothing where the system does not show it.
    pub program_sha256: Option<String>,
}

pub fn identity() -> Identity {
    Identity {
        version: env!("CARGO_PKG_VERSION"),
        library: LINKED,
        commit: Some(BUILT.commit).filter(|commit| !commit.is_empty()),
        tree: BUILT.tree,
        toolchain: BUILT.toolchain,
        archive_sha256: BUILT.archive_sha256,
        program_sha256: program_sha256().ok(),
    }
}

/// Linux shows a program its own file, also where its name was taken away meanwhile; the emulator shows the program that it runs, and not itself.
fn program_sha256() -> io::Result<String> {
    let mut hash = Hash::new();
    io::copy(&mut File::open("/proc/self/exe")?, &mut hash)?;
    Ok(hash.ended().1)
}

impl Identity {
    /// A line each.
    pub fn lines(&self) -> String {
        let Identity { version, library, tree, toolchain, archive_sha256, .. } = self;
        let commit = self.commit.unwrap_or("none");
        let program = self.program_sha256.as_deref().unwrap_or("not shown by this system");
        format!(
            "wagontulip {version} ({library})\ncommit: {commit}\ntree: {tree}\ntoolchain: {toolchain}\n\
             archive SHA-256: {archive_sha256}\nprogram SHA-256: {program}\n"
        )
    }
}

#[cfg(test)]
mod tests {
    use super::*;

    /// The test is the program that runs.
    #[test]
    fn the_program_is_the_one_that_runs() {
        let bytes = std::fs::read(std::env::current_exe().unwrap()).unwrap();
        assert_eq!(identity().program_sha256, Some(Hash::new().with(&bytes).ended().1));
    }

    #[test]
    fn a_line_each() {
        let known = Identity { commit: None, tree: "no commit", program_sha256: None, ..identity() };
        let lines = known.lines();
        let heads: Vec<&str> = lines.lines().map(|line| line.split(": ").next().unwrap_or(line)).collect();
        assert_eq!(heads[1..], ["commit", "tree", "toolchain", "archive SHA-256", "program SHA-256"]);
        assert!(lines.contains("\ncommit: none\ntree: no commit\n"), "{lines}");
    }
}
