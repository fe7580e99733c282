//! Output files: which may be written, and their texts.

use super::input::{identity, identity_of, Identity, Input};
use super::sha256::Hash;
use super::{printable, CouldNotRun};
use std::fs;
use std::io;
use std::os::unix::ffi::OsStrExt;
use std::os::unix::io::AsFd;
use std::path::{Path, PathBuf};

/// Before anything is judged: no output is an input, another output, or the file that the result is printed to, under whatever name, and none is a link, a
/// folder or a device.
pub fn judge(outputs: &[&Path], inputs: &[Input]) -> Result<(), CouldNotRun> {
    for (place, output) in outputs.iter().enumerate() {
        if let Some(why) = fault(output, &outputs[..place], inputs) {
            return Err(CouldNotRun(format!("output {}: {why}", printable(output))));
        }
    }
    Ok(())
}

/// Why an output cannot be written, if the outputs before it can.
fn fault(output: &Path, before: &[&Path], inputs: &[Input]) -> Option<&'static str> {
    match fs::symlink_metadata(output) {
        Ok(data) if data.is_symlink() => return Some("is a symbolic link"),
        Ok(data) if !data.is_file() => return Some("is no regular file"),
        _ if !names_a_file(output) => return Some("is no name of a file"),
        _ => (),
    }
    let target = match target(output) {
        Some(target) => target,
        None => return Some("its folder is not there"),
    };
    let there = identity(&target);
    if inputs.iter().any(|input| there == Some(input.identity)) {
        return Some("is an input");
    }
    if there.is_some() && there == printed_to() {
        return Some("is where the result is printed");
    }
    before.iter().any(|earlier| same(&target, earlier)).then_some("is named twice")
}

/// The file that standard output is, which a rename would take from under the result.
fn printed_to() -> Option<Identity> {
    let out = fs::File::from(io::stdout().as_fd().try_clone_to_owned().ok()?);
    out.metadata().ok().map(|data| identity_of(&data))
}

/// `o/` and `o/.` are names of a folder.
fn names_a_file(path: &Path) -> bool {
    path.file_name().map_or(false, |name| path.as_os_str().as_bytes().ends_with(name.as_bytes()))
}

/// The name with its folder's links followed, which a file that is not there yet has too.
pub fn target(path: &Path) -> Option<PathBuf> {
    let folder = match path.parent() {
        Some(folder) if folder != Path::new("") => folder,
        _ => Path::new("."),
    };
    Some(fs::canonicalize(folder).ok()?.join(path.file_name()?))
}

fn same(one: &Path, other: &Path) -> bool {
    let one_file = identity(one).is_some() && identity(one) == identity(other);
    one_file || target(other).map_or(false, |other| other == one)
}

/// A text and the file it is for.
pub struct Output<'a> {
    /// What the text is.
    pub role: &'static str,
    pub path: &'a Path,
    pub text: Vec<u8>,
}

impl Output<'_> {
    pub fn name(&self) -> &[u8] {
        self.path.as_os_str().as_bytes()
    }

    /// Bytes and SHA-256 of the text.
    pub fn evidence(&self) -> (u64, String) {
        Hash::new().with(&self.text).ended()
    }
}
