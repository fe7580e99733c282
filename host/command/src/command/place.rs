//! Output files, written whole or not at all: to a temporary file beside the named one, and renamed when the result was printed.

use super::output::{target, Output};
use super::{printable, CouldNotRun};
use std::fs;
use std::io::{self, ErrorKind, Write};
use std::os::unix::fs::{OpenOptionsExt, PermissionsExt};
use std::path::{Path, PathBuf};

/// So many names are tried for a temporary file, each of which another run may have left.
const NAMES: usize = 1_000;

/// What a file that is not there yet may have, short of the user's mask.
const NEW_MODE: u32 = 0o666;

/// Texts that are on the disk and wait for their names. Dropped, they are gone.
pub struct Waiting(Vec<Text>);

/// A temporary file of ours, and the name that it is for.
struct Text {
    temporary: PathBuf,
    target: PathBuf,
    /// As the call named it.
    shown: String,
    named: bool,
}

impl Waiting {
    pub fn nothing() -> Waiting {
        Waiting(Vec::new())
    }

    /// Every text is on the disk before the result is printed.
    pub fn written(outputs: &[Output]) -> Result<Waiting, CouldNotRun> {
        let targets: Vec<PathBuf> = outputs.iter().filter_map(|output| target(output.path)).collect();
        let mut waiting = Waiting::nothing();
        for output in outputs {
            waiting.write(output, &targets).map_err(|error| CouldNotRun(format!("output {}: {error}", printable(output.path))))?;
        }
        Ok(waiting)
    }

    /// The file is ours from when it is made, so that it goes where its text cannot be written.
    fn write(&mut self, output: &Output, targets: &[PathBuf]) -> io::Result<()> {
        let target = target(output.path).ok_or(ErrorKind::NotFound)?;
        let kept = fs::symlink_metadata(&target).ok().filter(|data| data.is_file()).map(|data| data.permissions());
        let mode = kept.as_ref().map_or(NEW_MODE, |kept| kept.mode());
        let (temporary, mut file) = made_beside(&target, targets, mode)?;
        self.0.push(Text { temporary, target, shown: printable(output.path), named: false });
        // The user's mask has taken from the mode.
        kept.map_or(Ok(()), |kept| file.set_permissions(kept))?;
        file.write_all(&output.text)?;
        file.sync_all()
    }

    /// Gives the files their names; the result was printed.
    pub fn named(mut self) -> Result<(), CouldNotRun> {
        for place in 0..self.0.len() {
            let text = &self.0[place];
            if let Err(error) = fs::rename(&text.temporary, &text.target) {
                return Err(self.unnamed(place, &error));
            }
            self.0[place].named = true;
        }
        Ok(())
    }

    /// The result that was printed names files that are not there.
    fn unnamed(&self, place: usize, error: &io::Error) -> CouldNotRun {
        let stand: Vec<&str> = self.0.iter().filter(|text| text.named).map(|text| &text.shown[..]).collect();
        let stand = if stand.is_empty() { String::from("none is written") } else { format!("these are written: {}", stand.join(", ")) };
        CouldNotRun(format!("output {}: {error}; of the files that the printed result names, {stand}", self.0[place].shown))
    }
}

/// Only what is ours is removed: a name that another has was never taken.
impl Drop for Waiting {
    fn drop(&mut self) {
        for text in self.0.iter().filter(|text| !text.named) {
            let _ = fs::remove_file(&text.temporary);
        }
    }
}

/// A new file in the folder of a target, under the first free name that is no output's own.
fn made_beside(target: &Path, targets: &[PathBuf], mode: u32) -> io::Result<(PathBuf, fs::File)> {
    let names = (0..NAMES).map(|number| target.with_file_name(temporary_name(number)));
    for path in names.filter(|path| !targets.contains(path)) {
        match fs::OpenOptions::new().write(true).create_new(true).mode(mode).open(&path) {
            Err(error) if error.kind() == ErrorKind::AlreadyExists => continue,
            made => return Ok((path, made?)),
        }
    }
    Err(io::Error::new(ErrorKind::AlreadyExists, format!("{NAMES} temporary files are there: {}, ..", temporary_name(0))))
}

/// Short, since a file's own name may be as long as the system takes.
fn temporary_name(number: usize) -> String {
    format!(".wagontulip-{number}.part")
}

#[cfg(test)]
mod tests {
    use super::*;

    struct Folder(PathBuf);

    impl Folder {
        fn new(test: &str) -> Folder {
            let path = std::env::temp_dir().join(format!("wagontulip-{}-place-{test}", std::process::id()));
            let _ = fs::remove_dir_all(&path);
            fs::create_dir_all(&path).unwrap();
            Folder(path)
        }

        fn path(&self, name: &str) -> PathBuf {
            self.0.join(name)
        }

        fn get(&self, name: &str) -> String {
            fs::read_to_string(self.path(name)).unwrap()
        }

        fn names(&self) -> Vec<String> {
            let mut names: Vec<String> =
                fs::read_dir(&self.0).unwrap().map(|entry| entry.unwrap().file_name().into_string().unwrap()).collect();
            names.sort();
            names
        }
    }

    impl Drop for Folder {
        fn drop(&mut self) {
            let _ = fs::remove_dir_all(&self.0);
        }
    }

    fn outputs(paths: &[PathBuf; 2]) -> [Output<'_>; 2] {
        [Output { role: "first", path: &paths[0], text: b"1".to_vec() }, Output { role: "second", path: &paths[1], text: b"2".to_vec() }]
    }

    #[test]
    fn texts_wait_for_their_names_or_are_gone() {
        let folder = Folder::new("waiting");
        let paths = ["one", "two"].map(|name| folder.path(name));
        let waiting = Waiting::written(&outputs(&paths)).unwrap();
        assert_eq!(folder.names(), [".wagontulip-0.part", ".wagontulip-1.part"]);
        drop(waiting);
        assert!(folder.names().is_empty());
        Waiting::written(&outputs(&paths)).unwrap().named().unwrap();
        assert_eq!(folder.names(), ["one", "two"]);
    }

    /// A name that cannot be given any more: what stands is said, and our own files are gone.
    #[test]
    fn a_name_that_is_not_given_is_said() {
        let folder = Folder::new("unnamed");
        let paths = ["one", "two"].map(|name| folder.path(name));
        for (taken, names, said) in [("two", ["one", "two"], "these are written: "), ("one", ["one", "two"], "none is written")] {
            let _ = fs::remove_file(folder.path("one"));
            let _ = fs::remove_dir(folder.path("two"));
            let waiting = Waiting::written(&outputs(&paths)).unwrap();
            fs::create_dir(folder.path(taken)).unwrap();
            let CouldNotRun(why) = waiting.named().unwrap_err();
            assert!(why.starts_with(&format!("output {}: ", folder.path(taken).display())) && why.contains(said), "{why}");
            assert_eq!(folder.names(), names[..if taken == "two" { 2 } else { 1 }]);
        }
    }

    /// An output may have the name that a temporary file would get.
    #[test]
    fn a_temporary_file_takes_no_name_of_an_output() {
        for names in [["x", ".wagontulip-0.part"], [".wagontulip-1.part", "x"], [".wagontulip-1.part", ".wagontulip-0.part"]] {
            let folder = Folder::new("names");
            let paths = names.map(|name| folder.path(name));
            Waiting::written(&outputs(&paths)).unwrap().named().unwrap();
            assert_eq!((folder.get(names[0]), folder.get(names[1])), (String::from("1"), String::from("2")));
            assert_eq!(folder.names().len(), 2);
        }
    }
}
