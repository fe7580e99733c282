//! Input files, read and never mapped: a mapped file can change while it is judged.

use super::arguments::STANDARD;
use super::sha256::Hash;
use super::{printable, CouldNotRun};
use std::fs;
use std::io::{self, Read, Seek, SeekFrom};
use std::os::unix::ffi::OsStrExt;
use std::os::unix::fs::MetadataExt;
use std::os::unix::io::AsFd;
use std::path::{Path, PathBuf};

pub struct Input {
    /// What the file is to the call: its name in the usage.
    pub role: &'static str,
    pub path: PathBuf,
    /// The whole file. Of one that is longer than a text may be, one byte more than that: it is refused for its length, whatever follows.
    pub text: Vec<u8>,
    /// Which file was read, also where standard input has no name.
    pub identity: Identity,
    longer: Option<Longer>,
}

/// A file that has more than its text, and where that goes on.
struct Longer {
    file: fs::File,
    place: u64,
}

/// Device and number: the same for all names of one file.
pub type Identity = (u64, u64);

pub fn identity(path: &Path) -> Option<Identity> {
    fs::metadata(path).ok().map(|data| identity_of(&data))
}

pub fn identity_of(data: &fs::Metadata) -> Identity {
    (data.dev(), data.ino())
}

impl Input {
    /// `most` is how many bytes a text may have.
    pub fn read(role: &'static str, path: &Path, most: usize) -> Result<Input, CouldNotRun> {
        let opened = opened(path).map_err(|error| error.to_string());
        let input = opened.and_then(|file| Input::of(role, path, file, most));
        input.map_err(|why| CouldNotRun(format!("{role} {}: {why}", printable(path))))
    }

    /// From where the file stands, which is its start but for a standard input that another program has read from. At most one byte more than a text may
    /// have. A device may have no end, so only a regular file may be longer.
    fn of(role: &'static str, path: &Path, mut file: fs::File, most: usize) -> Result<Input, String> {
        let data = file.metadata().map_err(|error| error.to_string())?;
        let start = if data.is_file() { file.stream_position().map_err(|error| error.to_string())? } else { 0 };
        let text = text(&file, data.len().saturating_sub(start), data.is_file(), most)?;
        let place = start + text.len() as u64;
        let longer = (text.len() > most).then(|| Longer { file, place });
        Ok(Input { role, path: path.to_path_buf(), text, identity: identity_of(&data), longer })
    }

    /// Whether the text is the whole file.
    pub fn is_whole(&self) -> bool {
        self.longer.is_none()
    }

    pub fn name(&self) -> &[u8] {
        self.path.as_os_str().as_bytes()
    }

    /// What it is, and its name.
    pub fn told(&self) -> String {
        format!("{} ({})", self.role, printable(&self.path))
    }

    /// Bytes and SHA-256 of the whole file; what the text has not is read for it and not kept.
    pub fn evidence(&self) -> Result<(u64, String), CouldNotRun> {
        let mut hash = Hash::new().with(&self.text);
        if let Some(Longer { file, place }) = &self.longer {
            let mut file = file;
            let read = file.seek(SeekFrom::Start(*place)).and_then(|_| io::copy(&mut file, &mut hash));
            read.map_err(|error| CouldNotRun(format!("{}: {error}", self.told())))?;
        }
        Ok(hash.ended())
    }
}

/// Standard input goes on where it stands: it is not opened once more.
fn opened(path: &Path) -> io::Result<fs::File> {
    if path != Path::new(STANDARD) {
        return fs::File::open(path);
    }
    Ok(fs::File::from(io::stdin().as_fd().try_clone_to_owned()?))
}

/// The text of a file that says it has so many bytes left, which only a regular one can know.
fn text(file: &fs::File, left: u64, regular: bool, most: usize) -> Result<Vec<u8>, String> {
    let kept = most as u64 + 1;
    let wanted = left.min(kept) as usize;
    let mut text = Vec::new();
    text.try_reserve_exact(wanted).map_err(|error| error.to_string())?;
    file.take(kept).read_to_end(&mut text).map_err(|error| error.to_string())?;
    if regular && text.len() != wanted {
        return Err(format!("{} of {wanted} bytes were read", text.len()));
    }
    if !regular && text.len() > most {
        return Err(format!("has more than {most} bytes and is no regular file"));
    }
    Ok(text)
}

#[cfg(test)]
mod tests {
    use super::*;

    #[test]
    fn a_file_that_is_too_long_is_hashed_and_not_kept() {
        let path = std::env::temp_dir().join(format!("wagontulip-{}-input", std::process::id()));
        fs::write(&path, "abc").unwrap();
        let inputs = [3, 2, 0].map(|most| Input::read("solution", &path, most).unwrap());
        fs::remove_file(&path).unwrap();
        let kept: Vec<(&[u8], bool)> = inputs.iter().map(|input| (&input.text[..], input.is_whole())).collect();
        assert_eq!(kept, [(&b"abc"[..], true), (b"abc", false), (b"a", false)]);
        let hash = String::from("ba7816bf8f01cfea414140de5dae2223b00361a396177a9cb410ff61f20015ad");
        for input in inputs.iter().chain(&inputs) {
            assert_eq!(input.evidence().unwrap(), (3, hash.clone()));
        }
    }

    /// As a standard input may be: what was read before is no part of the text, nor of its evidence.
    #[test]
    fn a_file_is_read_from_where_it_stands() {
        let path = std::env::temp_dir().join(format!("wagontulip-{}-standing", std::process::id()));
        fs::write(&path, "before abc").unwrap();
        let hash = String::from("ba7816bf8f01cfea414140de5dae2223b00361a396177a9cb410ff61f20015ad");
        for (most, kept) in [(3, &b"abc"[..]), (0, b"a")] {
            let mut file = fs::File::open(&path).unwrap();
            file.seek(SeekFrom::Start(7)).unwrap();
            let input = Input::of("solution", Path::new(STANDARD), file, most).unwrap();
            assert_eq!((&input.text[..], input.evidence().unwrap()), (kept, (3, hash.clone())));
        }
        fs::remove_file(&path).unwrap();
    }
}
