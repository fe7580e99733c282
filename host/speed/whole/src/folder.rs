//! The texts of an instance as files, for processes of their own.

use crate::instance::Instance;
use std::fs;
use std::path::PathBuf;

/// Timetable, profiles, constraints, solution.
pub const FILES: [&str; 4] = ["timetable.csv", "profiles.csv", "constraints.json", "solution.csv"];

/// It is gone at the end.
pub struct Folder(pub PathBuf);

impl Folder {
    pub fn new() -> std::io::Result<Folder> {
        let path = std::env::temp_dir().join(format!("wagontulip-whole-{}", std::process::id()));
        fs::create_dir_all(&path)?;
        Ok(Folder(path))
    }

    /// In the place of what it held.
    pub fn hold(&self, instance: &Instance) -> std::io::Result<()> {
        let texts = [&instance.timetable, &instance.profiles, &instance.constraints, &instance.solution];
        FILES.iter().zip(texts).try_for_each(|(name, text)| fs::write(self.0.join(name), text))
    }
}

impl Drop for Folder {
    fn drop(&mut self) {
        let _ = fs::remove_dir_all(&self.0);
    }
}
