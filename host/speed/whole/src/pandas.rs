//! The side that is no Rust: pandas by document 000's routines, in a process of its own.

use crate::measure::Times;
use std::path::Path;
use std::process::Command;

/// What it says of one instance, and the peak of its memory in bytes.
pub struct Pandas {
    pub times: Times,
    pub peak: f64,
    /// Before, drawn, lost.
    pub figures: [i64; 3],
}

/// None where PANDAS_PYTHON names no python3 that has pandas: its column is then empty, and that is said.
pub fn run(folder: &Path, h: u32, runs: usize) -> Option<Pandas> {
    let script = Path::new(env!("CARGO_MANIFEST_DIR")).join("pandas_side.py");
    let python = std::env::var_os("PANDAS_PYTHON")?;
    let output = Command::new(python).arg(script).arg(folder).arg(h.to_string()).arg(runs.to_string()).output().ok()?;
    if !output.status.success() {
        eprintln!("whole: pandas: {}", String::from_utf8_lossy(&output.stderr));
        return None;
    }
    let said = String::from_utf8(output.stdout).ok()?;
    let value = |name: &str| said.lines().find_map(|line| line.strip_prefix(name)?.trim().parse::<f64>().ok());
    let timetable = value("timetable ")?;
    let profiles = timetable + value("profiles ")?;
    let constraints = profiles + value("constraints ")?;
    Some(Pandas {
        times: Times { nothing: 0.0, timetable, profiles, constraints, check: value("check ")?, energy: value("energy ")? },
        peak: value("peak ")?,
        figures: [value("before ")? as i64, value("drawn ")? as i64, value("lost ")? as i64],
    })
}
