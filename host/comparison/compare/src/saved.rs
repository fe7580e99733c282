//! A call saved to a folder: its texts as files, its numbers in words, and the whole as `replay` reads it.

use crate::block::written;
use independent::Call;
use std::path::Path;

const NAMES: [&str; 5] = ["timetable.csv", "profiles.csv", "constraints.json", "solution.csv", "second.csv"];

pub fn save(folder: &Path, call: &Call, about: &str) -> Result<(), String> {
    let failed = |e: std::io::Error| format!("{}: {e}", folder.display());
    std::fs::create_dir_all(folder).map_err(failed)?;
    for (name, text) in NAMES.iter().zip(&call.case.texts) {
        std::fs::write(folder.join(name), text).map_err(failed)?;
    }
    std::fs::write(folder.join("stdin"), written(call)).map_err(failed)?;
    let rooms: Vec<String> = call.case.rooms.numbers().iter().map(usize::to_string).collect();
    let about = format!(
        "{about}\nentry {}, H {}, edition {}, file {}, place {}\nrooms {}\n",
        call.entry.name(),
        call.case.h,
        call.case.edition,
        call.file,
        call.place,
        rooms.join(" ")
    );
    std::fs::write(folder.join("about"), about).map_err(failed)
}
