//! Wagontulip for Rust programs: a [`Checker`] owns the room that the proved library fills, and hands out its answers as enums.
//!
//! The judging is done by the library alone. Nothing here reads a timetable, and an answer that is none of document 01's is an error
//! ([`Unknown`]), never a guess.

mod answers;
mod checker;
mod duties;
mod exports;
mod room;
mod stated;
mod tally;

pub use answers::{Answer, Energies, Figures, File, Kind, Reason, Refusal, Unknown, Violation};
pub use checker::{row_at, Checker, Files};
pub use duties::{Broken, Duties, Node, Rule};
pub use room::{Counts, NoRoom, Room, Rooms, Table, CONFIGURATION, CONSTRAINT, LEG};
pub use stated::{Edition, Stated};
pub use tally::{Ruling, Tally};

/// Printed above every result.
pub const LABEL: &str = "no violation shown is not no violation";
