//! An independent program for document 01, with E1, E4, E6 and E13 of document 02: it reads the four texts of a metro timetable and
//! answers accepted, the first violation, or a numbered refusal; and a file of rolling stock duties, with the first broken row.
//!
//! It is written from document 01's sentences in their order, and shares no code and no table
//! with the proved checker it is compared with. Comments quote the sentence they follow; one of
//! document 02 is named by its request.

pub mod answers;
pub mod constraints;
pub mod display;
pub mod duties;
pub mod energy;
pub mod entries;
pub mod files;
pub mod lent;
pub mod merge;
pub mod numbers;
pub mod profiles;
pub mod rows;
pub mod stated;
pub mod tables;
pub mod timetable;
pub mod tokens;
pub mod verdict;

pub use answers::{Answer, Checked, Refusal, Rooms, Tally, Verdict};
pub use display::row_at;
pub use duties::{check_duties, Duties};
pub use energy::{energy, Desk, Figures, Report};
pub use entries::{Call, Case, Entry, Said};
pub use lent::Lent;
pub use merge::{merge, Direction, Merged};
pub use stated::{Edition, Stated};
pub use tables::Tables;
pub use verdict::check;
