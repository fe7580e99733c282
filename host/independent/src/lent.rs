//! The rooms that a caller lends, before an entry and after it.

use crate::answers::{Answer, Checked, Rooms};
use crate::duties::Duties;
use crate::energy::Report;
use crate::merge::Merged;
use crate::tables::Tables;

/// "every unsigned table is filled with 4,294,967,295".
const UNSIGNED_FILL: u32 = 4_294_967_295;
/// "every signed one with -2,147,483,648".
const SIGNED_FILL: i32 = -2_147_483_648;
/// "and a text buffer with zero bytes".
const BYTE_FILL: u8 = 0;

/// The contents of the ten rooms, in the order of `Rooms`.
#[derive(Clone, Debug, PartialEq, Eq)]
pub struct Lent {
    pub legs: Vec<u32>,
    pub configurations: Vec<u32>,
    pub profiles: Vec<u32>,
    pub samples: Vec<i32>,
    pub constraints: Vec<u32>,
    pub tracks: Vec<u32>,
    pub choices: Vec<u32>,
    pub second_choices: Vec<u32>,
    pub curves: Vec<i32>,
    pub text: Vec<u8>,
}

impl Lent {
    /// Rooms of these sizes that hold one number throughout.
    pub fn full_of(number: u8, rooms: &Rooms) -> Lent {
        let unsigned = |room: usize| vec![u32::from(number); room];
        let signed = |room: usize| vec![i32::from(number); room];
        Lent {
            legs: unsigned(rooms.legs),
            configurations: unsigned(rooms.configurations),
            profiles: unsigned(rooms.profiles),
            samples: signed(rooms.samples),
            constraints: unsigned(rooms.constraints),
            tracks: unsigned(rooms.tracks),
            choices: unsigned(rooms.choices),
            second_choices: unsigned(rooms.second_choices),
            curves: signed(rooms.curves),
            text: vec![number; rooms.text],
        }
    }

    /// What a check leaves: seven tables are lent to it, and it does not see the other rooms.
    pub fn leave_checked(&mut self, checked: &Checked) {
        self.leave_tables(checked.tables.as_ref());
    }

    /// What energies leave. "on a violation this table is filled as on a refusal": the curves are
    /// there on acceptance alone.
    pub fn leave_reported(&mut self, report: &Report) {
        self.leave_tables(report.tables.as_ref());
        leave(&mut self.curves, report.curves.as_deref(), SIGNED_FILL);
    }

    /// What a merge leaves. "On a violation the tables stay as read and the text buffer is zeroed."
    pub fn leave_merged(&mut self, merged: &Merged) {
        self.leave_tables(merged.tables.as_ref());
        let second = merged.tables.as_ref().map(|tables| tables.second_choices.as_slice());
        leave(&mut self.second_choices, second, UNSIGNED_FILL);
        let text = merged.text.as_deref().filter(|_| merged.answer == Answer::Accepted);
        leave(&mut self.text, text, BYTE_FILL);
    }

    /// What duties leave in the rooms of legs and curves, which are lent to nodes and balances: both "filled unless accepted".
    pub fn leave_duties(&mut self, duties: &Duties) {
        leave(&mut self.legs, duties.nodes.as_deref(), UNSIGNED_FILL);
        leave(&mut self.curves, duties.balance.as_deref(), SIGNED_FILL);
    }

    /// The seven tables of files and solution: as read, or filled on a refusal.
    fn leave_tables(&mut self, tables: Option<&Tables>) {
        leave(&mut self.legs, tables.map(|t| t.legs.as_slice()), UNSIGNED_FILL);
        leave(&mut self.configurations, tables.map(|t| t.configurations.as_slice()), UNSIGNED_FILL);
        leave(&mut self.profiles, tables.map(|t| t.profiles.as_slice()), UNSIGNED_FILL);
        leave(&mut self.samples, tables.map(|t| t.samples.as_slice()), SIGNED_FILL);
        leave(&mut self.constraints, tables.map(|t| t.constraints.as_slice()), UNSIGNED_FILL);
        leave(&mut self.tracks, tables.map(|t| t.tracks.as_slice()), UNSIGNED_FILL);
        leave(&mut self.choices, tables.map(|t| t.choices.as_slice()), UNSIGNED_FILL);
    }
}

/// "Room past the last entry, or past a written text, keeps its contents"; where nothing is
/// written the whole room is filled.
fn leave<T: Copy>(room: &mut [T], written: Option<&[T]>, fill: T) {
    match written {
        Some(entries) => room[..entries.len()].copy_from_slice(entries),
        None => room.fill(fill),
    }
}
