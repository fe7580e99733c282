//! The safe entries.

use crate::answers::{self, Energies, File, Numbers, Unknown};
use crate::duties::{self, Duties};
use crate::exports;
use crate::room::{NoRoom, Room, Rooms};
use crate::stated::Stated;
use crate::tally::Ruling;

/// The texts that every entry takes beside the solution.
#[derive(Clone, Copy, Debug)]
pub struct Files<'a> {
    pub timetable: &'a [u8],
    pub profiles: &'a [u8],
    pub constraints: &'a [u8],
}

/// The room, lent to the library for one call after the other.
#[derive(Clone, Debug)]
pub struct Checker {
    pub room: Room,
}

/// No power of a curve: what a refusal fills a signed table with.
const NO_POWER: i32 = i32::MIN;

impl Checker {
    /// With the room of each table at document 01's sizes.
    pub fn new() -> Result<Checker, NoRoom> {
        Checker::with_rooms(&Rooms::at_the_limits())
    }

    pub fn with_rooms(rooms: &Rooms) -> Result<Checker, NoRoom> {
        Ok(Checker { room: Room::new(rooms)? })
    }

    pub fn check(&mut self, stated: Stated, files: &Files, solution: &[u8]) -> Result<Ruling<()>, Unknown> {
        answers::checked(exports::check(stated, files.timetable, files.profiles, files.constraints, solution, &mut self.room))
    }

    pub fn energy(&mut self, stated: Stated, files: &Files, solution: &[u8]) -> Result<Ruling<Energies<'_>>, Unknown> {
        // The answer does not say how many subnets there are, and the curve table keeps its contents past the last curve: a curve that is written
        // starts with a power.
        self.room.curves.iter_mut().step_by(stated.horizon.max(1) as usize).for_each(|first| *first = NO_POWER);
        let said =
            answers::reported(exports::energy(stated, files.timetable, files.profiles, files.constraints, solution, &mut self.room))?;
        Ok(said.map(|figures| Energies { figures, curves: curves(&self.room.curves, stated.horizon) }))
    }

    /// The text of the earlier choice at each leg, the first solution's at equal departures.
    pub fn merge_earlier(&mut self, stated: Stated, files: &Files, first: &[u8], second: &[u8]) -> Result<Ruling<&[u8]>, Unknown> {
        let numbers = exports::merge_earlier(stated, files.timetable, files.profiles, files.constraints, first, second, &mut self.room);
        self.written(numbers)
    }

    /// The text of the later choice at each leg, the second solution's at equal departures.
    pub fn merge_later(&mut self, stated: Stated, files: &Files, first: &[u8], second: &[u8]) -> Result<Ruling<&[u8]>, Unknown> {
        let numbers = exports::merge_later(stated, files.timetable, files.profiles, files.constraints, first, second, &mut self.room);
        self.written(numbers)
    }

    /// Rolling stock duties, with the balance of each node where they are accepted.
    pub fn duties<'a>(&mut self, text: &'a [u8]) -> Result<Duties<'a>, Unknown> {
        let numbers = exports::duties(text, &mut self.room);
        duties::checked(numbers, text, &self.room.nodes, &self.room.balance)
    }

    fn written(&self, numbers: Numbers) -> Result<Ruling<&[u8]>, Unknown> {
        let said = answers::merged(numbers, self.room.text.len())?;
        Ok(said.map(|length| &self.room.text[..length]))
    }
}

/// The curves that were written, H numbers each.
fn curves(table: &[i32], h: u32) -> Vec<&[i32]> {
    table.chunks_exact(h as usize).take_while(|curve| curve[0] != NO_POWER).collect()
}

/// The row at a refusal's file and place, a part of whichever text holds it, without its line end: LF, or CR LF. None where no row starts there.
pub fn row_at<'a>(draft: &'a [u8], solution: &'a [u8], file: u8, place: u32) -> Result<Option<&'a [u8]>, Unknown> {
    let text = if file == File::Solution.number() { solution } else { draft };
    let (start, length) = answers::row(exports::row(draft, solution, file, place), text.len())?;
    // No row starts at 0: the header does.
    Ok((start > 0).then(|| &text[start..start + length]))
}
