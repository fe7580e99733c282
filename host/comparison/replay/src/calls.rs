//! A call of an entry: its C function, over its texts and the rooms that it takes.

use crate::block::Block;
use crate::exports::{Exports, Numbers, NUMBERS};
use crate::input::Texts;
use crate::rooms::Rooms;

/// The entries that are there.
#[derive(Clone, Copy, Debug, PartialEq, Eq)]
pub enum Entry {
    Check = 1,
    Energy,
    MergeEarlier,
    MergeLater,
    Row,
    Duties = 11,
}

impl Entry {
    pub const ALL: [Entry; 6] = [Entry::Check, Entry::Energy, Entry::MergeEarlier, Entry::MergeLater, Entry::Row, Entry::Duties];

    /// The entry of a block's number, if it is there.
    pub fn of(number: u32) -> Option<Entry> {
        Entry::ALL.into_iter().find(|entry| *entry as u32 == number)
    }
}

/// No code, so that a function that writes nothing answers nothing.
const UNWRITTEN: Numbers = [u64::MAX; NUMBERS];

/// The function with what the block states, each text and each table as its pointer and its length, and room for the answer.
macro_rules! call {
    ($function:expr, $block:ident, $($text:ident),*; $rooms:ident lends $($table:ident),*) => {{
        let mut answer = UNWRITTEN;
        // Safe: each pointer goes with the length of its slice. The tables are vectors of their own, lent for this call alone (`&mut Rooms`), so none
        // overlaps another or a text.
        unsafe { $function($block.h, $block.edition, $($text.as_ptr(), $text.len(),)* $($rooms.$table.as_mut_ptr(), $rooms.$table.len(),)* &mut answer) };
        answer
    }};
}

/// What the library answers. The rooms are left as it leaves them; those that the entry does not take are lent to nothing.
pub fn call(exports: &Exports, entry: Entry, block: &Block, texts: &Texts, rooms: &mut Rooms) -> Numbers {
    let [timetable, profiles, constraints, solution, second] = texts.parts();
    match entry {
        Entry::Check => call!((exports.check), block, timetable, profiles, constraints, solution;
            rooms lends legs, configurations, profiles, samples, constraints, tracks, choices),
        Entry::Energy => call!((exports.energy), block, timetable, profiles, constraints, solution;
            rooms lends legs, configurations, profiles, samples, constraints, tracks, choices, curves),
        Entry::MergeEarlier => call!((exports.merge_earlier), block, timetable, profiles, constraints, solution, second;
            rooms lends legs, configurations, profiles, samples, constraints, tracks, choices, second_choices, text),
        Entry::MergeLater => call!((exports.merge_later), block, timetable, profiles, constraints, solution, second;
            rooms lends legs, configurations, profiles, samples, constraints, tracks, choices, second_choices, text),
        Entry::Row => row(exports, block, timetable, solution),
        Entry::Duties => duties(exports, timetable, rooms),
    }
}

/// Start and length of the row at a file and a place. The function takes a file of 8 bits: a greater one names no text, as the greatest of 8 bits does not.
fn row(exports: &Exports, block: &Block, draft: &[u8], solution: &[u8]) -> Numbers {
    let file = u8::try_from(block.file).unwrap_or(u8::MAX);
    let mut answer = UNWRITTEN;
    // Safe: each pointer goes with the length of its slice.
    unsafe { (exports.row)(draft.as_ptr(), draft.len(), solution.as_ptr(), solution.len(), file, block.place, &mut answer) };
    answer
}

/// Duties stand where a timetable does; the room of legs is that of their nodes, and the room of curves that of their balances.
fn duties(exports: &Exports, text: &[u8], rooms: &mut Rooms) -> Numbers {
    let (nodes, balance) = (&mut rooms.legs, &mut rooms.curves);
    let mut answer = UNWRITTEN;
    // Safe: each pointer goes with the length of its slice, and the tables are vectors of their own, lent for this call alone.
    unsafe {
        (exports.duties)(text.as_ptr(), text.len(), nodes.as_mut_ptr(), nodes.len(), balance.as_mut_ptr(), balance.len(), &mut answer);
    }
    answer
}
