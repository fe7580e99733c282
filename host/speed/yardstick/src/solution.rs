//! A solution by hand: 3 numbers a row, its nominal. Its list is tested and not kept.

use super::timetable::NAMES;
use super::*;
use crate::ids::Seen;

/// The first five columns of a row.
pub const IDS: usize = 5;

/// The counts are those of its rows and of its entries. `ids` gets the first five columns of each row.
pub fn read(text: &[u8], h: u32, choices: &mut [u32], ids: &mut Vec<u32>) -> Said {
    let mut bytes = match Bytes::behind(text, NAMES) {
        Ok(bytes) => bytes,
        Err(refused) => return refused,
    };
    let (mut rows, mut filled, mut ids_seen) = (0u32, 0u32, Seen::default());
    ids.clear();
    while bytes.at < text.len() {
        let place = bytes.at as u32;
        let refused = |number| Said::Refused(number, place);
        let row = match bytes.row(h, |_, _| {}) {
            Some(row) => row,
            None => return refused(FORM),
        };
        if let Some(number) = row.fault(rows, filled, |id| ids_seen.is_new(ids, IDS, rows as usize, id)) {
            return refused(number);
        }
        let at = rows as usize * 3;
        let room = match choices.get_mut(at..at + 3) {
            Some(room) => room,
            None => return refused(ROOM),
        };
        let (d, t, p) = row.nominal;
        room.copy_from_slice(&[d, t, p]);
        ids.extend(row.ids);
        rows += 1;
        filled += row.entries;
    }
    Said::Read(rows, filled)
}

/// Whether every row's first five columns are the draft's.
pub fn agrees(ids: &[u32], legs: &[u32], rows: usize) -> bool {
    ids.len() == rows * IDS && ids.chunks_exact(IDS).zip(legs.chunks_exact(LEG)).all(|(ids, leg)| *ids == leg[..IDS])
}
