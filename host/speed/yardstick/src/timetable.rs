//! A timetable by hand: 8 numbers a leg, 3 a configuration.

use super::*;
use crate::ids::Seen;

pub const NAMES: &str = "leg_id,train_id,track_id,start_station_id,end_station_id,nominal_departure_configuration,departure_configurations";
const MOST_ROWS: u32 = 32_768;
const MOST_LIST: u32 = 64;
const MOST_ENTRIES: u32 = 1_048_576;
const MOST_TRAVEL: u32 = 3_600;

pub type Entry = (u32, u32, u32);

/// The travel time and the departure keep their limits, and the profile's id does.
#[inline(always)]
pub fn fits(h: u32, (d, t, p): Entry) -> bool {
    (1..=MOST_TRAVEL).contains(&t) && t <= h && d <= h - t && p <= MOST_ID
}

/// A row as it is read: its five ids, its nominal, and what its list says.
pub struct Row {
    pub ids: [u32; 5],
    pub nominal: Entry,
    /// The entries, those before the first that is the nominal, and whether every number so far is in range.
    pub entries: u32,
    pub before: u32,
    pub in_range: bool,
}

impl Row {
    /// The lowest number that a row of the right form is refused with, after so many rows and entries.
    #[inline(always)]
    pub fn fault(&self, rows: u32, filled: u32, is_new: impl FnOnce(u32) -> bool) -> Option<u8> {
        if !self.in_range {
            return Some(RANGE);
        }
        if rows >= MOST_ROWS || self.entries > MOST_LIST || filled + self.entries > MOST_ENTRIES {
            return Some(COUNT);
        }
        if !is_new(self.ids[0]) {
            return Some(SEEN);
        }
        (self.before == self.entries).then_some(NOMINAL)
    }
}

impl Bytes<'_> {
    /// The next row; `keep` takes each entry with its place in the list. None where the row breaks its form.
    #[inline(always)]
    pub fn row(&mut self, h: u32, mut keep: impl FnMut(u32, Entry)) -> Option<Row> {
        let mut ids = [0; 5];
        for id in &mut ids {
            *id = self.number_field()?;
        }
        let quoted = self.quote();
        let nominal = (self.closed(b'_')?, self.closed(b'_')?, self.whole()?);
        if self.behind_field(quoted)? != b',' {
            return None;
        }
        let quoted = self.quote();
        let mut entries = 0;
        let mut before = None;
        let mut in_range = fits(h, nominal) && ids.iter().all(|id| *id <= MOST_ID);
        loop {
            let d = self.closed(b'_')?;
            let t = self.closed(b'_')?;
            let (p, byte) = self.open()?;
            let entry = (d, t, p);
            in_range &= fits(h, entry);
            if before.is_none() && entry == nominal {
                before = Some(entries);
            }
            keep(entries, entry);
            entries += 1;
            if byte != b' ' {
                let last = self.behind_quote(byte, quoted)?;
                return self.ends(last).then_some(Row { ids, nominal, entries, before: before.unwrap_or(entries), in_range });
            }
        }
    }
}

pub fn read(text: &[u8], h: u32, legs: &mut [u32], configurations: &mut [u32]) -> Said {
    let mut bytes = match Bytes::behind(text, NAMES) {
        Ok(bytes) => bytes,
        Err(refused) => return refused,
    };
    let (mut rows, mut filled, mut ids_seen) = (0u32, 0u32, Seen::default());
    while bytes.at < text.len() {
        let place = bytes.at as u32;
        let refused = |number| Said::Refused(number, place);
        let kept = bytes.row(h, |entry, (d, t, p)| {
            let at = (filled as usize + entry as usize) * 3;
            if entry <= MOST_LIST {
                if let Some(room) = configurations.get_mut(at..at + 3) {
                    room.copy_from_slice(&[d, t, p]);
                }
            }
        });
        let row = match kept {
            Some(row) => row,
            None => return refused(FORM),
        };
        if let Some(number) = row.fault(rows, filled, |id| ids_seen.is_new(legs, LEG, rows as usize, id)) {
            return refused(number);
        }
        let at = rows as usize * 8;
        if legs.len() < at + 8 || configurations.len() / 3 < (filled + row.entries) as usize {
            return refused(ROOM);
        }
        legs[at..at + 5].copy_from_slice(&row.ids);
        legs[at + 5..at + 8].copy_from_slice(&[filled, row.entries, row.before]);
        rows += 1;
        filled += row.entries;
    }
    Said::Read(rows, filled)
}
