//! constraints.json by hand, for good files of edition 2: records of 6 numbers ordered by kind, tracks of 2. Each key is first looked for where document 000 has it.

use crate::ids::Rows;
use crate::{Bytes, CONSTRAINT, MOST_ID, MOST_TEXT, TRACK};
use std::collections::HashSet;

const LISTS: [&[u8]; 6] = [
    b"\"headway_time_constraints\"",
    b"\"single_track_headway_constraints\"",
    b"\"dwell_time_constraints\"",
    b"\"terminal_turnaround_constraints\"",
    b"\"connection_constraints\"",
    b"\"recuperation_subnets\"",
];

const FIRST: &[u8] = b"\"first_leg_id\"";
const SECOND: &[u8] = b"\"second_leg_id\"";

const KEYS: [&[&[u8]]; 5] = [
    &[FIRST, SECOND, b"\"min_headway_time\""],
    &[FIRST, SECOND],
    &[FIRST, SECOND, b"\"min_dwell_time\""],
    &[FIRST, SECOND, b"\"min_turnaround_time\""],
    &[FIRST, SECOND, b"\"min_connection_time\"", b"\"max_connection_time\"", b"\"connection_type\""],
];

const SUBNET_KEYS: &[&[u8]] = &[b"\"subnet_id\"", b"\"track_ids\""];
const TYPES: &[&[u8]] = &[b"\"arrival_to_departure\"", b"\"departure_to_departure\""];

const SUBNETS: usize = 5;
const LEGS: usize = 2;
const TYPE: usize = 4;

const MOST_SECONDS: u32 = 86_400;
const MOST_SUBNETS: usize = 8;
const MOST_CONSTRAINTS: usize = 65_536;
const MOST_TRACKS: usize = 4_096;

/// How many of each were read.
#[derive(Clone, Copy, Debug, Default, PartialEq, Eq)]
pub struct Counts {
    pub constraints: usize,
    pub tracks: usize,
    pub subnets: usize,
}

impl Bytes<'_> {
    #[inline(always)]
    fn space(&mut self) {
        while matches!(self.text.get(self.at), Some(b' ' | b'\n' | b'\t' | b'\r')) {
            self.at += 1;
        }
    }

    /// The next sign after white space.
    #[inline(always)]
    fn sign(&mut self) -> Option<u8> {
        self.space();
        self.next()
    }

    #[inline(always)]
    fn expect(&mut self, sign: u8) -> Option<()> {
        (self.sign()? == sign).then_some(())
    }

    /// Which of the names stands next; the one at `likely` is tried first.
    #[inline(always)]
    fn name(&mut self, names: &[&[u8]], likely: usize) -> Option<usize> {
        self.space();
        let rest = self.text.get(self.at..)?;
        let found = match names.get(likely) {
            Some(name) if rest.starts_with(name) => likely,
            _ => names.iter().position(|name| rest.starts_with(name))?,
        };
        self.at += names[found].len();
        Some(found)
    }

    #[inline(always)]
    fn number(&mut self, most: u32) -> Option<u32> {
        self.space();
        self.whole().filter(|number| *number <= most)
    }
}

/// None where the text is not a good one, or the room is too short.
pub fn read(text: &[u8], legs: &mut Rows, constraints: &mut [u32], tracks: &mut [u32]) -> Option<Counts> {
    if text.len() > MOST_TEXT {
        return None;
    }
    let mut reader = Reader { bytes: Bytes { text, at: 0 }, counts: Counts::default(), seen: HashSet::new(), in_order: true, kind: 0 };
    reader.lists(legs, constraints, tracks)?;
    if !reader.in_order {
        sort(&mut constraints[..reader.counts.constraints * CONSTRAINT]);
    }
    Some(reader.counts)
}

struct Reader<'a> {
    bytes: Bytes<'a>,
    counts: Counts,
    seen: HashSet<u32>,
    /// Whether the lists came in the order of their kinds, and the last one's.
    in_order: bool,
    kind: usize,
}

impl Reader<'_> {
    fn lists(&mut self, legs: &mut Rows, constraints: &mut [u32], tracks: &mut [u32]) -> Option<()> {
        self.bytes.expect(b'{')?;
        let mut read = 0;
        for place in 0..LISTS.len() {
            if place > 0 {
                self.bytes.expect(b',')?;
            }
            let list = self.bytes.name(&LISTS, place)?;
            self.bytes.expect(b':')?;
            if read & 1 << list != 0 {
                return None;
            }
            read |= 1 << list;
            self.list(list, legs, constraints, tracks)?;
        }
        self.bytes.expect(b'}')?;
        self.bytes.space();
        (self.bytes.at == self.bytes.text.len()).then_some(())
    }

    fn list(&mut self, list: usize, legs: &mut Rows, constraints: &mut [u32], tracks: &mut [u32]) -> Option<()> {
        self.in_order &= list == SUBNETS || list >= self.kind;
        self.kind = list.min(SUBNETS - 1).max(self.kind);
        self.bytes.expect(b'[')?;
        let mut sign = self.bytes.sign()?;
        while sign == b'{' {
            if list == SUBNETS {
                self.subnet(tracks)?;
            } else {
                self.record_of(list, legs, constraints)?;
            }
            sign = self.bytes.sign()?;
            if sign == b',' {
                sign = self.bytes.sign()?;
                if sign != b'{' {
                    return None;
                }
            }
        }
        (sign == b']').then_some(())
    }

    /// For each list its own code, in which the keys are constants.
    #[inline(always)]
    fn record_of(&mut self, list: usize, legs: &mut Rows, constraints: &mut [u32]) -> Option<()> {
        match list {
            0 => self.record::<0>(legs, constraints),
            1 => self.record::<1>(legs, constraints),
            2 => self.record::<2>(legs, constraints),
            3 => self.record::<3>(legs, constraints),
            _ => self.record::<4>(legs, constraints),
        }
    }

    /// A record of kinds 1 to 5, from behind its brace.
    fn record<const LIST: usize>(&mut self, legs: &mut Rows, constraints: &mut [u32]) -> Option<()> {
        let keys = KEYS[LIST];
        let mut values = [0u32; 5];
        let mut read = 0;
        for place in 0..keys.len() {
            if place > 0 {
                self.bytes.expect(b',')?;
            }
            let key = self.bytes.name(keys, place)?;
            self.bytes.expect(b':')?;
            read |= 1 << key;
            values[key] = match key {
                TYPE => self.bytes.name(TYPES, 0)? as u32 + 1,
                _ if key < LEGS => legs.of(self.bytes.number(MOST_ID)?)?,
                _ => self.bytes.number(MOST_SECONDS)?,
            };
        }
        self.bytes.expect(b'}')?;
        let at = self.counts.constraints * CONSTRAINT;
        let room = constraints.get_mut(at..at + CONSTRAINT)?;
        let [first, second, low, high, by] = values;
        room.copy_from_slice(&[LIST as u32 + 1, first, second, low, high, by]);
        self.counts.constraints += 1;
        (read == (1 << keys.len()) - 1 && self.counts.constraints <= MOST_CONSTRAINTS).then_some(())
    }

    fn subnet(&mut self, tracks: &mut [u32]) -> Option<()> {
        let first = self.bytes.name(SUBNET_KEYS, 0)?;
        self.member(first, tracks)?;
        self.bytes.expect(b',')?;
        let second = self.bytes.name(SUBNET_KEYS, 1)?;
        self.member(second, tracks)?;
        self.bytes.expect(b'}')?;
        self.counts.subnets += 1;
        (first != second && self.counts.subnets <= MOST_SUBNETS).then_some(())
    }

    fn member(&mut self, key: usize, tracks: &mut [u32]) -> Option<()> {
        self.bytes.expect(b':')?;
        if key == 0 {
            return self.bytes.number(MOST_ID).map(|_| ());
        }
        self.bytes.expect(b'[')?;
        self.bytes.space();
        if self.bytes.text.get(self.bytes.at) == Some(&b']') {
            self.bytes.at += 1;
            return Some(());
        }
        loop {
            let track = self.bytes.number(MOST_ID)?;
            let at = self.counts.tracks * TRACK;
            if !self.seen.insert(track) || self.counts.tracks >= MOST_TRACKS {
                return None;
            }
            tracks.get_mut(at..at + TRACK)?.copy_from_slice(&[track, self.counts.subnets as u32]);
            self.counts.tracks += 1;
            match self.bytes.sign()? {
                b',' => {}
                b']' => return Some(()),
                _ => return None,
            }
        }
    }
}

/// By kind, each kind as the file has it.
fn sort(table: &mut [u32]) {
    let mut records: Vec<Vec<u32>> = table.chunks_exact(CONSTRAINT).map(<[u32]>::to_vec).collect();
    records.sort_by_key(|record| record[0]);
    for (room, record) in table.chunks_exact_mut(CONSTRAINT).zip(records) {
        room.copy_from_slice(&record);
    }
}
