//! The ROLLING_STOCK_DUTY table of document 004 as CSV (document 02, E13): its rows, the six rules, and the balance of each node. One pass
//! over the rows, with dictionaries of names.

use crate::answers::{Answer, Refusal, Rooms};
use crate::numbers::Whole;
use crate::rows::{fields, parts, Row, Rows};
use std::collections::{HashMap, HashSet};

/// "its ten columns in Table 8's order, spaces in the names as underscores", without its LF.
pub const HEADER: &str =
    "DUTY_ID,SEQ,START_TIME_SECONDS,START_TIME_HHMMSS,END_TIME_SECONDS,END_TIME_HHMMSS,START_NODE,END_NODE,EVENT_TYPE,TRAIN_COURSE_ID";

/// "Its refusals carry file 6 and the row's first byte."
const FILE: u32 = 6;
/// "at most 8,192 rows and 1,024 nodes".
const MOST_ROWS: usize = 8_192;
const MOST_NODES: usize = 1_024;
/// "names of 1 to 32 bytes".
const LONGEST_NAME: usize = 32;
/// "SEQ and seconds 0 to 863,999".
const GREATEST: u32 = 863_999;
/// Two numbers a node: where its name first stands, and its length.
const NODE: usize = 2;

const TRAIN: &[u8] = b"TRAIN";
const OTHER_TYPES: [&[u8]; 2] = [b"CHANGE_END", b"SPARE"];

const DAY: u32 = 86_400;
const HOUR: u32 = 3_600;
const MINUTE: u32 = 60;

/// What is answered, and the tables where the duties are accepted.
#[derive(Clone, Debug, PartialEq, Eq)]
pub struct Duties {
    pub answer: Answer,
    /// All numbers by which the refused row is at fault, or all rules that the broken row breaks: the lowest first, which is the answer's.
    pub faults: Vec<u32>,
    /// Whether a row before the refused one breaks a rule.
    pub is_behind_broken: bool,
    /// Two numbers a node, in order of first sight.
    pub nodes: Option<Vec<u32>>,
    /// "duties ending less duties starting".
    pub balance: Option<Vec<i32>>,
}

/// A row whose form and numbers are good.
struct Event<'a> {
    duty: &'a [u8],
    seq: u32,
    start: u32,
    end: u32,
    from: &'a [u8],
    to: &'a [u8],
    is_train: bool,
    texts: [&'a [u8]; 2],
}

/// A row that breaks a rule.
struct Broken {
    row: usize,
    rules: Vec<u32>,
    place: usize,
}

/// What was seen so far.
#[derive(Default)]
struct Seen<'a> {
    rows: usize,
    /// Each node's number, and by it where its name first stands, and its balance.
    numbers: HashMap<&'a [u8], usize>,
    places: Vec<usize>,
    balance: Vec<i32>,
    duties: HashSet<&'a [u8]>,
    last: Option<Event<'a>>,
    broken: Option<Broken>,
}

/// Reads and judges a file of duties; the room is that of nodes for legs, and that of balances for curves.
pub fn check_duties(text: &[u8], rooms: &Rooms) -> Duties {
    let room = (rooms.legs / NODE).min(rooms.curves);
    let rows = match Rows::below(HEADER, text, FILE) {
        Ok(rows) => rows,
        Err(refusal) => return refused(refusal, vec![refusal.number], false),
    };
    let mut seen = Seen::default();
    for row in rows {
        match read_row(&row, &seen, room) {
            Ok(event) => seen.take(event, text, row.place),
            Err(faults) => {
                let refusal = Refusal { number: faults[0], file: FILE, place: row.place };
                return refused(refusal, faults, seen.broken.is_some());
            }
        }
    }
    seen.told()
}

fn refused(refusal: Refusal, faults: Vec<u32>, is_behind_broken: bool) -> Duties {
    Duties { answer: refusal.into(), faults, is_behind_broken, nodes: None, balance: None }
}

/// The event of a row; else every number by which it is at fault, rising: "the lowest number in that row counts".
fn read_row<'a>(row: &Row<'a>, seen: &Seen, room: usize) -> Result<Event<'a>, Vec<u32>> {
    let columns = if row.ended { fields(row.bytes) } else { None };
    let [duty, seq, start, start_text, end, end_text, from, to, kind, course] =
        columns.and_then(|columns| <[&[u8]; 10]>::try_from(columns).ok()).ok_or_else(|| vec![4])?;
    let is_train = kind == TRAIN;
    let is_course = if is_train { is_name(course) } else { course.is_empty() };
    let wholes = [seq, start, end].map(Whole::parse);
    let within = wholes.map(|whole| whole.and_then(|whole| whole.at_most(GREATEST)));
    let nodes = seen.nodes_with(from, to);
    let tests = [
        (4, [duty, from, to].into_iter().all(is_name) && is_course && wholes.iter().all(Option::is_some)),
        (5, !wholes.iter().zip(&within).any(|(whole, value)| whole.is_some() && value.is_none())),
        (6, seen.rows < MOST_ROWS && nodes <= MOST_NODES),
        (10, is_train || OTHER_TYPES.contains(&kind)),
        (16, nodes <= room),
    ];
    let faults: Vec<u32> = tests.iter().filter(|(_, holds)| !holds).map(|(number, _)| *number).collect();
    match within {
        [Some(seq), Some(start), Some(end)] if faults.is_empty() => {
            Ok(Event { duty, seq, start, end, from, to, is_train, texts: [start_text, end_text] })
        }
        _ => Err(faults),
    }
}

/// "names of 1 to 32 bytes from 33 to 126 without commas or quotes".
fn is_name(bytes: &[u8]) -> bool {
    (1..=LONGEST_NAME).contains(&bytes.len()) && bytes.iter().all(|byte| matches!(byte, 33..=126) && !matches!(byte, b',' | b'"'))
}

impl<'a> Seen<'a> {
    /// How many nodes there are with those of a row.
    fn nodes_with(&self, from: &[u8], to: &[u8]) -> usize {
        let is_new = |name: &[u8]| !self.numbers.contains_key(name);
        self.numbers.len() + usize::from(is_new(from)) + usize::from(from != to && is_new(to))
    }

    /// An event that was read from the row at a place.
    fn take(&mut self, event: Event<'a>, text: &[u8], place: usize) {
        let from = self.number(event.from, text);
        self.number(event.to, text);
        if self.broken.is_none() {
            let rules = self.rules_broken(&event);
            if !rules.is_empty() {
                self.broken = Some(Broken { row: self.rows, rules, place });
            }
        }
        if !self.goes_on(&event) {
            self.end_duty();
            self.balance[from] -= 1;
        }
        self.duties.insert(event.duty);
        self.last = Some(event);
        self.rows += 1;
    }

    /// The number of a node, "in order of first sight (a row's start first)".
    fn number(&mut self, name: &'a [u8], text: &[u8]) -> usize {
        let next = self.places.len();
        let number = *self.numbers.entry(name).or_insert(next);
        if number == next {
            self.places.push(name.as_ptr() as usize - text.as_ptr() as usize);
            self.balance.push(0);
        }
        number
    }

    /// The duty of the last row ends where that row does.
    fn end_duty(&mut self) {
        if let Some(last) = &self.last {
            self.balance[self.numbers[last.to]] += 1;
        }
    }

    /// Whether the row before is of the same duty.
    fn goes_on(&self, event: &Event) -> bool {
        self.last.as_ref().map_or(false, |last| last.duty == event.duty)
    }

    /// The rules that an event breaks, rising.
    fn rules_broken(&self, event: &Event) -> Vec<u32> {
        let before = self.last.as_ref().filter(|last| last.duty == event.duty);
        let kept = [
            // "every event ends after it starts"
            event.start < event.end,
            // "only TRAIN events may end at a node other than their start"
            event.is_train || event.from == event.to,
            // "rows of one duty stand together"
            before.is_some() || !self.duties.contains(event.duty),
            // "SEQ runs from 1"
            event.seq == before.map_or(1, |before| before.seq + 1),
            // "each event starts at the previous one's time and node"
            before.map_or(true, |before| (before.end, before.to) == (event.start, event.from)),
            // "the HHMMSS columns match the seconds"
            event.texts.map(seconds_of) == [Some(event.start), Some(event.end)],
        ];
        (1..).zip(kept).filter(|(_, is_kept)| !is_kept).map(|(rule, _)| rule).collect()
    }

    /// All rows were read: "accepted, or the first broken row with its lowest rule".
    fn told(mut self) -> Duties {
        if let Some(Broken { row, rules, place }) = self.broken {
            let answer = Answer::Broken { row, rule: rules[0], place };
            return Duties { answer, faults: rules, is_behind_broken: false, nodes: None, balance: None };
        }
        self.end_duty();
        let mut lengths = vec![0; self.places.len()];
        for (name, number) in &self.numbers {
            lengths[*number] = name.len();
        }
        let nodes = self.places.iter().zip(lengths).flat_map(|(place, length)| [*place as u32, length as u32]).collect();
        Duties { answer: Answer::Accepted, faults: Vec::new(), is_behind_broken: false, nodes: Some(nodes), balance: Some(self.balance) }
    }
}

/// What a text of the HHMMSS columns says, if it is one: `HH:MM:SS`, "from day 1 on `Nd ` before it, N one digit".
fn seconds_of(text: &[u8]) -> Option<u32> {
    match text {
        [day @ b'1'..=b'9', b'd', b' ', clock @ ..] => Some(u32::from(day - b'0') * DAY + clock_of(clock)?),
        clock => clock_of(clock),
    }
}

/// `00:00:00` to `23:59:59`.
fn clock_of(text: &[u8]) -> Option<u32> {
    let two = |digits: &[u8]| match digits {
        [ten @ b'0'..=b'9', one @ b'0'..=b'9'] => Some(u32::from(ten - b'0') * 10 + u32::from(one - b'0')),
        _ => None,
    };
    let numbers: Vec<u32> = parts(text, b':').into_iter().map(two).collect::<Option<_>>()?;
    match numbers[..] {
        [hours @ 0..=23, minutes @ 0..=59, seconds @ 0..=59] => Some(hours * HOUR + minutes * MINUTE + seconds),
        _ => None,
    }
}

#[cfg(test)]
mod tests {
    use super::*;

    #[test]
    fn times_as_texts() {
        for (text, seconds) in [
            ("00:00:00", 0),
            ("00:00:59", 59),
            ("00:59:59", 3_599),
            ("19:42:00", 70_920),
            ("23:59:59", 86_399),
            ("1d 00:00:00", 86_400),
            ("1d 00:22:00", 87_720),
            ("9d 23:59:59", GREATEST),
        ] {
            assert_eq!(seconds_of(text.as_bytes()), Some(seconds), "{text}");
        }
        for text in [
            "", "24:00:00", "00:60:00", "00:00:60", "0d 00:00:00", "1d00:22:00", "1d  00:22:00", "01d 00:22:00", "10d 00:00:00", "1D 00:22:00",
            "1d 24:00:00", "0:22:00", "00:22", "00:22:00:00", "00:22:00 ", " 00:22:00", "00-22-00", "d 00:22:00", "00:22:0a", "+1:22:00",
        ] {
            assert_eq!(seconds_of(text.as_bytes()), None, "{text}");
        }
    }

    #[test]
    fn names_by_their_bytes() {
        for byte in 0..=255u8 {
            let is_within = (33..=126).contains(&byte) && byte != 34 && byte != 44;
            assert_eq!(is_name(&[b'a', byte]), is_within, "{byte}");
        }
        for (length, is_within) in [(0, false), (1, true), (32, true), (33, false)] {
            assert_eq!(is_name(&vec![b'x'; length]), is_within, "{length}");
        }
    }
}
