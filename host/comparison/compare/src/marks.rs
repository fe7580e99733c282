//! What quotes and CR LF (document 02, E1) did in a call: the cells of the table that are about them. Whether a refusal is theirs is told by
//! what is answered without them.

use cases::target::is_merge;
use independent::{Answer, Call, Entry, Lent, Refusal, Said};

const QUOTE: u8 = b'"';
const RETURN: u8 = b'\r';
const FEED: u8 = b'\n';
const COMMA: u8 = b',';

/// Refusal numbers.
const HEADER: u32 = 3;
const ROW: u32 = 4;

/// The texts of draft and solution.
const DRAFT: usize = 0;
const SOLUTION: usize = 3;

/// The file of duties, whose text stands where the draft does.
const DUTIES: usize = 6;

/// What is met in one of the CSV files.
#[derive(Clone, Copy, Debug, PartialEq, Eq, PartialOrd, Ord)]
pub enum InFile {
    Quoted,
    Returned,
    BothEnds,
    HeaderByQuote,
    HeaderByReturn,
    RowByQuote,
    RowByReturn,
    RowByComma,
    RowByFeed,
}

pub const IN_FILE: [(InFile, &str); 9] = [
    (InFile::Quoted, "accepted with quotes"),
    (InFile::Returned, "accepted with CR LF"),
    (InFile::BothEnds, "accepted with LF and CR LF"),
    (InFile::HeaderByQuote, "3 by a quote"),
    (InFile::HeaderByReturn, "3 by a CR"),
    (InFile::RowByQuote, "4 by a quote"),
    (InFile::RowByReturn, "4 by a CR"),
    (InFile::RowByComma, "4 by a comma within quotes"),
    (InFile::RowByFeed, "4 by an LF within quotes"),
];

/// What is met in a whole call.
#[derive(Clone, Copy, Debug, PartialEq, Eq, PartialOrd, Ord)]
pub enum InCall {
    /// Draft and solution, of which one has quotes.
    Differently,
    ShownInQuotes,
    ShownWithoutReturn,
    ShownWithReturn,
}

pub const IN_CALL: [(InCall, &str); 4] = [
    (InCall::Differently, "accepted, quotes in draft or solution alone"),
    (InCall::ShownInQuotes, "row shown, its first byte a quote"),
    (InCall::ShownWithoutReturn, "row shown without its CR"),
    (InCall::ShownWithReturn, "row shown with a CR that is left"),
];

/// A cell.
#[derive(Clone, Copy, Debug, PartialEq, Eq, PartialOrd, Ord)]
pub enum Cell {
    OfFile(InFile, usize),
    OfCall(InCall),
}

/// The text of a file.
fn text_of(file: usize) -> usize {
    if file == DUTIES {
        return DRAFT;
    }
    file - 1
}

/// The files of the cells.
pub fn files() -> [usize; 5] {
    [1, 2, 4, 5, DUTIES]
}

/// The cells that one of the entries can reach, with their names.
pub fn cells(entries: &[Entry]) -> Vec<(Cell, String)> {
    let reads = |file: &usize| entries.iter().any(|entry| judged(*entry).contains(file));
    let mut cells = Vec::new();
    for (met, name) in IN_FILE {
        let read = files().into_iter().filter(reads);
        cells.extend(read.map(|file| (Cell::OfFile(met, file), format!("{name}, file {file}"))));
    }
    let reaches = |entry: Entry, met: InCall| if met == InCall::Differently { entry.is_judging() } else { entry == Entry::Row };
    let reached = |met: InCall| entries.iter().any(|entry| reaches(*entry, met));
    cells.extend(IN_CALL.iter().filter(|(met, _)| reached(*met)).map(|(met, name)| (Cell::OfCall(*met), name.to_string())));
    cells
}

/// The CSV files that an entry judges.
fn judged(entry: Entry) -> &'static [usize] {
    match entry {
        Entry::Row => &[],
        Entry::Duties => &[DUTIES],
        entry if is_merge(entry) => &[1, 2, 4, 5],
        _ => &[1, 2, 4],
    }
}

/// The cells that a call met.
pub fn met(call: &Call, said: &Said) -> Vec<Cell> {
    match (said, said.answer()) {
        (_, Some(Answer::Accepted)) => accepted(call),
        (_, Some(Answer::Refused { number: number @ (HEADER | ROW), file, place })) => refused(call, &Refusal { number, file, place }),
        (Said::Row(start, _), None) if *start > 0 => shown(call, *start),
        _ => Vec::new(),
    }
}

fn accepted(call: &Call) -> Vec<Cell> {
    let mut cells = Vec::new();
    for file in judged(call.entry) {
        let bytes = &call.case.texts[text_of(*file)];
        let lines = bytes.iter().filter(|byte| **byte == FEED).count();
        let returned = bytes.iter().filter(|byte| **byte == RETURN).count();
        let found = [
            (InFile::Quoted, bytes.contains(&QUOTE)),
            (InFile::Returned, returned > 0),
            (InFile::BothEnds, returned > 0 && returned < lines),
        ];
        cells.extend(found.iter().filter(|(_, is_met)| *is_met).map(|(met, _)| Cell::OfFile(*met, *file)));
    }
    let quoted = [DRAFT, SOLUTION].map(|text| call.case.texts[text].contains(&QUOTE));
    if call.entry.is_judging() && quoted[0] != quoted[1] {
        cells.push(Cell::OfCall(InCall::Differently));
    }
    cells
}

fn shown(call: &Call, start: usize) -> Vec<Cell> {
    let row = call.row_bytes();
    let text = &call.case.texts[if call.file == 1 { DRAFT } else { SOLUTION }];
    let found = [
        (InCall::ShownInQuotes, row.first() == Some(&QUOTE)),
        (InCall::ShownWithoutReturn, text[start + row.len()..].starts_with(&[RETURN, FEED])),
        (InCall::ShownWithReturn, row.last() == Some(&RETURN)),
    ];
    found.iter().filter(|(_, is_met)| *is_met).map(|(met, _)| Cell::OfCall(*met)).collect()
}

/// The bytes of the refused line whose absence, each sort by itself, gives another answer.
fn refused(call: &Call, refusal: &Refusal) -> Vec<Cell> {
    let file = refusal.file as usize;
    let text = text_of(file);
    let line = line_at(&call.case.texts[text], refusal.place);
    let is_cured = |dropped: &[usize]| !dropped.is_empty() && without(call, text, dropped) != Some((*refusal).into());
    let all = |byte: u8| line.iter().filter(|(_, other)| *other == byte).map(|(at, _)| *at).collect::<Vec<usize>>();
    let is_row = refusal.number == ROW;
    let within = |byte: u8| is_row && all(byte).into_iter().any(|at| is_within(&line, at) && is_cured(&[at]));
    let found = [
        (if is_row { InFile::RowByQuote } else { InFile::HeaderByQuote }, is_cured(&all(QUOTE))),
        (if is_row { InFile::RowByReturn } else { InFile::HeaderByReturn }, is_cured(&all(RETURN))),
        (InFile::RowByComma, within(COMMA)),
        (InFile::RowByFeed, within(FEED)),
    ];
    found.iter().filter(|(_, is_met)| *is_met).map(|(met, _)| Cell::OfFile(*met, file)).collect()
}

/// The bytes of a line with their places, its LF too.
fn line_at(text: &[u8], place: usize) -> Vec<(usize, u8)> {
    let end = text[place..].iter().position(|byte| *byte == FEED).map_or(text.len(), |length| place + length + 1);
    (place..end).map(|at| (at, text[at])).collect()
}

/// Whether a quote is open before this byte.
fn is_within(line: &[(usize, u8)], place: usize) -> bool {
    line.iter().take_while(|(at, _)| *at < place).filter(|(_, byte)| *byte == QUOTE).count() % 2 == 1
}

/// The answer where a text has lost some bytes.
fn without(call: &Call, text: usize, dropped: &[usize]) -> Option<Answer> {
    let mut changed = call.clone();
    let kept = call.case.texts[text].iter().enumerate().filter(|(at, _)| !dropped.contains(at));
    changed.case.texts[text] = kept.map(|(_, byte)| *byte).collect();
    changed.run(&mut Lent::full_of(0, &call.case.rooms)).answer()
}

#[cfg(test)]
mod tests {
    use super::*;
    use cases::examples::worked;
    use std::collections::BTreeSet;

    /// The cells of a check where a text is another.
    fn cells_with(text: usize, changed: impl Fn(&str) -> String) -> Vec<Cell> {
        let mut call = worked().remove(0).call;
        let plain = String::from_utf8(call.case.texts[text].clone()).unwrap();
        call.case.texts[text] = changed(&plain).into_bytes();
        let said = call.run(&mut Lent::full_of(0, &call.case.rooms));
        met(&call, &said)
    }

    /// So no seed leaves a cell empty.
    #[test]
    fn the_calls_that_no_seed_changes_meet_every_cell() {
        let said = |call: &Call| call.run(&mut Lent::full_of(0, &call.case.rooms));
        let calls = [cases::quotes::calls(), cases::duties::calls()].concat();
        let met: BTreeSet<Cell> = calls.iter().flat_map(|named| met(&named.call, &said(&named.call))).collect();
        for (cell, name) in cells(&Entry::ALL) {
            assert!(met.contains(&cell), "{name}");
        }
    }

    #[test]
    fn what_a_call_met() {
        use InFile::*;
        let cells = |of_file: &[InFile], file: usize| of_file.iter().map(|met| Cell::OfFile(*met, file)).collect::<Vec<Cell>>();
        assert_eq!(cells_with(DRAFT, str::to_string), []);
        assert_eq!(cells_with(1, |text| text.replace('\n', "\r\n")), cells(&[Returned], 2));
        assert_eq!(cells_with(1, |text| text.replacen('\n', "\r\n", 1)), cells(&[Returned, BothEnds], 2));
        let differently = [cells(&[Quoted], 1), vec![Cell::OfCall(InCall::Differently)]].concat();
        assert_eq!(cells_with(DRAFT, |text| text.replacen("leg_id", "\"leg_id\"", 1)), differently);
        assert_eq!(cells_with(DRAFT, |text| text.replacen("leg_id", "\"leg_id", 1)), cells(&[HeaderByQuote], 1));
        assert_eq!(cells_with(SOLUTION, |text| text.replacen("leg_id", "\rleg_id", 1)), cells(&[HeaderByReturn], 4));
        assert_eq!(cells_with(SOLUTION, |text| text.replacen("10_4_7", "\"10_4_7", 1)), cells(&[RowByQuote], 4));
        assert_eq!(cells_with(1, |text| text.replacen("1.0", "1.0\r", 1)), cells(&[RowByReturn], 2));
        assert_eq!(cells_with(DRAFT, |text| text.replacen("10_4_7", "\"10_4_7,\"", 1)), cells(&[RowByComma], 1));
        assert_eq!(cells_with(DRAFT, |text| text.replacen("10_4_7 15_4_7", "\"10_4_7 \n15_4_7\"", 1)), cells(&[RowByFeed], 1));
    }
}
