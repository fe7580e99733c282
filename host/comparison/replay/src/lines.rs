//! A call's line: what is answered, how much was tested for a verdict, then a digest of each lent room.

use crate::block::Block;
use crate::calls::Entry;
use crate::exports::{Numbers, TESTED};
use crate::input::Texts;
use crate::rooms::{digest, Rooms};
use std::ops::RangeInclusive;

/// The first line of every run.
pub const LABEL: &str = "no violation shown is not no violation";

/// The line of a call whose entry is not there.
pub const SKIPPED: &str = "skipped";

/// What is said of input that is no call.
pub const BAD: &str = "replay: bad case";

// The codes of an answer.
const ACCEPTED: u64 = 0;
const VIOLATED: u64 = 1;
const REFUSED: u64 = 2;
const ROW: u64 = 3;
const BROKEN: u64 = 4;

/// An answer's numbers after its code, without those of what was tested.
type Values = [u64; TESTED - 1];

/// From the least to the greatest that a value may be.
type Range = RangeInclusive<u64>;

const ANY: Range = 0..=u64::MAX;
const COUNT: Range = 0..=u32::MAX as u64;

/// No more tests than legs and twice the constraints.
const TESTS: Range = 0..=32_768 + 2 * 65_536;

/// The kinds of tests: a row's choice and the inequalities of each list.
const KINDS: usize = 6;

/// Kind, position, inequality, shortfall, file.
const VIOLATION: [Range; 5] = [0..=5, COUNT, 0..=2, COUNT, 4..=5];

/// Number, file, place.
const REFUSAL: [Range; 3] = [COUNT, 0..=5, COUNT];

/// Row, rule, place.
const BROKEN_ROW: [Range; 3] = [COUNT, 1..=6, COUNT];

/// Number, file, place of duties.
const DUTIES_REFUSAL: [Range; 3] = [COUNT, 6..=6, COUNT];

/// The refusal numbers of duties.
fn is_duties_refusal(number: u64) -> bool {
    matches!(number, 2..=6 | 10 | 16)
}

/// A node's numbers in its table.
const NODE: usize = 2;

/// Document 01's refusal numbers, and that of an edition that is not known.
fn is_refusal(number: u64) -> bool {
    matches!(number, 1..=17 | 21)
}

/// Six figures, the bits of four doubles, two quarters.
const ENERGIES: [Range; 12] = [ANY, ANY, ANY, ANY, ANY, ANY, ANY, ANY, ANY, ANY, COUNT, COUNT];

// The files that a row is shown of.
const DRAFT: u32 = 1;
const SOLUTION: u32 = 4;

/// The line of an answer, and of the rooms as the call left them. An answer that is none of the header's is written with all its numbers, so that it differs
/// from any that is expected.
pub fn line(entry: Entry, block: &Block, texts: &Texts, numbers: &Numbers, rooms: &Rooms) -> String {
    let shown = match entry {
        Entry::Row => row(numbers, shown_text(block, texts)),
        Entry::Duties => duties(numbers, rooms.curves.len().min(rooms.legs.len() / NODE)),
        _ => words(entry, numbers, rooms.text.len()),
    };
    let said = shown.unwrap_or_else(|| listed("unknown", numbers));
    let digests = match entry {
        Entry::Duties => vec![digest(&rooms.legs), digest(&rooms.curves)],
        _ => rooms.digests().to_vec(),
    };
    listed(&format!("{said} |"), &digests)
}

/// What is said of duties, with room for so many nodes; how much was tested is none of theirs.
fn duties(numbers: &Numbers, room: usize) -> Option<String> {
    let (answer, tested) = numbers.split_at(TESTED);
    let [code, values @ ..] = <&[u64; TESTED]>::try_from(answer).ok()?;
    match *code {
        _ if !is_untested(tested) => None,
        ACCEPTED => said("accepted", values, &[0..=room as u64]),
        BROKEN => said("broken", values, &BROKEN_ROW),
        REFUSED if is_duties_refusal(values[0]) => said("refused", values, &DUTIES_REFUSAL),
        _ => None,
    }
}

/// The words, then the numbers, with a space before each.
fn listed<N: ToString>(words: &str, numbers: &[N]) -> String {
    numbers.iter().fold(String::from(words), |line, number| line + " " + &number.to_string())
}

fn words(entry: Entry, numbers: &Numbers, text_room: usize) -> Option<String> {
    let (answer, tested) = numbers.split_at(TESTED);
    let [code, values @ ..] = <&[u64; TESTED]>::try_from(answer).ok()?;
    match (*code, entry) {
        (VIOLATED, _) => Some(said("violated", values, &VIOLATION)? + &tally(tested)?),
        (REFUSED, _) if is_refusal(values[0]) && is_untested(tested) => said("refused", values, &REFUSAL),
        (ACCEPTED, Entry::Check) => Some(said("accepted", values, &[])? + &tally(tested)?),
        (ACCEPTED, Entry::Energy) => Some(energies(values)? + &tally(tested)?),
        (ACCEPTED, Entry::MergeEarlier | Entry::MergeLater) if is_untested(tested) => said("accepted", values, &[0..=text_room as u64]),
        _ => None,
    }
}

/// Behind a verdict: the total, and the counts that add up to it.
fn tally(tested: &[u64]) -> Option<String> {
    let (total, kinds) = tested.get(..=KINDS)?.split_first()?;
    let adds_up = kinds.iter().try_fold(0, |sum: u64, count| sum.checked_add(*count)) == Some(*total);
    (adds_up && are_within(tested, &[TESTS; 1 + KINDS])).then(|| listed(" #", &tested[..=KINDS]))
}

/// As behind a refusal, and behind a text that is written.
fn is_untested(tested: &[u64]) -> bool {
    are_within(tested, &[])
}

/// The word with its values, as they stand, where each is within its range.
fn said(word: &str, values: &Values, ranges: &[Range]) -> Option<String> {
    are_within(values, ranges).then(|| listed(word, &values[..ranges.len()]))
}

/// Whether each value is within its range, and those that have none are 0.
fn are_within(values: &[u64], ranges: &[Range]) -> bool {
    let (used, unused) = values.split_at(ranges.len());
    used.iter().zip(ranges).all(|(value, range)| range.contains(value)) && unused.iter().all(|value| *value == 0)
}

/// The six figures, the quarters of the two peaks, and the bits of the four doubles.
fn energies(values: &Values) -> Option<String> {
    let [before, drawn, lost, fluctuation, peak_before, peak_drawn, doubles @ .., of_before, of_drawn, _, _, _] = values;
    let fluctuation = *fluctuation as i64;
    let bits: Vec<String> = doubles.iter().map(|bits| format!("{bits:016x}")).collect();
    let figures = format!("accepted {before} {drawn} {lost} {fluctuation} {peak_before} {peak_drawn} {of_before} {of_drawn}");
    are_within(values, &ENERGIES).then(|| listed(&figures, &bits))
}

/// The text whose row is asked for. Any other file has no row.
fn shown_text<'a>(block: &Block, texts: &'a Texts) -> &'a [u8] {
    let [draft, _, _, solution, _] = texts.parts();
    match block.file {
        DRAFT => draft,
        SOLUTION => solution,
        _ => &[],
    }
}

/// The length of the row and a digest of its bytes. Start and length are within the text, and both 0 where no row starts there.
fn row(numbers: &Numbers, text: &[u8]) -> Option<String> {
    let [code, start, length, unused @ ..] = numbers;
    let end = start.checked_add(*length).filter(|end| *end <= text.len() as u64)?;
    let is_row = *code == ROW && are_within(unused, &[]) && (*start > 0 || *length == 0);
    is_row.then(|| format!("row {length} {}", digest(&text[*start as usize..end as usize])))
}

#[cfg(test)]
mod tests {
    use super::*;
    use crate::exports::NUMBERS;

    fn numbers(first: &[u64]) -> Numbers {
        let mut all = [0; NUMBERS];
        all[..first.len()].copy_from_slice(first);
        all
    }

    fn told(entry: Entry, first: &[u64]) -> Option<String> {
        words(entry, &numbers(first), 9)
    }

    /// The words of an answer with these numbers from `TESTED` on.
    fn told_of(entry: Entry, first: &[u64], tested: &[u64]) -> Option<String> {
        let mut all = numbers(first);
        all[TESTED..][..tested.len()].copy_from_slice(tested);
        words(entry, &all, 9)
    }

    #[test]
    fn each_answer_has_its_words() {
        assert_eq!(told(Entry::Check, &[0]).unwrap(), "accepted # 0 0 0 0 0 0 0");
        assert_eq!(told_of(Entry::Check, &[0], &[27, 1, 2, 3, 4, 5, 12]).unwrap(), "accepted # 27 1 2 3 4 5 12");
        assert_eq!(told_of(Entry::Check, &[1, 3, 7, 1, 3, 5], &[3, 2, 0, 0, 1]).unwrap(), "violated 3 7 1 3 5 # 3 2 0 0 1 0 0");
        assert_eq!(told(Entry::MergeLater, &[2, 17, 5, 113]).unwrap(), "refused 17 5 113");
        assert_eq!(told(Entry::Energy, &[2, 21, 0, 0]).unwrap(), "refused 21 0 0");
        assert_eq!(told(Entry::MergeEarlier, &[0, 9]).unwrap(), "accepted 9");
        assert_eq!(row(&numbers(&[3, 1, 2]), b"\n12").unwrap(), "row 2 1569");
        assert_eq!(row(&numbers(&[3]), b"").unwrap(), "row 0 0");
    }

    #[test]
    fn duties_have_their_words() {
        let told = |first: &[u64]| duties(&numbers(first), 9);
        assert_eq!(told(&[0, 9]).unwrap(), "accepted 9");
        assert_eq!(told(&[0]).unwrap(), "accepted 0");
        assert_eq!(told(&[4, 7, 5, 624]).unwrap(), "broken 7 5 624");
        assert_eq!(told(&[2, 16, 6, 129]).unwrap(), "refused 16 6 129");
        let others: [&[u64]; 12] = [
            &[0, 10],
            &[0, 1, 1],
            &[1, 3, 7, 1, 3, 5],
            &[3],
            &[4, 7, 0, 624],
            &[4, 7, 7, 624],
            &[4, 1 << 32, 1, 624],
            &[4, 7, 5, 624, 1],
            &[2, 16, 5, 129],
            &[2, 7, 6, 129],
            &[2, 21, 6, 0],
            &[u64::MAX; NUMBERS],
        ];
        for other in others {
            assert_eq!(told(other), None, "{other:?}");
        }
        let mut counted = numbers(&[0, 9]);
        counted[TESTED] = 1;
        assert_eq!(duties(&counted, 9), None);
        for entry in [Entry::Check, Entry::Energy, Entry::MergeEarlier] {
            assert_eq!(words(entry, &numbers(&[4, 7, 5, 624]), 9), None);
            assert_eq!(words(entry, &numbers(&[2, 4, 6, 129]), 9), None);
        }
    }

    #[test]
    fn energies_by_their_places() {
        let given = [0, 1, 2, 3, u64::MAX, 5, 6, 0.5f64.to_bits(), 0, 1, u64::MAX, 29, 195];
        let expected = "accepted 1 2 3 -1 5 6 29 195 3fe0000000000000 0000000000000000 0000000000000001 ffffffffffffffff # 2 2 0 0 0 0 0";
        assert_eq!(told_of(Entry::Energy, &given, &[2, 2]).unwrap(), expected);
        assert_eq!(told(Entry::Energy, &[&given[..], &[1]].concat()), None);
        assert_eq!(told(Entry::Energy, &[0, 0, 0, 0, 0, 0, 0, 0, 0, 0, 0, 1 << 32]), None);
    }

    #[test]
    fn what_is_not_known_is_no_answer() {
        let others: [&[u64]; 13] = [
            &[3],
            &[4],
            &[u64::MAX; NUMBERS],
            &[0, 1],
            &[1, 6, 0, 1, 1, 4],
            &[1, 1, 0, 3, 1, 4],
            &[1, 1, 0, 1, 1, 3],
            &[1, 1, 1 << 32, 1, 1, 4],
            &[2, 0, 0, 0],
            &[2, 18, 0, 0],
            &[2, 20, 1, 0],
            &[2, 22, 0, 0],
            &[2, 4, 1, 0, 1],
        ];
        for other in others {
            assert_eq!(told(Entry::Check, other), None, "{other:?}");
        }
        assert_eq!(told(Entry::MergeLater, &[0, 10]), None);
        let unknown: [&[u64]; 6] =
            [&[3, 2], &[0, 0, 1], &[3, 2, 0, 0, 1, 0, 0, 1], &[163_841, 163_841], &[1, u64::MAX, 2], &[u64::MAX; NUMBERS - TESTED]];
        for tested in unknown {
            assert_eq!(told_of(Entry::Check, &[0], tested), None, "{tested:?}");
        }
        // A refusal and a text that is written have no tests.
        assert_eq!(told_of(Entry::Check, &[2, 4, 1, 0], &[1, 1]), None);
        assert_eq!(told_of(Entry::MergeLater, &[0, 9], &[1, 1]), None);
        assert_eq!(told_of(Entry::MergeLater, &[1, 0, 0, 0, 0, 5], &[1, 1]).unwrap(), "violated 0 0 0 0 5 # 1 1 0 0 0 0 0");
        for other in [&[0, 1, 2][..], &[3, 0, 1], &[3, 2, 2], &[3, u64::MAX, 2], &[3, 1, 2, 1]] {
            assert_eq!(row(&numbers(other), b"\n12"), None, "{other:?}");
        }
    }
}
