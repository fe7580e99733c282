//! A seeded maker of small cases: document 01's worked example and variations of it, sound or damaged, limits at and past the edge, rows to
//! be shown; files of duties. The expected answers are the independent program's; here it only decides which cases are kept.

mod damage;
pub mod draw;
pub mod duties;
pub mod edges;
pub mod editions;
pub mod examples;
mod plan;
pub mod quotes;
pub mod random;
mod rows;
pub mod spelling;
mod sweep;
pub mod tallies;
pub mod target;
pub mod twin;

pub use plan::{Scale, LIST_NAMES};

use independent::{Call, Entry};
use random::Random;
use target::Target;

/// A call, and why it was made.
#[derive(Clone, Debug)]
pub struct Named {
    pub name: String,
    pub call: Call,
}

/// Of each twenty calls so many are rows to be shown, so many have a byte damaged in its turn, and the last ones are of duties; the others are drawn for a target.
const TURNS: usize = 20;
const ROWS: usize = 2;
const SWEPT: usize = 5;
const DUTIES: usize = 3;
/// One in so many of the others is drawn to be accepted.
const ACCEPTED: usize = 5;

/// The calls of a seed with these numbers, for the entries given. Each number has a stream of its own, so that any cutting gives the
/// same calls.
pub fn calls(seed: u64, numbers: std::ops::Range<usize>, entries: &[Entry]) -> Vec<Named> {
    numbers.map(|number| call(seed, number, entries)).collect()
}

fn call(seed: u64, number: usize, entries: &[Entry]) -> Named {
    let mut random = Random::of(seed, number as u64);
    let judging: Vec<Entry> = entries.iter().copied().filter(|entry| entry.is_judging()).collect();
    let turns = |entry: Entry, some: usize, all: usize| match (entries.contains(&entry), judging.is_empty()) {
        (false, _) => 0,
        (true, false) => some,
        (true, true) => all,
    };
    let duties = turns(Entry::Duties, DUTIES, TURNS);
    let rows = turns(Entry::Row, ROWS, TURNS - duties.min(TURNS - ROWS));
    let turn = number % TURNS;
    if turn < rows {
        return Named { name: String::from("a row"), call: rows::draw(&mut random) };
    }
    if turn >= TURNS - duties {
        return duties::drawn::draw(&mut random, number / TURNS * duties + turn + duties - TURNS);
    }
    let entry = *random.pick(&judging);
    if turn < rows + SWEPT {
        let (name, case) = sweep::draw(&mut random, number / TURNS * SWEPT + turn - rows);
        return Named { name, call: Call::of(entry, case) };
    }
    drawn(&mut random, entry)
}

/// A call drawn for acceptance, or for one of the entry's targets, each as likely as another; where no try met it, for the next one drawn.
fn drawn(random: &mut Random, entry: Entry) -> Named {
    let targets = target::targets(entry);
    loop {
        let target = if random.one_in(ACCEPTED) { Target::Accepted } else { *random.pick(&targets) };
        if let Some(case) = draw::for_target(random, entry, target, Scale::Small) {
            return Named { name: format!("{target:?}"), call: Call::of(entry, case) };
        }
    }
}

#[cfg(test)]
mod tests {
    use super::*;
    use independent::{row_at, Answer, Case, Direction, Rooms};
    use plan::Plan;
    use std::collections::BTreeSet;

    const JUDGING: [Entry; 4] = [Entry::Check, Entry::Energy, Entry::MergeEarlier, Entry::MergeLater];

    /// Cases of every sort, as they are drawn.
    fn cases(seed: u64, count: usize) -> Vec<Case> {
        calls(seed, 0..count, &JUDGING).into_iter().map(|named| named.call.case).collect()
    }

    #[test]
    fn the_examples_are_accepted() {
        assert_eq!(Plan::example().case().check().answer, Answer::Accepted);
        assert_eq!(Plan::of_every_kind().case().check().answer, Answer::Accepted);
        let mut exact = Plan::of_every_kind().case();
        exact.rooms = Plan::of_every_kind().needs();
        assert_eq!(exact.energy().answer, Answer::Accepted);
        assert_eq!(exact.merge(Direction::Later).answer, Answer::Accepted);
    }

    #[test]
    fn any_cutting_gives_the_same_calls() {
        let whole = calls(5, 0..90, &Entry::ALL);
        let parts = [calls(5, 0..31, &Entry::ALL), calls(5, 31..90, &Entry::ALL)].concat();
        let texts = |list: &[Named]| list.iter().map(|named| named.call.clone()).collect::<Vec<_>>();
        assert_eq!(texts(&whole), texts(&parts));
    }

    #[test]
    fn every_target_is_met() {
        let mut random = Random::seeded(3);
        for entry in JUDGING {
            for target in target::targets(entry) {
                assert!(draw::for_target(&mut random, entry, target, Scale::Small).is_some(), "{entry:?} {target:?}");
            }
        }
    }

    #[test]
    fn a_round_of_the_sweep_damages_each_byte() {
        let plain = Plan::of_every_kind().case();
        let bytes: usize = plain.texts.iter().chain(&spelling::all_exported(plain.clone()).texts).map(Vec::len).sum();
        let turns = bytes * TURNS / SWEPT + TURNS;
        let names = calls(9, 0..turns, &[Entry::Check, Entry::Row]);
        let places = |named: &Named| named.name.split(' ').take(5).collect::<Vec<_>>().join(" ");
        let swept: BTreeSet<String> = names.iter().filter(|n| n.name.starts_with("byte ")).map(places).collect();
        assert_eq!(swept.len(), bytes);
    }

    #[test]
    fn edges_lie_on_both_sides() {
        let answers: Vec<Target> = edges::edges().iter().map(|edge| Target::of(edge.call.case.check().answer)).collect();
        assert!(answers.iter().filter(|answer| **answer == Target::Accepted).count() > 50);
        for number in [1, 5, 6, 16] {
            assert!(answers.iter().any(|answer| matches!(answer, Target::Refused { number: n, .. } if *n == number)));
        }
    }

    #[test]
    fn places_stand_in_their_texts() {
        for case in cases(11, 600) {
            if let Answer::Refused { number, file, place } = case.check().answer {
                if file == 0 {
                    assert_eq!(place, 0);
                    continue;
                }
                let text = &case.texts[file as usize - 1];
                assert!(place <= text.len());
                let (start, length) = row_at(&case.texts[0], &case.texts[3], file, place);
                if (file == 1 || file == 4) && number != 3 && place < text.len() {
                    assert_eq!(start, place);
                    assert!(start + length <= text.len());
                } else {
                    assert_eq!((start, length), (0, 0));
                }
            }
        }
    }

    #[test]
    fn tables_are_given_unless_refused() {
        for case in cases(12, 600) {
            let checked = case.check();
            let refused = matches!(checked.answer, Answer::Refused { .. });
            assert_eq!(checked.tables.is_none(), refused);
        }
    }

    #[test]
    fn drawn_less_lost_is_the_sum_of_the_curves() {
        for case in cases(13, 600) {
            let report = case.energy();
            let sum: i64 = report.curves.unwrap_or_default().iter().map(|p| i64::from(*p)).sum();
            assert_eq!(report.figures.drawn - report.figures.lost, sum);
            assert!(report.figures.drawn <= report.figures.before);
            assert!(report.figures.peak_drawn <= report.figures.peak_before);
            if case.h <= 900 {
                assert_eq!((report.figures.peak_before, report.figures.peak_drawn), (report.figures.before, report.figures.drawn));
            }
        }
    }

    /// What is drawn in each quarter, by the curves.
    fn drawn_by_quarter(case: &Case) -> Vec<i64> {
        let curves = case.energy().curves.unwrap_or_default();
        let drawn = |second: usize| -> i64 { curves.iter().skip(second).step_by(case.h as usize).map(|p| i64::from(*p).max(0)).sum() };
        let by_second: Vec<i64> = (0..case.h as usize).map(drawn).collect();
        by_second.chunks(900).map(|quarter| quarter.iter().sum()).collect()
    }

    #[test]
    fn seeded_peaks_lie_in_later_quarters() {
        let later = cases(16, 3_000).iter().filter(|case| (1_800..=2_700).contains(&case.h) && case.energy().quarters[1] > 0).count();
        assert!(later > 20, "{later}");
    }

    /// Seeded cases meet two equal greatest quarters now and then; the edges have them on purpose.
    #[test]
    fn the_greatest_of_equal_quarters_is_the_first() {
        let mut equal = 0;
        for case in edges::edges().into_iter().map(|named| named.call.case).filter(|case| (901..=2_700).contains(&case.h)) {
            let (report, sums) = (case.energy(), drawn_by_quarter(&case));
            let peak = report.figures.peak_drawn;
            if peak > 0 && sums.iter().filter(|sum| **sum == peak).count() > 1 {
                assert_eq!(sums.iter().position(|sum| *sum == peak), Some(report.quarters[1] as usize));
                equal += 1;
            }
        }
        assert!(equal > 4, "{equal}");
    }

    #[test]
    fn merged_texts_are_accepted_and_their_curves_add_up() {
        let mut seen = 0;
        for mut case in cases(14, 1_000) {
            case.rooms = Rooms::all(10_000_000);
            let earlier = case.merge(Direction::Earlier);
            let later = case.merge(Direction::Later);
            assert_eq!(earlier.answer, later.answer);
            let (earlier, later) = match (earlier.text, later.text) {
                (Some(earlier), Some(later)) => (earlier, later),
                _ => continue,
            };
            seen += 1;
            let curves = |solution: &[u8]| {
                let mut one = case.clone();
                one.texts[3] = solution.to_vec();
                let report = one.energy();
                assert_eq!(report.answer, Answer::Accepted);
                report.curves.unwrap()
            };
            let sums = |a: Vec<i32>, b: Vec<i32>| -> Vec<i32> { a.iter().zip(&b).map(|(a, b)| a + b).collect() };
            assert_eq!(sums(curves(&earlier), curves(&later)), sums(curves(&case.texts[3]), curves(&case.texts[4])));
            let mut absorbed = case.clone();
            absorbed.texts[4] = later;
            let again = absorbed.merge(Direction::Earlier);
            let mut first = case.clone();
            first.texts[4] = case.texts[3].clone();
            assert_eq!(again.text, first.merge(Direction::Earlier).text);
            absorbed.texts[4] = earlier;
            assert_eq!(absorbed.merge(Direction::Later).text, first.merge(Direction::Later).text);
        }
        assert!(seen > 50, "{seen}");
    }
}
