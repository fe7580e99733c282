//! How much was tested for a verdict (document 02, E6), and the numbers that say it.

use crate::answers::{Answer, Kind};

/// One test for each row's choice and one for each inequality, up to and with the first that fails: six counts, one for each kind, and their total. None
/// were made for a refusal.
#[derive(Clone, Copy, Debug, PartialEq, Eq, Default)]
pub struct Tally {
    pub kinds: [u32; Kind::ALL.len()],
    pub total: u32,
}

/// The most legs and the most constraints (document 01, "Sizes"), of which each has two inequalities at most.
const MOST_LEGS: u64 = 32_768;
const MOST_CONSTRAINTS: u64 = 65_536;

impl Tally {
    /// More tests than this are never made.
    pub const MOST: u64 = MOST_LEGS + 2 * MOST_CONSTRAINTS;

    pub fn of(&self, kind: Kind) -> u32 {
        self.kinds[usize::from(kind.number())]
    }

    /// The total, the six counts, which add up to it, and 0s behind them.
    pub(crate) fn read(numbers: &[u64]) -> Option<Tally> {
        let (total, rest) = numbers.split_first()?;
        let counts = rest.get(..Kind::ALL.len())?;
        let are_known = rest.iter().all(|count| *count <= Tally::MOST) && rest[counts.len()..].iter().all(|unused| *unused == 0);
        if !are_known || *total > Tally::MOST || counts.iter().sum::<u64>() != *total {
            return None;
        }
        let mut tally = Tally { kinds: Default::default(), total: *total as u32 };
        for (kind, count) in tally.kinds.iter_mut().zip(counts) {
            *kind = *count as u32;
        }
        Some(tally)
    }
}

/// An answer, and how much was tested for it. A merge that is written is a text and no verdict: it has no tests.
#[derive(Clone, Copy, Debug, PartialEq)]
pub struct Ruling<T> {
    pub answer: Answer<T>,
    pub tally: Tally,
}

impl<T> Ruling<T> {
    pub fn map<U>(self, give: impl FnOnce(T) -> U) -> Ruling<U> {
        Ruling { answer: self.answer.map(give), tally: self.tally }
    }

    /// Whether the tests can be the answer's: none for a refusal, and for a violation at least the one that failed.
    pub(crate) fn is_known(&self) -> bool {
        match &self.answer {
            Answer::Accepted(_) => true,
            Answer::Violated(violation) => self.tally.of(violation.kind) > 0,
            Answer::Refused(_) => self.tally == Tally::default(),
        }
    }
}

#[cfg(test)]
mod tests {
    use super::*;

    #[test]
    fn six_counts_and_their_total() {
        let tally = Tally { kinds: [2, 4, 1, 0, 3, 6], total: 16 };
        assert_eq!(Tally::read(&[16, 2, 4, 1, 0, 3, 6, 0]), Some(tally));
        assert_eq!((tally.of(Kind::NotOffered), tally.of(Kind::Dwell), tally.of(Kind::Connection)), (2, 0, 6));
        assert_eq!(Tally::read(&[0; 8]), Some(Tally::default()));
        assert_eq!(Tally::read(&[163_840, 32_768, 131_072, 0, 0, 0, 0, 0]).map(|tally| u64::from(tally.total)), Some(Tally::MOST));
    }

    #[test]
    fn counts_that_do_not_add_up_are_none() {
        for numbers in [
            [1, 0, 0, 0, 0, 0, 0, 0],
            [0, 1, 0, 0, 0, 0, 0, 0],
            [3, 1, 1, 0, 0, 0, 0, 1],
            [2, 1, 1, 0, 0, 0, 0, 1],
            [163_841, 32_768, 131_073, 0, 0, 0, 0, 0],
            [1, u64::MAX, 2, 0, 0, 0, 0, 0],
            [1 << 32, 1 << 32, 0, 0, 0, 0, 0, 0],
            [u64::MAX; 8],
        ] {
            assert_eq!(Tally::read(&numbers), None, "{numbers:?}");
        }
    }
}
