//! The answers of document 01, and how the library's numbers say them.

use crate::tally::{Ruling, Tally};
use std::fmt;

/// "Any bytes in any of the files end in one of three answers". An accepted one carries what its entry gives.
#[derive(Clone, Copy, Debug, PartialEq)]
pub enum Answer<T> {
    Accepted(T),
    Violated(Violation),
    Refused(Refusal),
}

impl<T> Answer<T> {
    pub fn map<U>(self, give: impl FnOnce(T) -> U) -> Answer<U> {
        match self {
            Answer::Accepted(given) => Answer::Accepted(give(given)),
            Answer::Violated(violation) => Answer::Violated(violation),
            Answer::Refused(refusal) => Answer::Refused(refusal),
        }
    }
}

/// The files, by the documents' numbers.
#[derive(Clone, Copy, Debug, PartialEq, Eq)]
pub enum File {
    None,
    Timetable,
    Profiles,
    Constraints,
    Solution,
    SecondSolution,
    /// Document 02's E13.
    Duties,
}

impl File {
    const ALL: [File; 7] =
        [File::None, File::Timetable, File::Profiles, File::Constraints, File::Solution, File::SecondSolution, File::Duties];

    pub fn number(self) -> u8 {
        self as u8
    }

    pub fn of(number: u64) -> Option<File> {
        File::ALL.into_iter().find(|file| u64::from(file.number()) == number)
    }
}

/// The kinds of violation, by document 01's numbers.
#[derive(Clone, Copy, Debug, PartialEq, Eq)]
pub enum Kind {
    NotOffered,
    Headway,
    SingleTrack,
    Dwell,
    Turnaround,
    Connection,
}

impl Kind {
    pub const ALL: [Kind; 6] = [Kind::NotOffered, Kind::Headway, Kind::SingleTrack, Kind::Dwell, Kind::Turnaround, Kind::Connection];

    pub fn number(self) -> u8 {
        self as u8
    }

    fn of(number: u64) -> Option<Kind> {
        Kind::ALL.into_iter().find(|kind| u64::from(kind.number()) == number)
    }

    /// How many inequalities a record of this kind has; a choice that is not offered has none.
    pub fn inequalities(self) -> u8 {
        match self {
            Kind::NotOffered => 0,
            Kind::Headway | Kind::Connection => 2,
            Kind::SingleTrack | Kind::Dwell | Kind::Turnaround => 1,
        }
    }
}

/// The first inequality that fails, or the first choice that is not offered.
#[derive(Clone, Copy, Debug, PartialEq, Eq)]
pub struct Violation {
    pub kind: Kind,
    /// Within the list of its kind, or the row; from 0.
    pub position: u32,
    pub inequality: u8,
    /// Left side minus right, in seconds.
    pub shortfall: u32,
    pub file: File,
}

/// The refusal numbers: document 01's, and 21 of document 02's E4.
#[derive(Clone, Copy, Debug, PartialEq, Eq)]
pub enum Reason {
    Horizon = 1,
    TooLong,
    Header,
    RowForm,
    Range,
    Count,
    Seen,
    Nominal,
    JsonForm,
    UnknownName,
    RepeatedOrMissing,
    NotThere,
    Samples,
    Differs,
    NoSubnet,
    Room,
    Travel,
    Edition = 21,
}

impl Reason {
    pub const ALL: [Reason; 18] = [
        Reason::Horizon,
        Reason::TooLong,
        Reason::Header,
        Reason::RowForm,
        Reason::Range,
        Reason::Count,
        Reason::Seen,
        Reason::Nominal,
        Reason::JsonForm,
        Reason::UnknownName,
        Reason::RepeatedOrMissing,
        Reason::NotThere,
        Reason::Samples,
        Reason::Differs,
        Reason::NoSubnet,
        Reason::Room,
        Reason::Travel,
        Reason::Edition,
    ];

    pub fn number(self) -> u8 {
        self as u8
    }

    fn of(number: u64) -> Option<Reason> {
        Reason::ALL.into_iter().find(|reason| u64::from(reason.number()) == number)
    }

    /// When it is given of a timetable's files, in the documents' words.
    fn meaning(self) -> &'static str {
        match self {
            Reason::Horizon => "H out of range",
            Reason::TooLong => "text too long",
            Reason::Header => "header differs",
            Reason::RowForm => "CSV row breaks its form",
            Reason::Range => "number out of range, or departure plus travel past H",
            Reason::Count => "a count limit is passed",
            Reason::Seen => "id already seen; a track listed twice in any subnets",
            Reason::Nominal => "nominal not in its list",
            Reason::JsonForm => "JSON form broken, or a value of the wrong type",
            Reason::UnknownName => "unknown list, key or connection type",
            Reason::RepeatedOrMissing => "list or key repeated, or missing",
            Reason::NotThere => "leg or profile does not exist",
            Reason::Samples => "profile's sample count is not t",
            Reason::Differs => "solution's first five columns differ from the draft's, row by row, or the row count does",
            Reason::NoSubnet => "a leg's track is in no subnet",
            Reason::Room => "lent room too short",
            Reason::Travel => "two choices of a leg have unequal travel times",
            Reason::Edition => "an edition that is not known",
        }
    }
}

/// The first thing that could not be read.
#[derive(Clone, Copy, Debug, PartialEq, Eq)]
pub struct Refusal {
    pub reason: Reason,
    pub file: File,
    pub place: u32,
}

impl Refusal {
    /// When it is given, in the documents' words: of the duties, document 02's.
    pub fn meaning(&self) -> &'static str {
        match (self.file, self.reason) {
            (File::Duties, Reason::Range) => "number out of range",
            (File::Duties, Reason::UnknownName) => "unknown event type",
            (_, reason) => reason.meaning(),
        }
    }
}

/// Whole kJ, exact, the fluctuation in kW, the four doubles of the operator's desk tool, and the first quarters that have the peaks. The horizon may cut the
/// last quarter.
#[derive(Clone, Copy, Debug, PartialEq)]
pub struct Figures {
    pub before_kj: u64,
    pub drawn_kj: u64,
    pub lost_kj: u64,
    pub fluctuation_kw: i64,
    pub peak_before_kj: u64,
    pub peak_drawn_kj: u64,
    pub before_mwh: f64,
    pub drawn_mwh: f64,
    pub lost_mwh: f64,
    pub peak_drawn_mw: f64,
    pub peak_before_quarter: u32,
    pub peak_drawn_quarter: u32,
}

/// The energies of an accepted solution: the figures, and a curve of H numbers in kW for each subnet, in the file's order.
#[derive(Clone, Debug, PartialEq)]
pub struct Energies<'a> {
    pub figures: Figures,
    pub curves: Vec<&'a [i32]>,
}

/// Numbers that say none of document 01's answers: the library and this wrapper are not of one version.
#[derive(Clone, Debug, PartialEq, Eq)]
pub struct Unknown(pub Box<Numbers>);

impl fmt::Display for Unknown {
    fn fmt(&self, f: &mut fmt::Formatter) -> fmt::Result {
        write!(f, "the library's answer is none that is known here: {:?}", self.0)
    }
}

impl std::error::Error for Unknown {}

pub(crate) fn unknown(numbers: Numbers) -> Unknown {
    Unknown(Box::new(numbers))
}

/// How many numbers an export writes.
pub const NUMBERS: usize = 24;

/// Where the code and its values end, and how much was tested begins.
const TESTED: usize = 16;

/// What an export answers: a code, then the values, then how much was tested; unused ones are 0.
pub type Numbers = [u64; NUMBERS];

pub(crate) type Values = [u64; TESTED - 1];

pub(crate) const ACCEPTED: u64 = 0;
const VIOLATED: u64 = 1;
pub(crate) const REFUSED: u64 = 2;
const ROW: u64 = 3;

/// The numbers as an answer and its tests; an accepted one gives its values, of which only the first `values` may be other than 0.
fn ruling(numbers: &Numbers, values: usize) -> Option<Ruling<Values>> {
    let (said, tested) = numbers.split_at(TESTED);
    let [code, given @ ..] = <[u64; TESTED]>::try_from(said).ok()?;
    let (used, answer) = match code {
        ACCEPTED => (values, Answer::Accepted(given)),
        VIOLATED => (5, Answer::Violated(violation(&given)?)),
        REFUSED => (3, Answer::Refused(refusal(&given).filter(|refusal| refusal.file != File::Duties)?)),
        _ => return None,
    };
    let ruling = Ruling { answer, tally: Tally::read(tested)? };
    (given[used..].iter().all(|number| *number == 0) && ruling.is_known()).then_some(ruling)
}

fn violation(given: &Values) -> Option<Violation> {
    let kind = Kind::of(given[0])?;
    let inequality = u8::try_from(given[2]).ok()?;
    let inequality_is_its = if kind == Kind::NotOffered { inequality == 0 } else { (1..=kind.inequalities()).contains(&inequality) };
    let shortfall_is_its = (kind == Kind::NotOffered) == (given[3] == 0);
    let file = File::of(given[4])?;
    let file_is_a_solution = matches!(file, File::Solution | File::SecondSolution);
    (inequality_is_its && shortfall_is_its && file_is_a_solution).then_some(Violation {
        kind,
        position: u32::try_from(given[1]).ok()?,
        inequality,
        shortfall: u32::try_from(given[3]).ok()?,
        file,
    })
}

pub(crate) fn refusal(given: &Values) -> Option<Refusal> {
    Some(Refusal { reason: Reason::of(given[0])?, file: File::of(given[1])?, place: u32::try_from(given[2]).ok()? })
}

pub(crate) fn checked(numbers: Numbers) -> Result<Ruling<()>, Unknown> {
    let said = ruling(&numbers, 0).ok_or_else(|| unknown(numbers))?;
    Ok(said.map(|_| ()))
}

pub(crate) fn reported(numbers: Numbers) -> Result<Ruling<Figures>, Unknown> {
    let said = ruling(&numbers, 12).ok_or_else(|| unknown(numbers))?;
    let quarter = |place: usize| u32::try_from(numbers[place]).map_err(|_| unknown(numbers));
    let (peak_before_quarter, peak_drawn_quarter) = (quarter(11)?, quarter(12)?);
    Ok(said.map(|given| Figures {
        before_kj: given[0],
        drawn_kj: given[1],
        lost_kj: given[2],
        fluctuation_kw: given[3] as i64,
        peak_before_kj: given[4],
        peak_drawn_kj: given[5],
        before_mwh: f64::from_bits(given[6]),
        drawn_mwh: f64::from_bits(given[7]),
        lost_mwh: f64::from_bits(given[8]),
        peak_drawn_mw: f64::from_bits(given[9]),
        peak_before_quarter,
        peak_drawn_quarter,
    }))
}

/// The length of the merged text, which is within the lent buffer, and has no tests.
pub(crate) fn merged(numbers: Numbers, room: usize) -> Result<Ruling<usize>, Unknown> {
    let said = ruling(&numbers, 1).ok_or_else(|| unknown(numbers))?.map(|given| given[0] as usize);
    match said.answer {
        Answer::Accepted(length) if length > room || said.tally != Tally::default() => Err(unknown(numbers)),
        _ => Ok(said),
    }
}

/// Start and length of a row within a text of `room` bytes; both 0 where there is none.
pub(crate) fn row(numbers: Numbers, room: usize) -> Result<(usize, usize), Unknown> {
    let [code, start, length, rest @ ..] = numbers;
    let within = start.checked_add(length).map_or(false, |end| end <= room as u64);
    if code == ROW && within && rest.iter().all(|number| *number == 0) {
        Ok((start as usize, length as usize))
    } else {
        Err(unknown(numbers))
    }
}

#[cfg(test)]
mod tests {
    use super::*;

    fn numbers(first: &[u64]) -> Numbers {
        let mut all = [0; NUMBERS];
        all[..first.len()].copy_from_slice(first);
        all
    }

    /// The same with six counts, and their sum.
    fn tested(first: &[u64], kinds: [u64; 6]) -> Numbers {
        let mut all = numbers(first);
        all[TESTED] = kinds.iter().sum();
        all[TESTED + 1..][..kinds.len()].copy_from_slice(&kinds);
        all
    }

    fn ruled<T>(answer: Answer<T>, kinds: [u32; 6]) -> Result<Ruling<T>, Unknown> {
        Ok(Ruling { answer, tally: Tally { kinds, total: kinds.iter().sum() } })
    }

    #[test]
    fn each_answer_is_read() {
        assert_eq!(checked(numbers(&[0])), ruled(Answer::Accepted(()), [0; 6]));
        assert_eq!(checked(tested(&[0], [2, 4, 1, 3, 0, 6])), ruled(Answer::Accepted(()), [2, 4, 1, 3, 0, 6]));
        let violation = Violation { kind: Kind::Dwell, position: 7, inequality: 1, shortfall: 3, file: File::SecondSolution };
        assert_eq!(checked(tested(&[1, 3, 7, 1, 3, 5], [2, 0, 0, 8, 0, 0])), ruled(Answer::Violated(violation), [2, 0, 0, 8, 0, 0]));
        let refusal = Refusal { reason: Reason::Travel, file: File::SecondSolution, place: 113 };
        assert_eq!(checked(numbers(&[2, 17, 5, 113])), ruled(Answer::Refused(refusal), [0; 6]));
        let refusal = Refusal { reason: Reason::Edition, file: File::None, place: 0 };
        assert_eq!(checked(numbers(&[2, 21, 0, 0])), ruled(Answer::Refused(refusal), [0; 6]));
        assert_eq!(merged(numbers(&[0, 9]), 9), ruled(Answer::Accepted(9), [0; 6]));
        assert_eq!(row(numbers(&[3, 4, 5]), 9), Ok((4, 5)));
    }

    /// The old edition took a default here.
    #[test]
    fn what_is_not_known_is_no_answer() {
        let of_each_kind = |first: &[u64]| tested(first, [1; 6]);
        let others = [
            numbers(&[3]),
            numbers(&[4, 0, 1, 129]),
            numbers(&[0, 1]),
            of_each_kind(&[1, 6, 0, 1, 1, 4]),
            of_each_kind(&[1, 2, 0, 2, 1, 4]),
            of_each_kind(&[1, 1, 0, 1, 0, 4]),
            of_each_kind(&[1, 1, 0, 1, 1, 3]),
            of_each_kind(&[1, 0, 0, 0, 1, 4]),
            of_each_kind(&[1, 1, 1 << 32, 1, 1, 4]),
            numbers(&[2, 0, 1, 0]),
            numbers(&[2, 18, 0, 0]),
            numbers(&[2, 20, 1, 0]),
            numbers(&[2, 22, 0, 0]),
            numbers(&[2, 4, 6, 0]),
            numbers(&[2, 4, 1, 0, 1]),
        ];
        for answer in others {
            assert_eq!(checked(answer), Err(unknown(answer)));
        }
        assert!(merged(numbers(&[0, 10]), 9).is_err());
        assert!(row(numbers(&[3, 5, 5]), 9).is_err());
        assert!(row(numbers(&[0, 4, 5]), 9).is_err());
    }

    /// A refusal and a text that is written have no tests, a violation has the one that failed, and counts add up.
    #[test]
    fn tests_that_are_not_the_answers_are_no_answer() {
        let (refused, violated) = ([2, 4, 4, 145], [1, 3, 0, 1, 1, 4]);
        let mut unequal = tested(&[0], [2, 0, 0, 1, 0, 0]);
        unequal[TESTED] = 4;
        let mut unused = tested(&[0], [2, 0, 0, 1, 0, 0]);
        unused[NUMBERS - 1] = 1;
        let others = [
            tested(&refused, [1, 0, 0, 0, 0, 0]),
            numbers(&violated),
            tested(&violated, [2, 0, 0, 0, 1, 0]),
            unequal,
            unused,
            tested(&[0], [163_841, 0, 0, 0, 0, 0]),
        ];
        for answer in others {
            assert_eq!(checked(answer), Err(unknown(answer)));
        }
        assert!(checked(tested(&violated, [2, 0, 0, 1, 0, 0])).is_ok());
        assert!(merged(tested(&violated, [2, 0, 0, 1, 0, 0]), 9).is_ok());
        assert!(merged(tested(&[0, 9], [2, 0, 0, 1, 0, 0]), 9).is_err());
        assert!(row(tested(&[3, 4, 5], [1, 0, 0, 0, 0, 0]), 9).is_err());
    }

    #[test]
    fn a_quarter_is_read_after_the_doubles() {
        let mut numbers = numbers(&[0, 0, 0, 0, 0, 6, 7, 0, 0, 0, 0, 29, 195]);
        let quarters = reported(numbers).map(|said| said.map(|figures| (figures.peak_before_quarter, figures.peak_drawn_quarter)));
        assert_eq!(quarters, ruled(Answer::Accepted((29, 195)), [0; 6]));
        numbers[12] = 1 << 32;
        assert_eq!(reported(numbers), Err(unknown(numbers)));
        numbers[12] = 195;
        numbers[13] = 1;
        assert_eq!(reported(numbers), Err(unknown(numbers)));
    }

    #[test]
    fn a_fluctuation_keeps_its_sign() {
        let said = reported(numbers(&[0, 1, 2, 3, u64::MAX, 5, 6, 0.5f64.to_bits()])).unwrap();
        let figures = match said.answer {
            Answer::Accepted(figures) => figures,
            other => panic!("{other:?}"),
        };
        assert_eq!((figures.fluctuation_kw, figures.before_mwh, figures.peak_drawn_mw), (-1, 0.5, 0.0));
    }
}
