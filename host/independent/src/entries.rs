//! The public entries by one function: what a call answers, and what it leaves in the lent rooms.

use crate::answers::{Answer, Checked, Rooms, Tally};
use crate::display::row_at;
use crate::duties::{check_duties, Duties};
use crate::energy::{energy, Desk, Figures, Report};
use crate::lent::Lent;
use crate::merge::{merge, Direction, Merged};
use crate::stated::Stated;
use crate::verdict::check;

/// The public entries.
#[derive(Clone, Copy, Debug, PartialEq, Eq, PartialOrd, Ord)]
pub enum Entry {
    Check,
    Energy,
    MergeEarlier,
    MergeLater,
    Row,
    Duties,
}

impl Entry {
    pub const ALL: [Entry; 6] = [Entry::Check, Entry::Energy, Entry::MergeEarlier, Entry::MergeLater, Entry::Row, Entry::Duties];

    /// Those that judge a solution.
    pub const JUDGING: [Entry; 4] = [Entry::Check, Entry::Energy, Entry::MergeEarlier, Entry::MergeLater];

    pub fn is_judging(self) -> bool {
        Entry::JUDGING.contains(&self)
    }

    pub fn name(self) -> &'static str {
        match self {
            Entry::Check => "check",
            Entry::Energy => "energy",
            Entry::MergeEarlier => "merge earlier",
            Entry::MergeLater => "merge later",
            Entry::Row => "row",
            Entry::Duties => "duties",
        }
    }
}

/// H, the edition, the texts and how much room is lent.
#[derive(Clone, Debug, PartialEq, Eq)]
pub struct Case {
    pub h: u32,
    pub edition: u32,
    /// Timetable, profiles, constraints, solution, second solution; duties stand where the timetable does.
    pub texts: [Vec<u8>; 5],
    pub rooms: Rooms,
}

impl Case {
    pub fn stated(&self) -> Stated {
        Stated { horizon: self.h, edition: self.edition }
    }

    pub fn check(&self) -> Checked {
        let [t, p, c, s, _] = &self.texts;
        check(self.stated(), t, p, c, s, &self.rooms)
    }

    pub fn energy(&self) -> Report {
        let [t, p, c, s, _] = &self.texts;
        energy(self.stated(), t, p, c, s, &self.rooms)
    }

    pub fn merge(&self, direction: Direction) -> Merged {
        let [t, p, c, a, b] = &self.texts;
        merge(direction, self.stated(), t, p, c, a, b, &self.rooms)
    }

    pub fn duties(&self) -> Duties {
        check_duties(&self.texts[0], &self.rooms)
    }
}

/// A call of an entry. The file and the place are those of a row to be shown.
#[derive(Clone, Debug, PartialEq, Eq)]
pub struct Call {
    pub entry: Entry,
    pub case: Case,
    pub file: u32,
    pub place: u32,
}

/// What an entry answers. Behind the answer stands the tally, where that is a verdict.
#[derive(Clone, Copy, Debug, PartialEq)]
pub enum Said {
    Checked(Answer, Option<Tally>),
    /// The answer, the figures, and the quarters of the two peaks.
    Reported(Answer, Option<Tally>, Figures, Desk, [usize; 2]),
    /// The answer and the length of the text, which is 0 where none is written.
    Merged(Answer, Option<Tally>, usize),
    /// Start and length of the row.
    Row(usize, usize),
    /// The answer and the count of nodes, which is 0 short of acceptance.
    Duties(Answer, usize),
}

impl Said {
    /// The answer, where there is one.
    pub fn answer(&self) -> Option<Answer> {
        match self {
            Said::Checked(answer, _) | Said::Reported(answer, ..) | Said::Merged(answer, ..) | Said::Duties(answer, _) => Some(*answer),
            Said::Row(..) => None,
        }
    }

    /// How much was tested, where there is a verdict.
    pub fn tally(&self) -> Option<Tally> {
        match self {
            Said::Checked(_, tally) | Said::Reported(_, tally, ..) | Said::Merged(_, tally, _) => *tally,
            Said::Row(..) | Said::Duties(..) => None,
        }
    }
}

impl Call {
    /// A call that shows no row.
    pub fn of(entry: Entry, case: Case) -> Call {
        Call { entry, case, file: 0, place: 0 }
    }

    /// What is answered; the rooms, which have the sizes of the case, are left as the entry leaves
    /// them.
    pub fn run(&self, lent: &mut Lent) -> Said {
        match self.entry {
            Entry::Check => {
                let checked = self.case.check();
                lent.leave_checked(&checked);
                Said::Checked(checked.answer, checked.tally)
            }
            Entry::Energy => {
                let report = self.case.energy();
                lent.leave_reported(&report);
                Said::Reported(report.answer, report.tally, report.figures, report.desk, report.quarters)
            }
            Entry::MergeEarlier => self.run_merge(Direction::Earlier, lent),
            Entry::MergeLater => self.run_merge(Direction::Later, lent),
            Entry::Row => {
                let (start, length) = self.row();
                Said::Row(start, length)
            }
            Entry::Duties => {
                let duties = self.case.duties();
                lent.leave_duties(&duties);
                Said::Duties(duties.answer, duties.balance.map_or(0, |balance| balance.len()))
            }
        }
    }

    fn run_merge(&self, direction: Direction, lent: &mut Lent) -> Said {
        let merged = self.case.merge(direction);
        lent.leave_merged(&merged);
        Said::Merged(merged.answer, merged.tally, merged.text.map_or(0, |text| text.len()))
    }

    fn row(&self) -> (usize, usize) {
        let [draft, .., solution, _] = &self.case.texts;
        row_at(draft, solution, self.file, self.place as usize)
    }

    /// The bytes of the row shown.
    pub fn row_bytes(&self) -> &[u8] {
        let (start, length) = self.row();
        let text = if self.file == 1 { &self.case.texts[0] } else { &self.case.texts[3] };
        &text[start..start + length]
    }
}
