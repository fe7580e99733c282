//! The three answers: "accepted, the first violation, or a numbered refusal" (demand 1).

use crate::tables::Tables;

/// The room lent by the caller for each table, as counts of numbers: eight a leg, three a
/// configuration, three a profile, one a sample, six a constraint, two a track, three a choice,
/// one a curve entry, one a text byte.
#[derive(Clone, Copy, Debug, PartialEq, Eq)]
pub struct Rooms {
    pub legs: usize,
    pub configurations: usize,
    pub profiles: usize,
    pub samples: usize,
    pub constraints: usize,
    pub tracks: usize,
    pub choices: usize,
    pub second_choices: usize,
    pub curves: usize,
    pub text: usize,
}

impl Rooms {
    /// The same room for every table.
    pub fn all(numbers: usize) -> Rooms {
        Rooms {
            legs: numbers,
            configurations: numbers,
            profiles: numbers,
            samples: numbers,
            constraints: numbers,
            tracks: numbers,
            choices: numbers,
            second_choices: numbers,
            curves: numbers,
            text: numbers,
        }
    }

    /// The ten numbers in their order.
    pub fn numbers(&self) -> [usize; 10] {
        [
            self.legs,
            self.configurations,
            self.profiles,
            self.samples,
            self.constraints,
            self.tracks,
            self.choices,
            self.second_choices,
            self.curves,
            self.text,
        ]
    }

    /// One of the ten numbers, by its place in that order.
    pub fn number_mut(&mut self, place: usize) -> &mut usize {
        let rooms = [
            &mut self.legs,
            &mut self.configurations,
            &mut self.profiles,
            &mut self.samples,
            &mut self.constraints,
            &mut self.tracks,
            &mut self.choices,
            &mut self.second_choices,
            &mut self.curves,
            &mut self.text,
        ];
        rooms.into_iter().nth(place).expect("there are ten rooms")
    }
}

/// "A refusal carries number, file (1 timetable, 2 profiles, 3 constraints, 4 solution, 5 second
/// solution) and place." Duties are file 6 (document 02, E13).
#[derive(Clone, Copy, Debug, PartialEq, Eq)]
pub struct Refusal {
    pub number: u32,
    pub file: u32,
    pub place: usize,
}

/// What every entry answers.
#[derive(Clone, Copy, Debug, PartialEq, Eq)]
pub enum Answer {
    Accepted,
    /// "names kind (0 for a choice not offered), position within its list or row, inequality 1
    /// or 2 (0 for kind 0), and shortfall: left side minus right, at least 1 (0 for kind 0)"; the
    /// file is 4 for a solution, 5 for a second solution.
    Violated {
        kind: u32,
        position: usize,
        inequality: u32,
        shortfall: i64,
        file: u32,
    },
    Refused {
        number: u32,
        file: u32,
        place: usize,
    },
    /// Of duties alone: "the first broken row with its lowest rule" (document 02, E13), and its first byte.
    Broken {
        row: usize,
        rule: u32,
        place: usize,
    },
}

impl From<Refusal> for Answer {
    fn from(refusal: Refusal) -> Answer {
        Answer::Refused {
            number: refusal.number,
            file: refusal.file,
            place: refusal.place,
        }
    }
}

impl Answer {
    /// The answer as a list of numbers: 0; 1 and the violation; 2 and the refusal; 4 and the broken row.
    pub fn numbers(&self) -> Vec<i64> {
        match *self {
            Answer::Accepted => vec![0],
            Answer::Violated { kind, position, inequality, shortfall, file } => vec![
                1,
                i64::from(kind),
                position as i64,
                i64::from(inequality),
                shortfall,
                i64::from(file),
            ],
            Answer::Refused { number, file, place } => {
                vec![2, i64::from(number), i64::from(file), place as i64]
            }
            Answer::Broken { row, rule, place } => vec![4, row as i64, i64::from(rule), place as i64],
        }
    }

    /// The answer as one line of words.
    pub fn line(&self) -> String {
        match *self {
            Answer::Accepted => String::from("accepted"),
            Answer::Violated { kind, position, inequality, shortfall, file } => {
                format!("violated {kind} {position} {inequality} {shortfall} {file}")
            }
            Answer::Refused { number, file, place } => format!("refused {number} {file} {place}"),
            Answer::Broken { row, rule, place } => format!("broken {row} {rule} {place}"),
        }
    }
}

/// How many tests were made, and "a tally of six counts, one per kind from 0 to 5, that adds up to
/// it" (document 02, E6). The default is the one of a refusal: "0 on a refusal".
#[derive(Clone, Copy, Debug, PartialEq, Eq, Default)]
pub struct Tally {
    pub total: usize,
    pub kinds: [usize; 6],
}

impl Tally {
    /// The total, then the six counts.
    pub fn numbers(&self) -> Vec<usize> {
        [&[self.total], &self.kinds[..]].concat()
    }

    /// The same as words behind the line of an answer.
    pub fn words(&self) -> String {
        self.numbers().iter().fold(String::from(" #"), |words, count| format!("{words} {count}"))
    }
}

/// "A verdict now carries it" (document 02, E6): what was found, and how much was tested for it.
#[derive(Clone, Copy, Debug, PartialEq, Eq)]
pub struct Verdict {
    pub answer: Answer,
    pub tally: Tally,
}

/// The answer of a check, and the tally and the tables as read where nothing is refused.
#[derive(Clone, Debug, PartialEq, Eq)]
pub struct Checked {
    pub answer: Answer,
    pub tally: Option<Tally>,
    pub tables: Option<Tables>,
}
