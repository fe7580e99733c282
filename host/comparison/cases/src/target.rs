//! The answers that cases are drawn for; they are also the cells of a comparison's table.

use independent::{Answer, Entry};

/// An answer without its places and its shortfall.
#[derive(Clone, Copy, Debug, PartialEq, Eq, PartialOrd, Ord)]
pub enum Target {
    Accepted,
    Violated {
        kind: u32,
        inequality: u32,
        file: u32,
    },
    Refused {
        number: u32,
        file: u32,
    },
    /// Of duties alone.
    Broken {
        rule: u32,
    },
}

/// Each kind with its inequalities; kind 0, a choice not offered, has inequality 0.
pub const INEQUALITIES: [(u32, &[u32]); 6] = [(0, &[0]), (1, &[1, 2]), (2, &[1]), (3, &[1]), (4, &[1]), (5, &[1, 2])];

/// The rules of duties.
pub const RULES: std::ops::RangeInclusive<u32> = 1..=6;

/// The number of duties' file.
pub const DUTIES: u32 = 6;

/// Each refusal number with the files that can give it in small texts. 2 is not among them.
pub const FILES: [(u32, &[u32]); 17] = [
    (1, &[0]),
    (3, &[1, 2, 4, 5, DUTIES]),
    (4, &[1, 2, 4, 5, DUTIES]),
    (5, &[1, 2, 3, 4, 5, DUTIES]),
    (6, &[1, 2, 3, 4, 5, DUTIES]),
    (7, &[1, 2, 3, 4, 5]),
    (8, &[1, 4, 5]),
    (9, &[3]),
    (10, &[3, DUTIES]),
    (11, &[3]),
    (12, &[1, 3]),
    (13, &[1]),
    (14, &[4, 5]),
    (15, &[1]),
    (16, &[0, 1, 2, 3, 4, 5, DUTIES]),
    (17, &[5]),
    (21, &[0]),
];

impl Target {
    pub fn of(answer: Answer) -> Target {
        match answer {
            Answer::Accepted => Target::Accepted,
            Answer::Violated { kind, inequality, file, .. } => Target::Violated { kind, inequality, file },
            Answer::Refused { number, file, .. } => Target::Refused { number, file },
            Answer::Broken { rule, .. } => Target::Broken { rule },
        }
    }
}

/// The targets that the entry can meet in small texts; a row is no answer and has none.
pub fn targets(entry: Entry) -> Vec<Target> {
    match entry {
        Entry::Row => return Vec::new(),
        Entry::Duties => return of_duties(),
        _ => {}
    }
    let merging = is_merge(entry);
    let mut targets = vec![Target::Accepted];
    for file in if merging { 4..=5 } else { 4..=4 } {
        for (kind, inequalities) in INEQUALITIES {
            targets.extend(inequalities.iter().map(|i| Target::Violated { kind, inequality: *i, file }));
        }
    }
    for (number, files) in FILES {
        for file in files.iter().copied().filter(|file| *file != DUTIES) {
            let second = file == 5 && !merging;
            let after_acceptance = number == 16 && file == 0 && entry == Entry::Check;
            if !second && !after_acceptance {
                targets.push(Target::Refused { number, file });
            }
        }
    }
    targets
}

fn of_duties() -> Vec<Target> {
    let refused =
        FILES.iter().filter(|(_, files)| files.contains(&DUTIES)).map(|(number, _)| Target::Refused { number: *number, file: DUTIES });
    [Target::Accepted].into_iter().chain(RULES.map(|rule| Target::Broken { rule })).chain(refused).collect()
}

pub fn is_merge(entry: Entry) -> bool {
    matches!(entry, Entry::MergeEarlier | Entry::MergeLater)
}
