//! Cases drawn for a target answer: plans are made and damaged at random until one gives the target, so that the answers spread evenly
//! while the damage stays random.

use crate::damage::{self, plans::constraint_between, Damage};
use crate::plan::{Plan, Scale};
use crate::random::Random;
use crate::target::{is_merge, Target};
use independent::{Answer, Case, Direction, Entry};

/// How often a target is tried before it is given up.
pub const MOST_TRIES: usize = 4_000;

/// A tiny timetable, and a solution too, as it is a timetable file.
const TINY_TIMETABLE: usize = 300;
const TINY_PROFILES: usize = 150;
const TINY_CONSTRAINTS: usize = 700;
/// A small text of any file, and a small lent room.
pub const SMALL_TEXT: usize = 16_384;

/// A case that gives the entry this answer; none where no try met it.
pub fn for_target(random: &mut Random, entry: Entry, target: Target, scale: Scale) -> Option<Case> {
    (0..MOST_TRIES)
        .map(|_| damaged(random, target, is_merge(entry), scale))
        .find(|case| fits(case, scale) && Target::of(answer(case, entry)) == target)
}

/// The answer of an entry; a row is none, and stands for a check.
fn answer(case: &Case, entry: Entry) -> Answer {
    match entry {
        Entry::Check | Entry::Row => case.check().answer,
        Entry::Energy => case.energy().answer,
        Entry::MergeEarlier => case.merge(Direction::Earlier).answer,
        Entry::MergeLater => case.merge(Direction::Later).answer,
        Entry::Duties => case.duties().answer,
    }
}

fn fits(case: &Case, scale: Scale) -> bool {
    let longest = match scale {
        Scale::Tiny => [TINY_TIMETABLE, TINY_PROFILES, TINY_CONSTRAINTS, TINY_TIMETABLE, TINY_TIMETABLE],
        Scale::Small => [SMALL_TEXT; 5],
    };
    case.texts.iter().zip(longest).all(|(text, longest)| text.len() <= longest)
}

/// A plan, damaged now and then, as a case.
pub fn damaged(random: &mut Random, target: Target, merging: bool, scale: Scale) -> Case {
    let mut plan = Plan::random(random, scale);
    let mut on_texts = Vec::new();
    for _ in 0..damages(random, target == Target::Accepted) {
        match damage::draw(random, target, merging) {
            Damage::OfPlan(change) => change(&mut plan, random),
            Damage::Between { kind, inequality } => constraint_between(&mut plan, random, kind as usize, inequality),
            Damage::OfTexts(change) => on_texts.push(change),
        }
    }
    let mut case = plan.case_with(random);
    for change in on_texts {
        change(&mut case, random);
    }
    case
}

/// How many damages: often two at once.
fn damages(random: &mut Random, accepted: bool) -> usize {
    if accepted && !random.one_in(4) {
        return 0;
    }
    match random.below(10) {
        0 => 0,
        1..=5 => 1,
        6..=8 => 2,
        _ => 3,
    }
}
