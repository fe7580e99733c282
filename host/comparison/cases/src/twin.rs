//! The twin of a case (document 02, E4): under the other edition, with the key of kind 4's records renamed and nothing else. It says the same.

use crate::plan::LIST_NAMES;
use crate::Named;
use independent::files::read_files;
use independent::{Call, Case, Edition};

/// The key of kind 4 in each edition.
pub const KEYS: [(Edition, &str); 2] = [(Edition::Table, "min_dwell_time"), (Edition::Example, "min_turnaround_time")];

/// The list of kind 4.
pub const TURNAROUNDS: &str = LIST_NAMES[3];

const CONSTRAINTS: usize = 2;
const QUOTE: u8 = b'"';

/// The twin of a call whose files read, by its name. What is refused in them has none, and neither a row nor duties state an edition.
pub fn named(named: &Named) -> Option<Named> {
    let Call { entry, case, .. } = &named.call;
    let [timetable, profiles, constraints, ..] = &case.texts;
    let reads = entry.is_judging() && read_files(case.stated(), timetable, profiles, constraints, &case.rooms).is_ok();
    reads.then(|| Named { name: format!("the twin of {}", named.name), call: Call { case: exchanged(case.clone()), ..named.call.clone() } })
}

/// The case in the other edition of the two.
pub fn exchanged(mut case: Case) -> Case {
    let [(table, _), (example, _)] = KEYS.map(|(edition, key)| (edition as u32, key));
    case.texts[CONSTRAINTS] = renamed(&case.texts[CONSTRAINTS]);
    case.edition = if case.edition == table { example } else { table };
    case
}

/// The two names change places in the list of kind 4, which goes up to the name of another list. In a text that reads, every second piece between quotes is a
/// string, and one of the names alone is there.
fn renamed(text: &[u8]) -> Vec<u8> {
    let [dwell, turnaround] = KEYS.map(|(_, key)| key.as_bytes());
    let mut is_turnarounds = false;
    let piece = |piece: &'_ [u8]| {
        if let Some(list) = LIST_NAMES.iter().find(|list| list.as_bytes() == piece) {
            is_turnarounds = *list == TURNAROUNDS;
        }
        Vec::from(match piece {
            name if is_turnarounds && name == dwell => turnaround,
            name if is_turnarounds && name == turnaround => dwell,
            other => other,
        })
    };
    text.split(|byte| *byte == QUOTE).map(piece).collect::<Vec<Vec<u8>>>().join(&QUOTE)
}

#[cfg(test)]
mod tests {
    use super::*;
    use crate::plan::Plan;
    use independent::Entry;

    fn text(case: &Case) -> String {
        String::from_utf8(case.texts[CONSTRAINTS].clone()).unwrap()
    }

    /// Kind 3 has the name of the other edition's key, and keeps it.
    #[test]
    fn a_twin_by_hand() {
        let case = Plan::of_every_kind().case();
        let twin = exchanged(case.clone());
        assert_eq!((case.edition, twin.edition), (2, 1));
        assert_eq!(text(&case).matches("min_dwell_time").count(), 1);
        assert_eq!(text(&twin), text(&case).replace("min_turnaround_time", "min_dwell_time"));
        assert_eq!(exchanged(twin), case);
    }

    #[test]
    fn what_is_refused_has_no_twin() {
        let call = Call::of(Entry::Energy, Plan::of_every_kind().case());
        let with = |case: Case| named(&Named { name: String::new(), call: Call { case, ..call.clone() } });
        assert!(with(call.case.clone()).is_some());
        assert!(with(Case { edition: 3, ..call.case.clone() }).is_none());
        assert!(with(Case { edition: 1, ..call.case.clone() }).is_none());
        assert!(named(&Named { name: String::new(), call: Call { entry: Entry::Row, ..call.clone() } }).is_none());
    }
}
