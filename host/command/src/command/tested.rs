//! How much was tested for a verdict, in words and as members of an object.

use super::json::{array, Object};
use super::violation;
use wagontulip::{Kind, Tally};

/// One line: the total, and the count of each kind that was tested.
pub fn line(tally: &Tally) -> String {
    if tally.total == 0 {
        return String::from("tested: nothing\n");
    }
    let counts = Kind::ALL.into_iter().map(|kind| (kind, tally.of(kind))).filter(|(_, count)| *count > 0);
    let counts: Vec<String> = counts.map(|(kind, count)| counted(kind, count)).collect();
    format!("tested: {} ({})\n", tally.total, counts.join(", "))
}

fn counted(kind: Kind, count: u32) -> String {
    let name = if kind == Kind::NotOffered { "choice" } else { violation::name(kind) };
    format!("{count} {name}{}", if count == 1 { "" } else { "s" })
}

/// The total and the six counts; null where there are none.
pub fn values(object: Object, tally: Option<Tally>) -> Object {
    let kinds = tally.map(|tally| array(tally.kinds.iter().map(u32::to_string)));
    object.optional("tested", tally.map(|tally| tally.total)).optional("tally", kinds)
}

#[cfg(test)]
mod tests {
    use super::*;

    fn tally(kinds: [u32; 6]) -> Tally {
        Tally { kinds, total: kinds.iter().sum() }
    }

    #[test]
    fn kinds_that_were_tested_are_named() {
        assert_eq!(line(&tally([2, 0, 0, 1, 0, 0])), "tested: 3 (2 choices, 1 dwell time)\n");
        let every =
            "tested: 27 (1 choice, 2 headway times, 3 single-track headways, 4 dwell times, 5 terminal turnarounds, 12 connections)\n";
        assert_eq!(line(&tally([1, 2, 3, 4, 5, 12])), every);
        assert_eq!(
            line(&tally([0, 1, 1, 0, 1, 1])),
            "tested: 4 (1 headway time, 1 single-track headway, 1 terminal turnaround, 1 connection)\n"
        );
        assert_eq!(line(&tally([0; 6])), "tested: nothing\n");
    }

    #[test]
    fn what_was_not_counted_is_null() {
        let said = |tally| values(Object::new(), tally).close();
        assert_eq!(said(Some(tally([2, 0, 0, 1, 0, 0]))), r#"{"tested": 3, "tally": [2, 0, 0, 1, 0, 0]}"#);
        assert_eq!(said(None), r#"{"tested": null, "tally": null}"#);
    }
}
