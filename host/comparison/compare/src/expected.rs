//! The line that a call is expected to give, from the independent program alone.

use crate::block::{Calls, Read};
use crate::lines::{self, BAD, BEFORE, LABEL, SKIPPED};
use independent::{Call, Entry, Lent, Said};
use std::io::{self, Write};

/// Answers the calls of an input as `replay` does: a line for each as soon as it is answered.
pub fn answer(input: impl io::Read, mut output: impl Write) -> io::Result<()> {
    writeln!(output, "{LABEL}")?;
    for read in Calls::of(input) {
        let line = match read {
            Read::Call(call) => line(&call).1,
            Read::Unknown => String::from(SKIPPED),
            Read::Bad => String::from(BAD),
        };
        writeln!(output, "{line}")?;
        output.flush()?;
    }
    Ok(())
}

/// What the call answers, and its line: the answer in words, and a digest of each lent room as the call leaves it.
pub fn line(call: &Call) -> (Said, String) {
    let mut lent = Lent::full_of(BEFORE, &call.case.rooms);
    let said = call.run(&mut lent);
    let row = if call.entry == Entry::Row { call.row_bytes() } else { &[] };
    (said, lines::line(&said, row, &lent))
}

#[cfg(test)]
mod tests {
    use super::*;
    use cases::examples::worked;

    fn line_of(name: &str) -> String {
        let found = worked().into_iter().find(|named| named.name == name);
        line(&found.expect(name).call).1
    }

    fn answer_of(name: &str) -> String {
        line_of(name).split(" | ").next().unwrap_or_default().to_string()
    }

    #[test]
    fn the_worked_examples() {
        assert_eq!(answer_of("nominal"), "accepted # 3 2 0 0 1 0 0");
        assert!(answer_of("nominal, its energies").starts_with("accepted 2050 2050 600 1400 2050 2050 0 0 "));
        assert_eq!(answer_of("departures 15, 40 with dwell 21"), "accepted # 3 2 0 0 1 0 0");
        assert_eq!(answer_of("departures 15, 40 with dwell 22"), "violated 3 0 1 1 4 # 3 2 0 0 1 0 0");
        assert_eq!(answer_of("12 for leg 2, listed in the solution alone"), "violated 0 1 0 0 4 # 2 2 0 0 0 0 0");
        assert_eq!(answer_of("A 15, 40 and B 10, 45, later"), "accepted 176");
        assert!(answer_of("no dwell, leg 2 offered at 13").starts_with("accepted 2050 1750 300 1200 2050 1750 0 0 "));
        assert!(answer_of("the same, tracks in two subnets").starts_with("accepted 2050 2050 600 1200 2050 2050 0 0 "));
        assert_eq!(answer_of("sample 20.000"), "accepted # 3 2 0 0 1 0 0");
        assert_eq!(answer_of("sample 20.001"), "refused 5 2 50");
        assert_eq!(answer_of("travel 3600"), "accepted # 1 1 0 0 0 0 0");
        assert_eq!(answer_of("travel 3601"), "refused 5 1 114");
        assert!(answer_of("type arrival_to_arrival").starts_with("refused 10 3 "));
        assert_eq!(answer_of("an empty timetable"), "refused 3 1 0");
        assert_eq!(answer_of("track 2 in no subnet"), "refused 15 1 145");
        assert!(answer_of("the row of that refusal").starts_with("row 30 "));
        assert_eq!(answer_of("headers with no rows"), "accepted # 0 0 0 0 0 0 0");
    }
}
