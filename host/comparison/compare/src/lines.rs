//! A call's line: what is answered, how much was tested for a verdict, then a digest of each lent room; of duties, of nodes and balances.

use independent::{Answer, Desk, Figures, Lent, Said};

/// The first line of every run.
pub const LABEL: &str = "no violation shown is not no violation";

/// The line of a call of an entry that is not there.
pub const SKIPPED: &str = "skipped";

/// What is said of input that is no call.
pub const BAD: &str = "replay: bad case";

/// Every lent room is full of this number before a call.
pub const BEFORE: u8 = 7;

/// The line of an answer, of the row that was shown, and of the rooms as the call left them.
pub fn line(said: &Said, row: &[u8], lent: &Lent) -> String {
    let [nodes, .., balances, _] = digests(lent);
    let digests = if let Said::Duties(..) = said { vec![nodes, balances] } else { digests(lent).to_vec() };
    let digests: Vec<String> = digests.iter().map(u32::to_string).collect();
    format!("{} | {}", words(said, row), digests.join(" "))
}

fn words(said: &Said, row: &[u8]) -> String {
    let answer = match said {
        Said::Checked(answer, _) => answer.line(),
        Said::Reported(Answer::Accepted, _, figures, desk, quarters) => format!("accepted {}", reported(figures, desk, quarters)),
        Said::Merged(Answer::Accepted, _, length) => format!("accepted {length}"),
        Said::Duties(Answer::Accepted, nodes) => format!("accepted {nodes}"),
        Said::Reported(answer, ..) | Said::Merged(answer, ..) | Said::Duties(answer, _) => answer.line(),
        Said::Row(_, length) => format!("row {length} {}", digest(row.iter().map(|byte| u32::from(*byte)))),
    };
    answer + &said.tally().map_or(String::new(), |tally| tally.words())
}

/// The six figures, the quarters of the two peaks, and the bits of the four doubles.
fn reported(figures: &Figures, desk: &Desk, [of_before, of_drawn]: &[usize; 2]) -> String {
    let Figures { before, drawn, lost, fluctuation, peak_before, peak_drawn } = figures;
    let doubles = [desk.before, desk.drawn, desk.lost, desk.peak].map(|double| format!("{:016x}", double.to_bits()));
    format!("{before} {drawn} {lost} {fluctuation} {peak_before} {peak_drawn} {of_before} {of_drawn} {}", doubles.join(" "))
}

/// The digests of the ten rooms in their order.
fn digests(lent: &Lent) -> [u32; 10] {
    let unsigned = |room: &[u32]| digest(room.iter().copied());
    let signed = |room: &[i32]| digest(room.iter().map(|number| *number as u32));
    [
        unsigned(&lent.legs),
        unsigned(&lent.configurations),
        unsigned(&lent.profiles),
        signed(&lent.samples),
        unsigned(&lent.constraints),
        unsigned(&lent.tracks),
        unsigned(&lent.choices),
        unsigned(&lent.second_choices),
        signed(&lent.curves),
        digest(lent.text.iter().map(|byte| u32::from(*byte))),
    ]
}

/// d = 0, then d = (d × 31 + the number) mod 2^32.
pub fn digest(numbers: impl Iterator<Item = u32>) -> u32 {
    numbers.fold(0, |digest: u32, number| digest.wrapping_mul(31).wrapping_add(number))
}

#[cfg(test)]
mod tests {
    use super::*;

    #[test]
    fn a_digest_by_hand() {
        assert_eq!(digest([].into_iter()), 0);
        assert_eq!(digest([1, 2].into_iter()), 33);
        assert_eq!(digest([u32::MAX, 1].into_iter()), 4_294_967_266);
    }

    #[test]
    fn a_room_that_changes_in_one_place_has_another_digest() {
        let rooms = independent::Rooms::all(20);
        let before = Lent::full_of(BEFORE, &rooms);
        for place in 0..20 {
            let mut after = before.clone();
            after.samples[place] = -1;
            assert_ne!(digests(&after)[3], digests(&before)[3]);
        }
    }
}
