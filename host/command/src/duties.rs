//! What is answered of rolling stock duties (document 02, E13), and the numbers that say it.

use crate::answers::{refusal, unknown, File, Numbers, Reason, Refusal, Unknown, Values, ACCEPTED, REFUSED};

/// Accepted, the first row that breaks a rule, or a numbered refusal.
#[derive(Clone, Debug, PartialEq, Eq)]
pub enum Duties<'a> {
    Accepted(Vec<Node<'a>>),
    Broken(Broken),
    Refused(Refusal),
}

/// A node by its name, a part of the text, and how many duties end there less those that start there. Nodes stand in order of first sight.
#[derive(Clone, Copy, Debug, PartialEq, Eq)]
pub struct Node<'a> {
    pub name: &'a [u8],
    pub balance: i32,
}

/// The first row that breaks a rule.
#[derive(Clone, Copy, Debug, PartialEq, Eq)]
pub struct Broken {
    /// From 0, without the header.
    pub row: u32,
    /// The lowest that it breaks.
    pub rule: Rule,
    /// The row's first byte.
    pub place: u32,
}

/// The six rules, by document 02's numbers.
#[derive(Clone, Copy, Debug, PartialEq, Eq)]
pub enum Rule {
    Later = 1,
    Stays,
    Together,
    Sequence,
    Meets,
    Texts,
}

impl Rule {
    pub const ALL: [Rule; 6] = [Rule::Later, Rule::Stays, Rule::Together, Rule::Sequence, Rule::Meets, Rule::Texts];

    pub fn number(self) -> u8 {
        self as u8
    }

    fn of(number: u64) -> Option<Rule> {
        Rule::ALL.into_iter().find(|rule| u64::from(rule.number()) == number)
    }

    /// What it asks for.
    pub fn meaning(self) -> &'static str {
        match self {
            Rule::Later => "every event ends after it starts",
            Rule::Stays => "only a TRAIN event may end at a node other than its start",
            Rule::Together => "the rows of one duty stand together",
            Rule::Sequence => "SEQ runs from 1 in each duty, one more in each row",
            Rule::Meets => "each event starts at the time and node at which the one before it in its duty ended",
            Rule::Texts => "the HHMMSS columns match the seconds",
        }
    }
}

const BROKEN: u64 = 4;

/// The numbers by which a duty file is refused.
const REASONS: [Reason; 7] =
    [Reason::TooLong, Reason::Header, Reason::RowForm, Reason::Range, Reason::Count, Reason::UnknownName, Reason::Room];

/// How many numbers a node's entry has: where its name first stands, and how long it is.
pub const NODE: usize = 2;

/// The answer over a text, from the numbers and the two tables as the call left them.
pub(crate) fn checked<'a>(numbers: Numbers, text: &'a [u8], nodes: &[u32], balance: &[i32]) -> Result<Duties<'a>, Unknown> {
    said(&numbers, text, nodes, balance).ok_or_else(|| unknown(numbers))
}

fn said<'a>(numbers: &Numbers, text: &'a [u8], nodes: &[u32], balance: &[i32]) -> Option<Duties<'a>> {
    let [code, given @ ..] = numbers;
    let (used, duties) = match *code {
        ACCEPTED => (1, Duties::Accepted(balanced(given[0], text, nodes, balance)?)),
        BROKEN => (3, Duties::Broken(broken(given, text)?)),
        REFUSED => (3, Duties::Refused(refused(given, text)?)),
        _ => return None,
    };
    given[used..].iter().all(|number| *number == 0).then_some(duties)
}

/// So many nodes, whose names are parts of the text and whose balances add up to zero.
fn balanced<'a>(count: u64, text: &'a [u8], nodes: &[u32], balance: &[i32]) -> Option<Vec<Node<'a>>> {
    let count = usize::try_from(count).ok().filter(|count| *count <= balance.len().min(nodes.len() / NODE))?;
    let entries = nodes.chunks_exact(NODE).zip(balance).take(count);
    let nodes: Option<Vec<Node>> = entries.map(|(entry, balance)| Some(Node { name: name(entry, text)?, balance: *balance })).collect();
    nodes.filter(|nodes| nodes.iter().map(|node| i64::from(node.balance)).sum::<i64>() == 0)
}

fn name<'a>(entry: &[u32], text: &'a [u8]) -> Option<&'a [u8]> {
    let (start, length) = (entry[0] as usize, entry[1] as usize);
    text.get(start..start.checked_add(length)?).filter(|name| !name.is_empty())
}

/// How many lines end before a place, where a line of the text starts there and is not the first.
fn lines_before(text: &[u8], place: u32) -> Option<usize> {
    let before = text.get(..place as usize).filter(|before| before.len() < text.len() && before.ends_with(b"\n"))?;
    Some(before.iter().filter(|byte| **byte == b'\n').count())
}

/// The row's place is where its line starts, behind the header and the rows before it.
fn broken(given: &[u64], text: &[u8]) -> Option<Broken> {
    let broken = Broken { row: u32::try_from(given[0]).ok()?, rule: Rule::of(given[1])?, place: u32::try_from(given[2]).ok()? };
    (lines_before(text, broken.place)? == broken.row as usize + 1).then_some(broken)
}

/// In the header, or where a row starts.
fn refused(given: &[u64], text: &[u8]) -> Option<Refusal> {
    let refusal = refusal(&<Values>::try_from(given.get(..Values::default().len())?).ok()?)?;
    let is_placed = refusal.place == 0 || lines_before(text, refusal.place).is_some();
    (refusal.file == File::Duties && REASONS.contains(&refusal.reason) && is_placed).then_some(refusal)
}

#[cfg(test)]
mod tests {
    use super::*;
    use crate::answers::NUMBERS;

    const TEXT: &[u8] = b"head\nA,B,A\n";

    fn numbers(first: &[u64]) -> Numbers {
        let mut all = [0; NUMBERS];
        all[..first.len()].copy_from_slice(first);
        all
    }

    fn read<'a>(first: &[u64], nodes: &[u32], balance: &[i32]) -> Option<Duties<'a>> {
        said(&numbers(first), TEXT, nodes, balance)
    }

    #[test]
    fn each_answer_is_read() {
        let nodes = vec![Node { name: b"A", balance: -1 }, Node { name: b"B", balance: 1 }];
        assert_eq!(read(&[0, 2], &[5, 1, 7, 1, 9, 9], &[-1, 1, 7]), Some(Duties::Accepted(nodes)));
        assert_eq!(read(&[0, 0], &[], &[]), Some(Duties::Accepted(Vec::new())));
        for rule in Rule::ALL {
            let broken = Broken { row: 0, rule, place: 5 };
            assert_eq!(read(&[4, 0, rule.number().into(), 5], &[], &[]), Some(Duties::Broken(broken)));
        }
        for (number, reason) in [2, 3, 4, 5, 6, 10, 16].into_iter().zip(REASONS) {
            let refusal = Refusal { reason, file: File::Duties, place: 5 };
            assert_eq!(read(&[2, number, 6, 5], &[], &[]), Some(Duties::Refused(refusal)));
        }
    }

    /// A code, rule, file or number that is none of the duties', a name or a row that is no part of the text, balances that do not add up, a value too many.
    #[test]
    fn what_cannot_be_is_no_answer() {
        let (nodes, balance) = (&[5, 1, 7, 1][..], &[-1, 1][..]);
        assert!(read(&[0, 2], nodes, balance).is_some());
        for first in [&[1, 3, 0, 1, 1, 4][..], &[3, 5, 5], &[5], &[0, 3], &[0, 1], &[0, 2, 1], &[0, u64::MAX]] {
            assert_eq!(read(first, nodes, balance), None, "{first:?}");
        }
        for first in
            [[4, 0, 0, 5], [4, 0, 7, 5], [4, 1, 1, 5], [4, 0, 1, 0], [4, 0, 1, 6], [4, 1, 1, 11], [4, 1 << 32, 1, 5], [4, 0, 1, 1 << 32]]
        {
            assert_eq!(read(&first, nodes, balance), None, "{first:?}");
        }
        for first in [
            [2, 4, 1, 5],
            [2, 4, 0, 5],
            [2, 1, 6, 0],
            [2, 7, 6, 5],
            [2, 12, 6, 5],
            [2, 21, 6, 0],
            [2, 4, 6, 6],
            [2, 4, 6, 11],
            [2, 4, 7, 5],
        ] {
            assert_eq!(read(&first, nodes, balance), None, "{first:?}");
        }
        for first in [[4, 0, 1, 5, 1], [2, 4, 6, 5, 1]] {
            assert_eq!(read(&first, nodes, balance), None, "{first:?}");
        }
        for nodes in [[5, 1, 11, 1], [5, 1, 7, 5], [5, 1, 7, 0], [5, 1, u32::MAX, u32::MAX]] {
            assert_eq!(read(&[0, 2], &nodes, balance), None, "{nodes:?}");
        }
        assert_eq!(read(&[0, 2], nodes, &[-1, 2]), None);
        let mut tested = numbers(&[0, 2]);
        tested[16] = 1;
        assert_eq!(said(&tested, TEXT, nodes, balance), None);
    }
}
