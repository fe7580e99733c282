//! What is answered of rolling stock duties, in words and as one object. Rows and nodes are shown; the library alone judges them.

use super::escaped;
use super::input::Input;
use super::json::{array, Object};
use super::refusal::{self, Row};
use super::told::{file_object, head, line, with_evidence, Told, ACCEPTED, REFUSED, VIOLATED};
use super::CouldNotRun;
use wagontulip::{row_at, Broken, Duties, File, Node, Unknown, LABEL};

/// The command, which is what its file is too.
pub const COMMAND: &str = "duties";

/// An answer about the one input.
pub fn told(json: bool, duties: &Duties, inputs: &[Input]) -> Result<Told, CouldNotRun> {
    let (status, word) = match duties {
        Duties::Accepted(_) => (ACCEPTED, "accepted"),
        Duties::Broken(_) => (VIOLATED, "violated"),
        Duties::Refused(_) => (REFUSED, "refused"),
    };
    let text = if json { object(word, duties, inputs)? } else { format!("{LABEL}\n{}answer: {word}\n", words(duties, inputs)?) };
    Ok(Told { status, text: text.into_bytes() })
}

fn words(duties: &Duties, inputs: &[Input]) -> Result<String, Unknown> {
    match duties {
        Duties::Accepted(nodes) => Ok(accepted(nodes, rows(&inputs[0].text))),
        Duties::Broken(broken) => Ok(Unkept::of(broken, &inputs[0])?.words()),
        Duties::Refused(refusal) => refusal::told(refusal, inputs),
    }
}

/// A text of which no row is refused has an LF behind its header and behind each row.
fn rows(text: &[u8]) -> usize {
    text.iter().filter(|byte| **byte == b'\n').count().saturating_sub(1)
}

/// An acceptance of nothing must not look like one of something.
fn accepted(nodes: &[Node], rows: usize) -> String {
    let many = |count: usize| if count == 0 { String::from("none") } else { count.to_string() };
    let read = format!("accepted: every row keeps the six rules\nread: rows {}, nodes {}\n", many(rows), many(nodes.len()));
    if nodes.is_empty() {
        return format!("{read}there are no rows: no rule was looked at\n");
    }
    let balances: String = nodes.iter().map(|node| format!("  {} {}\n", escaped(node.name), node.balance)).collect();
    format!("{read}duties ending less duties starting:\n{balances}over all nodes: {}\n", sum(nodes))
}

fn sum(nodes: &[Node]) -> i64 {
    nodes.iter().map(|node| i64::from(node.balance)).sum()
}

/// A row that breaks a rule, and the row before it, beside which it was judged.
struct Unkept<'a> {
    broken: &'a Broken,
    input: &'a Input,
    /// From 1, as an editor counts, and the header is the first.
    line: usize,
    row: Row<'a>,
    before: Option<Row<'a>>,
}

impl<'a> Unkept<'a> {
    fn of(broken: &'a Broken, input: &'a Input) -> Result<Unkept<'a>, Unknown> {
        let (text, place) = (&input.text[..], broken.place as usize);
        // The LF that ends the line before stands just before the row.
        let start = text[..place - 1].iter().rposition(|byte| *byte == b'\n').map_or(0, |feed| feed + 1);
        let row = row_from(text, place)?.expect("the wrapper knows no broken row that does not start at its place");
        Ok(Unkept { broken, input, line: broken.row as usize + 2, row, before: row_from(text, start)? })
    }

    fn words(&self) -> String {
        let Broken { row, rule, place } = self.broken;
        let head = format!("violated: rule {}: {}\n", rule.number(), rule.meaning());
        let file = format!("file: {}, row {row}, place: {place}, line: {}\n", self.input.told(), self.line);
        let before = self.before.as_ref().map_or(String::from("row before: none, it is the first\n"), |before| before.shown("row before"));
        format!("{head}{file}{before}{}", self.row.shown("row"))
    }

    fn object(&self) -> Object {
        let Broken { row, rule, place } = self.broken;
        let object = Object::new()
            .value("rule", rule.number())
            .value("position", row)
            .object("file", file_object(File::Duties.number(), Some(self.input)))
            .value("place", place)
            .value("line", self.line)
            .text("meaning", rule.meaning());
        let before = self.before.as_ref().map(|before| before.object(Object::new().value("line", self.line - 1)).close());
        self.row.object(object).optional("row_before", before)
    }
}

/// The row that starts at a place, cut out by the library, for which any CSV text may stand for the draft. At 0 the header does.
fn row_from(text: &[u8], place: usize) -> Result<Option<Row<'_>>, Unknown> {
    Ok(row_at(text, &[], File::Timetable.number(), place as u32)?.map(Row))
}

fn object(word: &str, duties: &Duties, inputs: &[Input]) -> Result<String, CouldNotRun> {
    let object = head(Some(COMMAND), word);
    let rows = rows(&inputs[0].text);
    let object = match duties {
        Duties::Accepted(nodes) => {
            let object = counted(object, rows, Some(nodes.len()));
            object.value("balance", array(nodes.iter().map(balance))).value("balance_over_all", sum(nodes))
        }
        Duties::Broken(broken) => counted(object, rows, None).object("broken", Unkept::of(broken, &inputs[0])?.object()),
        Duties::Refused(refusal) => {
            let object = object.value("read", "null").value("nothing_tested", "null");
            object.object("refusal", refusal::object(refusal, inputs)?)
        }
    };
    Ok(line(with_evidence(object, inputs)?.value("outputs", "[]")))
}

/// How much was read; of a broken rule the nodes are not told.
fn counted(object: Object, rows: usize, nodes: Option<usize>) -> Object {
    let read = Object::new().value("rows", rows).optional("nodes", nodes);
    object.object("read", read).value("nothing_tested", rows == 0)
}

fn balance(node: &Node) -> String {
    Object::new().bytes("node", node.name).value("ending_less_starting", node.balance).close()
}

#[cfg(test)]
mod tests {
    use super::*;

    #[test]
    fn balances_are_told_by_node() {
        let nodes = [Node { name: b"A", balance: -1 }, Node { name: b"B'c", balance: 1 }];
        let wanted = "accepted: every row keeps the six rules\nread: rows 3, nodes 2\nduties ending less duties starting:\n  A -1\n  B'c 1\nover all nodes: 0\n";
        assert_eq!(accepted(&nodes, 3), wanted);
        let nothing = "accepted: every row keeps the six rules\nread: rows none, nodes none\nthere are no rows: no rule was looked at\n";
        assert_eq!(accepted(&[], 0), nothing);
        assert_eq!(balance(&nodes[1]), r#"{"node": "B'c", "ending_less_starting": 1}"#);
    }

    #[test]
    fn rows_are_the_lines_behind_the_header() {
        assert_eq!([&b""[..], b"h\n", b"h\nr\n", b"h\r\nr\r\nr\r\n"].map(rows), [0, 0, 1, 2]);
    }
}
