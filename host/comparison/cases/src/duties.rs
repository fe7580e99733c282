//! Rolling stock duties (document 02, E13): files of duties, sound or damaged, each limit and rule at its edge, and seeded ones.

pub mod drawn;
pub mod edges;
pub mod faults;

use crate::{quotes, spelling, Named};
use independent::duties::HEADER;
use independent::{Call, Case, Entry, Rooms};

// The columns, from 0.
pub const DUTY: usize = 0;
pub const SEQ: usize = 1;
pub const START: usize = 2;
pub const START_TEXT: usize = 3;
pub const END: usize = 4;
pub const END_TEXT: usize = 5;
pub const FROM: usize = 6;
pub const TO: usize = 7;
pub const KIND: usize = 8;
pub const COURSE: usize = 9;
pub const COLUMNS: usize = 10;

/// A node's numbers in its table.
pub const NODE: usize = 2;

const DAY: u32 = 86_400;

/// A row, each field as it will be written.
#[derive(Clone, Debug, PartialEq, Eq)]
pub struct Row(pub [String; COLUMNS]);

impl Row {
    /// A TRAIN from one node to another.
    pub fn train(duty: &str, seq: u32, times: (u32, u32), nodes: (&str, &str)) -> Row {
        Row::of(duty, seq, times, nodes, ("TRAIN", "c"))
    }

    /// Some other event at a node.
    pub fn staying(duty: &str, seq: u32, times: (u32, u32), node: &str, kind: &str) -> Row {
        Row::of(duty, seq, times, (node, node), (kind, ""))
    }

    fn of(duty: &str, seq: u32, (start, end): (u32, u32), (from, to): (&str, &str), (kind, course): (&str, &str)) -> Row {
        let texts = [start, end].map(time_text);
        let [start_text, end_text] = &texts;
        let fields = [duty, &seq.to_string(), &start.to_string(), start_text, &end.to_string(), end_text, from, to, kind, course];
        Row(fields.map(String::from))
    }

    pub fn with(mut self, column: usize, field: &str) -> Row {
        self.0[column] = field.to_string();
        self
    }

    fn line(&self) -> String {
        self.0.join(",") + "\n"
    }
}

/// A time as document 004 writes it.
pub fn time_text(seconds: u32) -> String {
    let clock = format!("{:02}:{:02}:{:02}", seconds % DAY / 3_600, seconds % 3_600 / 60, seconds % 60);
    match seconds / DAY {
        0 => clock,
        day => format!("{day}d {clock}"),
    }
}

/// The rows of a file, and the numbers that are lent for nodes and for balances.
#[derive(Clone, Debug)]
pub struct Plan {
    pub rows: Vec<Row>,
    pub nodes: usize,
    pub balances: usize,
}

impl Plan {
    /// With just the room that the rows need.
    pub fn of(rows: Vec<Row>) -> Plan {
        let nodes = nodes_of(&rows);
        Plan { rows, nodes: nodes * NODE, balances: nodes }
    }

    pub fn text(&self) -> Vec<u8> {
        let rows: String = self.rows.iter().map(Row::line).collect();
        format!("{HEADER}\n{rows}").into_bytes()
    }

    pub fn case(&self) -> Case {
        case(self.text(), self.nodes, self.balances)
    }

    pub fn named(&self, name: impl Into<String>) -> Named {
        Named { name: name.into(), call: Call::of(Entry::Duties, self.case()) }
    }
}

/// How many nodes rows have.
pub fn nodes_of(rows: &[Row]) -> usize {
    let names: std::collections::BTreeSet<&String> = rows.iter().flat_map(|row| [&row.0[FROM], &row.0[TO]]).collect();
    names.len()
}

/// A text with so much room for nodes and balances. Of other rooms there is a little, which must stay as it is.
pub fn case(text: Vec<u8>, nodes: usize, balances: usize) -> Case {
    let mut texts: [Vec<u8>; 5] = Default::default();
    texts[0] = text;
    Case { h: 0, edition: 0, texts, rooms: Rooms { legs: nodes, curves: balances, ..Rooms::all(2) } }
}

/// Document 004's Table 8.
pub fn table_8() -> Plan {
    let moved = |seq, start, end, from, to, course: &str| Row::train("RSDuty_29", seq, (start, end), (from, to)).with(COURSE, course);
    let stayed = |seq, start, end, node, kind| Row::staying("RSDuty_29", seq, (start, end), node, kind);
    Plan::of(vec![
        moved(1, 70_920, 71_580, "OLDOXRS", "PADTLL", "5U75RX#1.A1"),
        stayed(2, 71_580, 71_640, "PADTLL", "CHANGE_END"),
        moved(3, 71_640, 73_380, "PADTLL", "ABWDXR", "9U75RX#1.A1"),
        stayed(4, 73_380, 73_800, "ABWDXR", "CHANGE_END"),
        moved(5, 73_800, 77_760, "ABWDXR", "HTRWTM5", "9T54RV#1.A1"),
        stayed(6, 77_760, 78_180, "HTRWTM5", "CHANGE_END"),
        stayed(7, 78_180, 78_720, "HTRWTM5", "SPARE"),
        moved(8, 78_720, 82_680, "HTRWTM5", "ABWDXR", "9U79RV#1.A1"),
        stayed(9, 82_680, 83_100, "ABWDXR", "CHANGE_END"),
        stayed(10, 83_100, 83_580, "ABWDXR", "SPARE"),
        moved(11, 83_580, 87_720, "ABWDXR", "MDNHEAD", "9N92RV#1.A1"),
        stayed(12, 87_720, 87_840, "MDNHEAD", "CHANGE_END"),
        moved(13, 87_840, 87_960, "MDNHEAD", "MDNHDCS", "5N92RV#1.A1"),
    ])
}

/// Two duties of three rows, which the seeded damages and the edges begin with.
pub fn example() -> Plan {
    Plan::of(vec![
        Row::train("A", 1, (86_390, 86_400), ("x", "y")),
        Row::train("B", 1, (0, 10), ("x", "y")),
        Row::staying("B", 2, (10, 20), "y", "CHANGE_END"),
    ])
}

/// Calls that no seed changes.
pub fn calls() -> Vec<Named> {
    let mut calls = vec![table_8().named("Table 8"), example().named("two duties"), Plan::of(Vec::new()).named("a header alone")];
    calls.extend(edges::calls());
    calls.extend(faults::calls());
    calls.extend(spelled());
    calls
}

/// A row of the example, spelled so.
const ROWS: &[&str] = &[
    "A,1,86390,23:59:50,86400,1d 00:00:00,x,y,TRAIN,c\r\n",
    "\"A\",\"1\",\"86390\",\"23:59:50\",\"86400\",\"1d 00:00:00\",\"x\",\"y\",\"TRAIN\",\"c\"\r\n",
    "A,1,86390,23:59:50,86400,\"1d 00:00:00\",\"x\",y,TRAIN,\"c\"\n",
    "A,1,86390,23:59:50,86400,1d 00:00:00,x,x,SPARE,\"\"\n",
    "A,1,86390,23:59:50,86400,1d 00:00:00,x,x,SPARE,\"\"\r\n",
    "A,1,86390,23:59:50,86400,1d 00:00:00,x,x,SPARE,\r\n",
    "A,1,86390,\"\",86400,1d 00:00:00,x,y,TRAIN,c\n",
    "A,1,86390,23:59:50,86400,1d 00:00:00,x,y,\"\",\n",
    "A,1,86390,23:59:50,86400,1d 00:00:00,x,y,\"RESERVE\",\"\"\n",
    "A,1,86390,23:59:50,86400,1d 00:00:00,x,y,TRAIN,\"\"\n",
    "A,1,86390,23:59:50,86400,1d 00:00:00,\"\",y,TRAIN,c\n",
    "\"\",1,86390,23:59:50,86400,1d 00:00:00,x,y,TRAIN,c\n",
    "A,\"\",86390,23:59:50,86400,1d 00:00:00,x,y,TRAIN,c\n",
    "A,1,86390,23:59:50,86400,1d 00:00:00,x,y,TRAIN,c\r\r\n",
    "A,1,86390,23:59:50,86400,1d 00:00:00,x,y,TRAIN,c\r",
    "A,1,86390,23:59:50,86400,1d 00:00:00,x,y,TRAIN,\"c\r\"\n",
    "A,1,86390,23:59:50,86400,1d 00:00:00,x,y\r,TRAIN,c\n",
    "A,1,86390,\"23:59:50\r\",86400,1d 00:00:00,x,y,TRAIN,c\n",
    "A,1,86390,23:59:50,86400,1d 00:00:00,x,y,TRAIN,\"c\n",
    "A,1,86390,23:59:50,86400,1d 00:00:00,x,y,TRAIN,c\"\n",
    "A,1,86390,23:59:50,86400,1d 00:00:00,x,y,TRAIN,\"c\"d\n",
    "A,1,86390,23:59:50,86400,1d 00:00:00,x,y,TRAIN,\"c\"\"d\"\n",
    "A,1,86390,23:59:50,86400,1d 00:00:00,x,y,TRAIN,\"\"c\"\"\n",
    "A,1,86390,23:59:50,86400,1d 00:00:00,x,y,TRAIN, \"c\"\n",
    "A,1,86390,23:59:50,86400,1d 00:00:00,x,y,TRAIN,\"c\" \n",
    "A,1,86390,23:59:50,86400,\"1d 00:00:00\"s,x,y,TRAIN,c\n",
    "A,1,86390,23:59:50,86400,1d \"00:00:00\",x,y,TRAIN,c\n",
    "A,1,86390,23:59:50,86400,1d 00:00:00,\"x,y\",TRAIN,c\n",
    "A,1,86390,23:59:50,86400,1d 00:00:00,\"x,\",y,TRAIN,c\n",
    "A,1,86390,23:59:50,86400,1d 00:00:00,\"x\n\",y,TRAIN,c\n",
    "A,1,86390,23:59:50,86400,\"1d\n00:00:00\",x,y,TRAIN,c\n",
    "\"A,1,86390,23:59:50,86400,1d 00:00:00,x,y,TRAIN,c\"\n",
    "\"A\",1,86390,23:59:50,86400,1d 00:00:00,\"y\",\"x\",TRAIN,c\n",
    "\r\n",
    "\n",
    "\r\r\n",
];

/// Quotes and CR LF at their edges.
fn spelled() -> Vec<Named> {
    let (plain, nodes, balances) = (example().text(), example().nodes, example().balances);
    let named = |name: String, text: Vec<u8>| Named { name, call: Call::of(Entry::Duties, case(text, nodes, balances)) };
    let mut calls: Vec<Named> = ROWS.iter().map(|row| named(format!("duty row {row:?}"), quotes::with_first_row(&plain, row))).collect();
    for (number, spelled) in quotes::HEADERS.iter().enumerate() {
        let end = HEADER.len() + 1;
        // The spellings know names that end in small letters.
        let header = spelled(&HEADER.replace("_ID", "_id")).replace("_id", "_ID");
        calls.push(named(format!("duty header {number}"), [header.as_bytes(), &plain[end..]].concat()));
    }
    calls.push(named(String::from("duties exported"), spelling::exported(&plain)));
    calls.push(named(String::from("duties, the header alone exported"), spelling::exported(format!("{HEADER}\n").as_bytes())));
    calls.push(named(String::from("duties, a CR at the end"), [&plain[..], b"\r"].concat()));
    calls.push(named(String::from("duties, a CR in the place of the last LF"), [&plain[..plain.len() - 1], b"\r"].concat()));
    calls.push(named(String::from("duties, no LF at the end"), plain[..plain.len() - 1].to_vec()));
    calls.push(named(String::from("no duties at all"), Vec::new()));
    calls
}

#[cfg(test)]
mod tests {
    use super::*;
    use independent::Answer;

    fn answers(name: &str) -> Vec<Answer> {
        let of_name = calls().into_iter().filter(|named| named.name.starts_with(name));
        of_name.map(|named| named.call.case.duties().answer).collect()
    }

    fn count(answers: &[Answer], numbers: &[i64]) -> usize {
        answers.iter().filter(|answer| answer.numbers().starts_with(numbers)).count()
    }

    #[test]
    fn the_files_are_accepted() {
        for plan in [table_8(), example()] {
            assert_eq!(plan.case().duties().answer, Answer::Accepted);
            let mut exported = plan.case();
            exported.texts[0] = spelling::exported(&exported.texts[0]);
            assert_eq!(exported.duties().answer, Answer::Accepted);
        }
        assert_eq!(table_8().text(), include_bytes!("../../../../examples/duties.csv"));
    }

    #[test]
    fn spellings_lie_on_both_sides() {
        let rows = answers("duty row ");
        assert_eq!((rows.len(), count(&rows, &[0]), count(&rows, &[4, 0, 6]), count(&rows, &[2, 10])), (ROWS.len(), 7, 2, 2));
        assert_eq!(count(&rows, &[2, 4, 6, 129]), ROWS.len() - 11);
        let headers = answers("duty header ");
        assert_eq!((count(&headers, &[0]), count(&headers, &[2, 3, 6, 0])), (4, quotes::HEADERS.len() - 4));
    }
}
