//! Quotes and CR LF at their edges (document 02, E1): rows, headers and ends of a text that may stand, and next to them ones that may not.

use crate::plan::Plan;
use crate::spelling::{all_exported, exported, CSV};
use crate::Named;
use independent::{Call, Case, Entry};

/// The example's first row, spelled so; it stands in the draft, in the solution and in the second solution.
const ROWS: &[&str] = &[
    "1,1,1,1,2,10_4_7,10_4_7 15_4_7\r\n",
    "\"1\",1,1,1,2,10_4_7,10_4_7 15_4_7\n",
    "1,1,1,1,2,10_4_7,\"10_4_7 15_4_7\"\n",
    "1,1,1,1,2,10_4_7,\"10_4_7 15_4_7\"\r\n",
    "1,\"1\",1,\"1\",2,\"10_4_7\",10_4_7 15_4_7\r\n",
    "\"1\",\"1\",\"1\",\"1\",\"2\",\"15_4_7\",\"10_4_7 15_4_7\"\r\n",
    "\"1\",\"1\",\"1\",\"1\",\"2\",\"11_4_7\",\"10_4_7 15_4_7\"\r\n",
    "\"2\",\"1\",\"1\",\"1\",\"2\",\"10_4_7\",\"10_4_7 15_4_7\"\r\n",
    "\"1000000000\",1,1,1,2,10_4_7,10_4_7 15_4_7\n",
    "\"01\",1,1,1,2,10_4_7,10_4_7 15_4_7\n",
    "\"1,1,1,1,2,10_4_7,10_4_7 15_4_7\n",
    "1\",1,1,1,2,10_4_7,10_4_7 15_4_7\n",
    "\"\"1\"\",1,1,1,2,10_4_7,10_4_7 15_4_7\n",
    "\"1\"\"\",1,1,1,2,10_4_7,10_4_7 15_4_7\n",
    "1\"\",1,1,1,2,10_4_7,10_4_7 15_4_7\n",
    "\"\",1,1,1,2,10_4_7,10_4_7 15_4_7\n",
    " \"1\",1,1,1,2,10_4_7,10_4_7 15_4_7\n",
    "\"1\" ,1,1,1,2,10_4_7,10_4_7 15_4_7\n",
    "\" 1\",1,1,1,2,10_4_7,10_4_7 15_4_7\n",
    "\"1\"1,1,1,1,2,10_4_7,10_4_7 15_4_7\n",
    "\"1,1\",1,1,2,10_4_7,10_4_7 15_4_7\n",
    "\"1,\",1,1,1,2,10_4_7,10_4_7 15_4_7\n",
    "\"1,1,1,1,2,10_4_7,10_4_7 15_4_7\"\n",
    "1,1,1,1,2,10_\"4\"_7,10_4_7 15_4_7\n",
    "1,1,1,1,2,\"10\"_4_7,10_4_7 15_4_7\n",
    "1,1,1,1,2,\"10_4_7,10_4_7 15_4_7\"\n",
    "1,1,1,1,2,10_4_7,\"10_4_7\" \"15_4_7\"\n",
    "1,1,1,1,2,10_4_7,\"10_4_7\" 15_4_7\n",
    "1,1,1,1,2,10_4_7,10_4_7 \"15_4_7\"\n",
    "1,1,1,1,2,10_4_7,\"10_4_7 15_4_7\n",
    "1,1,1,1,2,10_4_7,10_4_7 15_4_7\"\n",
    "1,1,1,1,2,10_4_7,\"10_4_7 15_4_7\"\"\n",
    "1,1,1,1,2,10_4_7,\"10_4_7\n 15_4_7\"\n",
    "1,1,1,1,2,10_4_7,\"10_4_7 15_4_7\n\"\n",
    "1,1,1,1,2,10_4_7,\"\"\n",
    "1,1,1,1,2,10_4_7,10_4_7 15_4_7\r\r\n",
    "1,1,1,1,2,10_4_7,\"10_4_7 15_4_7\"\r\r\n",
    "1,1,1,1,2,10_4_7,\"10_4_7 15_4_7\r\"\n",
    "1,1,1,1,2,10_4_7,\"10_4_7 15_4_7\r\"\r\n",
    "1\r,1,1,1,2,10_4_7,10_4_7 15_4_7\n",
    "\"1\"\r,1,1,1,2,10_4_7,10_4_7 15_4_7\n",
    "\r1,1,1,1,2,10_4_7,10_4_7 15_4_7\n",
    "\r\n",
    "\r\r\n",
];

/// The example's first profile, spelled so.
const PROFILES: &[&str] = &[
    "7,0.5 1.0 0.25 -0.4\r\n",
    "\"7\",0.5 1.0 0.25 -0.4\n",
    "7,\"0.5 1.0 0.25 -0.4\"\r\n",
    "\"7\",\"0.5 1.0 0.25 -0.4\"\n",
    "\"8\",\"0.5 1.0 0.25 -0.4\"\n",
    "\"7\",\"20.001 1.0 0.25 -0.4\"\n",
    "\"7\",\"0.5 1.0\"\n",
    "\"7,0.5 1.0 0.25 -0.4\"\n",
    "\"7,\"0.5 1.0 0.25 -0.4\n",
    "7,\"0.5\" 1.0 0.25 -0.4\n",
    "7,0.5 \"1.0\" 0.25 -0.4\n",
    "7,-\"0.5\" 1.0 0.25 -0.4\n",
    "7,\"0.5 1.0 0.25 -0.4\n",
    "7,\"0.5 1.0,0.25 -0.4\"\n",
    "\"7,\",0.5 1.0 0.25 -0.4\n",
    "7,\"0.5 1.0\n0.25 -0.4\"\n",
    "7,\"0.5 1.0 \n0.25 -0.4\"\n",
    "\"7\",\"\"\n",
    "7,\"\"0.5 1.0 0.25 -0.4\"\"\n",
    "7,0.5 1.0 0.25 -0.4\r\r\n",
    "7,\"0.5 1.0 0.25 -0.4\r\"\n",
    "7,0.5\r 1.0 0.25 -0.4\n",
];

/// Ways to spell a header, given without its LF.
pub const HEADERS: &[fn(&str) -> String] = &[
    |header| format!("{header}\r\n"),
    |header| format!("\"{}\"\n", header.replace(',', "\",\"")),
    |header| format!("\"{}\"\r\n", header.replace(',', "\",\"")),
    |header| header.rsplit_once(',').map_or(String::new(), |(names, last)| format!("{names},\"{last}\"\n")),
    |header| format!("\"{header}\"\n"),
    |header| format!("\"{header}\n"),
    |header| format!("{header}\"\n"),
    |header| format!("{}\n", header.replacen("_id", "\"_id\"", 1)),
    |header| format!("{}\n", header.replacen(',', "\",\"", 1)),
    |header| format!("\"{}\n", header.replacen(',', "\" ,", 1)),
    |header| format!("\"{}\n", header.replacen(',', ",\",", 1)),
    |header| format!("\"{}\n", header.replacen("_id", "\n_id\"", 1)),
    |header| format!("\u{feff}{header}\r\n"),
    |header| format!("{header}\r\r\n"),
    |header| format!("{}\n", header.replacen(',', "\r,", 1)),
    |header| format!("{header}\r"),
];

/// A text with lines of every end, whose rows are shown.
const SHOWN: &[u8] = b"h\r\n\"a\"\r\nb\r\r\n\r\n\r\r\n\"c\n\r";

pub fn calls() -> Vec<Named> {
    let mut calls = Vec::new();
    calls.extend(whole_files());
    for row in ROWS {
        calls.extend([0, 3, 4].map(|place| changed(place, &format!("row {row:?}"), |text| with_first_row(text, row))));
    }
    calls.extend(PROFILES.iter().map(|row| changed(1, &format!("profile {row:?}"), |text| with_first_row(text, row))));
    for (number, spelled) in HEADERS.iter().enumerate() {
        calls.extend(CSV.map(|place| changed(place, &format!("header {number}"), |text| with_header(text, *spelled))));
    }
    calls.extend(CSV.map(|place| changed(place, "a CR at the end", |text| [text, b"\r"].concat())));
    calls.extend(CSV.map(|place| changed(place, "a CR in the place of the last LF", |text| [&text[..text.len() - 1], b"\r"].concat())));
    calls.extend(shown());
    calls
}

/// An entry that reads the text.
fn reading(place: usize) -> Entry {
    match place {
        4 => Entry::MergeEarlier,
        3 => Entry::Energy,
        _ => Entry::Check,
    }
}

/// The example with one of its texts changed, and just the room that it needs.
fn changed(place: usize, name: &str, change: impl Fn(&[u8]) -> Vec<u8>) -> Named {
    let mut case = Case { rooms: Plan::example().needs(), ..Plan::example().case() };
    case.texts[place] = change(&case.texts[place]);
    Named { name: format!("{name} in text {}", place + 1), call: Call::of(reading(place), case) }
}

/// The places behind the LFs.
fn ends(text: &[u8]) -> Vec<usize> {
    (0..text.len()).filter(|place| text[*place] == b'\n').map(|place| place + 1).collect()
}

pub fn with_first_row(text: &[u8], row: &str) -> Vec<u8> {
    let ends = ends(text);
    [&text[..ends[0]], row.as_bytes(), &text[ends[1]..]].concat()
}

pub fn with_header(text: &[u8], spelled: fn(&str) -> String) -> Vec<u8> {
    let end = ends(text)[0];
    let header = String::from_utf8_lossy(&text[..end - 1]);
    [spelled(&header).as_bytes(), &text[end..]].concat()
}

/// All files as a spreadsheet exports them, and each of them alone; by every entry, with just the room that plain files need.
fn whole_files() -> Vec<Named> {
    let plan = Plan::of_every_kind();
    let plain = Case { rooms: plan.needs(), ..plan.case() };
    let mut cases = vec![(String::from("all files exported"), all_exported(plain.clone()))];
    for place in CSV {
        let mut alone = plain.clone();
        alone.texts[place] = exported(&plain.texts[place]);
        cases.push((format!("text {} exported", place + 1), alone));
    }
    let entries = [Entry::Check, Entry::Energy, Entry::MergeEarlier, Entry::MergeLater];
    let of_case = |(name, case): (String, Case)| entries.map(|entry| Named { name: name.clone(), call: Call::of(entry, case.clone()) });
    cases.into_iter().flat_map(of_case).collect()
}

/// Every place of the text, as the draft's and as the solution's.
fn shown() -> Vec<Named> {
    let mut calls = Vec::new();
    for place in 0..=SHOWN.len() + 1 {
        for (file, text) in [(1, 0), (4, 3)] {
            let mut case = Plan::example().case();
            case.texts[text] = SHOWN.to_vec();
            let call = Call { entry: Entry::Row, case, file, place: place as u32 };
            calls.push(Named { name: format!("the row at {place} of text {}", text + 1), call });
        }
    }
    calls
}

#[cfg(test)]
mod tests {
    use super::*;
    use independent::{Answer, Lent};

    fn answers(name: &str) -> Vec<Answer> {
        let answer = |named: Named| {
            let mut lent = Lent::full_of(0, &named.call.case.rooms);
            named.call.run(&mut lent).answer()
        };
        calls().into_iter().filter(|named| named.name.starts_with(name)).filter_map(answer).collect()
    }

    #[test]
    fn edges_lie_on_both_sides() {
        let accepted = |answers: &[Answer]| answers.iter().filter(|answer| **answer == Answer::Accepted).count();
        let refused =
            |answers: &[Answer], by: u32| answers.iter().filter(|answer| answer.numbers().starts_with(&[2, i64::from(by)])).count();
        let rows = answers("row ");
        assert_eq!((rows.len(), accepted(&rows), refused(&rows, 4)), (3 * ROWS.len(), 3 * 6, 3 * (ROWS.len() - 9)));
        let profiles = answers("profile ");
        assert_eq!((profiles.len(), accepted(&profiles), refused(&profiles, 4)), (PROFILES.len(), 4, PROFILES.len() - 7));
        let headers = answers("header ");
        assert_eq!((headers.len(), accepted(&headers), refused(&headers, 3)), (4 * HEADERS.len(), 4 * 4, 4 * (HEADERS.len() - 4)));
        let ends = answers("a CR ");
        assert_eq!((ends.len(), refused(&ends, 4)), (8, 8));
        assert!(answers("all files").iter().chain(&answers("text ")).all(|answer| *answer == Answer::Accepted));
    }
}
