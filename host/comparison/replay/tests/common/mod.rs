//! Calls of the examples, and the lines to expect of them by the independent program alone.
#![allow(dead_code)]

use independent::{Answer, Call, Case, Entry, Lent, Rooms, Said, Tally};
use replay::{run, Exports};
use std::path::Path;

/// The functions of the stand-in.
pub const STAND_IN: Exports = Exports {
    check: stand_in::wagontulip_check,
    energy: stand_in::wagontulip_energy,
    merge_earlier: stand_in::wagontulip_merge_earlier,
    merge_later: stand_in::wagontulip_merge_later,
    row: stand_in::wagontulip_row,
    duties: stand_in::wagontulip_duties,
};

pub const LABEL: &str = "no violation shown is not no violation";

/// Every room is full of this before a call.
const BEFORE: u8 = 7;

/// The horizon of the examples.
pub const H: u32 = 100;

/// The edition of the examples.
pub const EDITION: u32 = 2;

/// More room than an example needs.
pub const ENOUGH: usize = 1_000;

/// A file of the examples.
pub fn example(name: &str) -> Vec<u8> {
    let path = Path::new(env!("CARGO_MANIFEST_DIR")).join("../../../examples").join(name);
    std::fs::read(&path).unwrap_or_else(|error| panic!("{}: {error}", path.display()))
}

/// The example's draft and profiles with other constraints and solutions.
pub fn case(constraints: &str, solution: &str, second: &str) -> Case {
    let names = ["timetable.csv", "profiles.csv", constraints, solution, second];
    Case { h: H, edition: EDITION, texts: names.map(example), rooms: Rooms::all(ENOUGH) }
}

/// Both solutions are accepted, and each has an earlier choice than the other.
pub fn accepted() -> Case {
    case("constraints.json", "solution-15-40.csv", "solution-10-45.csv")
}

/// A duty of two rows, with just the room of its three nodes.
pub const DUTIES: &str = "\
DUTY_ID,SEQ,START_TIME_SECONDS,START_TIME_HHMMSS,END_TIME_SECONDS,END_TIME_HHMMSS,START_NODE,END_NODE,EVENT_TYPE,TRAIN_COURSE_ID
RSDuty_29,1,70920,19:42:00,71580,19:53:00,OLDOXRS,PADTLL,TRAIN,5U75RX#1.A1
RSDuty_29,2,71580,19:53:00,73380,20:23:00,PADTLL,ABWDXR,TRAIN,9U75RX#1.A1
";

/// The duties of a text, with so many numbers lent for nodes and balances.
pub fn duties(text: &str, nodes: usize, balances: usize) -> Call {
    let mut texts: [Vec<u8>; 5] = Default::default();
    texts[0] = text.as_bytes().to_vec();
    let rooms = Rooms { legs: nodes, curves: balances, ..Rooms::all(3) };
    Call::of(Entry::Duties, Case { h: 0, edition: 0, texts, rooms })
}

/// The number of an entry: the duties' stands past those of requests that have not come.
pub fn number(entry: Entry) -> u64 {
    match entry {
        Entry::Duties => 11,
        _ => 1 + Entry::ALL.iter().position(|other| *other == entry).unwrap() as u64,
    }
}

/// The numbers of a call's block; set and quarter are 0.
pub fn numbers(call: &Call) -> Vec<u64> {
    let head = [number(call.entry), u64::from(call.case.h), u64::from(call.file), u64::from(call.place)];
    let lengths = call.case.texts.iter().map(|text| text.len() as u64);
    let rooms = call.case.rooms.numbers().map(|room| room as u64);
    head.into_iter().chain(lengths).chain(rooms).chain([u64::from(call.case.edition), 0, 0]).collect()
}

/// The numbers with one space between, padded with spaces, LF last.
pub fn block(numbers: &[u64]) -> Vec<u8> {
    let words: Vec<String> = numbers.iter().map(u64::to_string).collect();
    format!("{:255}\n", words.join(" ")).into_bytes()
}

/// The block, and the texts behind it.
pub fn written(call: &Call) -> Vec<u8> {
    [block(&numbers(call)), call.case.texts.concat()].concat()
}

/// What a run writes, without the label, which it must write first.
pub fn lines(exports: &Exports, input: &[u8]) -> Vec<String> {
    let mut output = Vec::new();
    run(exports, &mut &*input, &mut output).unwrap();
    let output = String::from_utf8(output).unwrap();
    assert!(output.ends_with('\n'));
    let mut lines = output.lines().map(String::from);
    assert_eq!(lines.next().unwrap(), LABEL);
    lines.collect()
}

/// The line of one call.
pub fn line(exports: &Exports, call: &Call) -> String {
    let lines = lines(exports, &written(call));
    assert_eq!(lines.len(), 1);
    lines.concat()
}

/// What the independent program answers, and what it leaves in rooms that were full of 7.
pub fn expected(call: &Call) -> String {
    let mut lent = Lent::full_of(BEFORE, &call.case.rooms);
    let said = call.run(&mut lent);
    let words = match said {
        Said::Reported(Answer::Accepted, _, f, desk, [of_before, of_drawn]) => {
            let figures = [f.before, f.drawn, f.lost, f.fluctuation, f.peak_before, f.peak_drawn].map(|figure| figure.to_string());
            let bits = [desk.before, desk.drawn, desk.lost, desk.peak].map(|double| format!("{:016x}", double.to_bits()));
            format!("accepted {} {of_before} {of_drawn} {}", figures.join(" "), bits.join(" "))
        }
        Said::Merged(Answer::Accepted, _, length) => format!("accepted {length}"),
        Said::Checked(answer, _) | Said::Reported(answer, ..) | Said::Merged(answer, ..) => answer.line(),
        Said::Row(_, length) => format!("row {length} {}", digest(call.row_bytes().iter().map(|byte| u32::from(*byte)))),
        Said::Duties(Answer::Accepted, nodes) => format!("accepted {nodes}"),
        Said::Duties(answer, _) => answer.line(),
    };
    let [legs, .., curves, _] = digests(&lent);
    let digests = if call.entry == Entry::Duties { vec![legs, curves] } else { digests(&lent).to_vec() };
    format!("{words}{} | {}", said.tally().map_or(String::new(), counted), digests.join(" "))
}

/// Behind a verdict: the total, and a count for each kind.
fn counted(tally: Tally) -> String {
    let [choices, headways, single, dwells, turnarounds, connections] = tally.kinds;
    format!(" # {} {choices} {headways} {single} {dwells} {turnarounds} {connections}", tally.total)
}

fn digests(lent: &Lent) -> [String; 10] {
    let unsigned = |room: &[u32]| digest(room.iter().copied());
    let signed = |room: &[i32]| digest(room.iter().map(|number| *number as u32));
    let text = digest(lent.text.iter().map(|byte| u32::from(*byte)));
    [
        unsigned(&lent.legs),
        unsigned(&lent.configurations),
        unsigned(&lent.profiles),
        signed(&lent.samples),
        unsigned(&lent.constraints),
        unsigned(&lent.tracks),
        unsigned(&lent.choices),
        unsigned(&lent.second_choices),
        signed(&lent.curves),
        text,
    ]
    .map(|digest| digest.to_string())
}

/// d = (d × 31 + the number) mod 2^32, without the wrapping arithmetic that the program has.
fn digest(numbers: impl Iterator<Item = u32>) -> u64 {
    numbers.fold(0, |digest, number| (digest * 31 + u64::from(number)) % (1 << 32))
}

/// The words of a line before its digests.
pub fn answer(line: &str) -> &str {
    line.split(" | ").next().unwrap()
}
