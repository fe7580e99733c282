//! Writes seeded cases of the independent program as statements about the definitions of
//! `crates/rules/specs/Entries.antt` and `Duties.antt`: the same inputs, and the answers of the independent program.
//! The prover computes each by the definitions, so that a difference is refused.
//!
//! `definitions SEED COUNT DIR` writes `DIR/Lib.antt` and a module for each twelve cases.

use cases::draw::for_target;
use cases::duties::{self, drawn};
use cases::edges::last_quarters;
use cases::quotes;
use cases::random::Random;
use cases::spelling::CSV;
use cases::target::{targets, Target};
use cases::{editions, tallies, Scale};
use independent::{Answer, Call, Case, Edition, Entry, Lent, Said};
use std::fmt::Write as _;
use std::path::Path;
use std::process::ExitCode;

const CASES_A_MODULE: usize = 12;

/// Statements over longer horizons take the prover too long.
const LONGEST_HORIZON: u32 = 2_700;

/// Longer curves are too long to be written out.
const LONGEST_CURVE: u32 = 100;

/// Longer files of duties take the prover too long.
const LONGEST_DUTIES: usize = 450;

const HEAD: &str = include_str!("head.txt");

fn main() -> ExitCode {
    let words: Vec<String> = std::env::args().skip(1).collect();
    match run(&words) {
        Ok(said) => {
            println!("{said}");
            ExitCode::SUCCESS
        }
        Err(message) => {
            eprintln!("definitions: {message}");
            ExitCode::FAILURE
        }
    }
}

fn run(words: &[String]) -> Result<String, String> {
    let (seed, count, dir) = match words {
        [seed, count, dir] => (seed, count, dir),
        _ => return Err("definitions SEED COUNT DIR".into()),
    };
    let seed = seed.parse().map_err(|_| format!("no seed: {seed}"))?;
    let count = count.parse().map_err(|_| format!("no count: {count}"))?;
    let calls: Vec<Call> = (0..count).map(|number| drawn(seed, number)).collect();
    let mut statements = 0;
    let mut modules = String::new();
    for (number, group) in calls.chunks(CASES_A_MODULE).enumerate() {
        let mut text = String::from(HEAD);
        for (place, call) in group.iter().enumerate() {
            statements += state(call, number * CASES_A_MODULE + place, &mut text);
        }
        write(dir, &format!("Cases{number}.antt"), &text)?;
        let _ = writeln!(modules, "pub mod Cases{number}");
    }
    write(dir, "Lib.antt", &modules)?;
    let quoted = calls.iter().filter(|call| is_marked(&call.case)).count();
    let by_table = calls.iter().filter(|call| call.case.edition == Edition::Table as u32).count();
    let duties = calls.iter().filter(|call| call.entry == Entry::Duties).count();
    Ok(format!(
        "{statements} statements of {count} cases, {quoted} of them with quotes or CR LF, {by_table} of edition 1, {duties} of duties"
    ))
}

/// Whether a CSV text of the case has a quote or a CR.
fn is_marked(case: &Case) -> bool {
    CSV.iter().any(|text| case.texts[*text].iter().any(|byte| matches!(byte, b'"' | b'\r')))
}

fn write(dir: &str, name: &str, text: &str) -> Result<(), String> {
    std::fs::write(Path::new(dir).join(name), text).map_err(|e| format!("{name}: {e}"))
}

/// The call of a number: of each twelve one is a merge, with its energies too, one an energy, one an energy with H at the edges of quarters, two have quotes
/// and CR LF at their edges, one a key or an edition, one tests of every kind, and two are of duties, one of them at an edge.
fn drawn(seed: u64, number: usize) -> Call {
    let mut random = Random::of(seed, number as u64);
    let entry = match number % CASES_A_MODULE {
        9 => Entry::MergeEarlier,
        4 => Entry::Energy,
        6 => return last_quarter(number / CASES_A_MODULE),
        2 | 7 => return random.pick(&quotes::calls()).call.clone(),
        5 => return random.pick(&editions::calls_of(Entry::Check)).call.clone(),
        8 => return random.pick(&tallies::calls_of(Entry::Check)).call.clone(),
        10 => return drawn_duties(&mut random),
        11 => return duties_at_an_edge(&mut random),
        _ => Entry::Check,
    };
    let targets = targets(entry);
    loop {
        let target = if entry == Entry::Energy { Target::Accepted } else { *random.pick(&targets) };
        if let Some(case) = for_target(&mut random, entry, target, Scale::Tiny) {
            return Call::of(entry, case);
        }
    }
}

/// Duties that give some answer, each as likely as another.
fn drawn_duties(random: &mut Random) -> Call {
    loop {
        let target = *random.pick(&targets(Entry::Duties));
        if let Some(case) = drawn::for_target(random, target, drawn::Scale::Tiny) {
            return Call::of(Entry::Duties, case);
        }
    }
}

fn duties_at_an_edge(random: &mut Random) -> Call {
    let mut calls: Vec<Call> = duties::calls().into_iter().map(|named| named.call).collect();
    calls.retain(|call| call.case.texts[0].len() <= LONGEST_DUTIES);
    calls.swap_remove(random.below(calls.len()))
}

/// The calls with H at the edges of quarters, by turns, as far as the prover computes them.
fn last_quarter(turn: usize) -> Call {
    let mut calls: Vec<Call> = last_quarters().into_iter().map(|named| named.call).filter(|call| call.case.h <= LONGEST_HORIZON).collect();
    calls.swap_remove(turn % calls.len())
}

/// The statements of one call; how many there are. Each says the answer, how much was tested, and every lent room, whole, or the row that is shown.
fn state(call: &Call, number: usize, text: &mut String) -> usize {
    let Call { entry, case, file, place } = call;
    let mut count = 0;
    let mut claim = |name: &str, left: String, right: Vec<i64>| {
        let right = spelled(&right);
        let _ = write!(text, "{name}{number} : {left} ≡ {right}\nunfolding computed\n{name}{number} = refl\n\n");
        count += 1;
    };
    if *entry == Entry::Duties {
        state_duties(call, &mut claim);
    } else if *entry == Entry::Row {
        let left = format!("row_at {} {} {file} {place}", bytes(&case.texts[0]), bytes(&case.texts[3]));
        claim("row", left, call.row_bytes().iter().map(|byte| i64::from(*byte)).collect());
    } else {
        state_answers(*entry, case, &mut claim);
    }
    count
}

/// The answer with its code, and both tables, whole.
fn state_duties(call: &Call, claim: &mut dyn FnMut(&str, String, Vec<i64>)) {
    let (said, left) = answered(Entry::Duties, &call.case);
    let rooms = call.case.rooms;
    let input = format!("{} (nines {}) (signed_nines {})", bytes(&call.case.texts[0]), rooms.legs, rooms.curves);
    let nodes = left.legs.iter().map(|number| i64::from(*number)).collect();
    let balances = left.curves.iter().map(|balance| unsigned(*balance)).collect();
    claim("duties", format!("duties_say (duties_checked {input})"), [said, nodes, balances].concat());
}

/// The same of an entry that judges.
fn state_answers(entry: Entry, case: &Case, claim: &mut dyn FnMut(&str, String, Vec<i64>)) {
    let [timetable, profiles, constraints, solution, second] = &case.texts;
    let (solution, second) = (bytes(solution), bytes(second));
    let texts = format!("(texts {} {} {})", bytes(timetable), bytes(profiles), bytes(constraints));
    let rooms = case.rooms;
    let six: Vec<String> = rooms.numbers()[..6].iter().map(usize::to_string).collect();
    let input = format!("(stated {} {}) {texts} {solution}", case.h, case.edition);
    let lent = format!("(lent {}) (nines {})", six.join(" "), rooms.choices);
    let (said, left) = answered(Entry::Check, case);
    claim("check", format!("check_says (checked {input} {lent})"), [said, tables(&left)].concat());
    if entry != Entry::Check && case.h <= LONGEST_HORIZON {
        let (said, left) = answered(Entry::Energy, case);
        let report = format!("(reported {input} {lent} (signed_nines {}))", rooms.curves);
        claim("energy", format!("energy_says {report}"), [said, tables(&left)].concat());
        if case.h <= LONGEST_CURVE {
            claim("curves", format!("curves_say {report}"), left.curves.iter().map(|power| unsigned(*power)).collect());
        }
    }
    if entry == Entry::MergeEarlier {
        for (name, merge) in [("earlier", Entry::MergeEarlier), ("later", Entry::MergeLater)] {
            let (said, left) = answered(merge, case);
            let rest = format!("(nines {}) (nines {})", rooms.second_choices, rooms.text);
            let second_choices = left.second_choices.iter().map(|number| i64::from(*number)).collect();
            let written = left.text.iter().map(|byte| i64::from(*byte)).collect();
            let expected = [said, tables(&left), second_choices, written].concat();
            claim(name, format!("merge_says (merged {name} {input} {second} {lent} {rest})"), expected);
        }
    }
}

/// What the independent program answers, and what it leaves in rooms full of nines.
fn answered(entry: Entry, case: &Case) -> (Vec<i64>, Lent) {
    let mut lent = Lent::full_of(9, &case.rooms);
    let said = Call::of(entry, case.clone()).run(&mut lent);
    let answer = said.answer().map_or(Vec::new(), |answer| answer.numbers());
    let tally = said.tally().unwrap_or_default().numbers().into_iter().map(|count| count as i64).collect();
    let tally = if entry == Entry::Duties { Vec::new() } else { tally };
    let figures = match said {
        Said::Duties(Answer::Accepted, nodes) => vec![nodes as i64],
        Said::Reported(_, _, f, _, [of_before, of_drawn]) => {
            vec![f.before, f.drawn, f.lost, f.fluctuation, f.peak_before, f.peak_drawn, of_before as i64, of_drawn as i64]
        }
        Said::Checked(..) | Said::Merged(..) | Said::Row(..) | Said::Duties(..) => Vec::new(),
    };
    ([answer, tally, figures].concat(), lent)
}

/// The tables and the choices, one behind the other.
fn tables(lent: &Lent) -> Vec<i64> {
    let plain = |table: &[u32]| table.iter().map(|number| i64::from(*number)).collect::<Vec<i64>>();
    let samples = lent.samples.iter().map(|sample| unsigned(*sample)).collect();
    [
        plain(&lent.legs),
        plain(&lent.configurations),
        plain(&lent.profiles),
        samples,
        plain(&lent.constraints),
        plain(&lent.tracks),
        plain(&lent.choices),
    ]
    .concat()
}

/// A signed number as `head.txt` says it.
fn unsigned(number: i32) -> i64 {
    let number = i64::from(number);
    if number < 0 {
        1_000_000_000_000 - 1 - number
    } else {
        number
    }
}

fn bytes(text: &[u8]) -> String {
    let list: Vec<i64> = text.iter().map(|byte| i64::from(*byte)).collect();
    spelled(&list)
}

/// A list in the prover's words; a text that can be written as one is.
fn spelled(list: &[i64]) -> String {
    let text = list.len() > 9 && list.iter().all(|&b| b == 10 || b == 13 || (32..127).contains(&b));
    if text {
        let mut quoted = String::new();
        for &b in list {
            match b as u8 {
                b'\n' => quoted.push_str("\\n"),
                b'\r' => quoted.push_str("\\r"),
                b'"' => quoted.push_str("\\\""),
                b'\\' => quoted.push_str("\\\\"),
                plain => quoted.push(plain as char),
            }
        }
        return format!("(bytes \"{quoted}\")");
    }
    let numbers: String = list.iter().map(|n| format!("{n} ∷ ")).collect();
    format!("({numbers}[])")
}
