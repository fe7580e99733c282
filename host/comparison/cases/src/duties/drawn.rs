//! Seeded files of duties: made at random, damaged, spelled otherwise, drawn for a target; and each byte of a good one damaged in its turn.

use super::faults::filled;
use super::{case, example, Plan, Row, COLUMNS, COURSE, DUTY, END, END_TEXT, FROM, KIND, SEQ, START, START_TEXT, TO};
use crate::damage::texts;
use crate::draw::MOST_TRIES;
use crate::random::Random;
use crate::spelling::{exported, spelled, Spelling};
use crate::sweep;
use crate::target::{targets, Target, DUTIES};
use crate::Named;
use independent::{Call, Case, Entry};

/// One call in so many is of the sweep.
const SWEPT: usize = 3;
/// One in so many of the others is drawn to be accepted.
const ACCEPTED: usize = 6;
/// A prover has to compute what has so few bytes.
const TINY: usize = 420;

const TOO_MANY: Target = Target::Refused { number: 6, file: DUTIES };

/// How large a file may be.
#[derive(Clone, Copy, Debug, PartialEq, Eq)]
pub enum Scale {
    Tiny,
    Small,
}

/// The call of a number: of each three one is of the sweep.
pub fn draw(random: &mut Random, number: usize) -> Named {
    if number % SWEPT == 0 {
        return swept(random, number / SWEPT);
    }
    loop {
        let target = if random.one_in(ACCEPTED) { Target::Accepted } else { *random.pick(&targets(Entry::Duties)) };
        if let Some(case) = for_target(random, target, Scale::Small) {
            return Named { name: format!("duties, {target:?}"), call: Call::of(Entry::Duties, case) };
        }
    }
}

/// Each byte of the example, plain and as a spreadsheet exports it, once in a round.
fn swept(random: &mut Random, number: usize) -> Named {
    let plain = example();
    let quoted = exported(&plain.text());
    let first = plain.text().len();
    let place = number % (first + quoted.len());
    let (mut text, place, spelling) = if place < first { (plain.text(), place, "") } else { (quoted, place - first, ", exported,") };
    let how = sweep::damage(random, &mut text, place);
    let call = Call::of(Entry::Duties, case(text, plain.nodes, plain.balances));
    Named { name: format!("byte {place} of duties{spelling} {how}"), call }
}

/// A case that gives this answer; none where no try met it, and no tiny one with too many nodes.
pub fn for_target(random: &mut Random, target: Target, scale: Scale) -> Option<Case> {
    if (target, scale) == (TOO_MANY, Scale::Tiny) {
        return None;
    }
    (0..MOST_TRIES)
        .map(|_| damaged(random, target, scale))
        .find(|case| (scale == Scale::Small || case.texts[0].len() <= TINY) && Target::of(case.duties().answer) == target)
}

/// A sound file, damaged now and then.
fn damaged(random: &mut Random, target: Target, scale: Scale) -> Case {
    let mut plan = sound(random, scale);
    aimed(&mut plan, random, target);
    if random.one_in(3) {
        let damage = *random.pick(&DAMAGES);
        damage(&mut plan, random);
    }
    let mut case = plan.case();
    let spelling = *random.pick(&[Spelling::Plain, Spelling::Exported, Spelling::Mixed, Spelling::Mixed]);
    case.texts[0] = spelled(&case.texts[0], spelling, random);
    let is_of_form = matches!(target, Target::Refused { number: 3 | 4, .. });
    if is_of_form && !random.one_in(4) || random.one_in(12) {
        let damage = *random.pick(&TEXT_DAMAGES);
        damage(&mut case.texts[0], random);
    }
    case
}

/// Duties that keep every rule: each goes from node to node, and stays now and then.
fn sound(random: &mut Random, scale: Scale) -> Plan {
    let (duties, most) = if scale == Scale::Tiny { (random.between(0, 2), 2) } else { (random.between(0, 6), 5) };
    let names: Vec<String> = (0..random.between(1, 6)).map(|_| name(random, scale)).collect();
    let mut rows = Vec::new();
    for number in 0..duties {
        // No drawn name ends so.
        let duty = format!("{}{number}/", "D".repeat(random.below(3)));
        let mut at = random.pick(&names).clone();
        let mut time = if random.one_in(3) { random.below(860_000) as u32 } else { 86_400 * random.below(10) as u32 };
        for seq in 1..=random.between(1, most) as u32 {
            let row = event(random, &duty, seq, time, &at, &names);
            time = row.0[END].parse().unwrap_or(0);
            at = row.0[TO].clone();
            rows.push(row);
        }
    }
    let mut plan = Plan::of(rows);
    plan.nodes += random.below(3);
    plan.balances += random.below(3);
    plan
}

fn event(random: &mut Random, duty: &str, seq: u32, time: u32, at: &str, names: &[String]) -> Row {
    let times = (time, time + *random.pick(&[1, 59, 60, 420, 600]));
    match random.below(4) {
        0 => Row::staying(duty, seq, times, at, "CHANGE_END"),
        1 => Row::staying(duty, seq, times, at, "SPARE"),
        _ => Row::train(duty, seq, times, (at, random.pick(names).as_str())).with(COURSE, &name(random, Scale::Tiny)),
    }
}

/// Names that begin alike, and names of any byte that may stand there.
fn name(random: &mut Random, scale: Scale) -> String {
    let length = if scale == Scale::Tiny { random.between(1, 4) } else { *random.pick(&[1, 1, 2, 2, 3, 7, 31, 32]) };
    if random.one_in(2) {
        return format!("{}{}", "N".repeat(length - 1), random.pick(&["a", "b", "A", "."]));
    }
    let bytes: Vec<char> = (33u8..=126).filter(|byte| !matches!(byte, b'"' | b',')).map(char::from).collect();
    (0..length).map(|_| *random.pick(&bytes)).collect()
}

/// What may give the target, in some row.
fn aimed(plan: &mut Plan, random: &mut Random, target: Target) {
    match target {
        Target::Refused { number: 16, .. } => room_smaller(plan, random),
        TOO_MANY => too_many_nodes(plan, random),
        _ if plan.rows.is_empty() => {}
        Target::Refused { number, .. } => refused_by(plan, random, number),
        Target::Broken { rule } => breaking(plan, random, rule),
        Target::Accepted | Target::Violated { .. } => {}
    }
}

fn refused_by(plan: &mut Plan, random: &mut Random, number: u32) {
    let place = random.below(plan.rows.len());
    match number {
        4 => form_spoiled(plan, random),
        5 => plan.rows[place].0[*random.pick(&[SEQ, START, END])] = large(random),
        10 => {
            plan.rows[place].0[KIND] = random.pick(&["RESERVE", "", "train", "TRAIN ", "SPARE_", "\u{1}"]).to_string();
            plan.rows[place].0[COURSE].clear();
        }
        _ => {}
    }
}

fn breaking(plan: &mut Plan, random: &mut Random, rule: u32) {
    let place = random.below(plan.rows.len());
    match rule {
        1 => times_exchanged(plan, random),
        2 => {
            plan.rows[place].0[KIND] = random.pick(&["SPARE", "CHANGE_END"]).to_string();
            plan.rows[place].0[COURSE].clear();
        }
        3 => rows_exchanged(plan, random),
        4 => plan.rows[place].0[SEQ] = random.between(0, 6).to_string(),
        5 => row_dropped(plan, random),
        _ => text_changed(plan, random),
    }
}

type Damage = fn(&mut Plan, &mut Random);

const DAMAGES: [Damage; 10] = [
    form_spoiled,
    times_exchanged,
    rows_exchanged,
    row_dropped,
    row_repeated,
    text_changed,
    room_smaller,
    time_moved,
    node_changed,
    field_exchanged,
];

const TEXT_DAMAGES: [fn(&mut Vec<u8>, &mut Random); 11] = [
    texts::without_a_byte,
    texts::with_a_byte,
    |text, random| texts::with_another_byte(text, random),
    |text, random| texts::with_two_bytes_swapped(text, random),
    texts::cut_off,
    texts::with_a_line_twice,
    texts::with_another_line_end,
    texts::with_another_header,
    texts::with_a_mark_damaged,
    texts::with_a_byte_within_quotes,
    texts::with_other_digits,
];

fn some_row<'a>(plan: &'a mut Plan, random: &mut Random) -> Option<&'a mut Row> {
    let place = random.below(plan.rows.len());
    plan.rows.get_mut(place)
}

fn large(random: &mut Random) -> String {
    random.pick(&["864000", "4294967296", "4294967297", "18446744073709551617", "9999999999999999999999"]).to_string()
}

fn form_spoiled(plan: &mut Plan, random: &mut Random) {
    if let Some(row) = some_row(plan, random) {
        let column = *random.pick(&[DUTY, FROM, TO, COURSE, SEQ, START, END]);
        row.0[column] = random.pick(&["", " ", "a b", "01", "-1", "a\u{7f}", "nnnnnnnnnnnnnnnnnnnnnnnnnnnnnnnnn"]).to_string();
    }
}

fn times_exchanged(plan: &mut Plan, random: &mut Random) {
    if let Some(row) = some_row(plan, random) {
        if random.one_in(2) {
            (row.0[END], row.0[END_TEXT]) = (row.0[START].clone(), row.0[START_TEXT].clone());
        } else {
            row.0.swap(START, END);
            row.0.swap(START_TEXT, END_TEXT);
        }
    }
}

fn rows_exchanged(plan: &mut Plan, random: &mut Random) {
    let (first, second) = (random.below(plan.rows.len()), random.below(plan.rows.len()));
    if first < plan.rows.len() {
        plan.rows.swap(first, second);
    }
}

fn row_dropped(plan: &mut Plan, random: &mut Random) {
    let place = random.below(plan.rows.len());
    if place >= plan.rows.len() {
        return;
    }
    let dropped = plan.rows.remove(place);
    for row in plan.rows[place..].iter_mut().filter(|row| row.0[DUTY] == dropped.0[DUTY]) {
        row.0[SEQ] = row.0[SEQ].parse().map_or(0, |seq: u32| seq.saturating_sub(1)).to_string();
    }
}

fn row_repeated(plan: &mut Plan, random: &mut Random) {
    if let Some(row) = some_row(plan, random).cloned() {
        plan.rows.insert(random.below(plan.rows.len() + 1), row);
    }
}

fn text_changed(plan: &mut Plan, random: &mut Random) {
    if let Some(row) = some_row(plan, random) {
        let text = &mut row.0[*random.pick(&[START_TEXT, END_TEXT])];
        *text = match random.below(6) {
            0 => format!("0d {text}"),
            1 => text.split("d ").last().unwrap_or_default().to_string(),
            2 => text.replacen(':', ".", 1),
            3 => text.replace("00", "60"),
            4 => text[..text.len().saturating_sub(1)].to_string(),
            _ => random.pick(&["", "24:00:00", "1d 24:00:00", "10d 00:00:00", "1d 00:22:00"]).to_string(),
        };
    }
}

fn time_moved(plan: &mut Plan, random: &mut Random) {
    if let Some(row) = some_row(plan, random) {
        let (number, text) = *random.pick(&[(START, START_TEXT), (END, END_TEXT)]);
        let seconds = row.0[number].parse().map_or(0, |seconds: u32| seconds + 1);
        row.0[number] = seconds.to_string();
        row.0[text] = super::time_text(seconds);
    }
}

fn node_changed(plan: &mut Plan, random: &mut Random) {
    if let Some(row) = some_row(plan, random) {
        row.0[*random.pick(&[FROM, TO])] = name(random, Scale::Tiny);
    }
}

fn field_exchanged(plan: &mut Plan, random: &mut Random) {
    if let Some(row) = some_row(plan, random) {
        row.0.swap(random.below(COLUMNS), random.below(COLUMNS));
    }
}

fn room_smaller(plan: &mut Plan, random: &mut Random) {
    let room = if random.one_in(2) { &mut plan.nodes } else { &mut plan.balances };
    *room = if random.one_in(8) { 0 } else { room.saturating_sub(random.between(1, 4)) };
}

/// As many nodes as there may be, before the rows or behind them.
fn too_many_nodes(plan: &mut Plan, random: &mut Random) {
    let full = filled(*random.pick(&[1_022, 1_024, 1_024, 1_026]));
    plan.rows = if random.one_in(2) { [full, plan.rows.clone()].concat() } else { [plan.rows.clone(), full].concat() };
    let needed = Plan::of(plan.rows.clone());
    (plan.nodes, plan.balances) = (needed.nodes + random.below(3), needed.balances);
}

#[cfg(test)]
mod tests {
    use super::*;
    use std::collections::BTreeSet;

    #[test]
    fn every_target_is_met() {
        let mut random = Random::seeded(4);
        for target in targets(Entry::Duties) {
            assert!(for_target(&mut random, target, Scale::Small).is_some(), "{target:?}");
            assert_eq!(for_target(&mut random, target, Scale::Tiny).is_some(), target != TOO_MANY, "{target:?}");
        }
    }

    #[test]
    fn a_round_of_the_sweep_damages_each_byte() {
        let bytes = example().text().len() + exported(&example().text()).len();
        let mut random = Random::seeded(5);
        let places = |named: Named| named.name.split(' ').take(5).collect::<Vec<_>>().join(" ");
        let swept: BTreeSet<String> = (0..bytes).map(|number| places(draw(&mut random, number * SWEPT))).collect();
        assert!(swept.len() >= bytes, "{} of {bytes}", swept.len());
    }

    /// What is sound is accepted, however large it is.
    #[test]
    fn sound_files_are_accepted() {
        let mut random = Random::seeded(6);
        for _ in 0..500 {
            for scale in [Scale::Tiny, Scale::Small] {
                let plan = sound(&mut random, scale);
                assert_eq!(plan.case().duties().answer, independent::Answer::Accepted, "{plan:?}");
            }
        }
    }
}
