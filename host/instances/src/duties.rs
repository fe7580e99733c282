//! Files of rolling stock duties (document 02, E13), in the layout of document 004's Table 8. Every one keeps the six rules; a variant of it breaks one of them in
//! a row that is known.

use crate::dice::Dice;
use std::fmt::Write;

const HEADER: &str =
    "DUTY_ID,SEQ,START_TIME_SECONDS,START_TIME_HHMMSS,END_TIME_SECONDS,END_TIME_HHMMSS,START_NODE,END_NODE,EVENT_TYPE,TRAIN_COURSE_ID\n";

/// Document 02's limits.
const MOST_ROWS: usize = 8_192;
const MOST_NODES: usize = 1_024;
const LONGEST_NAME: usize = 32;
const LAST_SECOND: u32 = 863_999;

const DAY: u32 = 86_400;

/// How names of duties and nodes are told apart.
#[derive(Clone, Copy, Debug, PartialEq, Eq)]
pub enum Names {
    /// Short ones, as document 004 has them.
    Short,
    /// Of 32 bytes each: they begin alike and end in their number.
    Alike,
    /// Of 32 bytes each: they begin and end alike, and differ in the two bytes before the last.
    Inside,
}

impl Names {
    fn name(self, letter: char, number: usize) -> String {
        match self {
            Names::Short if letter == 'D' => format!("RSDuty_{number}"),
            Names::Short => format!("NODE{number}X"),
            Names::Alike => format!("{letter}{number:0width$}", width = LONGEST_NAME - 1),
            Names::Inside => {
                // All bytes that may stand in a name: enough of them, two by two, for every duty.
                let bytes: Vec<char> = ('!'..='~').filter(|byte| !matches!(byte, '"' | ',')).collect();
                let (first, second) = (bytes[number / bytes.len()], bytes[number % bytes.len()]);
                format!("{letter:-<width$}{first}{second}.", width = LONGEST_NAME - 3)
            }
        }
    }
}

/// How much of everything.
#[derive(Clone, Copy, Debug, PartialEq, Eq)]
pub struct DutyShape {
    pub duties: usize,
    pub rows_a_duty: usize,
    pub nodes: usize,
    pub names: Names,
    /// Whether a row's nodes are the last of all as soon as each has stood in a row, so that a search for them goes through all others.
    pub at_the_end: bool,
    pub seed: u64,
}

impl DutyShape {
    /// Document 004's 76 train sets. It does not say how many events a day has: 40 of them here, where its one duty of an evening has 13.
    pub fn real() -> DutyShape {
        DutyShape { duties: 76, rows_a_duty: 40, nodes: 60, names: Names::Short, at_the_end: false, seed: 1 }
    }

    /// As many duties and nodes as there may be, with names of one length that begin alike.
    pub fn at_the_limits() -> DutyShape {
        DutyShape { duties: MOST_ROWS, rows_a_duty: 1, nodes: MOST_NODES, names: Names::Alike, at_the_end: false, seed: 1 }
    }

    /// The worst legal file, as far as it was found: lengths and last bytes tell no two names apart.
    pub fn worst() -> DutyShape {
        DutyShape { names: Names::Inside, at_the_end: true, ..DutyShape::at_the_limits() }
    }

    /// Of duties and nodes so many times less.
    pub fn smaller(self, times: usize) -> DutyShape {
        DutyShape { duties: (self.duties / times).max(1), nodes: (self.nodes / times).max(2), ..self }
    }

    pub fn seeded(self, seed: u64) -> DutyShape {
        DutyShape { seed, ..self }
    }
}

/// An event, before it is written.
#[derive(Clone, Debug, PartialEq, Eq)]
struct Event {
    duty: usize,
    seq: usize,
    start: u32,
    end: u32,
    from: usize,
    to: usize,
    kind: &'static str,
    /// The text of its start, where that is not its own.
    start_text: Option<&'static str>,
}

/// A file of duties.
#[derive(Clone, Debug)]
pub struct DutyPlan {
    names: Names,
    events: Vec<Event>,
}

impl DutyPlan {
    pub fn new(shape: DutyShape) -> DutyPlan {
        let mut dice = Dice::new(shape.seed);
        let mut plan = DutyPlan { names: shape.names, events: Vec::new() };
        for duty in 0..shape.duties {
            plan.add_duty(duty, shape, &mut dice);
        }
        plan
    }

    /// A duty as Table 8's: it moves, then its ends are changed, now and then it is spare.
    fn add_duty(&mut self, duty: usize, shape: DutyShape, dice: &mut Dice) {
        let mut at = node(2 * duty, shape);
        let mut time = dice.between(4 * 3_600, 8 * 3_600);
        for row in 0..shape.rows_a_duty {
            let moves = row % 2 == 0;
            let kind = if moves { "TRAIN" } else { ["CHANGE_END", "SPARE"][dice.below(2)] };
            let to = match (moves, row) {
                (false, _) => at,
                (true, 0) => node(2 * duty + 1, shape),
                (true, _) => dice.below(shape.nodes),
            };
            let end = time + if moves { dice.between(10, 40) } else { dice.between(1, 7) } * 60;
            self.events.push(Event { duty, seq: row + 1, start: time, end, from: at, to, kind, start_text: None });
            (at, time) = (to, end);
        }
    }

    pub fn rows(&self) -> usize {
        self.events.len()
    }

    pub fn text(&self) -> String {
        let mut text = String::from(HEADER);
        for event in &self.events {
            let Event { seq, start, end, kind, .. } = event;
            let duty = self.names.name('D', event.duty);
            let [from, to] = [event.from, event.to].map(|node| self.names.name('N', node));
            let start_text = event.start_text.map_or_else(|| time_text(*start), String::from);
            let course = if *kind == "TRAIN" { format!("{}U{seq}RV#1.A1", event.duty % 10) } else { String::new() };
            // Writing to a string cannot fail.
            let _ = writeln!(text, "{duty},{seq},{start},{start_text},{end},{},{from},{to},{kind},{course}", time_text(*end));
        }
        text
    }

    /// The file with one rule broken, and by which row; none where no row of it can break the rule alone.
    pub fn broken(&self, rule: u32) -> Option<(DutyPlan, usize)> {
        let mut plan = self.clone();
        let row = self.breaking(rule)?;
        let first = self.events[0].duty;
        let event = &mut plan.events[row];
        match rule {
            1 => event.end = event.start,
            2 => event.kind = "SPARE",
            3 => event.duty = first,
            4 => event.seq += 1,
            5 => event.start += 1,
            6 => event.start_text = Some("24:00:00"),
            _ => return None,
        }
        Some((plan, row))
    }

    /// The last row that can break the rule, and no lower one.
    fn breaking(&self, rule: u32) -> Option<usize> {
        let last_duty = self.events.last()?.duty;
        self.events.iter().rposition(|event| match rule {
            2 => event.from != event.to,
            3 => event.seq == 1 && event.duty == last_duty && last_duty > 1,
            5 => event.seq > 1,
            _ => true,
        })
    }
}

/// The nodes by turns; or, where that is asked for, the last two as soon as each has had its turn.
fn node(number: usize, shape: DutyShape) -> usize {
    if shape.at_the_end && number >= shape.nodes {
        return shape.nodes - 2 + number % 2;
    }
    number % shape.nodes
}

fn time_text(seconds: u32) -> String {
    debug_assert!(seconds <= LAST_SECOND);
    let clock = format!("{:02}:{:02}:{:02}", seconds % DAY / 3_600, seconds % 3_600 / 60, seconds % 60);
    match seconds / DAY {
        0 => clock,
        day => format!("{day}d {clock}"),
    }
}
