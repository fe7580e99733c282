//! What a side is asked: a check that is cut off after a file by an empty text, so that the time of each reader can be told from outside.

use crate::files::{profiles_size, timetable_size, Files, Rows, Spelling, CONSTRAINTS, H, ROWS, SPELLINGS};
use std::io::{BufRead, Write};
use std::time::Duration;
use wagontulip::{Answer, Checker, Edition, Rooms, Stated, Table};
use yardstick::{clock, CONFIGURATION, LEG, PROFILE};

/// How far a check goes.
#[derive(Clone, Copy, Debug, PartialEq, Eq)]
pub enum Stage {
    /// H is 0: nothing is read; a refusal's filling alone.
    Nothing,
    /// The draft alone, and profiles without a draft's rows.
    Draft,
    Profiles,
    /// All but the solution, and all.
    NoSolution,
    Solution,
}

pub const STAGES: [Stage; 5] = [Stage::Nothing, Stage::Draft, Stage::Profiles, Stage::NoSolution, Stage::Solution];

/// One check.
#[derive(Clone, Copy, Debug, PartialEq, Eq)]
pub struct Job {
    pub rows: Rows,
    pub spelling: Spelling,
    pub stage: Stage,
}

/// All of them, in the order of their numbers.
pub fn jobs() -> Vec<Job> {
    let mut jobs = Vec::new();
    for (rows, _) in ROWS {
        for spelling in SPELLINGS {
            jobs.extend(STAGES.map(|stage| Job { rows, spelling, stage }));
        }
    }
    jobs
}

impl Stage {
    /// The file at which it stops, by document 01's number; none where it is accepted.
    fn stops_at(self) -> Option<u8> {
        match self {
            Stage::Nothing => Some(0),
            Stage::Draft => Some(2),
            Stage::Profiles => Some(3),
            Stage::NoSolution => Some(4),
            Stage::Solution => None,
        }
    }

    /// What is stated, and the four texts.
    fn texts(self, files: &Files) -> (Stated, [&[u8]; 4]) {
        let horizon = if self == Stage::Nothing { 0 } else { H };
        let texts = match self {
            Stage::Nothing | Stage::Draft => [&files.draft[..], "", "", ""],
            Stage::Profiles => [&files.no_legs[..], &files.profiles[..], "", ""],
            Stage::NoSolution => [&files.draft[..], &files.named[..], CONSTRAINTS, ""],
            Stage::Solution => [&files.draft[..], &files.named[..], CONSTRAINTS, &files.solution[..]],
        };
        (Stated { horizon, edition: Edition::EXAMPLE }, texts.map(str::as_bytes))
    }
}

/// Answers each line of standard input, a job's number, by the nanoseconds that it took.
pub fn answer() -> Result<(), String> {
    let prepared: Result<Vec<(Checker, Files)>, String> = jobs().iter().step_by(STAGES.len()).map(prepared).collect();
    let mut prepared = prepared?;
    for line in std::io::stdin().lock().lines() {
        let number: usize = line.map_err(|error| error.to_string())?.parse().map_err(|_| String::from("no number of a job"))?;
        let job = *jobs().get(number).ok_or("no such job")?;
        let (checker, files) = &mut prepared[number / STAGES.len()];
        let took = timed(checker, job.stage, files)?;
        let mut out = std::io::stdout();
        writeln!(out, "{}", took.as_nanos()).and_then(|()| out.flush()).map_err(|error| error.to_string())?;
    }
    Ok(())
}

/// The files of a job, and just the room that they need, so that a refusal fills little.
fn prepared(job: &Job) -> Result<(Checker, Files), String> {
    let ((legs, listed), (profiles, sampled)) = (timetable_size(job.rows), profiles_size(job.rows));
    let [legs, configurations, profiles, samples] = [legs, legs * listed, profiles, profiles * sampled].map(|count| count as usize);
    let read = [(Table::Legs, legs * LEG), (Table::Configurations, configurations * CONFIGURATION), (Table::Choices, legs * CONFIGURATION)];
    let more = [(Table::Profiles, profiles * PROFILE), (Table::Samples, samples), (Table::Constraints, 0)];
    let none = [(Table::SecondChoices, 0), (Table::Curves, 0), (Table::Text, 0)];
    let mut rooms = Rooms::at_the_limits();
    for (table, room) in read.into_iter().chain(more).chain(none) {
        rooms[table] = room;
    }
    let checker = Checker::with_rooms(&rooms).map_err(|none| none.to_string())?;
    Ok((checker, Files::new(job.rows, job.spelling)))
}

fn timed(checker: &mut Checker, stage: Stage, files: &Files) -> Result<Duration, String> {
    let (stated, [timetable, profiles, constraints, solution]) = stage.texts(files);
    let files = wagontulip::Files { timetable, profiles, constraints };
    let start = clock::now();
    let ruling = checker.check(stated, &files, solution);
    let took = clock::now() - start;
    let stopped = match ruling.map_err(|unknown| unknown.to_string())?.answer {
        Answer::Accepted(()) => None,
        Answer::Refused(refusal) => Some(refusal.file.number()),
        Answer::Violated(violation) => return Err(format!("{stage:?}: {violation:?}")),
    };
    if stopped != stage.stops_at() {
        return Err(format!("{stage:?}: stopped at {stopped:?}"));
    }
    Ok(took)
}
