//! The programs that are measured, behind one face.

use wagontulip::Edition;
use yardstick::whole::Texts;

/// What a check ends in.
#[derive(Clone, Copy, Debug, PartialEq, Eq)]
pub enum Outcome {
    Accepted,
    Violated {
        kind: u32,
        position: usize,
        inequality: u32,
        shortfall: i64,
    },
    /// At this file, by document 01's number.
    Stopped(u32),
}

/// Before, drawn, lost, fluctuation, peak before, peak drawn.
pub type Figures = [i64; 6];

pub trait Side {
    fn name(&self) -> &'static str;
    fn check(&mut self, h: u32, texts: &Texts) -> Outcome;
    /// The figures are all 0 short of acceptance.
    fn energy(&mut self, h: u32, texts: &Texts) -> (Outcome, Figures);
}

/// The yardstick first: what the others are compared with.
pub const NAMES: &[&str] = &["yardstick", "proved", "independent"];

pub fn one(name: &str) -> Option<Box<dyn Side>> {
    match name {
        "yardstick" => Some(Box::new(Yardstick::new())),
        "proved" => Some(Box::new(proved::Proved::new())),
        "independent" => Some(Box::new(Independent)),
        _ => None,
    }
}

pub fn all() -> Vec<Box<dyn Side>> {
    NAMES.iter().filter_map(|name| one(name)).collect()
}

/// Numbers of each table at document 01's limits, the curves last.
pub const ROOMS: [usize; 8] = [262_144, 3_145_728, 49_152, 1_048_576, 393_216, 8_192, 98_304, 1_411_200];

struct Yardstick(yardstick::whole::Tables);

impl Yardstick {
    fn new() -> Yardstick {
        Yardstick(yardstick::whole::Tables::new(ROOMS))
    }
}

impl Side for Yardstick {
    fn name(&self) -> &'static str {
        "yardstick"
    }

    fn check(&mut self, h: u32, texts: &Texts) -> Outcome {
        match self.0.check(h, texts) {
            Ok(None) => Outcome::Accepted,
            Ok(Some(v)) => {
                Outcome::Violated { kind: v.kind, position: v.position, inequality: v.inequality, shortfall: v.shortfall.into() }
            }
            Err(stopped) => Outcome::Stopped(stopped.0.into()),
        }
    }

    fn energy(&mut self, h: u32, texts: &Texts) -> (Outcome, Figures) {
        match self.0.energy(h, texts) {
            Ok(Some(f)) => (Outcome::Accepted, [f.before, f.drawn, f.lost, f.fluctuation, f.peak_before, f.peak_drawn]),
            _ => (self.check(h, texts), [0; 6]),
        }
    }
}

/// Document 02's number of the file of duties.
const DUTIES: u32 = 6;

struct Independent;

impl From<independent::Answer> for Outcome {
    fn from(answer: independent::Answer) -> Outcome {
        match answer {
            independent::Answer::Accepted => Outcome::Accepted,
            independent::Answer::Violated { kind, position, inequality, shortfall, .. } => {
                Outcome::Violated { kind, position, inequality, shortfall }
            }
            independent::Answer::Refused { file, .. } => Outcome::Stopped(file),
            // Duties alone are answered so, and no side here is asked about them.
            independent::Answer::Broken { .. } => Outcome::Stopped(DUTIES),
        }
    }
}

/// The maker's edition, and the yardstick's.
fn stated(horizon: u32) -> independent::Stated {
    independent::Stated { horizon, edition: Edition::EXAMPLE }
}

fn ample() -> independent::Rooms {
    independent::Rooms::all(67_108_864)
}

impl Side for Independent {
    fn name(&self) -> &'static str {
        "independent"
    }

    fn check(&mut self, h: u32, texts: &Texts) -> Outcome {
        independent::check(stated(h), texts.timetable, texts.profiles, texts.constraints, texts.solution, &ample()).answer.into()
    }

    fn energy(&mut self, h: u32, texts: &Texts) -> (Outcome, Figures) {
        let report = independent::energy(stated(h), texts.timetable, texts.profiles, texts.constraints, texts.solution, &ample());
        let f = report.figures;
        (report.answer.into(), [f.before, f.drawn, f.lost, f.fluctuation, f.peak_before, f.peak_drawn])
    }
}

mod proved {
    use super::{Figures, Outcome, Side};
    use wagontulip::{Answer, Checker, Edition, Files, Stated};
    use yardstick::whole::Texts;

    pub struct Proved(Checker);

    impl Proved {
        pub fn new() -> Proved {
            Proved(Checker::new().expect("memory for the tables"))
        }
    }

    fn outcome<T>(answer: &Answer<T>) -> Outcome {
        match answer {
            Answer::Accepted(_) => Outcome::Accepted,
            Answer::Violated(v) => Outcome::Violated {
                kind: v.kind.number().into(),
                position: v.position as usize,
                inequality: v.inequality.into(),
                shortfall: v.shortfall.into(),
            },
            Answer::Refused(refusal) => Outcome::Stopped(refusal.file.number().into()),
        }
    }

    fn files<'a>(texts: &Texts<'a>) -> Files<'a> {
        Files { timetable: texts.timetable, profiles: texts.profiles, constraints: texts.constraints }
    }

    /// As the independent program is asked.
    fn stated(horizon: u32) -> Stated {
        Stated { horizon, edition: Edition::EXAMPLE }
    }

    impl Side for Proved {
        fn name(&self) -> &'static str {
            "proved"
        }

        fn check(&mut self, h: u32, texts: &Texts) -> Outcome {
            outcome(&self.0.check(stated(h), &files(texts), texts.solution).expect("an answer").answer)
        }

        fn energy(&mut self, h: u32, texts: &Texts) -> (Outcome, Figures) {
            let answer = self.0.energy(stated(h), &files(texts), texts.solution).expect("an answer").answer;
            let said = outcome(&answer);
            match answer {
                Answer::Accepted(energies) => {
                    let f = energies.figures;
                    let kj = |kj: u64| kj as i64;
                    (said, [kj(f.before_kj), kj(f.drawn_kj), kj(f.lost_kj), f.fluctuation_kw, kj(f.peak_before_kj), kj(f.peak_drawn_kj)])
                }
                _ => (said, [0; 6]),
            }
        }
    }
}
