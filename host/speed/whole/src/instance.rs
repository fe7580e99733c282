//! What is measured: an instance as texts, whole or cut off after a file, so that the time of each reader can be told from outside.

use instances::{indented, Choices, Ids, Plan, Shape, Style};
use yardstick::whole::Texts;

/// Of the solution.
const SEED: u64 = 1;

pub struct Instance {
    pub h: u32,
    pub legs: usize,
    pub timetable: Vec<u8>,
    pub profiles: Vec<u8>,
    pub constraints: Vec<u8>,
    pub solution: Vec<u8>,
}

/// The largest underground instance made smaller in proportion; itself where the legs are as many.
pub fn underground(legs: usize, ids: Ids) -> Plan {
    let largest = Shape::largest_underground();
    let shape = if legs == largest.legs { largest } else { Shape::of(Style::Underground, legs) };
    Plan::new(shape.with_ids(ids))
}

impl Instance {
    pub fn of(plan: &Plan) -> Instance {
        Instance {
            h: plan.horizon(),
            legs: plan.legs.len(),
            timetable: plan.timetable().into_bytes(),
            profiles: plan.profiles_text().into_bytes(),
            constraints: plan.constraints().into_bytes(),
            solution: plan.solution(&plan.choose(Choices::Faster(SEED))).into_bytes(),
        }
    }

    /// With a solution whose lists are the choice alone.
    pub fn of_choices_alone(plan: &Plan) -> Instance {
        let solution = plan.solution_of_choices(&plan.choose(Choices::Faster(SEED))).into_bytes();
        Instance { solution, ..Instance::of(plan) }
    }

    /// With each member of the constraints on a line of its own.
    pub fn of_indented_constraints(plan: &Plan) -> Instance {
        Instance { constraints: indented(&plan.constraints()).into_bytes(), ..Instance::of(plan) }
    }

    pub fn texts(&self) -> Texts<'_> {
        Texts { timetable: &self.timetable, profiles: &self.profiles, constraints: &self.constraints, solution: &self.solution }
    }

    pub fn bytes(&self) -> usize {
        self.timetable.len() + self.profiles.len() + self.constraints.len() + self.solution.len()
    }
}

/// How far a reading goes before it stops at an empty text.
#[derive(Clone, Copy, Debug, PartialEq, Eq)]
pub enum Upto {
    /// H is 0: nothing is read; a refusal's filling alone.
    Nothing,
    Timetable,
    Profiles,
    Constraints,
}

impl Upto {
    pub fn texts<'a>(self, instance: &'a Instance) -> (u32, Texts<'a>) {
        let whole = instance.texts();
        let h = if self == Upto::Nothing { 0 } else { instance.h };
        let texts = match self {
            Upto::Nothing => whole,
            Upto::Timetable => Texts { profiles: b"", ..whole },
            Upto::Profiles => Texts { constraints: b"", ..whole },
            Upto::Constraints => Texts { solution: b"", ..whole },
        };
        (h, texts)
    }

    /// The file at which each side must stop; nobody reads anything for H 0.
    pub fn stops_at(self) -> Option<u32> {
        match self {
            Upto::Nothing => None,
            Upto::Timetable => Some(2),
            Upto::Profiles => Some(3),
            Upto::Constraints => Some(4),
        }
    }
}
